/* The page: takes files, has them audited, and shows the answers. */

import { isSameMode, USUAL_MODE } from "../auditor/statuses.js";
import { toldName } from "../files/names.js";
import {
  choicesAmong, isCertificate, isCertificateKind, isSamePath, pathOf, pieceOf, tasksOf, withPieces,
} from "../files/pieces.js";
import { grouped } from "../words/formats.js";
import { fill } from "../words/words.js";
import { LANGUAGES, preferred, wordsOf } from "../words/languages.js";
import { showAnswer } from "./answer.js";
import { answered, newAudit, orderOf, tooLong } from "./audits.js";
import { Compare } from "./compare.js";
import { ElectionView } from "./election.js";
import { element, elementOf, input, Items, refill, saveAs } from "./elements.js";
import { makeEngine, Runners } from "./engine.js";
import { auditItem, isAlone, pieceItem } from "./lists.js";
import { notesOf } from "./notes.js";
import { GroupsPage } from "./groups_page.js";
import { Saving } from "./saving.js";
import { drawShort, isShortAudit } from "./short.js";
import { SheetsView } from "./sheets.js";
import { sumListOf } from "./sums.js";
import { saidOf } from "./told.js";
import { drawTools, listed, tableOf } from "./tools.js";
import { totalsOf } from "./totals.js";
import { hideWork, showStep, showWork, speak } from "./work.js";
import type { Command } from "../auditor/commands.js";
import type { Kind } from "../auditor/kinds.js";
import type { Mode } from "../auditor/statuses.js";
import type { Choice, Found, Piece, Task } from "../files/pieces.js";
import type { Language } from "../words/languages.js";
import type { Words } from "../words/words.js";
import type { Answer, Ending, Order } from "../worker/orders.js";
import type { Audit, Remaining } from "./audits.js";
import type { NoAnswer, Runner } from "./engine.js";
import type { ShortAudit } from "./short.js";
import type { Checksums } from "./sums.js";

/** Of more files the list is folded. */
const MOST_IN_SIGHT = 6;
/** Of more audits not each change is drawn at once, which would take longer than the audits. */
const MOST_AT_ONCE = 30, PAUSE_MILLISECONDS = 250;

/** A certificate beside which an election and an outcome are read. */
const NO_PAYMENTS = "pb-prices,1\ndenominator,1\nvoter_budget,0\nvoter,project,payment\n";

/** On a narrow screen the files and the options are folded, since the answer comes first. */
const PHONE = "(max-width: 30rem)";
export const isPhone = (): boolean => matchMedia(PHONE).matches;

export type Told = Ending | NoAnswer | undefined;

/**
 * How an order is done, where not as usual: who is told an early answer, how prices are asked, names for a page, and whether
 * it is that of an audit, of no use without this.
 */
export interface How extends Pick<Order, "savedAs"> {
  readonly note?: (answer: Answer) => void;
  readonly mode?: Mode;
  readonly isAudit?: boolean;
}

/** What somebody asked for, and what is done where it is stopped before its turn. */
interface Asking {
  readonly does: () => Promise<void>;
  readonly dropped: () => void;
}

/** What the worker is asked about now. */
interface Working {
  readonly task: Task;
  readonly isAudit: boolean;
}

export class Page {
  pieces: readonly Piece[] = [];
  passedOver: readonly Piece[] = [];
  audits: readonly Audit[] = [];
  shown: Audit | null = null;
  /** The election alone whose answer is shown. It stays when certificates of it are made. */
  short: ShortAudit | null = null;
  /** Names of which several files came: the last one is used. */
  twice: readonly string[] = [];
  language: Language = preferred(navigator.languages);
  words: Words = wordsOf(this.language);
  readonly engine = makeEngine();
  readonly runners = new Runners(this.engine);
  /** The checksums that somebody gave. */
  checksums: Checksums | null = null;
  readonly election = new ElectionView(this);
  readonly sheets = new SheetsView(this);
  private readonly groupsPage = new GroupsPage(this);
  readonly compare = new Compare(this);
  readonly saving = new Saving(this);
  private choices: ReadonlyMap<Piece, Choice> = new Map();
  private taking = Promise.resolve();
  /** What does the audits, while there are any. */
  private runner: Runner | undefined;
  /** What the worker is asked about now, and how that is told. */
  private working: Working | null = null;
  private doing = "";
  /** What somebody asked for that isn't done yet. */
  private asked: Asking[] = [];
  private isDrawnSoon = false;
  private readonly pieceItems = new Items<Piece>(piece => pieceItem(this, piece));
  private readonly auditItems = new Items<Audit>(audit => auditItem(this, audit));
  /** Whether files came since the last answers: then the page leads to these. */
  private isNew = false;
  private replaced: Piece | null = null;

  /** How prices are asked now. A browser may restore the boxes without a word, so they are read each time. */
  get mode(): Mode {
    const [stable, exhaustive, cover] = ["stable", "exhaustive", "cover"].map(id => input(id).checked);
    return { stable, exhaustive, cover };
  }

  /** What files are, as the auditor tells it. Where it doesn't run, nothing is told. */
  private async kindsOf(found: readonly Found[]): Promise<readonly Kind[]> {
    const told = await this.runners.run({ command: "kinds", list: found.map(({ file }) => file) });
    return told?.tells === "kinds" ? told.kinds : [];
  }

  /**
   * Takes files, after those that came before. Of several, those that are of no kind are passed over; a single one is
   * asked about. One's own files take the place of the example.
   */
  take(found: readonly Found[], isExample = false): void {
    this.taking = this.taking.then(async () => {
      if (isExample && this.pieces.some(piece => !piece.isExample)) return;
      if (found.length > 0) element("broken").hidden = true;
      const lists = await Promise.all(found.map(sumListOf)), list = lists.find(each => each !== undefined);
      if (list) this.checksums = { list, sums: this.checksums?.sums ?? new Map() };
      await this.takeFiles(found.filter((_, at) => lists[at] === undefined), isExample);
    });
  }

  private async takeFiles(found: readonly Found[], isExample: boolean): Promise<void> {
    const kinds = await this.kindsOf(found);
    const added = found.map((each, at): Piece => ({ ...pieceOf(each, kinds[at]), isExample }));
    const known = added.filter(piece => piece.kind !== "unknown" || found.length === 1);
    const kept = this.pieces.filter(piece => !!piece.isExample === isExample);
    const pieces = withPieces(kept, known), gone = [...kept, ...known].filter(piece => !pieces.includes(piece));
    this.passedOver = added.filter(piece => !known.includes(piece));
    this.twice = [...new Set(gone.map(pathOf))];
    this.set(pieces);
    await this.sum();
  }

  /** Has the checksums of files computed that were given, where there is a list of them. */
  private async sum(): Promise<void> {
    const { checksums } = this, files = [...this.pieces, ...this.passedOver].map(({ file }) => file);
    const list = files.filter(file => !checksums?.sums.has(file));
    if (!checksums || list.length === 0) return;
    const told = await this.runners.run({ command: "sums", list });
    const found = told?.tells === "sums" ? told.sums : [];
    const sums = new Map([...checksums.sums, ...list.map((file, at) => [file, found[at] ?? ""] as const)]);
    this.checksums = { ...checksums, sums };
    this.draw();
    this.tell();
  }

  /** How a certificate's prices are asked: as the boxes say, and those that this page made as they were looked for. */
  private modeOf({ certificate }: Task): Mode {
    const mode = certificate?.mode ?? this.mode;
    return certificate?.kind === "refutation" ? { ...USUAL_MODE, stable: mode.stable } : mode;
  }

  /**
   * Takes a certificate that this page made for an election, in the place of one that it made before. `mode` is what
   * prices were made for.
   */
  takeMade(file: File, election: Piece, outcome: Piece | null, mode?: Mode): void {
    this.taking = this.taking.then(async () => {
      const found = { file, folder: election.folder }, [kind] = await this.kindsOf([found]);
      if (!this.pieces.includes(election)) return;
      const own = { ...election.isExample ? { isExample: true } : {}, ...mode ? { mode } : {} };
      const piece: Piece = { ...pieceOf(found, kind), ...own };
      this.choices = new Map([...this.choices, [piece, { election, outcome }]]);
      this.set(withPieces(this.pieces, [piece]));
    });
  }

  /** Takes an election that was made of sheets, in their place. */
  takeFromSheets(file: File, sheets: readonly Piece[]): void {
    this.taking = this.taking.then(async () => {
      this.pieces = this.pieces.filter(piece => !sheets.includes(piece));
      await this.takeFiles([{ file, folder: sheets[0].folder }], false);
    });
  }

  /** Tells that what was dropped can't be read, which gives no files. */
  tellUnreadable(): Found[] {
    element("broken").textContent = this.words.unreadableDrop;
    element("broken").hidden = false;
    return [];
  }

  private set(pieces: readonly Piece[], replaced: ReadonlyMap<Piece, Piece> = new Map()): void {
    this.choices = choicesAmong(this.choices, pieces, replaced);
    this.pieces = pieces;
    this.isNew = true;
    const isShort = pieces.length <= MOST_IN_SIGHT && !isPhone() && pieces.some(isCertificate);
    const files = elementOf("files-open", HTMLDetailsElement), isUsed = files.contains(document.activeElement);
    files.open = isShort || (files.open && isUsed) || pieces.some(piece => piece.kind === "unknown");
    this.pair();
  }

  /** Finds what is to be audited, and keeps what is answered already. */
  private pair(): void {
    const isSame = (a: Task, b: Task): boolean =>
      a.election === b.election && a.certificate === b.certificate && a.outcome === b.outcome && a.asks === b.asks;
    this.audits = tasksOf(this.pieces, this.choices)
      .map(task => this.audits.find(audit => isSame(audit.task, task)) ?? newAudit(task));
    if (this.audits.every(audit => audit.task !== this.shown?.task)) this.shown = null;
    if (!this.isShortThere()) this.short = null;
    if (!this.isOfUse()) this.runner?.stop();
    // Work that begins draws by itself, but of many audits not at once.
    if (this.runner || this.audits.length > MOST_AT_ONCE) this.draw();
    this.work();
  }

  /** Whether what the worker does is an audit that is still one, or is about an election that is still there. */
  private isOfUse(): boolean {
    const { working, audits, pieces } = this;
    if (!working) return true;
    return working.isAudit ? audits.some(({ task }) => task === working.task)
      : pieces.some(piece => piece === working.task.election);
  }

  /** Whether the answer on an election alone still holds, and is the one that is wanted: of several it was chosen. */
  private isShortThere(): boolean {
    const { short, pieces, audits } = this, { election, outcome } = short?.task ?? { election: null, outcome: null };
    const isThere = (piece: Piece | null): boolean => !piece || pieces.includes(piece);
    const other = audits.find(({ task }) => !task.certificate && task.election === election && task !== short?.task);
    return !!election && isThere(election) && isThere(outcome) && !other;
  }

  setKind(piece: Piece, kind: Kind): void {
    this.set(this.pieces.map(each => each === piece ? { ...piece, kind } : each));
  }

  /** Whether there are elections among which somebody can choose. */
  hasElections(): boolean {
    return this.pieces.some(piece => piece.kind === "election");
  }

  /** Forgets all files, also those that are on their way. */
  clear(): void {
    this.taking = this.taking.then(() => {
      this.passedOver = [];
      this.checksums = null;
      this.set([]);
    });
  }

  remove(piece: Piece): void {
    const place = this.pieces.indexOf(piece);
    this.set(this.pieces.filter(each => each !== piece));
    const items = element("file-list").children, next = items[Math.min(place, items.length - 1)];
    (next?.querySelector<HTMLElement>("button:last-of-type") ?? element("choose")).focus();
  }

  replace(piece: Piece): void {
    this.replaced = piece;
    element("replace-input").click();
  }

  async replaceBy([found]: readonly Found[]): Promise<void> {
    const old = this.replaced;
    if (!found || !old) return;
    const [told] = await this.kindsOf([found]);
    const its = pieceOf({ ...found, folder: old.folder }, told);
    const piece = its.kind === "unknown" ? { ...its, kind: old.kind } : its;
    const all = this.pieces.map(each => each === old ? piece : each);
    const pieces = all.filter(each => each === piece || !isSamePath(each, piece));
    this.twice = all.filter(each => !pieces.includes(each)).map(pathOf);
    this.set(pieces, new Map([[old, piece]]));
    await this.sum();
  }

  choose(piece: Piece, choice: Choice): void {
    this.choices = new Map([...this.choices, [piece, { ...this.choices.get(piece), ...choice }]]);
    this.pair();
  }

  /** Asks prices anew that were asked otherwise than the boxes say, which is nothing to other certificates. */
  askAnew(): void {
    const isOther = ({ mode, task }: Audit): boolean => mode !== undefined && !isSameMode(mode, this.modeOf(task));
    if (!this.audits.some(isOther)) return this.election.draw();
    if (this.audits.some(audit => audit.task === this.working?.task && isOther(audit))) this.runner?.stop();
    if (this.shown && isOther(this.shown)) this.shown = null;
    this.audits = this.audits.map(audit => isOther(audit) ? newAudit(audit.task) : audit);
    this.draw();
    this.work();
  }

  /** Ends the audit that runs, and lets none begin that waits. */
  stop(): void {
    this.compare.stop();
    this.election.stopReading();
    for (const { dropped } of this.asked.splice(0)) dropped();
    this.audits = this.audits.map(audit => audit.state === "waiting" ? { ...audit, state: "stopped" } : audit);
    this.runner?.stop();
  }

  again(audit: Audit): void {
    if (this.shown === audit) this.shown = null;
    if (this.short === audit) this.short = null;
    this.put(audit, newAudit(audit.task));
    this.draw();
    this.work();
  }

  /** Checks again what is about an election, whose file was changed. */
  againFor(election: Piece): void {
    if (this.shown?.task.election === election) this.shown = null;
    if (this.short?.task.election === election) this.short = null;
    this.audits = this.audits.map(audit => audit.task.election === election ? newAudit(audit.task) : audit);
    this.draw();
    this.work();
  }

  /** Checks all again, by files as they are now. */
  againAll(): void {
    this.shown = this.short = null;
    if (this.working?.isAudit) this.runner?.stop();
    this.audits = this.audits.map(({ task }) => newAudit(task));
    this.draw();
    this.work();
  }

  saveList(): void {
    saveAs("audits.csv", "text/csv", `\ufeff${tableOf(this)}`);
  }

  /** Puts an audit in another's place, where that is still there. */
  private put(old: Audit, audit: Audit): Audit {
    this.audits = this.audits.map(each => each === old ? audit : each);
    if (this.shown === old) this.shown = audit;
    if (this.short === old) this.short = isShortAudit(audit) ? audit : null;
    return audit;
  }

  /**
   * What the auditor says of an election; where it accepts that, but not an outcome file with it, what it says of both.
   * Undefined if it was stopped.
   */
  async accepted(election: Piece, outcome: Piece | null): Promise<Told> {
    const told = await this.order({ election, outcome: null, certificate: null }, "read", election.file.name);
    if (told?.tells !== "answer" || !outcome) return told;
    const both = await this.withoutPayments(election, outcome);
    return both?.tells === "answer" ? told : both;
  }

  /** What the auditor says of groups for an outcome of an election, unless that isn't wanted any more when its turn comes. */
  onGroups(election: Piece, outcome: Piece, isEnded: () => boolean): Promise<Told> {
    return new Promise(resolve => this.inTurn(async () => {
      const task = { election, outcome, certificate: null };
      resolve(isEnded() ? undefined : await this.order(task, "groups", outcome.file.name));
    }, () => resolve(undefined)));
  }

  /** What the auditor says of prices by which nobody pays anything: first, whether the outcome alone fails. */
  withoutPayments(election: Piece, outcome: Piece | null): Promise<Told> {
    const certificate = pieceOf({ file: new File([NO_PAYMENTS], "no.prices.csv"), folder: "" });
    const { name } = (outcome ?? election).file;
    return this.order({ election, outcome, certificate }, "prices", name, { mode: USUAL_MODE });
  }

  /**
   * Has something done ahead of the audits that wait, once the one that runs is done. `dropped` is done instead where somebody
   * stops it before its turn.
   */
  inTurn(does: () => Promise<void>, dropped = (): void => {}): void {
    this.asked.push({ does, dropped });
    this.work();
  }

  /** Does what was asked for and what waits, one after the other. */
  private async work(): Promise<void> {
    if (this.runner) return;
    this.runner = this.runners.take();
    let hasWorked = false;
    for (;;) {
      const asked = this.asked.shift(), next = this.audits.find(audit => audit.state === "waiting");
      if (!asked && !next) break;
      if (asked) await asked.does();
      else if (next) await this.answer(next);
      hasWorked = hasWorked || !asked;
    }
    this.runners.give(this.runner);
    this.runner = undefined;
    hideWork();
    this.draw();
    if (hasWorked || this.isNew) this.tell();
    this.lead();
  }

  /** Leads to the answers where files came since the last ones. */
  private lead(): void {
    if (this.isNew && !this.election.isLooking && !element("audits").hidden) this.answers.scrollIntoView();
    this.isNew = false;
  }

  /** What comes first: the answer on the only election, or the list. */
  private get answers(): HTMLElement {
    return element(this.short && this.audits.every(({ task }) => !task.certificate) ? "on-groups" : "audits");
  }

  /** Does an audit that waits. The only one is shown at once. */
  private answer(audit: Audit): Promise<void> {
    const isOnly = this.audits.length === 1, kind = audit.task.certificate?.kind;
    const command = isOnly ? "page" : isCertificateKind(kind) ? kind : "groups";
    return this.do(audit, command, done => isOnly && this.reveal(done));
  }

  /**
   * Asks a command of an audit's files, and notes what is told: of one that is shown first the answer, then the rest. What
   * was told first `isDrawn` may draw.
   */
  private async do(audit: Audit, command: Command, isDrawn: (done: Audit) => boolean): Promise<void> {
    const { task } = audit, { certificate, election } = task, long = tooLong(task);
    const asked = certificate ? command : "groups";
    if (long) {
      this.note(audit, { ...audit, state: "done", problem: { why: "tooLong", file: long.file.name } });
      return this.drawSoon();
    }
    const isAsked = certificate?.kind === "prices" || certificate?.kind === "refutation";
    const mode = isAsked ? this.modeOf(task) : undefined;
    let now = this.put(audit, { ...audit, state: "running", mode });
    const note = (told: Told, remaining?: Remaining): void => {
      const isFirst = now.state === "running", next = answered(now, told, asked, audit);
      const done = this.note(now, remaining ? { ...next, remaining } : next);
      now = done ?? now;
      if (done && !(isFirst && isDrawn(done))) this.drawSoon();
    };
    this.drawSoon();
    const noteEarly = command === "page" ? (answer: Answer): void => note(answer, "awaited") : undefined;
    const told = await this.order(task, asked, (certificate ?? election)!.file.name, { note: noteEarly, isAudit: true });
    note(told);
    this.follow(task, told);
  }

  /** Takes a certificate for what the auditor took it for, where its file was changed since it was given. */
  private follow({ certificate }: Task, told: Told): void {
    const kind = told?.tells === "answer" || told?.tells === "refused" ? told.kind : "unknown";
    if (!certificate || kind === "unknown" || kind === certificate.kind) return;
    this.set(this.pieces.map(each => each === certificate ? { ...each, kind, isTold: true } : each));
  }

  /** Has the worker do a command, and shows how far it is. `note` is called with an answer after which the rest comes. */
  async order(task: Task, command: Command, name: string, how: How = {}): Promise<Told> {
    const { note, mode = this.modeOf(task), savedAs, isAudit = false } = how;
    this.doing = fill(this.words.checking, { file: toldName(name) });
    if (!this.isLong || element("work").hidden) this.drawWork();
    this.working = { task, isAudit };
    const next = this.audits.find(({ state }) => state === "waiting")?.task;
    const order = { ...orderOf(task, command, mode, this.language, next), isEarly: note !== undefined, savedAs };
    const told = await this.runner?.run(order, step =>
      step.tells === "answer" ? note?.(step) : this.isLong || showStep(this.words, step, toldName(name)));
    this.working = null;
    return told;
  }

  /** Has read out what came of the files: the answer, or the totals of several, and what is said of the files. */
  private tell(): void {
    const [only, ...others] = this.audits, notes = [...element("notes").children].map(note => note.textContent);
    const answers = others.length > 0 ? element("totals") : element("files-head");
    const said = only && others.length === 0 ? saidOf(this, only) : answers.textContent;
    speak([said, ...notes, this.sheets.spoken].filter(Boolean).join(" "));
  }

  /** Notes what became of an audit. */
  private note(old: Audit, audit: Audit): Audit | undefined {
    if (!this.audits.includes(old)) return undefined;
    return this.put(old, audit);
  }

  /** Leads to an audit's answer. */
  show(audit: Audit): void {
    this.isNew = false;
    this.open(audit, () => {
      const answer = element(isShortAudit(audit) ? "on-groups" : "answer");
      answer.scrollIntoView();
      answer.focus({ preventScroll: true });
    });
  }

  /** Opens an audit's answer, and asks for its page where only its line is there. */
  private open(audit: Audit, then: () => void): void {
    const openNow = (done: Audit): boolean => {
      const isDrawn = this.reveal(done);
      if (this.shown === done || this.short === done) then();
      return isDrawn;
    };
    if (audit.page || audit.refused || audit.problem || audit.short) {
      openNow(audit);
      return;
    }
    this.inTurn(async () => {
      if (this.audits.includes(audit)) await this.do(audit, "page", openNow);
    });
  }

  /** Shows the answer of an audit, if there is one. */
  private reveal(audit: Audit): boolean {
    if (isShortAudit(audit)) {
      this.short = audit;
      this.election.turnTo(audit.task);
      this.draw();
      this.lead();
      return true;
    }
    if (!audit.page && !audit.refused && !audit.problem) return false;
    this.shown = audit;
    this.draw();
    showAnswer(this.words, audit);
    return true;
  }

  /** Asks for the page about the groups of an election. */
  askGroups({ task }: ShortAudit, take: (told: Told) => void): void {
    this.inTurn(async () => take(await this.order(task, "groupsPage", task.election!.file.name)), () => take(undefined));
  }

  speakIn(code: string): void {
    this.language = LANGUAGES.find(each => each === code) ?? "en";
    this.words = wordsOf(this.language);
    setWords(this.words, this.language);
    const place = this.shown ? this.audits.indexOf(this.shown) : -1;
    // An answer is in the language in which it was asked for.
    if (this.audits.some(audit => audit.state === "running")) this.runner?.stop();
    this.audits = this.audits.map(audit => {
      if (audit.state === "running") return newAudit(audit.task);
      return audit.page ? { ...audit, page: undefined } : audit;
    });
    this.shown = null;
    this.draw();
    speak("");
    if (place >= 0) this.open(this.audits[place], () => this.tell());
    this.work();
  }

  /** Whether many audits are done, one after the other. */
  private get isLong(): boolean {
    return this.audits.length > MOST_AT_ONCE && this.audits.some(({ state }) => state === "waiting");
  }

  /** Shows what the worker does, and of many audits how many are done. */
  private drawWork(): void {
    const done = this.audits.filter(({ state }) => state === "done").length;
    showWork(this.doing, this.isLong ? done / this.audits.length : undefined);
  }

  /** Draws now, or soon where there are many audits. */
  private drawSoon(): void {
    if (this.audits.length <= MOST_AT_ONCE) return this.draw();
    if (this.isDrawnSoon) return;
    this.isDrawnSoon = true;
    setTimeout(() => {
      this.isDrawnSoon = false;
      this.draw();
    }, PAUSE_MILLISECONDS);
  }

  /** Draws the lists and shows what has something in it. */
  draw(): void {
    this.sheets.draw();
    const { words, pieces, audits } = this, notes = notesOf(this), shown = listed(audits);
    const isAsking = audits.some(({ task }) => task.asks === "election");
    refill(element("file-list"), this.pieceItems.of(pieces, [words, this.checksums]));
    const beside = [words, pieces, this.shown, this.short, isAsking, isAlone(this), this.election.known];
    refill(element("audit-list"), this.auditItems.of(shown, beside));
    drawTools(this, shown.length);
    element("notes").replaceChildren(...notes);
    document.body.classList.toggle("has-audits", audits.length > 0);
    element("files-head").textContent = `${words.files} (${grouped(pieces.length)})`;
    element("files").hidden = pieces.length === 0;
    element("options").hidden = !this.election.isOpen
      && !pieces.some(({ kind }) => kind === "prices" || kind === "refutation");
    element("example").hidden = pieces.some(piece => !piece.isExample);
    element("is-example").hidden = !pieces.some(piece => piece.isExample);
    element("audits").hidden = audits.length === 0 && notes.length === 0;
    element("answer").hidden = this.shown === null;
    element("totals").hidden = audits.length < 2;
    element("totals").textContent = totalsOf(words, audits);
    if (this.runner && this.isLong) this.drawWork();
    drawShort(this);
    this.groupsPage.draw();
    this.compare.draw();
    this.election.draw();
  }
}

/** Puts the page's words into its elements. */
export function setWords(words: Words, language: string): void {
  document.documentElement.lang = language;
  document.title = words.title;
  const texts = words as unknown as Readonly<Record<string, string>>;
  for (const each of document.querySelectorAll<HTMLElement>("[data-word]")) {
    each.textContent = texts[each.dataset.word ?? ""];
  }
  for (const each of document.querySelectorAll<HTMLElement>("[data-title]")) {
    each.title = texts[each.dataset.title ?? ""];
  }
}
