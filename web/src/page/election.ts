/* What the page shows of one election, and of which certificates are made: what the file says, its projects, and the
   searches. Nothing is shown of a file that the auditor doesn't accept, or of which it reads other numbers. */

import { isSameMode } from "../auditor/statuses.js";
import { shortened, toldName, visible } from "../files/names.js";
import { isCertificate, isSamePath, pathOf } from "../files/pieces.js";
import { grouped } from "../words/formats.js";
import { fill } from "../words/words.js";
import { isSameLook } from "./audits.js";
import { currencyOf, failingBy, failureIn, moneyIn } from "./desk.js";
import { element, elementOf, make, makeChoice } from "./elements.js";
import { Finder } from "./finder.js";
import { GroupPanel } from "./group.js";
import { Looking } from "./looking.js";
import { ProjectList, titleOf } from "./projects.js";
import { noteLine, problemSentence } from "./told.js";
import { hideWork, showWork } from "./work.js";
import type { Note, ReadElection } from "../auditor/elections.js";
import type { Mode } from "../auditor/statuses.js";
import type { Summary } from "../elections/election.js";
import type { Piece, Task } from "../files/pieces.js";
import type { Words } from "../words/words.js";
import type { FindTold } from "../worker/finds.js";
import type { Sums } from "../worker/orders.js";
import type { Desk } from "./desk.js";
import type { FindEnding } from "./finder.js";
import type { Page, Told } from "./page.js";

const LONGEST_TITLE = 300, LONGEST_COMMENT = 1000;

/** What is shown, once it is read. */
interface Shown {
  readonly desk: Desk;
  readonly notes: readonly Note[];
  readonly list: ProjectList;
  readonly group: GroupPanel;
  readonly looking: Looking;
}

/** A text of a file, without its line ends. */
const textOf = (text: string, most: number): string => shortened(visible(text.trim().replace(/\s+/g, " ")), most);

/** Whether the script that shows an election counts in it what the auditor counts. */
export function isAlike(summary: Summary, read: ReadElection, hasOutcomeFile: boolean): boolean {
  const { voters, projects, hasOutcome } = summary;
  if (read.voters !== voters || read.projects !== projects.length) return false;
  const funded = hasOutcome ? projects.filter(({ isFunded }) => isFunded).length : undefined;
  return hasOutcomeFile || read.funded === funded;
}

type SummaryTold = Extract<FindTold, { tells: "summary" }>;

/** Whether a file is one that was given again. */
const isAgain = (one: Piece | null, other: Piece | null): boolean => !!one && !!other && isSamePath(one, other);

export class ElectionView {
  private election: Piece | null = null;
  private outcome: Piece | null = null;
  /** The election that somebody chose, and the outcome; null is a choice as well. */
  private chosen: Piece | null | undefined;
  private chosenOutcome: Piece | null | undefined;
  /** Whether the election came without a certificate, and whether it is to be looked further as soon as it is read. */
  private isAlone = false;
  private isFurther = false;
  /** Whether it was to be read and wasn't: then it isn't read again by itself. */
  private isFolded = false;
  private finder: Finder | undefined;
  private shown: Shown | undefined;
  private language = "";
  private mode: Mode | undefined;
  /** What became of a search that didn't come to its end. */
  private remarked: ((words: Words) => string) | undefined;

  constructor(private readonly page: Page) {
    this.details.addEventListener("toggle", () => page.draw());
  }

  /** Whether somebody looks at the election itself. */
  get isOpen(): boolean {
    return this.details.open;
  }

  /** Whether a search is going on. */
  get isLooking(): boolean {
    return this.shown?.looking.isLooking ?? false;
  }

  /** What is known of the election that is looked at, once it is read. */
  get known(): Desk | undefined {
    return this.shown?.desk;
  }

  private deskOf(election: Piece | null): Desk | undefined {
    return this.known?.election === election ? this.known : undefined;
  }

  /** What a project is called in an election, the currency of its amounts, and its title, if it is read. */
  titleIn(election: Piece | null, project: number): string | undefined {
    const found = this.deskOf(election)?.summary.projects[project];
    return found && titleOf(found);
  }

  currencyIn(election: Piece | null): string {
    const desk = this.deskOf(election);
    return desk ? currencyOf(desk) : "";
  }

  headIn(election: Piece | null): string | undefined {
    return textOf(this.deskOf(election)?.summary.facts.get("description") ?? "", LONGEST_TITLE) || undefined;
  }

  private get details(): HTMLDetailsElement {
    return elementOf("election-open", HTMLDetailsElement);
  }

  /** Draws what is to be seen by the files that are there now. */
  draw(): void {
    const { pieces, language, mode } = this.page, elections = pieces.filter(({ kind }) => kind === "election");
    const election = this.electionAmong(elections), outcome = this.outcomeOf(election);
    const isOther = election !== this.election && !isAgain(election, this.election);
    if (isOther) this.isFurther = false;
    if (isOther && this.chosen === undefined) {
      this.details.open = false;
      this.isAlone = !pieces.some(isCertificate);
    }
    if (election !== this.election) this.remark(undefined);
    if (election !== this.election || outcome !== this.outcome) {
      this.close();
      this.isFolded = false;
    }
    if (election && !this.isChecked(election)) this.isFolded = false;
    if (elections.length === 0) this.remark(undefined);
    [this.election, this.outcome] = [election, outcome];
    element("election").hidden = elections.length === 0;
    this.drawChoices(elections);
    if (election && this.isWanted(election) && !this.finder && this.isDue(election)) this.begin(election, outcome);
    const isNew = this.language !== language, isAskedAnew = !isSameMode(this.mode, mode);
    [this.language, this.mode] = [language, mode];
    if (isNew) this.remark(this.remarked);
    if (isNew && this.shown) this.drawShown(this.shown);
    else if (isAskedAnew) this.shown?.looking.draw();
  }

  /**
   * The election that is looked at: the only one, or the one that was chosen; one that is looked at already stays when
   * others come. A file that was given anew takes the place of the one before.
   */
  private electionAmong(elections: readonly Piece[]): Piece | null {
    const now = (old: Piece | null): Piece | null =>
      elections.find(each => each === old) ?? elections.find(each => isAgain(each, old)) ?? null;
    if (this.chosen) this.chosen = now(this.chosen) ?? undefined;
    if (elections.length === 1) return elections[0];
    return this.chosen === undefined ? now(this.election) : this.chosen;
  }

  /** Whether the election has to be read: to be shown, for its names, or since something is to be looked for. */
  private isWanted(election: Piece): boolean {
    if (this.details.open || this.isFurther) return true;
    return !this.isFolded && (this.isAlone || this.page.short?.task.election === election);
  }

  /** Turns to the election whose answer is shown, unless something is being looked for in another. */
  turnTo({ election, outcome }: Task): void {
    if (election === this.election || this.isLooking) return;
    [this.chosen, this.chosenOutcome] = [election, outcome];
    this.close();
    this.remark(undefined);
  }

  /** Looks for all that the page can look for in the election whose answer is shown, once it is read. */
  lookFurther({ election, outcome }: Task): void {
    if (this.isLooking) return;
    if (election !== this.election) [this.chosen, this.chosenOutcome] = [election, outcome];
    this.isFurther = true;
    if (this.deskOf(election)) this.begins();
    else this.page.draw();
  }

  private begins(): void {
    this.isFurther = false;
    this.shown?.looking.lookFurther();
  }

  /** Whether an election can be read now: the only one after its audits. */
  private isDue(election: Piece): boolean {
    return election === this.chosen || this.isChecked(election);
  }

  /** Whether no audit of an election waits or runs. */
  private isChecked(election: Piece): boolean {
    const its = this.page.audits.filter(({ task }) => task.election === election);
    return its.every(({ state }) => state !== "waiting" && state !== "running");
  }

  /** Whether a file says which projects are funded of the election that is looked at. */
  looksAt(outcome: Piece): boolean {
    return this.election !== null && this.outcome === outcome;
  }

  /**
   * The outcome file that is looked at: the one that was chosen, or that of the election's certificates. Where an
   * outcome is looked at already, it stays when other files come.
   */
  private outcomeOf(election: Piece | null): Piece | null {
    const { audits, pieces } = this.page, isThere = (piece: Piece): boolean => pieces.includes(piece);
    const its = audits.find(({ task }) => task.election === election && task.outcome)?.task.outcome ?? null;
    const isKept = election === this.election && this.shown?.desk.summary.hasOutcome === true
      && (this.outcome === null || isThere(this.outcome));
    const chosen = this.chosenOutcome === undefined ? isKept ? this.outcome : its : this.chosenOutcome;
    return chosen && isThere(chosen) ? chosen : null;
  }

  /** Says what became of a search. */
  remark(remarked: ((words: Words) => string) | undefined): void {
    this.remarked = remarked;
    element("election-remark").hidden = !remarked;
    element("election-remark").textContent = remarked ? remarked(this.page.words) : "";
  }

  /** Where a file was changed, says so, and has the election and all that is about it read again. */
  readAnew({ election }: Desk, told: FindEnding): void {
    this.againBy(election, words => failureIn(words, told, election));
  }

  private againBy(election: Piece, remarked: (words: Words) => string): void {
    this.close();
    this.remark(remarked);
    this.page.againFor(election);
  }

  /** Which election and which outcome is looked at, where there are several. */
  private drawChoices(elections: readonly Piece[]): void {
    const { words, pieces } = this.page, outcomes = pieces.filter(({ kind }) => kind === "outcome");
    const choice = (label: string, none: string, among: readonly Piece[], chosen: Piece | null,
        choose: (piece: Piece | null) => void): HTMLElement =>
      make("label", {}, make("span", {}, `${label} `), makeChoice(
        label, [none, ...among.map(piece => toldName(pathOf(piece)))], chosen ? among.indexOf(chosen) + 1 : 0,
        at => choose(among[at - 1] ?? null)));
    const look = (election: Piece | null | undefined, outcome: Piece | null | undefined): void => {
      [this.chosen, this.chosenOutcome] = [election, outcome];
      this.details.open = true;
      this.close();
      this.remark(undefined);
      this.page.draw();
    };
    const lookAt = (election: Piece | null): void => look(election, undefined);
    const lookBy = (outcome: Piece | null): void => {
      look(this.chosen, outcome);
      if (this.election) this.page.choose(this.election, { outcome });
    };
    const hasOutcomes = outcomes.length > 0 && this.election !== null;
    const items = [
      ...elections.length > 1 ? [choice(words.lookAt, words.noElection, elections, this.election, lookAt)] : [],
      ...hasOutcomes ? [choice(words.outcome, words.ownOutcome, outcomes, this.outcome, lookBy)] : [],
    ];
    element("election-choice").hidden = items.length === 0;
    element("election-choice").replaceChildren(...items);
  }

  /** Ends what is going on, of a search not without a word, and shows nothing. */
  private close(): void {
    if (this.isLooking) this.remark(words => words.searchEnded);
    this.finder?.close();
    this.shown?.looking.end();
    this.finder = this.shown = undefined;
    for (const id of ["election-told", "election-problem", "further"]) element(id).hidden = true;
  }

  /** Lets the election be that is being read. */
  stopReading(): void {
    if (this.finder && !this.shown && element("election-problem").hidden) this.fold();
  }

  /** Has the auditor read the election, and then the script that shows it. */
  private begin(election: Piece, outcome: Piece | null): void {
    const finder = this.finder = new Finder();
    this.page.inTurn(async () => {
      if (this.finder !== finder) return;
      const told = await this.page.accepted(election, outcome);
      if (this.finder !== finder) return;
      if (told && "sums" in told && this.isOther(told.sums)) return this.changed(election);
      if (told?.tells !== "answer" || !told.read) return this.fold(told);
      showWork(fill(this.page.words.reading, { file: toldName(election.file.name) }));
      const found = await finder.ask({ asks: "read", election: election.file, outcome: outcome?.file ?? null });
      hideWork();
      if (this.finder !== finder) return;
      if (found.tells !== "summary") return this.tellProblem(failureIn(this.page.words, found, election));
      if (!isSameLook(told.sums, found.sums) || this.isOther(found.sums)) return this.changed(election);
      if (!isAlike(found.summary, told.read, outcome !== null)) return this.tellProblem(this.page.words.readsOtherwise);
      await this.present(finder, election, outcome, found, told.read.notes);
    });
  }

  /** Shows what was read, once the auditor has said whether the outcome fails whatever the prices are. */
  private async present(
    finder: Finder, election: Piece, outcome: Piece | null, found: SummaryTold, notes: readonly Note[],
  ): Promise<void> {
    const { summary, addable, isFeasible } = found, desk = { page: this.page, finder, election, outcome, summary, addable };
    if (!summary.hasOutcome || (isFeasible && addable === undefined)) return this.show({ ...desk, failed: undefined }, notes);
    const told = await this.page.withoutPayments(election, outcome);
    if (this.finder !== finder) return;
    if (told?.tells !== "answer") return this.fold(told);
    if (!isSameLook(told.sums, found.sums)) return this.changed(election);
    this.show({ ...desk, failed: failingBy(told) }, notes);
  }

  /** Whether the files that are looked at are other ones than those of which there are answers. */
  private isOther(sums: Sums | undefined): boolean {
    const { election, outcome } = this;
    return this.page.audits.filter(({ task }) => task.election === election).some(({ task, sums: its }) =>
      !isSameLook(its, task.outcome === outcome ? sums : sums?.slice(0, 1)));
  }

  private changed(election: Piece): void {
    this.againBy(election, words => words.changed);
  }

  /**
   * Where the auditor doesn't accept the file, it says so elsewhere, and where somebody stopped it, nothing is said. Why there is
   * no answer is said here.
   */
  private fold(told?: Told): void {
    this.details.open = this.isAlone = this.isFurther = false;
    this.isFolded = true;
    this.close();
    if (told?.tells === "nothing") this.remark(words => problemSentence(words, told));
  }

  private tellProblem(text: string): void {
    this.details.open = true;
    element("election-problem").textContent = text;
    element("election-problem").hidden = false;
  }

  private show(desk: Desk, notes: readonly Note[]): void {
    const list: ProjectList = new ProjectList(desk.page, desk.summary, () => group.change());
    const group = new GroupPanel(desk, list), looking = new Looking(desk, list);
    this.shown = { desk, notes, list, group, looking };
    this.drawShown(this.shown);
    element("election-told").hidden = false;
    if (this.isFurther) this.begins();
  }

  private drawShown({ desk, notes, list, group, looking }: Shown): void {
    element("facts").replaceChildren(...this.factItems(desk, notes));
    element("making").hidden = !desk.summary.hasOutcome;
    list.draw();
    group.draw();
    looking.draw();
  }

  private factItems(desk: Desk, notes: readonly Note[]): HTMLElement[] {
    const { words } = this.page, { facts, limit, voters, projects, hasOutcome } = desk.summary;
    const fact = (key: string, most: number): string => textOf(facts.get(key) ?? "", most);
    const title = fact("description", LONGEST_TITLE), comment = fact("comment", LONGEST_COMMENT);
    const place = ["district", "unit", "country"].map(key => fact(key, LONGEST_TITLE)).filter(Boolean).join(", ");
    const funded = projects.filter(({ isFunded }) => isFunded);
    const pair = (term: string, value: string): HTMLElement[] =>
      [make("dt", {}, term), make("dd", {}, make("bdi", {}, value))];
    return [
      ...title ? [make("p", { class: "title" }, make("bdi", {}, title))] : [],
      ...place ? [make("p", { class: "soft" }, make("bdi", {}, place))] : [],
      make("dl", {}, ...pair(words.voters, grouped(voters)), ...pair(words.limit, moneyIn(desk, limit)),
           ...pair(words.projects, grouped(projects.length)), ...hasOutcome ? [
             ...pair(words.outcome, grouped(funded.length)),
             ...pair(words.costOfFunded, moneyIn(desk, funded.reduce((sum, { cost }) => sum + cost, 0n))),
           ] : []),
      ...hasOutcome ? [] : [make("p", {}, words.saysNoOutcome)],
      ...comment ? [make("p", { class: "soft" }, `${words.comment} `, make("bdi", {}, comment))] : [],
      ...notes.map(note => make("p", {}, noteLine(this.page, note))),
    ];
  }
}
