/* What other rules would have funded, beside the outcome whose answer is shown. The outcomes are computed by a script, in a
   worker of its own; the answer on each is the auditor's. */

import { toldName } from "../files/names.js";
import { pieceOf } from "../files/pieces.js";
import { outcomeText } from "../comparing/outcomes.js";
import { grouped } from "../words/formats.js";
import { fill } from "../words/words.js";
import { drawCompared, ruleIn } from "./compare_tables.js";
import { failureIn, isOfChange } from "./desk.js";
import { isAlike } from "./election.js";
import { element, elementOf } from "./elements.js";
import { Finder } from "./finder.js";
import { problemSentence } from "./told.js";
import type { GroupsAnswers } from "../auditor/groups.js";
import type { Outcomes, RuleOutcome } from "../comparing/outcomes.js";
import type { Completion } from "../comparing/shares.js";
import type { Summary } from "../elections/election.js";
import type { Piece } from "../files/pieces.js";
import type { Words } from "../words/words.js";
import type { FindTold } from "../worker/finds.js";
import type { FindEnding } from "./finder.js";
import type { Page, Told } from "./page.js";
import type { ShortAudit } from "./short.js";

/** An outcome with the auditor's answers on it, and its file, where it isn't the one that was asked about. */
export interface Compared extends RuleOutcome {
  readonly answers: GroupsAnswers;
  readonly file?: File;
}

/** All that is shown. */
export interface Comparison {
  readonly audit: ShortAudit;
  readonly summary: Summary;
  readonly width: bigint;
  readonly compared: readonly Compared[];
}

/** What became of it, where there is no comparison. */
type Remark = (words: Words) => string;

/** How the names of the files of outcomes end. */
const NAMES: Readonly<Record<RuleOutcome["rule"], string>> =
  { own: "", votes: "most-votes", cost: "equal-shares-cost", count: "equal-shares-count" };

/** The file of an outcome, which belongs to the election by its name. */
function fileOf(election: Piece, { projects }: Summary, { rule, funded }: RuleOutcome): File {
  const name = `${election.file.name.replace(/\.pb$/i, "")}.${NAMES[rule]}.outcome.csv`;
  return new File([outcomeText(projects.map(({ id }) => id), funded)], name);
}

export class Compare {
  private audit: ShortAudit | null = null;
  private finder: Finder | undefined;
  private shown: Comparison | undefined;
  /** What the tables were drawn of. */
  private drawn: readonly unknown[] = [];
  private remark: Remark | undefined;

  constructor(private readonly page: Page) {}

  private get completion(): Completion {
    return elementOf("completion", HTMLSelectElement).value === "none" ? "none" : "add1";
  }

  /** Compares the outcome whose answer is shown. */
  async begin(): Promise<void> {
    const audit = this.page.short;
    if (!audit?.short.count) return;
    this.close();
    const finder = this.finder = new Finder();
    this.audit = audit;
    this.draw();
    element("stop-comparing").focus();
    const told = await this.compared(finder, audit);
    if (this.finder !== finder) return finder.close();
    this.close(told);
    this.draw();
    element("compare").focus({ preventScroll: true });
  }

  stop(): void {
    if (!this.finder) return;
    this.close(words => words.compareStopped);
    this.draw();
    element("compare-outcomes").focus({ preventScroll: true });
  }

  /** Ends what is going on, and shows what came of it. */
  private close(told?: Comparison | Remark): void {
    this.finder?.close();
    this.finder = undefined;
    this.shown = typeof told === "object" ? told : undefined;
    this.remark = typeof told === "function" ? told : undefined;
  }

  /** What is compared, or why nothing is. */
  private async compared(finder: Finder, audit: ShortAudit): Promise<Comparison | Remark> {
    const { election, outcome } = audit.task, isEnded = (): boolean => this.finder !== finder;
    if (!election) return words => words.trap;
    const failure = (told: FindEnding): Remark => words => failureIn(words, told, election);
    const found = await finder.ask({ asks: "read", election: election.file, outcome: outcome?.file ?? null });
    if (found.tells !== "summary") return failure(found);
    if (`${found.sums}` !== `${audit.sums?.filter(Boolean)}`) return this.changed(audit);
    if (!isAlike(found.summary, audit.short.cost.election, outcome !== null)) return words => words.readsOtherwise;
    const told = await finder.ask({ asks: "outcomes", completion: this.completion }, step => this.tell(step));
    if (isOfChange(told)) return this.changed(audit);
    if (told.tells !== "outcomes") return failure(told);
    const compared = await this.answered(audit, found.summary, told, isEnded);
    return typeof compared === "function" ? compared : { audit, summary: found.summary, width: told.width, compared };
  }

  /** Files were changed since the answer, which is asked for again, so that this is said beside the election. */
  private changed({ task: { election } }: ShortAudit): Remark {
    const told: Remark = words => words.changed;
    this.page.election.remark(told);
    if (election) this.page.againFor(election);
    return told;
  }

  /** Why the auditor has no answer on an outcome. */
  private unanswered(told: Told): Remark {
    if (!told) return words => words.compareStopped;
    return words => told.tells === "nothing" ? problemSentence(words, told) : words.readsOtherwise;
  }

  /** The outcomes with the auditor's answers, which count the same in them as the script. */
  private async answered(
    audit: ShortAudit, summary: Summary, { outcomes }: Outcomes, isEnded: () => boolean,
  ): Promise<Compared[] | Remark> {
    const election = audit.task.election!, compared: Compared[] = [];
    for (const each of outcomes) {
      const file = each.rule === "own" ? undefined : fileOf(election, summary, each);
      const told = file && await this.page.onGroups(election, pieceOf({ file, folder: "" }, "outcome"), isEnded);
      if (told && "sums" in told && told.sums?.[0] !== audit.sums?.[0]) return this.changed(audit);
      const short: Partial<GroupsAnswers> = file ? told?.tells === "answer" && told.short || {} : audit.short;
      const { cost, count } = short;
      if (!cost || !count) return this.unanswered(told);
      if (cost.funded !== each.funded.length || cost.cost !== each.cost) return words => words.readsOtherwise;
      compared.push({ ...each, answers: { cost, count }, file });
    }
    return compared;
  }

  private tell(step: FindTold): void {
    if (step.tells !== "progress" || step.of !== "outcomes") return;
    const { words } = this.page, text = ruleIn(words, step.rule);
    element("comparing-what").textContent = fill(words.comparing, { text, count: grouped(step.run) });
  }

  /** Draws what is to be seen by the answer that is shown now. */
  draw(): void {
    const { words, short } = this.page;
    if (this.audit !== short) {
      this.close();
      this.audit = short;
    }
    const isGoing = this.finder !== undefined;
    elementOf("compare-outcomes", HTMLButtonElement).disabled = isGoing || !short?.short.count;
    elementOf("completion", HTMLSelectElement).disabled = isGoing;
    element("compare").hidden = !isGoing && !this.shown && !this.remark;
    element("comparing").hidden = !isGoing;
    element("compare-problem").hidden = !this.remark;
    element("compare-problem").textContent = this.remark?.(words) ?? "";
    element("compared").hidden = !this.shown;
    if (isGoing && short) element("comparing-what").textContent = fill(words.checking, { file: nameIn(short) });
    if (this.shown) this.drawShown(this.shown);
  }

  /** Draws the tables where something in them is another. */
  private drawShown(shown: Comparison): void {
    const drawn = [shown, this.page.words, this.page.election.known];
    if (drawn.every((each, at) => each === this.drawn[at])) return;
    this.drawn = drawn;
    drawCompared(this.page, shown);
  }
}

const nameIn = ({ task }: ShortAudit): string => toldName(task.election?.file.name ?? "");
