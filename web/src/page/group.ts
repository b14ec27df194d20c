/* The projects that somebody ticked: who could demand them, and the certificate of that. */

import { MEASURES } from "../finding/groups.js";
import { grouped } from "../words/formats.js";
import { fill } from "../words/words.js";
import { failureItem, handOver, isOfChange, moneyIn, namesOf, shareIn } from "./desk.js";
import { element, make, makeButton } from "./elements.js";
import { givenItem, madeFile, refutationItem } from "./made.js";
import type { Measure } from "../finding/groups.js";
import type { ShownClaim, ShownFigures } from "../worker/finds.js";
import type { Desk } from "./desk.js";
import type { ProjectList } from "./projects.js";

const ENDINGS: Record<Measure, string> = { count: "violation.csv", cost: "cost.violation.csv" };

/** Makes the certificate of a group, gives it to the auditor, and answers what is said of it. */
export async function makeViolation(desk: Desk, measure: Measure, projects: readonly number[]): Promise<HTMLElement[]> {
  const told = await desk.finder.ask({ asks: "violation", measure, projects });
  if (isOfChange(told)) desk.page.election.readAnew(desk, told);
  if (told.tells !== "violation") return [failureItem(desk, told)];
  const { words } = desk.page, { file, refutation } = told;
  const given = givenItem(words, handOver(desk, file, ENDINGS[measure]));
  if (!refutation) return [given];
  const made = madeFile(refutation, desk.election, "refutation.csv");
  return [given, refutationItem(words, made, () => handOver(desk, refutation, "refutation.csv"))];
}

export class GroupPanel {
  private figures: ShownFigures | undefined;
  private made: HTMLElement[] = [];
  private asked = 0;

  constructor(private readonly desk: Desk, private readonly list: ProjectList) {
    this.draw();
  }

  /** Asks for the figures of what is ticked now. */
  async change(): Promise<void> {
    const asked = ++this.asked, projects = [...this.list.ticked].sort((one, other) => one - other);
    const told = projects.length ? await this.desk.finder.ask({ asks: "figures", projects }) : undefined;
    if (asked !== this.asked) return;
    this.figures = told?.tells === "figures" ? told : undefined;
    this.made = [];
    this.draw();
  }

  draw(): void {
    if (this.desk.finder.isClosed) return;
    const { figures } = this, { words } = this.desk.page, panel = element("group");
    panel.hidden = !figures;
    if (!figures) return panel.replaceChildren();
    const untick = makeButton(words.untick, words.untick, () => this.list.tick([]));
    const names = namesOf(this.desk, figures.projects);
    panel.replaceChildren(
      make("p", { class: "ticked" }, make("strong", {}, fill(words.ticked, { names })), untick),
      make("p", {}, fill(words.tickedFigures, {
        cost: moneyIn(this.desk, figures.cost), voters: grouped(figures.approving),
        share: shareIn(this.desk, figures.share),
      })),
      ...figures.approving ? MEASURES.map(measure => this.claimOf(figures, measure)) : [],
      ...this.made,
    );
  }

  /** What the group can claim by one measure, and whether that proves anything. */
  private told({ members, most, share, isViolation }: ShownClaim, measure: Measure): (Node | string)[] {
    const { words } = this.desk.page, values = { voters: grouped(members), share: shareIn(this.desk, share) };
    if (!members) return [measure === "count" ? words.claimCountNone : words.claimCostNone];
    const told = measure === "count" ? fill(words.claimCount, { ...values, most: grouped(most) })
      : fill(words.claimCost, { ...values, most: moneyIn(this.desk, most) });
    const verdict = isViolation ? words.provesUnfair : words.shareTooSmall;
    return [`${told} `, make("strong", { class: isViolation ? "bad" : "soft" }, verdict)];
  }

  /** What the group can claim by one measure, with the button that has it checked, also where it isn't enough. */
  private claimOf({ claims, projects }: ShownFigures, measure: Measure): HTMLElement {
    const { words } = this.desk.page, claim = claims[measure], { isViolation } = claim;
    const word = isViolation ? words.makeViolation : words.checkAnyway;
    const button = makeButton(word, `${word}: ${measure === "count" ? words.byCount : words.byCost}`, async () => {
      this.made = await makeViolation(this.desk, measure, projects);
      this.draw();
    });
    return make("div", { class: "claim" }, make("p", {}, ...this.told(claim, measure)), button);
  }
}
