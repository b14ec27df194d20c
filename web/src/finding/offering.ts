/* What voters do in the stable form, where they offer as much as they have left, and as they pay for any project. */

import { Bounds } from "./bounds.js";
import { largest } from "./shares.js";
import { Spenders } from "./spending.js";
import type { Members } from "./spending.js";

/** By how much more than they have to they offer at first. */
const MORE = 1.3;

export class Offerers extends Spenders {
  /** By how much more they offer than they have left, and than they pay for each project. */
  private readonly overKept: Bounds;
  private readonly overSpent: Bounds;
  /** What is aimed at by the payments and the offers together. */
  private readonly aims: Float64Array;

  constructor(members: Members, spent: Float64Array, target: number) {
    super(members, spent, target);
    const { parts, funded: { starts } } = members, over = new Float64Array(spent.length);
    const overKept = parts.map((_, member) => {
      const start = starts[member], end = starts[member + 1];
      const offer = MORE * largest(spent.subarray(start, end), this.kept.amounts[member]);
      for (let at = start; at < end; at++) over[at] = offer - spent[at];
      return offer - this.kept.amounts[member];
    });
    this.overKept = new Bounds(overKept, parts, target);
    this.overSpent = new Bounds(over, this.spent.parts, target);
    this.aims = new Float64Array(spent.length);
  }

  override get bounds(): readonly Bounds[] {
    return [this.spent, this.kept, this.overKept, this.overSpent];
  }

  protected override offer(member: number): number {
    return this.kept.amounts[member] + this.overKept.amounts[member];
  }

  protected override worth(member: number): number {
    return this.kept.multipliers[member] - this.overKept.multipliers[member];
  }

  protected override draw(member: number, weights: Float64Array): number {
    const { aims, answers, spent, members: { funded } } = this, { starts, places } = funded;
    const start = starts[member], end = starts[member + 1], draws = this.overKept.rises[member] - this.kept.rises[member];
    let pull = this.overKept.rises[member] - this.hope(member, weights);
    for (let at = start; at < end; at++) {
      const over = this.overSpent.rises[at];
      aims[at] = spent.rises[at] - over;
      pull += over + answers[at] * (aims[at] + draws + weights[places[at]]);
    }
    const offers = pull * this.offering[member];
    this.drawFreely(member, weights, draws, aims);
    for (let at = start; at < end; at++) spent.steps[at] += answers[at] * offers;
    return offers;
  }

  protected override take(member: number, offers: number): void {
    const { starts } = this.members.funded;
    super.take(member, offers);
    this.overKept.take(member, offers - this.kept.steps[member]);
    for (let at = starts[member]; at < starts[member + 1]; at++) this.overSpent.take(at, offers - this.spent.steps[at]);
  }

  protected override ready(member: number): number {
    const { ease, answers, spent, overSpent, members: { funded: { starts } } } = this;
    const start = starts[member], end = starts[member + 1];
    const kept = this.kept.stiffness(member), over = this.overKept.stiffness(member), both = kept + over;
    let sum = 0, pushed = 0, held = 0;
    for (let at = start; at < end; at++) {
      const own = spent.stiffness(at), other = overSpent.stiffness(at);
      ease[at] = 1 / (own + other);
      answers[at] = other;
      sum += ease[at];
      pushed += ease[at] * other;
      held += own * other * ease[at];
    }
    const whole = 1 + both * sum, back = (over + both * pushed) / whole;
    for (let at = start; at < end; at++) answers[at] = ease[at] * (answers[at] - back);
    this.tie[member] = both / whole;
    this.offering[member] = 1 / (held + (kept * pushed ** 2 + over * (1 + pushed) ** 2 + kept * over * sum) / whole);
    return this.tie[member];
  }
}
