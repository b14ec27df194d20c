/* How much each voter got by an outcome: what the funded projects on its ballot cost, and how many they are. */

import { MEASURES } from "../finding/groups.js";
import type { Measure } from "../finding/groups.js";
import type { Electorate } from "./rule.js";

/** What voters got, with how many of them, from the least on. */
export interface Got {
  readonly amount: bigint;
  readonly voters: number;
}

/** At least half of the voters got the middle amount or more, and at least half no more than that. */
export interface Spread {
  readonly all: readonly Got[];
  readonly least: bigint;
  readonly middle: bigint;
  readonly most: bigint;
}

function spreadOf(counts: ReadonlyMap<bigint, number>, voters: number): Spread {
  const all = [...counts].map(([amount, voters]): Got => ({ amount, voters }))
    .sort((one, other) => one.amount < other.amount ? -1 : 1);
  let above = 0, middle = 0n;
  for (let at = all.length - 1; at >= 0 && 2 * above < voters; at--) {
    above += all[at].voters;
    middle = all[at].amount;
  }
  return { all, least: all[0]?.amount ?? 0n, middle, most: all[all.length - 1]?.amount ?? 0n };
}

export function gotOf({ decided, cohorts, voters }: Electorate, funded: Iterable<number>): Record<Measure, Spread> {
  const { first, sizes, ballots: { starts, places } } = cohorts, isFunded = new Set(funded);
  const counts = { cost: new Map<bigint, number>(), count: new Map<bigint, number>() };
  first.forEach((voter, cohort) => {
    let cost = 0n, count = 0n;
    for (let at = starts[voter]; at < starts[voter + 1]; at++) {
      if (!isFunded.has(places[at])) continue;
      cost += decided.costs[places[at]];
      count++;
    }
    const got = { cost, count };
    for (const by of MEASURES) counts[by].set(got[by], (counts[by].get(got[by]) ?? 0) + sizes[cohort]);
  });
  return { cost: spreadOf(counts.cost, voters), count: spreadOf(counts.count, voters) };
}
