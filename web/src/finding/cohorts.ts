/* Voters with equal ballots, who count as one with a size: what searches compute with. */

import { votersOf } from "../elections/ballots.js";
import type { Ballots } from "../elections/ballots.js";

export interface Cohorts {
  /** How many voters each has. */
  readonly sizes: Float64Array;
  /** The cohort of each voter. */
  readonly ofVoter: Uint32Array;
  /** The first voter of each, whose ballot is that of all. */
  readonly first: Uint32Array;
  readonly ballots: Ballots;
}

const FACTOR = 0x9e3779b1;

function hashOf({ starts, places }: Ballots, voter: number): number {
  let hash = starts[voter + 1] - starts[voter];
  for (let at = starts[voter]; at < starts[voter + 1]; at++) hash = Math.imul(hash ^ places[at], FACTOR);
  return (hash ^ hash >>> 16) >>> 0;
}

function isSame({ starts, places }: Ballots, one: number, other: number): boolean {
  const length = starts[one + 1] - starts[one];
  if (starts[other + 1] - starts[other] !== length) return false;
  for (let at = 0; at < length; at++) {
    if (places[starts[one] + at] !== places[starts[other] + at]) return false;
  }
  return true;
}

export function cohortsOf(ballots: Ballots): Cohorts {
  const voters = votersOf(ballots), ofVoter = new Uint32Array(voters), first = new Uint32Array(voters);
  const slots = new Int32Array(2 ** Math.ceil(Math.log2(2 * voters + 2))).fill(-1), last = slots.length - 1;
  const sizes = new Float64Array(voters);
  let count = 0;
  for (let voter = 0; voter < voters; voter++) {
    let slot = hashOf(ballots, voter) & last;
    while (slots[slot] >= 0 && !isSame(ballots, first[slots[slot]], voter)) slot = slot + 1 & last;
    if (slots[slot] < 0) {
      slots[slot] = count;
      first[count++] = voter;
    }
    ofVoter[voter] = slots[slot];
    sizes[slots[slot]]++;
  }
  return { sizes: sizes.slice(0, count), ofVoter, first: first.slice(0, count), ballots };
}

/** What the supporters of each project have together, where all voters of a cohort have so much together. */
export function sumsOf({ first, ballots: { starts, places } }: Cohorts, ofCohort: (cohort: number) => number,
    projects: number): Float64Array {
  const sums = new Float64Array(projects);
  for (let cohort = 0; cohort < first.length; cohort++) {
    const all = ofCohort(cohort);
    for (let at = starts[first[cohort]]; at < starts[first[cohort] + 1]; at++) sums[places[at]] += all;
  }
  return sums;
}
