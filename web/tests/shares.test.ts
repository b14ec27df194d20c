/* The Method of Equal Shares funds what tests/tables/shares.json says, which was computed by the Python package and partly by
   hand. */

import assert from "node:assert/strict";
import test from "node:test";
import table from "../../tests/tables/shares.json";
import { shared } from "../src/comparing/level.js";
import { Purses } from "../src/comparing/purses.js";
import { byVotes, Electorate } from "../src/comparing/rule.js";
import { equalShares } from "../src/comparing/shares.js";
import { gotOf } from "../src/comparing/got.js";
import { MILLION } from "../src/elections/amounts.js";
import { readElection } from "../src/elections/election.js";
import { cohortsOf } from "../src/finding/cohorts.js";
import { decidedOf } from "../src/finding/decided_election.js";
import { bytes, ended } from "./election_files.js";
import type { Completion } from "../src/comparing/shares.js";

interface Row {
  readonly name: string;
  readonly limit: string;
  readonly projects: readonly (readonly [string, string])[];
  readonly ballots: readonly (readonly string[])[];
  readonly by: "cost" | "count";
  readonly completion: Completion;
  readonly funded: readonly string[];
  readonly budget: string;
  readonly runs: number;
  readonly most_votes?: readonly string[];
}

const rows = table as readonly Row[];

function electorateOf({ limit, projects, ballots }: Pick<Row, "limit" | "projects" | "ballots">): Electorate {
  const text = [
    "META", "key;value", `budget;${limit}`, "vote_type;approval", "PROJECTS", "project_id;cost",
    ...projects.map(([id, cost]) => `${id};${cost}`), "VOTES", "voter_id;vote",
    ...ballots.map((ballot, at) => `${at};${ballot.join()}`), "",
  ].join("\n");
  const decided = decidedOf(readElection(bytes(text)));
  return new Electorate(decided, cohortsOf(decided.ballots));
}

for (const row of rows) {
  test(`${row.name}, by ${row.by}, ${row.completion}`, () => {
    const electorate = electorateOf(row), { ids } = electorate.decided;
    const { funded, budget, runs } = ended(equalShares(electorate, row.by, row.completion));
    assert.deepEqual(funded.map(project => ids[project]), row.funded);
    const [part, whole = "1"] = row.budget.split("/");
    assert.equal(budget * BigInt(whole), BigInt(part) * MILLION * BigInt(row.ballots.length));
    assert.equal(runs, row.runs);
  });
}

test("what is decided by doubles is what exact numbers say", () => {
  let seed = 1;
  const chance = (below: number): number => (seed = seed * 48_271 % 2_147_483_647) % below;
  for (let round = 0; round < 40; round++) {
    const sizes = Float64Array.from({ length: 30 }, () => 1 + chance(50)), scale = BigInt(1 + chance(1000));
    const purses = new Purses(sizes, 1_000n * scale * MILLION, scale);
    let left = Array.from(sizes, () => 1_000n * scale * MILLION), scaleNow = scale;
    for (let bought = 0; bought < 25; bought++) {
      const cohorts = [...sizes.keys()].filter(() => chance(3) === 0);
      const cost = BigInt(1 + chance(40_000)) * MILLION * scaleNow;
      const rich = cohorts.filter(at => left[at] > 0n).map(at => ({ left: left[at], size: sizes[at] }));
      const wanted = shared(rich, cost), found = purses.shared(cohorts, cost);
      assert.deepEqual(found, wanted);
      if (!found) continue;
      purses.pay(cohorts, found);
      const factor = purses.scale / scaleNow, share = found.missing * factor / BigInt(found.payers);
      left = left.map((each, at) => cohorts.includes(at) ? each * factor - share : each * factor).map(each => each > 0n ? each : 0n);
      scaleNow = purses.scale;
    }
  }
});

test("most votes first, of those that fit", () => {
  const stated = rows.filter(row => row.most_votes);
  assert(stated.length >= 8);
  for (const row of stated) {
    const electorate = electorateOf(row);
    const names = byVotes(electorate).map(project => electorate.decided.ids[project]);
    assert.deepEqual(names, row.most_votes, row.name);
  }
});

test("what is too dear is passed over, and what nobody wants is left out", () => {
  // By their votes c (3), a and d (2), b (1). After c, for 5 of 9, a doesn't fit, and d and b do.
  const projects = [["a", "6"], ["b", "1"], ["c", "5"], ["d", "3"], ["e", "0"]] as const;
  const electorate = electorateOf({ limit: "9", projects, ballots: [["a", "c", "d"], ["a", "c"], ["b", "c", "d"]] });
  assert.deepEqual(byVotes(electorate), [2, 3, 1]);
});

test("no ballots, no projects, and ballots without a project", () => {
  for (const completion of ["none", "add1"] as const) {
    for (const [projects, ballots] of [[[["a", "1"]], []], [[], []], [[["a", "1"]], [[], []]]] as const) {
      const electorate = electorateOf({ limit: "5", projects, ballots });
      assert.deepEqual(ended(equalShares(electorate, "cost", completion)).funded, []);
      assert.deepEqual(byVotes(electorate), []);
    }
  }
});

test("what each voter got, by cost and by number, with those in the middle", () => {
  // Funded are a for 6 and c for 1. The voters got 7, 6, 6, 1 and nothing; in projects 2, 1, 1, 1 and 0.
  const projects = [["a", "6"], ["b", "9"], ["c", "1"]] as const;
  const electorate = electorateOf({ limit: "9", projects, ballots: [["a", "c"], ["a"], ["a", "b"], ["c"], ["b"]] });
  const { cost, count } = gotOf(electorate, [0, 2]);
  assert.deepEqual([cost.least, cost.middle, cost.most].map(amount => amount / MILLION), [0n, 6n, 7n]);
  assert.deepEqual([count.least, count.middle, count.most], [0n, 1n, 2n]);
});

test("at least half of the voters got the middle or more", () => {
  // Of four the middle is what the second from the top got: 5, 3, 2, 0.
  const projects = [["a", "3"], ["b", "2"]] as const;
  const electorate = electorateOf({ limit: "9", projects, ballots: [["a", "b"], ["a"], ["b"], []] });
  assert.equal(gotOf(electorate, [0, 1]).cost.middle, 3n * MILLION);
  assert.equal(gotOf(electorate, []).cost.middle, 0n);
});
