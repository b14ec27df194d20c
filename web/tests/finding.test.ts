/* What searches find, on elections that are worked out by hand, and against plain definitions. */

import assert from "node:assert/strict";
import test from "node:test";
import { fieldOf, refutationText, violationText } from "../src/finding/certificates.js";
import { cohortsOf } from "../src/finding/cohorts.js";
import { figuresOf, refutationOf, roomOf } from "../src/finding/groups.js";
import { Decisions } from "../src/finding/deciding.js";
import { Search } from "../src/finding/search.js";
import { seek } from "../src/finding/seeking.js";
import { problemOf } from "../src/finding/shares.js";
import { decidedFrom, ended } from "./election_files.js";
import type { DecidedElection } from "../src/finding/decided_election.js";
import type { Measure } from "../src/finding/groups.js";
import type { Sought } from "../src/finding/seeking.js";

/** Limit 10; the park of 6 and the library of 4 are funded, the pool of 9 isn't. */
const SAMPLE = decidedFrom([6, 4, 9], 10, ["0,1", "0", "1,2"], [0, 1]);
/** Four of six voters want p0 and p1 of 2 each, and only p2 is funded, which two of the four want as well. */
const PASSED_OVER = decidedFrom([2, 2, 6], 6, ["0,1", "0,1", "0,1,2", "0,1,2", "2", "2"], [2]);

const searched = (decided: DecidedElection, measure: Measure): ReturnType<Search["searched"]> =>
  ended(new Search(decided, measure).run());

test("the figures of a group", () => {
  const { approving, share, cost, claims } = figuresOf(PASSED_OVER, [0, 1]);
  assert.deepEqual([approving, share, cost], [4, 4_000_000n, 4_000_000n]);
  // By counting two of the four get 1 of the 2 that they demand, by cost 6 of 4.
  const { voters, least, most, isViolation } = claims.count;
  assert.deepEqual([[...voters], least, most, isViolation], [[0, 1, 2, 3], 0n, 1n, true]);
  assert.deepEqual([[...claims.cost.voters], claims.cost.most, claims.cost.isViolation], [[0, 1], 0n, false]);
  assert.equal(claims.cost.share, 2_000_000n);
});

test("a group whose share is what the demand costs is enough, and one millionth less isn't", () => {
  const costs = (cost: string): boolean =>
    figuresOf(decidedFrom([cost, 1], 10, ["0", "0", "1"], [1]), [0]).claims.count.isViolation;
  assert.equal(costs("6.666666"), true);
  assert.equal(costs("6.666667"), false);
});

test("nobody who approves all, and no project, is no violation", () => {
  assert.equal(figuresOf(SAMPLE, [0, 2]).claims.count.isViolation, false);
  assert.equal(figuresOf(SAMPLE, []).claims.count.isViolation, false);
  assert.equal(figuresOf(decidedFrom([0], 0, [], []), [0]).claims.count.isViolation, false);
});

test("the text of a violation", () => {
  const text = violationText(PASSED_OVER, "cost", { voters: Uint32Array.of(0, 3), projects: [0, 1] });
  assert.equal(text, "pb-violation,2\nsatisfaction,cost\nvoter,1\nvoter,4\nproject,p0\nproject,p1\n");
  assert.equal(fieldOf('a "b", c'), '"a ""b"", c"');
  assert.equal(fieldOf("a;b"), "a;b");
});

test("the smallest demand with the largest margin is found", () => {
  const { demand, tried } = searched(PASSED_OVER, "count");
  // By counting, the two who want only p0 and p1 have a share of 2, which each of them costs.
  assert.deepEqual([demand?.projects, [...demand?.voters ?? []], tried], [[0], [0, 1], 1]);
  const pair = decidedFrom([1, 3, 3], 6, ["0,1,2", "0,1,2", "0,1,2", "0"], [0]);
  assert.deepEqual(searched(pair, "count"), {
    demand: { projects: [0, 1], voters: Uint32Array.of(0, 1, 2) }, tried: 2, isAll: true,
  });
});

test("finding none says how many projects were tried", () => {
  assert.deepEqual(searched(SAMPLE, "count"), { demand: undefined, tried: 2, isAll: true });
  const { demand, tried, isAll } = searched(decidedFrom([2, 1, 1], 4, ["0,1,2", "0,1,2"], [0, 1, 2]), "count");
  assert.deepEqual([demand, isAll], [undefined, true]);
  assert.equal(tried, 3);
});

/** By trying all sets: the fewest projects of a violation, and how many times the voters' number its group's share is
    over its cost, at most. */
function smallest(decided: DecidedElection, measure: Measure): [number, bigint] | undefined {
  const voters = BigInt(decided.ballots.starts.length - 1);
  let best: [number, bigint] | undefined;
  for (let set = 1; set < 2 ** decided.ids.length; set++) {
    const projects = decided.ids.map((_, at) => at).filter(at => set >> at & 1);
    const { claims, cost } = figuresOf(decided, projects), { isViolation, voters: group } = claims[measure];
    const over = BigInt(group.length) * decided.limit - cost * voters;
    if (!isViolation || best && projects.length > best[0]) continue;
    if (!best || projects.length < best[0] || over > best[1]) best = [projects.length, over];
  }
  return best;
}

/** Numbers by chance that are the same each time. */
function chanceFrom(seed: number): (below: number) => number {
  let state = seed >>> 0;
  return below => {
    state = Math.imul(state ^ state >>> 15, 0x2c1b3c6d) + 0x6d2b79f5 >>> 0;
    return ((state ^ state >>> 13) >>> 0) % below;
  };
}

function invented(seed: number): DecidedElection {
  const chance = chanceFrom(seed), count = 4 + chance(4), voters = 5 + chance(8);
  const costs = Array.from({ length: count }, () => 1 + chance(9)), limit = 4 + chance(16);
  const ballots = Array.from({ length: voters }, () => costs.map((_, at) => at).filter(() => chance(10) < 6).join(","));
  const funded: number[] = [];
  let left = limit;
  costs.forEach((cost, at) => {
    if (chance(10) >= 6 || cost > left) return;
    funded.push(at);
    left -= cost;
  });
  return decidedFrom(costs, limit, ballots, funded);
}

test("what is found is what trying all sets finds", () => {
  const sizes = new Set<string>();
  for (let seed = 1; seed <= 400; seed++) {
    const decided = invented(seed);
    for (const measure of ["count", "cost"] as const) {
      const wanted = smallest(decided, measure), { demand, isAll } = searched(decided, measure), what = `${measure} ${seed}`;
      if (wanted && wanted[0] > 6) continue;
      assert.equal(demand === undefined, wanted === undefined, what);
      if (!demand || !wanted) {
        assert(isAll || decided.ids.length > 6, what);
        continue;
      }
      const { claims, cost } = figuresOf(decided, demand.projects);
      const over = BigInt(demand.voters.length) * decided.limit - cost * BigInt(decided.ballots.starts.length - 1);
      assert.deepEqual([demand.projects.length, over, claims[measure].isViolation], [...wanted, true], what);
      sizes.add(`${measure} ${wanted[0]}`);
    }
  }
  for (const size of ["count 1", "count 2", "count 3", "cost 1", "cost 2", "cost 3"]) assert(sizes.has(size), size);
});

test("a group whose share was enough gives a refutation", () => {
  const decided = decidedFrom([2, 3], 10, ["0,1", "0,1", "0,1", "0", ""], [0]);
  const refutation = refutationOf(decided, { voters: Uint32Array.of(0, 1, 2), projects: [1] });
  assert(refutation);
  const text = "pb-refutation,1\ncover,3\nrole,project,weight\nleft,p1,5\nmost,p0,5\n";
  assert.equal(refutationText(decided, refutation.cover, refutation.weights), text);
  // The share of the three has to cover p1 and what was funded for them, 5 together: 3 of 5 of the limit.
  const limit = (amount: number): unknown =>
    refutationOf(decidedFrom([2, 3], amount, ["0,1", "0,1", "0,1", "0", ""], [0]),
                 { voters: Uint32Array.of(0, 1, 2), projects: [1] });
  assert(limit(8.333334));
  assert.equal(limit(8.333333), undefined);
  assert.equal(refutationOf(decided, { voters: Uint32Array.of(0), projects: [0] }), undefined);
});

test("what room the outcome leaves", () => {
  assert.deepEqual(roomOf(SAMPLE), { isFeasible: true, addable: undefined });
  assert.deepEqual(roomOf(decidedFrom([6, 4], 10, ["0"], [0])), { isFeasible: true, addable: 1 });
  assert.deepEqual(roomOf(decidedFrom([6, 4], 9, ["0"], [0, 1])), { isFeasible: false, addable: undefined });
});

const prices = (decided: DecidedElection, stable = false, cover = false): Sought =>
  ended(seek(new Decisions(problemOf(decided, cohortsOf(decided.ballots))), "prices", { stable, cover }));

test("prices of an election in which one project has one price", () => {
  // Each of the two supporters of p0 pays 2, and has nothing left for p1.
  const found = prices(decidedFrom([4, 9], 6, ["0", "0,1", "1"], [0]));
  assert(found.says === "found" && found.cover);
  const text = "pb-prices,1\ndenominator,100\nvoter_budget,201\nvoter,project,payment\n1,p0,200\n2,p0,200\n";
  assert.deepEqual(found.pieces.map(piece => new TextDecoder().decode(piece)), [text]);
});

test("where there can be no prices, it says why", () => {
  assert.deepEqual(prices(decidedFrom([6, 4], 9, ["0,1"], [0, 1])), { says: "infeasible" });
  const unpaid = prices(decidedFrom([6, 4], 10, ["0"], [0, 1]));
  assert(unpaid.says === "unpaid" && unpaid.project === 1);
  assert.deepEqual(unpaid.refutation.weights, [{ role: "least", project: 1, weight: 1 }]);
  // The supporter of p0 has to have a budget of 4, so that those of p1 have 8 left, which costs 5.
  const rich = decidedFrom([4, 5], 6, ["0", "1", "1"], [0]);
  assert.deepEqual(prices(rich), { says: "none" });
  // Budgets of 1 each are enough here, but together they aren't more than the limit.
  const poor = decidedFrom([1, 5], 10, ["1", "1", "0"], [0]);
  assert.deepEqual(prices(poor, false, true), { says: "none" });
  assert.equal((prices(poor) as { cover?: boolean }).cover, false);
});

test("an outcome of nothing, and an election of nobody", () => {
  assert.equal(prices(decidedFrom([5], 4, ["0"], [])).says, "found");
  assert.equal(prices(decidedFrom([5], 4, [], [])).says, "found");
});
