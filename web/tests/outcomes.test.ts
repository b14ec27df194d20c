/* What is compared of an election: the outcomes of its rules, and how many voters got how much. */

import assert from "node:assert/strict";
import test from "node:test";
import { outcomesOf, outcomeText, rangesFor, shownSpread, widthFor } from "../src/comparing/outcomes.js";
import { Electorate } from "../src/comparing/rule.js";
import { MILLION } from "../src/elections/amounts.js";
import { cohortsOf } from "../src/finding/cohorts.js";
import { decidedFrom, ended } from "./election_files.js";

test("the outcome that was asked about, most votes first, and Equal Shares by cost and by number", () => {
  // The row "what counts" of tests/tables/shares.json: p0 costs 8 and all four want it, p1 costs 2 and two of them do.
  const decided = decidedFrom([8, 2], 10, ["0,1", "0,1", "0", "0"], [1]);
  const { outcomes, width } = ended(outcomesOf(new Electorate(decided, cohortsOf(decided.ballots)), "none"));
  assert.deepEqual(outcomes.map(({ rule, funded }) => [rule, funded]),
                   [["own", [1]], ["votes", [0, 1]], ["cost", [0]], ["count", [0, 1]]]);
  assert.deepEqual(outcomes.map(({ cost }) => cost / MILLION), [2n, 10n, 8n, 10n]);
  // Two voters got 10 at most, so each of five ranges has a width of 2.
  assert.equal(width, 2n * MILLION);
  assert.deepEqual(outcomes.map(({ got }) => got.voters), [[2, 2, 0, 0, 0], [0, 0, 0, 0, 4], [0, 0, 0, 0, 4], [0, 0, 0, 0, 4]]);
  assert.deepEqual(outcomes.map(({ got: { least, middle } }) => [least / MILLION, middle / MILLION]),
                   [[0n, 2n], [8n, 10n], [8n, 8n], [8n, 10n]]);
});

test("ranges of 1, 2, 5, 10 and so on, of which six at most reach an amount", () => {
  const found = [0n, 1n, 6n, 7n, 12n, 13n, 30n, 31n, 60n, 61n, 10n ** 18n].map(most => {
    const width = widthFor(most);
    return [width, rangesFor(most, width)];
  });
  assert.deepEqual(found, [[MILLION, 1], [1n, 1], [1n, 6], [2n, 4], [2n, 6], [5n, 3], [5n, 6], [10n, 4], [10n, 6], [20n, 4],
                           [2n * 10n ** 17n, 5]]);
});

test("a range has its first amount, and the last one its second too", () => {
  const all = [[0n, 3], [1n, 1], [2n, 5], [6n, 7]].map(([amount, voters]) => ({ amount: amount as bigint, voters: voters as number }));
  assert.deepEqual(shownSpread({ all, least: 0n, middle: 2n, most: 6n }, 2n, 3).voters, [4, 5, 7]);
});

test("an outcome file has ids with commas and quotes in quotes", () => {
  assert.equal(outcomeText(["a", "b,c", 'd"'], [0, 1, 2]), 'pb-outcome,1\nproject,a\nproject,"b,c"\nproject,"d"""\n');
});
