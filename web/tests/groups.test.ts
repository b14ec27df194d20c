/* Answers on groups that fall short: what the objects say (docs/JSON.md), and what the page says of them, for elections
   that were worked out by hand. */

import assert from "node:assert/strict";
import test from "node:test";
import { covered, cutPart, groupsOf, weightOf } from "../src/auditor/groups.js";
import { shortColumns, shortSentence } from "../src/page/short.js";
import { wordsOf } from "../src/words/languages.js";
import type { Group, GroupsAnswer } from "../src/auditor/groups.js";
import type { GroupsObject } from "../src/auditor/objects.js";
import type { ShortAudit } from "../src/page/short.js";
import type { Page } from "../src/page/page.js";

/** Limit 12, x costs 6 and is funded, y costs 2. Ballots: y / y / x, y / x. The three who approve y have 9 of the limit. */
const election = {
  limit: "12000000", projects: 2, voters: 4, funded: 1, declared_projects: null, declared_voters: null,
  other_selected: 0, unused_columns: [],
};
const share = { numerator: "36000000", denominator: 4 };
const group = { project: "y", number: 2, cost: "2000000", supporters: 3, voters: 3, share };
const outcome = { cost: "6000000", funded: 1 };
const byCost = JSON.stringify({
  answer: "no", election, outcome, kind: "groups", measure: "cost", version: 1,
  failed: { name: "EJR+", project: "y", voter: null },
  group: { ...group, most: "6000000", need: "8000000", missing: { numerator: "-4000000", denominator: 4 } },
});
/** By count the third gets one project, so the group has to have 2 * 2. */
const byCount = JSON.stringify({
  answer: "no", election, outcome, kind: "groups", measure: "count", version: 1,
  failed: { name: "EJR+", project: "y", voter: null },
  group: { ...group, most: "1", need: "4000000", missing: { numerator: "-20000000", denominator: 4 } },
});

const groupsIn = (text: string): GroupsAnswer => groupsOf(JSON.parse(text) as GroupsObject);

test("what an object says", () => {
  const told = groupsIn(byCost);
  assert.deepEqual(told, {
    isShort: true, funded: 1, cost: 6_000_000n,
    election: { limit: 12_000_000n, projects: 2, voters: 4, funded: 1, notes: [] },
    group: {
      project: "y", number: 2, cost: 2_000_000n, supporters: 3, voters: 3, most: 6_000_000n, need: 8_000_000n,
      share: { numerator: 36_000_000n, denominator: 4n },
    },
  });
  assert.deepEqual(weightOf(told), { numerator: 3n, denominator: 4n });
  const none = groupsIn(JSON.stringify({ ...JSON.parse(byCost) as object, answer: "yes", failed: null, group: null }));
  assert.equal(none.isShort, false);
  assert.equal(none.group, null);
  assert.equal(weightOf(none), undefined);
});

const with_ = (need: bigint, numerator: bigint, denominator: bigint): Group =>
  ({ ...groupsIn(byCost).group!, need, share: { numerator, denominator } });

test("parts of the limit are cut, and stay on their side of the need", () => {
  assert.deepEqual(cutPart(with_(8_000_000n, 36_000_000n, 4n)), { millionths: 9_000_000n, isCut: false });
  // A third of 10 is 3.33 and more; a need of 3.333333 is covered by it.
  assert.deepEqual(cutPart(with_(3_330_000n, 10_000_000n, 3n)), { millionths: 3_330_000n, isCut: true });
  assert.deepEqual(cutPart(with_(3_333_333n, 10_000_000n, 3n)), { millionths: 3_333_333n, isCut: true });
  assert.equal(covered(with_(8_000_000n, 36_000_000n, 4n)), 112n);
  assert.equal(covered(with_(1000n, 999_999n, 1000n)), 99n);
  assert.equal(covered(with_(0n, 36_000_000n, 4n)), undefined);
});

/** The page in a language, which has or hasn't read the names of an election. */
const pageIn = (language: "en" | "de", title?: string): Page => ({
  language, words: wordsOf(language), election: { titleIn: () => title, currencyIn: () => "" },
}) as unknown as Page;

const audit = (cost: string, count?: string): ShortAudit => ({
  task: { election: null, certificate: null, outcome: null }, state: "done", status: 1,
  short: { cost: groupsIn(cost), ...count ? { count: groupsIn(count) } : {} },
}) as ShortAudit;

test("the sentence of a list", () => {
  const told = "3 of 3 who want “Yard”; their part covers 112\u00a0% of what they would have needed. "
    + "By number of projects: A group of voters falls short.";
  assert.equal(shortSentence(pageIn("en", "Yard"), audit(byCost, byCount)), told);
  const closest = shortSentence(pageIn("en"), audit(byCost.replace('"no"', '"yes"'), byCount));
  assert(closest.startsWith("Closest: 3 of 3 who want project y; "), closest);
  const free = byCost.replace('"need":"8000000"', '"need":"0"');
  assert(shortSentence(pageIn("de"), audit(free, byCount)).startsWith("3 von 3, die Projekt y wollen, das nichts kostet."));
});

test("as long as there is only the answer by cost, nothing is said of the other", () => {
  const told = "3 of 3 who want “Yard”; their part covers 112\u00a0% of what they would have needed.";
  assert.equal(shortSentence(pageIn("en", "Yard"), audit(byCost)), told);
  const columns = shortColumns(pageIn("en", "Yard"), audit(byCost));
  assert.deepEqual(columns, ["A group of voters falls short", told, "", ""]);
});

test("columns of a table", () => {
  const columns = shortColumns(pageIn("en", "Yard"), audit(byCost, byCount));
  assert.deepEqual(columns.filter((_, at) => at % 2 === 0), ["A group of voters falls short", "A group of voters falls short"]);
  assert(columns[3].includes("covers 225\u00a0%"), columns[3]);
  assert.deepEqual(shortColumns(pageIn("en"), { task: {} } as unknown as ShortAudit), ["", "", "", ""]);
});
