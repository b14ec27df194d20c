/* The report of the package on a folder. */

import assert from "node:assert/strict";
import test from "node:test";
import { entryIn } from "../src/auditor/replies.js";
import { keptOf, reportOf } from "../src/package/report.js";
import type { ToldEntry, Total } from "../src/auditor/replies.js";

const election = { voters: 1, projects: 2, funded: 0 };
const PRICES = { answer: "no", election, failed: { name: "C1", voter: 1, project: 'a"' }, kind: "prices", version: 1 };
const REFUSAL = { answer: "refused", input: "election", kind: "refusal", name: "NoMeta", number: 2, record: 1, version: 1 };

/** What the library tells of an election of a folder. */
const toldOf = (found: object, lines: readonly string[], total: Total): ToldEntry => entryIn(
  new TextEncoder().encode([JSON.stringify({ kind: "entry", version: 1, ...found }), ...lines, ""].join("\n")), total);

const TOLD = [
  toldOf({
    name: 'a"b', election: { answer: "yes", election, kind: "election", version: 1 }, prices: PRICES,
    violation: { answer: "yes", election, failed: null, kind: "violation", version: 1 },
  }, ['a"b.pb: read 1 voters 2 projects 0 funded', 'a"b.prices.csv: failed C1 voter 1 project a"', 'a"b.violation.csv: violation'],
  { elections: 1, yes: 1, no: 1, refused: 0 }),
  toldOf({ name: "c", election: REFUSAL, prices: null, violation: null }, ["c.pb: refused election 2 NoMeta record 1"],
    { elections: 1, yes: 0, no: 0, refused: 1 }),
];

test("a report has the lines of each election, and the total of all", () => {
  const { status, text, files } = reportOf(TOLD.map(keptOf), total => {
    assert.deepEqual(total, { elections: 2, yes: 1, no: 1, refused: 1 });
    return { status: 2, text: "the total\n" };
  });
  assert.equal(status, 2);
  assert.equal(text, [
    'a"b.pb: read 1 voters 2 projects 0 funded', 'a"b.prices.csv: failed C1 voter 1 project a"', 'a"b.violation.csv: violation',
    "c.pb: refused election 2 NoMeta record 1", "the total", "",
  ].join("\n"));
  assert.deepEqual(files.map(each => each.file), ['a"b.pb', 'a"b.prices.csv', 'a"b.violation.csv', "c.pb"]);
  assert.deepEqual(files[1].says, { says: "failed", condition: "C1", voter: 1, project: 'a"' });
});

test("the report on no election has the total of none", () => {
  const report = reportOf([], total => ({ status: 0, text: `${Object.values(total).join(" ")}\n` }));
  assert.deepEqual(report, { status: 0, answer: "report", files: [], text: "0 0 0 0\n" });
});

test("a name keeps the byte order mark with which it begins", () => {
  const told = toldOf({ name: "\ufefftown", election: REFUSAL, prices: null, violation: null }, ["\ufefftown.pb: refused .."],
                      { elections: 1, yes: 0, no: 0, refused: 1 });
  assert.deepEqual([told.object.name, told.text], ["\ufefftown", "\ufefftown.pb: refused ..\n"]);
});
