/* What answers say, by the objects that docs/JSON.md states, and the call that tells all of an answer, by the words of
   pbaudit_report in pbaudit.h. */

import assert from "node:assert/strict";
import test from "node:test";
import { pageCall, reportCall } from "../src/auditor/commands.js";
import { electionOf } from "../src/auditor/elections.js";
import { objectIn } from "../src/auditor/objects.js";
import { decoded, replyIn } from "../src/auditor/replies.js";
import { lineOf, saidBy } from "../src/auditor/says.js";
import { headlineOf } from "../src/words/headlines.js";
import type { Question } from "../src/auditor/commands.js";
import type { ElectionObject, FailedObject, RefusalObject, VerdictObject } from "../src/auditor/objects.js";
import type { Verdict } from "../src/auditor/says.js";

const mode = { stable: false, exhaustive: true, cover: false };
const election: ElectionObject = {
  limit: "10000000", projects: 3, voters: 3, funded: 2, declared_projects: null, declared_voters: null, other_selected: 0,
  unused_columns: [],
};
const verdict = (kind: string, more: object, failed: FailedObject | null = null): VerdictObject =>
  ({ answer: failed ? "no" : "yes", election, failed, kind, version: 1, ...more }) as unknown as VerdictObject;
const prices = (failed: FailedObject | null = null, stable = false): VerdictObject =>
  verdict("prices", { mode: { ...mode, stable }, groups: failed ? null : "weak" }, failed);
const refutation = (proves: string | null, failed: FailedObject | null = null): VerdictObject =>
  verdict("refutation", { proves, stable: true }, failed);
const groups = (failed: FailedObject | null, group: object | null): VerdictObject =>
  verdict("groups", { measure: "count", group }, failed);

test("a yes", () => {
  assert.deepEqual(saidBy(prices()), { says: "supported", form: "priceable" });
  assert.deepEqual(saidBy(prices(null, true)), { says: "supported", form: "stable" });
  assert.deepEqual(saidBy(verdict("violation", {})), { says: "violation" });
  assert.deepEqual(saidBy(refutation("unpriceable")), { says: "unpriceable", stable: false, cover: false });
  assert.deepEqual(saidBy(refutation("unpriceable cover")), { says: "unpriceable", stable: false, cover: true });
  assert.deepEqual(saidBy(refutation("unpriceable stable")), { says: "unpriceable", stable: true, cover: false });
  assert.deepEqual(saidBy(refutation("unpriceable stable cover")), { says: "unpriceable", stable: true, cover: true });
  assert.deepEqual(saidBy(groups(null, null)), { says: "satisfied", measure: "count" });
});

test("a no, with the voter and the project that it names", () => {
  const said = (name: string, voter: number | null, project: string | null): unknown => saidBy(prices({ name, voter, project }));
  assert.deepEqual(said("Feasible", null, null), { says: "failed", condition: "Feasible" });
  assert.deepEqual(said("C5", null, "102"), { says: "failed", condition: "C5", project: "102" });
  assert.deepEqual(said("C2", 9, null), { says: "failed", condition: "C2", voter: 9 });
  // An id may have blanks, words of the printed line, and ends of lines that aren't LF.
  const odd = { says: "failed", condition: "C1", voter: 2, project: "b project c\u2028 voter 3" };
  assert.deepEqual(said("C1", 2, "b project c\u2028 voter 3"), odd);
});

test("a group that falls short, by a measure, with the project and the size of the largest such group", () => {
  const object = groups({ name: "EJR+", voter: null, project: "voters 9 project b" }, { voters: 90 });
  const short = { says: "failed", condition: "EJR+", measure: "count", voters: 90, project: "voters 9 project b" };
  assert.deepEqual(saidBy(object), short);
});

const refusal: RefusalObject =
  { answer: "refused", input: "certificate", kind: "refusal", name: "UnknownVoter", number: 24, record: 4, version: 1 };

test("a refusal, and an election that was read", () => {
  const refused = { says: "refused", input: "certificate", number: 24, name: "UnknownVoter", record: 4 };
  assert.deepEqual(saidBy(refusal), refused);
  const read = (its: object): unknown => saidBy({ kind: "election", answer: "yes", election: { ...election, ...its } });
  assert.deepEqual(read({}), { says: "read", voters: 3, projects: 3, funded: 2 });
  assert.deepEqual(read({ funded: null }), { says: "read", voters: 3, projects: 3 });
});

test("an object that says something else than one line, which no caller has, isn't taken for one", () => {
  const table = { answer: "yes", election, outcome: { funded: 2, cost: "10000000" }, version: 1 };
  const others = [
    { ...table, kind: "margins", grains_per_unit: 1000000, projects: [] },
    { ...table, kind: "group_margins", measure: "cost", groups: [] },
    { answer: "yes", kind: "both", prices: prices(), version: 1, violation: verdict("violation", {}) },
  ];
  for (const other of others) assert.throws(() => saidBy(other as unknown as VerdictObject), TypeError);
});

test("the line of an answer, as docs/FORMATS.md has it", () => {
  const line = (object: Parameters<typeof saidBy>[0]): string => lineOf(saidBy(object));
  const failed = (voter: number | null, project: string | null): FailedObject => ({ name: "C1", voter, project });
  assert.equal(line(prices()), "supported priceable");
  assert.equal(line(prices(null, true)), "supported stable");
  assert.equal(line(verdict("violation", {})), "violation");
  for (const proves of ["unpriceable", "unpriceable cover", "unpriceable stable", "unpriceable stable cover"]) {
    assert.equal(line(refutation(proves)), proves);
  }
  assert.equal(line(groups(null, null)), "satisfied ejr+ by count");
  assert.equal(line(prices(failed(2, 'b "c" voter 3'))), 'failed C1 voter 2 project b "c" voter 3');
  assert.equal(line(prices(failed(0, null))), "failed C1 voter 0");
  assert.equal(line(prices(failed(null, "0"))), "failed C1 project 0");
  assert.equal(line(prices(failed(null, null))), "failed C1");
  const short = groups({ name: "EJR+", voter: null, project: "105" }, { voters: 7 });
  assert.equal(line(short), "failed EJR+ by count voters 7 project 105");
  assert.equal(line(refusal), "refused certificate 24 UnknownVoter record 4");
  const read = (its: object): string => line({ kind: "election", answer: "yes", election: { ...election, ...its } });
  assert.equal(read({}), "read 3 voters 3 projects 2 funded");
  assert.equal(read({ funded: 0 }), "read 3 voters 3 projects 0 funded");
  assert.equal(read({ funded: null }), "read 3 voters 3 projects no outcome");
});

test("the sentence on an answer", () => {
  const failed = { name: "U2", voter: null, project: null };
  const headline = (object: VerdictObject, isStable: boolean): string =>
    headlineOf(object.kind, saidBy(object) as Verdict, isStable);
  assert.equal(headline(prices(null, true), true), "saysStable");
  assert.equal(headline(prices(failed), false), "saysNotSupported");
  assert.equal(headline(verdict("violation", {}, failed), true), "saysNoViolation");
  assert.equal(headline(refutation("unpriceable stable cover"), true), "saysRefutedStableCover");
  assert.equal(headline(refutation(null, failed), true), "saysNotRefutedStable");
  assert.equal(headline(refutation(null, failed), false), "saysNotRefuted");
  assert.equal(headline(groups(failed, { voters: 1 }), false), "someShort");
  assert.equal(headline(groups(null, null), false), "noneShort");
});

const bytes = (text: string): Uint8Array => new TextEncoder().encode(text);
const NOTE = "note: num_votes says 4, counted 3";

test("a reply has two lines of JSON, and behind them the text as it is", () => {
  const beside = JSON.stringify({ hint: null, notes: [NOTE], refusal: null }), object = JSON.stringify(prices());
  const text = "supported priceable\n\u2028 and \ufeffmore\r\n\n";
  const reply = replyIn(0, bytes(`${beside}\n${object}\n${text}`), true);
  assert.equal(reply.status, 0);
  assert.deepEqual(reply.beside, { hint: null, notes: [NOTE], refusal: null });
  assert.deepEqual(reply.object, prices());
  assert.equal(decoded(reply.text), text);
});

test("a reply on a canonical text has no object, also where a file is refused", () => {
  const hint = { line: 4, sentences: ["there is no voter '7'", "line 9: that is a row"] };
  const beside = JSON.stringify({ hint, notes: [], refusal }), line = "refused certificate 24 UnknownVoter record 4\n";
  const reply = replyIn(2, bytes(`${beside}\n${line}`), false);
  assert.deepEqual(reply.beside, { hint, notes: [], refusal });
  assert.equal(reply.object, undefined);
  assert.equal(decoded(reply.text), line);
});

test("notes on an election, in the order of the program's, with all digits of what a file declares", () => {
  const text = `{"election":{"declared_projects":1000000000000000000,"declared_voters":999999999999999999,"funded":null,
    "limit":"0","other_selected":2,"projects":3,"unused_columns":["weight","sign"],"voters":4}}`;
  const read = electionOf((objectIn(text) as { election: ElectionObject }).election);
  assert.deepEqual(read, {
    limit: 0n, projects: 3, voters: 4,
    notes: [
      { says: "otherCount", of: "projects", said: "1000000000000000000", counted: "3" },
      { says: "otherCount", of: "votes", said: "999999999999999999", counted: "4" },
      { says: "oddSelected", projects: "2" },
      { says: "unusedColumn", column: "weight" }, { says: "unusedColumn", column: "sign" },
    ],
  });
  assert.deepEqual(electionOf({ ...election, declared_voters: "3", declared_projects: "3" }).notes, []);
});

test("a key inside of an id stays text", () => {
  const odd = JSON.stringify({ id: '"declared_voters":5' });
  assert.deepEqual(objectIn(odd), { id: '"declared_voters":5' });
});

const place = { at: 16n, length: 8n }, other = { at: 32n, length: 3n };
const question: Question = { files: { election: place }, names: {}, mode, measure: "cost" };

test("the call of a question, whose number the measure says", () => {
  const words = [16n, 8n, 16n, 0n, 0, 16n, 0n, 16n, 0n, 0, 1, 0];
  assert.deepEqual(reportCall("groups", question), { name: "pbaudit_report", words: [8, ...words] });
  assert.deepEqual(reportCall("groups", { ...question, measure: "count" }).words[0], 9);
  assert.deepEqual(reportCall("read", question), { name: "pbaudit_report", words: [0, ...words] });
  const files = { election: place, outcome: other, certificate: other, violation: other };
  const both = [4, 16n, 8n, 32n, 3n, 1, 32n, 3n, 32n, 3n, 1, 1, 0];
  assert.deepEqual(reportCall("both", { ...question, files, mode: { ...mode, stable: true } }).words, both);
  assert.throws(() => reportCall("groups", { ...question, measure: undefined }), TypeError);
  assert.throws(() => reportCall("prices", question), TypeError);
  assert.throws(() => reportCall("page", question), TypeError);
});

test("the call of a page", () => {
  const names = { election: place, outcome: place, certificate: place }, asked = { ...question, names, language: other };
  const words = [16n, 8n, 16n, 8n, 16n, 0n, 16n, 8n, 0, 1, 32n, 3n, 64n];
  const facts = { at: 64n, length: 40n };
  assert.deepEqual(pageCall("groupsPage", { ...asked, measure: "count" }, facts), { name: "pbaudit_groups_page", words });
  assert.throws(() => pageCall("page", asked, facts), TypeError);
});
