/* What the page's worker tells of an audit, by what the library replies (docs/JSON.md). */

import assert from "node:assert/strict";
import test from "node:test";
import { Audit } from "../src/worker/audit.js";
import type { Auditor } from "../src/auditor/auditor.js";
import type { Command } from "../src/auditor/commands.js";
import type { Ending, Order } from "../src/worker/orders.js";

const mode = { stable: false, exhaustive: true, cover: false };
const election = {
  limit: "10000000", projects: 3, voters: 3, funded: 2, declared_projects: null, declared_voters: "4", other_selected: 0,
  unused_columns: [],
};
const prices = { answer: "yes", election, failed: null, groups: "strict", kind: "prices", mode, version: 1 };
const violation = { answer: "yes", election, failed: null, kind: "violation", version: 1 };
const margins = { answer: "yes", election, grains_per_unit: 1000000, kind: "margins", projects: [], version: 1 };
const both = { answer: "yes", kind: "both", prices, version: 1, violation };

const text = new TextEncoder().encode("what is printed\n");

/** What is told of a command if the library replies with an object, or without one. */
function endingOf(command: Command, object?: object): Ending {
  const auditor = { report: () => ({ status: 0, beside: { hint: null, notes: [], refusal: null }, object, text }) };
  const question = { files: {}, names: {}, mode }, order = { command, mode, language: "en", files: {} } as unknown as Order;
  return new Audit(auditor as unknown as Auditor, order, question, () => {}).ending();
}

const note = { says: "otherCount", of: "votes", said: "4", counted: "3" };
const told = { tells: "answer", status: 0, kind: "unknown", sums: ["", "", ""] };

test("of a certificate it tells the line, the same as facts, the notes on the election and what it says of groups", () => {
  const says = { line: "supported priceable", said: { says: "supported", form: "priceable" }, notes: [note], groups: "strict" };
  assert.deepEqual(endingOf("prices", prices), { ...told, ...says });
});

test("of an election alone it tells what that has", () => {
  const read = { limit: 10000000n, projects: 3, voters: 3, funded: 2, notes: [note] };
  const said = { says: "read", voters: 3, projects: 3, funded: 2 };
  const says = { line: "read 3 voters 3 projects 2 funded", said, notes: [note], groups: null, read };
  assert.deepEqual(endingOf("read", { answer: "yes", election, kind: "election", version: 1 }), { ...told, ...says });
});

test("of a table, and of a certificate in its canonical form, it tells the text alone", () => {
  assert.deepEqual(endingOf("margins", margins), { ...told, text });
  assert.deepEqual(endingOf("groupMargins", { ...margins, kind: "group_margins" }), { ...told, text });
  assert.deepEqual(endingOf("tidy"), { ...told, text });
});

test("where an object comes that says nothing in one line, no empty line is told", () => {
  assert.throws(() => endingOf("prices", both), TypeError);
  assert.throws(() => endingOf("prices", margins), TypeError);
});
