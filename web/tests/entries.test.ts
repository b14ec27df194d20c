/* The files of a folder that are audited together, by docs/FORMATS.md. */

import assert from "node:assert/strict";
import test from "node:test";
import { byBytes, entriesOf } from "../src/package/entries.js";

test("elections in the order of their bytes, each with its certificates, prices first", () => {
  const files = ["b.violation.csv", "b.prices.csv", "b.pb", "\u{1f468}.pb", "\uffee.pb", "A.pb", "notes.txt", "c.prices.csv"];
  assert.deepEqual(entriesOf(files), [
    { name: "A", roles: ["election"] }, { name: "b", roles: ["election", "prices", "violation"] },
    { name: "\uffee", roles: ["election"] }, { name: "\u{1f468}", roles: ["election"] },
  ]);
});

test("names that are empty or have control characters are none", () => {
  assert.deepEqual(entriesOf([".pb", "tab\t.pb", "delete\u007f.pb", "a.PB"]), []);
});

test("texts by their bytes in UTF-8", () => {
  assert.deepEqual(["b", "", "ab", "a", "\u{10000}", "\uffff"].sort(byBytes), ["", "a", "ab", "b", "\uffff", "\u{10000}"]);
});
