/* Tables for spreadsheets. */

import assert from "node:assert/strict";
import test from "node:test";
import { csvOf } from "../src/files/csv.js";

test("fields are quoted where they have to be", () => {
  assert.equal(csvOf([["a", "b c"], ["1,5", 'say "no"']]), 'a,b c\r\n"1,5","say ""no"""\r\n');
});

test("no field is a formula", () => {
  assert.equal(csvOf([["=1+1", "+1", "-1", "@a", "a=1"]]), "'=1+1,'+1,'-1,'@a,a=1\r\n");
  assert.equal(csvOf([['=HYPERLINK("x")']]), `"'=HYPERLINK(""x"")"\r\n`);
});

test("nor is one behind a semicolon, where that begins a cell", () => {
  assert.equal(csvOf([["a;=1+1;b"], ["a; -1"], ["a;b=1"]]), `"a;'=1+1;b"\r\n"a; '-1"\r\n"a;b=1"\r\n`);
  assert.equal(csvOf([['a;"=1+1']]), `"a;""'=1+1"\r\n`);
  assert.equal(csvOf([["\uff1d1+1"], ["\n=1"]]), `'\uff1d1+1\r\n"'\n=1"\r\n`);
});
