/* Names of files as the page shows them. */

import assert from "node:assert/strict";
import test from "node:test";
import { savedAs, savedTogether, shortened, shownName, toldName, visible } from "../src/files/names.js";

test("a character that can't be seen is shown by its number", () => {
  assert.equal(visible("a\u202egpj.pb"), "a\\u{202e}gpj.pb");
  assert.equal(visible("b\u00a0\u3164"), "b\\u{a0}\\u{3164}");
  assert.equal(visible("a b"), "a b");
});

test("a joiner stays where it belongs to the spelling", () => {
  assert.equal(visible("\u0645\u06cc\u200c\u062e"), "\u0645\u06cc\u200c\u062e");
  assert.equal(visible("a\u200cb"), "a\\u{200c}b");
  assert.equal(visible("\u{1f468}\u200d\u{1f469}"), "\u{1f468}\u200d\u{1f469}");
});

test("characters that are kept stay as they are", () => {
  assert.equal(visible("a\tb\n", "\t"), "a\tb\\u{a}");
});

test("a long text is cut behind so many characters", () => {
  assert.equal(shortened("abcd", 4), "abcd");
  assert.equal(shortened("abcde", 4), "abcd…");
  assert.equal(shortened("\u{1f468}".repeat(5), 4), `${"\u{1f468}".repeat(4)}…`);
});

test("a long name keeps its front and its end", () => {
  const shown = shownName(`${"a".repeat(100)}${"b".repeat(100)}.pb`);
  assert.equal(shown, `${"a".repeat(60)}…${"b".repeat(57)}.pb`);
});

test("a name from right to left is set apart from the sentence", () => {
  assert.equal(toldName("\u05d0.pb"), "\u2068\u05d0.pb\u2069");
  assert.equal(toldName("a.pb"), "a.pb");
});

test("a file is saved under its name where that is a plain one", () => {
  for (const name of ["town.pb", "Łódź 2026.prices.csv", "it's $(so); #1.pb", "\u0645\u06cc\u200c\u062e.pb", "日本.pb"]) {
    assert.equal(savedAs(name), name);
  }
});

test("what can't be seen, leads to a folder, or isn't in names everywhere, goes from a name", () => {
  assert.equal(savedAs("a\u202egpj.pb"), "a_gpj.pb");
  assert.equal(savedAs("../../etc/passwd"), "_._.._etc_passwd");
  assert.equal(savedAs("c:\\town\n\0.pb"), "c__town__.pb");
  assert.equal(savedAs("<img src=\"x\">|*?.csv"), "_img src=_x_____.csv");
  assert.equal(savedAs(".bashrc"), "_bashrc");
  assert.equal(savedAs("-rf"), "_rf");
  assert.equal(savedAs(" a.pb. "), "_a.pb._");
  assert.deepEqual(["", "CON", "nul.pb", "com1.prices.csv", "console.pb"].map(savedAs),
                   ["_", "_CON", "_nul.pb", "_com1.prices.csv", "console.pb"]);
});

test("a name is saved with no more bytes than systems take, and keeps its ending", () => {
  for (const letter of ["a", "ż", "\u{1f468}"]) {
    const name = savedAs(`${letter.repeat(100_000)}.prices.csv`);
    assert(new TextEncoder().encode(name).length <= 200 && name.endsWith(`${letter}.prices.csv`), name);
  }
});

test("no two files are saved under one name", () => {
  assert.deepEqual(savedTogether(["a.csv", "b.csv", "A.csv", "a/.csv", "a_.csv"]), ["a.csv", "b.csv", "2_A.csv", "a_.csv", "2_a_.csv"]);
});
