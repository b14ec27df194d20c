/* Checksums, and lists of them. */

import assert from "node:assert/strict";
import { createHash } from "node:crypto";
import test from "node:test";
import { absentOf, isListName, matchOf, sumsIn } from "../src/files/checksums.js";
import { Sha256 } from "../src/files/sha256.js";
import type { SumList } from "../src/files/checksums.js";
import type { Found } from "../src/files/pieces.js";

const found = (path: string): Found => {
  const folder = path.replace(/[^/]*$/, "");
  return { file: { name: path.slice(folder.length) } as File, folder };
};
const [one, two] = ["1".repeat(64), "ab".repeat(32)];
const list = (folder: string, text: string): SumList => ({ name: "SHA256SUMS", folder, sums: sumsIn(text)! });

test("sums are those of Node, whatever the length and the pieces", () => {
  for (const length of [0, 1, 3, 55, 56, 63, 64, 65, 119, 120, 128, 1000]) {
    const bytes = Uint8Array.from({ length }, (_, at) => at * 7 + length);
    for (const cut of [0, 1, 64, 100]) {
      const sum = new Sha256();
      sum.add(bytes.subarray(0, cut));
      sum.add(bytes.subarray(cut));
      assert.equal(sum.sum(), createHash("sha256").update(bytes).digest("hex"), `${length} bytes, cut at ${cut}`);
    }
  }
});

test("a list as sha256sum writes it", () => {
  assert.deepEqual([...sumsIn(`${one}  a.pb\n${two} *b c.csv\r\n`)!], [["a.pb", one], ["b c.csv", two]]);
  assert.deepEqual([...sumsIn(`\\${one}  a\\\\b\\nc\n`)!], [["a\\b\nc", one]]);
  assert.deepEqual([...sumsIn(`${two.toUpperCase()}  ./a.pb`)!], [["a.pb", two]]);
});

test("what is no list", () => {
  for (const text of ["", "\n", "META\n", `${one} a.pb`, `${one}  a.pb\nMETA\n`, `${one.slice(1)}  a.pb`]) {
    assert.equal(sumsIn(text), undefined, text);
  }
  assert(isListName("SHA256SUMS") && isListName("sha256sum.txt") && !isListName("SHA256SUMS.pb"));
});

test("a file is as its list says, is not, or isn't named there", () => {
  const sums = list("", `${one}  a.pb\n${two}  folder/b.csv\n`);
  assert.equal(matchOf(sums, found("a.pb"), one), "matches");
  assert.equal(matchOf(sums, found("a.pb"), two), "differs");
  assert.equal(matchOf(sums, found("b.csv"), two), "matches");
  assert.equal(matchOf(sums, found("c.pb"), one), "missing");
  assert.deepEqual(absentOf(sums, [found("a.pb")]), ["folder/b.csv"]);
});

test("a list in a folder names what lies in that folder", () => {
  const sums = list("town/", `${one}  a.pb\n${two}  inner/a.pb\n`);
  assert.equal(matchOf(sums, found("town/a.pb"), one), "matches");
  assert.equal(matchOf(sums, found("town/inner/a.pb"), two), "matches");
  assert.equal(matchOf(sums, found("other/a.pb"), one), "missing");
});
