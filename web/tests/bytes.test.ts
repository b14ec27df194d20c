/* What is read from the bytes of a file. */

import assert from "node:assert/strict";
import test from "node:test";
import { excerptOf, sumOf } from "../src/worker/bytes.js";

const bytes = (text: string): Uint8Array => new TextEncoder().encode(text);

test("a line is found whatever ends the lines", () => {
  const file = bytes("one\rtwo\r\nthree\n\nfive");
  assert.deepEqual([1, 2, 3, 4, 5, 6].map(line => excerptOf(file, line)), ["one", "two", "three", "", "five", ""]);
});

test("a line far down in a long file is found at once", () => {
  const begun = Date.now();
  assert.equal(excerptOf(bytes(`${"1;a\n".repeat(1_000_000)}here`), 1_000_001), "here");
  assert(Date.now() - begun < 5000);
});

test("a sum tells a change of any byte", () => {
  const sums = new Set([0, 1, 5, 8].map(at => sumOf(Uint8Array.from({ length: 9 }, (_, each) => Number(each === at)))));
  assert.equal(sums.size, 4);
  assert.equal(sumOf(bytes("abcdefgh")), sumOf(bytes("abcdefgh")));
});
