/* How a call is made again while the other end of a pipe is slow. */

import assert from "node:assert/strict";
import test from "node:test";
import { awaited } from "../src/package/waiting.js";

/** Fails so often with a code, and then answers. */
function after(failures: number, code: string): () => string {
  let done = 0;
  return () => {
    if (done++ < failures) throw Object.assign(new Error(code), { code });
    return "answer";
  };
}

test("a call is made again until the other end is ready", () => {
  for (const failures of [0, 1, 2, 12]) assert.equal(awaited(after(failures, "EAGAIN")), "answer");
});

test("another failure is told at once", () => {
  const fails = after(1, "EIO");
  assert.throws(() => awaited(fails), /EIO/);
  assert.equal(awaited(fails), "answer");
});
