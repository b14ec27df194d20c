/* The memory on which native code works, with a stand-in for the addon. */

import assert from "node:assert/strict";
import test from "node:test";
import { INTERFACE } from "../src/auditor/statuses.js";
import { ofAddon } from "../src/package/native.js";
import type { Calls } from "../src/auditor/loaded.js";

const byteAt = (memory: ArrayBuffer, at: bigint): number => new Uint8Array(memory)[Number(at)];
const addon = {
  interface: INTERFACE, pbaudit_report: byteAt, pbaudit_answer_page: byteAt, pbaudit_groups_page: byteAt, pbaudit_folder_entry: byteAt,
  pbaudit_folder_total: byteAt,
};

const room = (calls: Calls, length: number): number => Number((calls.pbaudit_room as (length: bigint) => bigint)(BigInt(length)));
const bytes = (calls: Calls, at: number, length: number): Uint8Array => new Uint8Array(calls.memory.buffer, at, length);

test("places begin at multiples of 16, none is at 0, and none overlaps the one before", () => {
  const { calls } = ofAddon(addon)!();
  let end = 1;
  for (const length of [0, 1, 15, 16, 17, 0, 0, 1 << 20, 3, 5 << 20]) {
    const at = room(calls, length);
    assert(at >= end && at % 16 === 0 && at + length <= calls.memory.buffer.byteLength);
    end = at + length;
  }
});

test("what is in the memory stays where it is as this grows, and a function is given the memory that there is", () => {
  const { calls } = ofAddon(addon)!(), at = room(calls, 3), first = calls.memory.buffer;
  bytes(calls, at, 3).set([7, 8, 9]);
  room(calls, 9 << 20);
  assert(calls.memory.buffer !== first);
  assert.deepEqual([...bytes(calls, at, 3)], [7, 8, 9]);
  assert.equal((calls.pbaudit_report as (at: bigint) => number)(BigInt(at + 1)), 8);
});

test("what is expected is there at once, and stays where it is", () => {
  const { calls, expect } = ofAddon(addon)!(), at = room(calls, 3);
  bytes(calls, at, 3).set([7, 8, 9]);
  expect(9 << 20);
  const { buffer } = calls.memory;
  assert.deepEqual([...bytes(calls, at, 3)], [7, 8, 9]);
  for (let count = 0; count < 9; count++) room(calls, (1 << 20) - 16);
  assert(calls.memory.buffer === buffer && buffer.byteLength < 10 << 20);
  expect(2 ** 52);
  assert(calls.memory.buffer === buffer);
});

test("all room is taken back, and is zero when it is given again", () => {
  const { calls, reset } = ofAddon(addon)!(), at = room(calls, 100_000), size = calls.memory.buffer.byteLength;
  bytes(calls, at, 100_000).fill(255);
  reset();
  assert.equal(room(calls, size - at), at);
  assert(bytes(calls, at, size - at).every(byte => byte === 0));
  assert.equal(calls.memory.buffer.byteLength, size);
});

test("there is no room where the system gives none, and what there was stays", () => {
  const { calls } = ofAddon(addon)!(), at = room(calls, 1);
  assert.equal(room(calls, 2 ** 52), 0);
  assert.equal(room(calls, 1), at + 16);
});

test("two have no memory in common", () => {
  const load = ofAddon(addon)!, [one, other] = [load().calls, load().calls], at = room(one, 1);
  bytes(one, at, 1).fill(1);
  assert.equal(bytes(other, room(other, 1), 1)[0], 0);
});

test("nothing but an addon of this interface is one", () => {
  const { pbaudit_folder_total: _, ...older } = addon;
  const others = [undefined, null, {}, 1, "", older, { ...addon, interface: INTERFACE + 1 }, { ...addon, interface: `${INTERFACE}` }];
  for (const other of others) {
    assert.equal(ofAddon(other), undefined);
  }
});
