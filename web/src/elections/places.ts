/* The places of ids among the projects of an election. Ids are compared byte for byte, and none becomes a text: twenty
   million of them are looked up in a second. */

import type { Field } from "./records.js";

const FIRST = 0x811c9dc5, FACTOR = 0x01000193;

function hashOf(bytes: Uint8Array, start: number, end: number): number {
  let hash = FIRST;
  for (let at = start; at < end; at++) hash = Math.imul(hash ^ bytes[at], FACTOR);
  return (hash ^ hash >>> 15) >>> 0;
}

/** A table of ids. */
export class Places {
  private readonly bytes: Uint8Array;
  private readonly ids: Field[] = [];
  private readonly slots: Int32Array;

  /** The ids are stretches of a file's bytes, and are copied, so that these needn't be kept. */
  constructor(bytes: Uint8Array, ids: readonly Field[]) {
    this.bytes = new Uint8Array(ids.reduce((sum, { start, end }) => sum + end - start, 0));
    this.slots = new Int32Array(2 ** Math.ceil(Math.log2(2 * ids.length + 2))).fill(-1);
    let at = 0;
    ids.forEach(({ start, end }, place) => {
      this.slots[this.slotOf(bytes, start, end)] = place;
      this.bytes.set(bytes.subarray(start, end), at);
      this.ids.push({ start: at, end: at += end - start });
    });
  }

  /** The place of an id that is a stretch of other bytes; below 0 where it is none. */
  of(bytes: Uint8Array, start: number, end: number): number {
    return this.slots[this.slotOf(bytes, start, end)];
  }

  /** The slot of an id, or the empty one that it would have. */
  private slotOf(bytes: Uint8Array, start: number, end: number): number {
    const last = this.slots.length - 1;
    let slot = hashOf(bytes, start, end) & last;
    while (this.slots[slot] >= 0 && !this.isSame(this.ids[this.slots[slot]], bytes, start, end)) slot = slot + 1 & last;
    return slot;
  }

  private isSame(id: Field, bytes: Uint8Array, start: number, end: number): boolean {
    if (id.end - id.start !== end - start) return false;
    for (let at = start; at < end; at++) {
      if (this.bytes[id.start + at - start] !== bytes[at]) return false;
    }
    return true;
  }
}
