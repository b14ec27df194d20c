/* The library as native code, by an addon of Node (web/addon.c): the same functions, on memory that is had here. */

import { INTERFACE } from "../auditor/statuses.js";
import type { Word } from "../auditor/commands.js";
import type { Load } from "../auditor/loaded.js";

/** A function of the addon, which takes the memory ahead of its words. It checks them, and throws where one is wrong. */
type Native = (memory: ArrayBuffer, ...words: Word[]) => number;

/** What places are multiples of, where the first is, and how much memory there is at first. */
const STEP = 16, FIRST = STEP, SMALLEST = 1 << 20;

/** Memory of which room is taken, one place behind the other. */
class Memory {
  buffer = new ArrayBuffer(SMALLEST);
  private next = FIRST;

  /** The address of room for so many bytes, or 0 where there is none. */
  room(length: bigint): bigint {
    const at = this.next, end = at + Number(length);
    if (end > this.buffer.byteLength && !this.grow(end)) return 0n;
    this.next = Math.ceil(end / STEP) * STEP;
    return BigInt(at);
  }

  /** Has room for so many bytes, if the system gives that much. */
  expect(length: number): void {
    const end = this.next + length;
    if (end > this.buffer.byteLength) this.lengthen(end);
  }

  private grow(end: number): boolean {
    let length = this.buffer.byteLength;
    while (length < end) length *= 2;
    return this.lengthen(length);
  }

  /** Has so much memory, if the system gives it. */
  private lengthen(length: number): boolean {
    try {
      const larger = new ArrayBuffer(length);
      new Uint8Array(larger).set(new Uint8Array(this.buffer));
      this.buffer = larger;
    } catch (error) {
      if (error instanceof RangeError) return false;
      throw error;
    }
    return true;
  }

  reset(): void {
    new Uint8Array(this.buffer, 0, this.next).fill(0);
    this.next = FIRST;
  }
}

/** The functions of the library that are called. */
const CALLED = ["pbaudit_report", "pbaudit_answer_page", "pbaudit_groups_page", "pbaudit_folder_entry", "pbaudit_folder_total"];

/** Gives the library of an addon; nothing, where this is no addon of the interface that is called here. */
export function ofAddon(addon: unknown): Load | undefined {
  const exported = Object.entries(addon ?? {}), functions = exported.filter(([, each]) => typeof each === "function");
  if (!exported.some(([name, each]) => name === "interface" && each === INTERFACE)) return undefined;
  if (!CALLED.every(name => functions.some(([other]) => other === name))) return undefined;
  return () => {
    const memory = new Memory();
    const calls = functions.map(([name, each]: [string, Native]) =>
      [name, (...words: Word[]) => each(memory.buffer, ...words)]);
    const room = (length: bigint): bigint => memory.room(length);
    return {
      calls: { ...Object.fromEntries(calls), memory, pbaudit_room: room },
      expect: length => memory.expect(length),
      reset: () => memory.reset(),
    };
  };
}
