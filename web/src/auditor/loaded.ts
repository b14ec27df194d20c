/* The library that an auditor calls, with memory of its own: here a WebAssembly module. In Node it may also be native code. */

import { OutOfMemory } from "./statuses.js";

/** The functions of the library by their names, the memory in which their addresses are places, and what gives room there. */
export interface Calls {
  readonly memory: { readonly buffer: ArrayBuffer };
  readonly [name: string]: unknown;
}

/** The library with its memory. */
export interface Loaded {
  readonly calls: Calls;
  /** Has memory ready for so many bytes, where that spares moving what is in it. */
  expect(length: number): void;
  /** Takes all room back, and makes the memory what it was at first, but for how much there is. */
  reset(): void;
}

/** Gives the library, each time with other memory. */
export type Load = () => Loaded;

/** The address of room for so many bytes. */
export function addressOf(calls: Calls, length: number): bigint {
  const at = (calls["pbaudit_room"] as (length: bigint) => bigint)(BigInt(length));
  if (!at) throw new OutOfMemory();
  return at;
}

class Instance implements Loaded {
  readonly calls: Calls;
  /** The memory below the heap, as it was at first: the stack, in which there is nothing, and from here on these bytes. */
  private readonly from: number;
  private readonly first: Uint8Array;

  constructor(module: WebAssembly.Module) {
    this.calls = new WebAssembly.Instance(module, {}).exports as unknown as Calls;
    const below = this.below();
    this.from = Math.max(0, below.findIndex(byte => byte !== 0));
    this.first = below.slice(this.from);
  }

  // It grows where it is.
  expect(): void {}

  reset(): void {
    const below = this.below();
    below.fill(0);
    below.set(this.first, this.from);
  }

  /** The memory below what was never taken. */
  private below(): Uint8Array {
    const end = Number(addressOf(this.calls, 0));
    return new Uint8Array(this.calls.memory.buffer, 0, end);
  }
}

export const ofModule = (module: WebAssembly.Module): Load => () => new Instance(module);
