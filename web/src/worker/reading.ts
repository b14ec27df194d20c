/* Files of the browser, read into the module's memory. */

import type { Auditor } from "../auditor/auditor.js";
import type { Place } from "../auditor/commands.js";

export const PIECE = 1 << 22;

/** A file can't be read. */
export class Unreadable extends Error {}

/** A reader that fills room that it is given, which TypeScript's library of browsers doesn't know. */
interface Filled {
  readonly done: boolean;
  readonly value?: Uint8Array;
}

interface FillingReader {
  read(room: Uint8Array): Promise<Filled>;
}

interface FillingStream {
  getReader(how: { mode: "byob" }): FillingReader;
}

/**
 * The bytes of a file, in order and piece by piece; `whole` is all of them, where that is read already. A stream gives
 * them sooner than slices do, where it fills room that is used again. Other browsers read slices.
 */
export async function* piecesOf(file: File, whole?: Promise<ArrayBuffer>): AsyncGenerator<Uint8Array, void> {
  if (whole || file.size <= PIECE) {
    yield new Uint8Array(await (whole ?? file.arrayBuffer()));
    return;
  }
  let reader: FillingReader;
  try {
    reader = (file.stream() as unknown as FillingStream).getReader({ mode: "byob" });
  } catch {
    for (let at = 0; at < file.size; at += PIECE) {
      yield new Uint8Array(await file.slice(at, at + PIECE).arrayBuffer());
    }
    return;
  }
  let room: ArrayBufferLike = new ArrayBuffer(PIECE);
  for (;;) {
    const filled: Filled = await reader.read(new Uint8Array(room));
    if (filled.done || !filled.value) return;
    yield filled.value;
    room = filled.value.buffer;
  }
}

/** Files that are read before they are asked about. */
export class Ahead {
  private reads = new Map<File, Promise<ArrayBuffer>>();

  /** Begins to read those of these files that are small, and forgets all others. */
  read(files: readonly File[]): void {
    const small = files.filter(file => file.size <= PIECE);
    this.reads = new Map(small.map(file => [file, this.reads.get(file) ?? file.arrayBuffer()]));
    // That one can't be read is told when it is asked about.
    for (const read of this.reads.values()) read.catch(() => {});
  }

  /** What was read of a file, once. */
  take(file: File): Promise<ArrayBuffer> | undefined {
    const read = this.reads.get(file);
    this.reads.delete(file);
    return read;
  }
}

/** Reads a file into the module's memory, or takes what was read of it ahead. */
export async function load(
  auditor: Auditor, file: File, ahead: Ahead, tellRead: (bytes: number) => void,
): Promise<Place> {
  const place = auditor.room(file.size);
  let at = 0;
  try {
    for await (const piece of piecesOf(file, ahead.take(file))) {
      auditor.bytes(place).set(piece, at);
      at += piece.length;
      tellRead(piece.length);
    }
  } catch {
    throw new Unreadable(file.name);
  }
  if (at !== file.size) throw new Unreadable(file.name);
  return place;
}
