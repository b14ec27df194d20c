/* What the proved program asks of the machine, where it is a module (web/machine.c): Node's files, folders, streams and words. */

import { closeSync, lstatSync, openSync, readdirSync, readFileSync, readSync, statSync, writeSync } from "node:fs";
import process from "node:process";
import { isatty } from "node:tty";
import { EBADF, EINVAL, numberOf, textOf } from "./errors.js";
import { awaited } from "./waiting.js";

/** A call of the module: what is answered, or a negated number of an error. */
type Call = (...numbers: number[]) => number;
/** Bytes of the module's memory. */
type Bytes = (at: number, length: number) => Uint8Array;
type Calls = Readonly<Record<string, Call>>;

/** The numbers of open folders begin here, behind those that the system has for files. */
const FOLDERS = 1 << 30;
const NO_WORD = -1, NO_ROOM = -2;

/** Bytes as Node shows those of words and paths. */
const textIn = (bytes: Uint8Array): string => new TextDecoder("utf-8", { ignoreBOM: true }).decode(bytes);

/** The end of a pipe is a failure on Windows. */
const isEnd = (error: unknown): boolean => (error as { code?: string }).code === "EOF";

function answered(does: () => number): number {
  try {
    return awaited(does);
  } catch (error) {
    return isEnd(error) ? 0 : -numberOf(error);
  }
}

function wordCalls(words: readonly Uint8Array[], bytes: Bytes): Calls {
  return {
    word(number, to, room) {
      const word = words[number];
      if (!word) return NO_WORD;
      bytes(to, room).set(word.subarray(0, room));
      return word.length <= room ? word.length : NO_ROOM;
    },
  };
}

function fileCalls(bytes: Bytes, path: (at: number, length: number) => string): Calls {
  return {
    open: (at, length) => answered(() => openSync(path(at, length), "r")),
    mode: (at, length, follows) => answered(() => (follows ? statSync : lstatSync)(path(at, length)).mode),
    read: (file, to, room) => answered(() => readSync(file, bytes(to, room), 0, room, null)),
    write: (file, from, length) => answered(() => writeSync(file, bytes(from, length))),
    terminal: file => Number(isatty(file)),
    error(error, to, room) {
      const text = new TextEncoder().encode(textOf(error)).subarray(0, room);
      bytes(to, room).set(text);
      return text.length;
    },
  };
}

/** Folders are listed as they are opened. */
function folderCalls(bytes: Bytes, path: (at: number, length: number) => string): Calls {
  const folders = new Map<number, Uint8Array[]>();
  let opened = FOLDERS;
  return {
    list: (at, length) => answered(() => {
      folders.set(opened, readdirSync(path(at, length), { encoding: "buffer" }));
      return opened++;
    }),
    name(folder, to, room) {
      const names = folders.get(folder), name = names?.pop();
      if (!name) return names ? 0 : -EBADF;
      if (name.length > room) {
        names!.push(name);
        return -EINVAL;
      }
      bytes(to, room).set(name);
      return name.length;
    },
    close: file => folders.delete(file) ? 0 : answered(() => {
      closeSync(file);
      return 0;
    }),
  };
}

/** What the module imports, on the memory that it has by then. */
export function machineOf(words: readonly Uint8Array[], memory: () => WebAssembly.Memory): Calls {
  const bytes: Bytes = (at, length) => new Uint8Array(memory().buffer, at >>> 0, length);
  const path = (at: number, length: number): string => textIn(bytes(at, length));
  return { ...wordCalls(words, bytes), ...fileCalls(bytes, path), ...folderCalls(bytes, path) };
}

/** The words of a command line as Linux has it, each ended by 0. */
function wordsIn(line: Uint8Array): Uint8Array[] {
  const found: Uint8Array[] = [];
  for (let at = 0, end = line.indexOf(0); end >= 0; at = end + 1, end = line.indexOf(0, at)) found.push(line.subarray(at, end));
  return found;
}

/**
 * The words of the command line. Node shows bytes that aren't UTF-8 by U+FFFD, and Linux has the words as they were, unless
 * Node was told to show a title in their place.
 */
export function wordsOf(): Uint8Array[] {
  const words = process.argv.slice(2), shown = words.map(word => new TextEncoder().encode(word));
  if (process.platform !== "linux" || !words.some(word => word.includes("\ufffd"))) return shown;
  const found = wordsIn(readFileSync("/proc/self/cmdline")).slice(-words.length);
  return found.map(textIn).join("\0") === words.join("\0") ? found : shown;
}
