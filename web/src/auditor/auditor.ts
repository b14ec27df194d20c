/* Calls of the proved library. A file is put into its memory, a call answers a status and bytes. Room that was given isn't
   taken back before the next audit, for which all memory is as it was at first. */

import { COMMANDS, entryCall, pageCall, reportCall, totalCall } from "./commands.js";
import { KINDS } from "./kinds.js";
import { addressOf } from "./loaded.js";
import { COUNTS, entryIn, linesIn, replyIn } from "./replies.js";
import { NO_MEMORY, OutOfMemory } from "./statuses.js";
import type { Call, Command, EntryFiles, PageCommand, Place, Question, Row, Word } from "./commands.js";
import type { Kind } from "./kinds.js";
import type { Calls, Loaded } from "./loaded.js";
import type { Reply, ToldEntry, Total } from "./replies.js";
import type { Mode } from "./statuses.js";

/** How a call ends, and its text. */
export interface Ended {
  readonly status: number;
  readonly bytes: Uint8Array;
}

/** How the report on a folder ends, and its last line. */
export interface SaidOfTotal {
  readonly status: number;
  readonly text: string;
}

/** The room for an answer that is guessed at first: for a text, and for some lines. */
const TEXT_ROOM = 1 << 22, LINES_ROOM = 1 << 16;
/** The bytes of pbaudit_facts, which a page tells beside its text. */
export const FACTS_LENGTH = 40;
/** The bytes of a count of pbaudit_total, and of all of them. */
const COUNT_LENGTH = 8, TOTAL_LENGTH = 32;

/** The canonical text of a certificate is about as long as the certificate. */
function guessFor(command: Command, { files }: Question): number {
  const { isShort }: Row = COMMANDS[command];
  if (isShort) return LINES_ROOM;
  return TEXT_ROOM + (command === "tidy" ? Number(files.certificate?.length ?? 0) : 0);
}

export class Auditor {
  readonly calls: Calls;
  private answered: Place | undefined;
  private needed: Place | undefined;
  private facts: Place | undefined;
  private kind: Place | undefined;
  private total: Place | undefined;

  constructor(private readonly loaded: Loaded) {
    this.calls = loaded.calls;
  }

  /** The bytes of memory that the library has been given. */
  get taken(): number {
    return this.calls.memory.buffer.byteLength;
  }

  /** Has memory ready for files of so many bytes together, and for an answer. */
  expect(length: number): void {
    this.loaded.expect(length + TEXT_ROOM + LINES_ROOM);
  }

  /** Makes the memory what it was at first, but for how much there is. */
  reset(): void {
    this.loaded.reset();
    this.answered = this.needed = this.facts = this.kind = this.total = undefined;
  }

  private export(name: string): (...words: Word[]) => Word {
    return this.calls[name] as (...words: Word[]) => Word;
  }

  /** Room for so many bytes. */
  room(length: number): Place {
    return { at: addressOf(this.calls, length), length: BigInt(length) };
  }

  /** The bytes of a place, as long as the memory doesn't grow. */
  bytes(place: Place): Uint8Array {
    return new Uint8Array(this.calls.memory.buffer, Number(place.at), Number(place.length));
  }

  put(bytes: Uint8Array): Place {
    const place = this.room(bytes.length);
    this.bytes(place).set(bytes);
    return place;
  }

  putText(text: string): Place {
    return this.put(new TextEncoder().encode(text));
  }

  /**
   * All that is to be told of the answer to a question. Where it needs more than the room that was guessed, it is asked
   * again.
   */
  report(command: Command, asked: Question, guess = guessFor(command, asked)): Reply {
    const { lacksObject = false }: Row = COMMANDS[command];
    const { status, bytes } = this.call(reportCall(command, asked), guess);
    return replyIn(status, bytes, !lacksObject);
  }

  /** A page, or the line of a refusal. */
  page(command: PageCommand, asked: Question): Ended {
    return this.call(pageCall(command, asked, this.facts ??= this.room(FACTS_LENGTH)), TEXT_ROOM);
  }

  /** What a file is. Its front is enough. */
  kindOf({ at, length }: Place): Kind {
    const kind = this.kind ??= this.room(1);
    if (this.export("pbaudit_kind")(at, length, kind.at) === NO_MEMORY) throw new OutOfMemory();
    return KINDS[this.bytes(kind)[0]];
  }

  /** What is told of an election of a folder and of its certificates. */
  entry(files: EntryFiles, mode: Mode): ToldEntry {
    const { bytes } = this.call(entryCall(files, mode, this.roomOfTotal()), LINES_ROOM), view = this.view(this.roomOfTotal());
    const counts = COUNTS.map((name, at) => [name, Number(view.getBigUint64(COUNT_LENGTH * at, true))]);
    return entryIn(bytes, Object.fromEntries(counts) as Total);
  }

  /** The line of a total, and the status of the report on the folder. */
  ofTotal(total: Total): SaidOfTotal {
    const place = this.roomOfTotal(), view = this.view(place);
    COUNTS.forEach((name, at) => view.setBigUint64(COUNT_LENGTH * at, BigInt(total[name]), true));
    const { status, bytes } = this.call(totalCall(place), LINES_ROOM);
    return { status, text: linesIn(bytes) };
  }

  private roomOfTotal(): Place {
    return this.total ??= this.room(TOTAL_LENGTH);
  }

  private view({ at, length }: Place): DataView {
    return new DataView(this.calls.memory.buffer, Number(at), Number(length));
  }

  number(place: Place): number {
    return Number(this.view(place).getBigUint64(0, true));
  }

  /** Calls a function of the library. The room of an answer is used again for the next. */
  private call({ name, words }: Call, guess: number): Ended {
    const needed = this.needed ??= this.room(8);
    let room = this.answered && this.answered.length >= guess ? this.answered : this.room(guess);
    for (;; room = this.room(this.number(needed))) {
      this.answered = room;
      const status = this.export(name)(...words, room.at, room.length, needed.at) as number;
      if (status === NO_MEMORY) throw new OutOfMemory();
      const length = this.number(needed);
      if (length <= Number(room.length)) {
        return { status, bytes: this.bytes({ at: room.at, length: BigInt(length) }).slice() };
      }
    }
  }
}
