/* What the library tells in one call (pbaudit.h): of a question two lines of JSON (pbaudit_report), of the files of a folder
   one (pbaudit_folder_entry, pbaudit_folder_total). These are read, and the text for people behind them is handed on as it is. */

import { objectIn } from "./objects.js";
import type { AnswerObject, EntryObject, RefusalObject } from "./objects.js";

/** Why a file is refused: the line of the file on which what was refused begins, where it has one, and sentences. */
export interface Hint {
  readonly line: number | null;
  readonly sentences: readonly string[];
}

/** What stands beside an answer: what the program remarks, and of a refusal what is refused and why. */
export interface Beside {
  readonly notes: readonly string[];
  readonly refusal: RefusalObject | null;
  readonly hint: Hint | null;
}

/** What is told of a question: the answer as an object and as a text. A certificate in its canonical form has no object. */
export interface Reply {
  readonly status: number;
  readonly beside: Beside;
  readonly object: AnswerObject | undefined;
  readonly text: Uint8Array;
}

/** The counts of a total, in the order of pbaudit_total. */
export const COUNTS = ["elections", "yes", "no", "refused"] as const;

/** How many files of a folder are answered how. */
export type Total = Readonly<Record<typeof COUNTS[number], number>>;

/** What is told of an election of a folder and of its certificates. */
export interface ToldEntry {
  readonly object: EntryObject;
  readonly text: string;
  readonly total: Total;
}

const LINE_FEED = 10;

/** The text of bytes. What a name begins with is part of it, be it a byte order mark. */
export const decoded = (bytes: Uint8Array): string => new TextDecoder("utf-8", { ignoreBOM: true }).decode(bytes);

/** The value of the line of JSON at the front, and what is behind it. */
function jsonAhead(bytes: Uint8Array): [unknown, Uint8Array] {
  const behind = bytes.indexOf(LINE_FEED) + 1;
  return [objectIn(decoded(bytes.subarray(0, behind))), bytes.subarray(behind)];
}

/** The reply that a call has written. */
export function replyIn(status: number, bytes: Uint8Array, hasObject: boolean): Reply {
  const [beside, rest] = jsonAhead(bytes), [object, text] = hasObject ? jsonAhead(rest) : [undefined, rest];
  return { status, beside: beside as Beside, object: object as AnswerObject | undefined, text };
}

/** What a call has written of an election of a folder. */
export function entryIn(bytes: Uint8Array, total: Total): ToldEntry {
  const [object, text] = jsonAhead(bytes);
  return { object: object as EntryObject, text: decoded(text), total };
}

/** The lines that a call has written behind an object that says the same. */
export const linesIn = (bytes: Uint8Array): string => decoded(jsonAhead(bytes)[1]);
