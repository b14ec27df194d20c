/* Checksums that somebody gave: how the files are to them. */

import { absentOf, isListName, LONGEST_LIST, matchOf, sumsIn } from "../files/checksums.js";
import { toldName } from "../files/names.js";
import { pathOf } from "../files/pieces.js";
import { grouped } from "../words/formats.js";
import { fill } from "../words/words.js";
import { make } from "./elements.js";
import { someOf } from "./some.js";
import type { Match, SumList } from "../files/checksums.js";
import type { Found, Piece } from "../files/pieces.js";
import type { Words } from "../words/words.js";

/** The list that was given last, and the sums of files that were computed. */
export interface Checksums {
  readonly list: SumList;
  readonly sums: ReadonlyMap<File, string>;
}

/** A list of checksums, if this is one. */
export async function sumListOf({ file, folder }: Found): Promise<SumList | undefined> {
  if (!isListName(file.name) || file.size > LONGEST_LIST) return undefined;
  const sums = sumsIn(await file.text().catch(() => ""));
  return sums && { name: file.name, folder, sums };
}

/** How a file is to its checksum, once it is computed. */
function matchIn({ list, sums }: Checksums, piece: Piece): Match | undefined {
  const sum = sums.get(piece.file);
  return sum === undefined ? undefined : matchOf(list, piece, sum);
}

/** What is said of a file beside its name. */
export function sumItems(words: Words, checksums: Checksums | null, piece: Piece): HTMLElement[] {
  const match = checksums ? matchIn(checksums, piece) : undefined;
  if (!checksums || !match) return [];
  const file = toldName(checksums.list.name);
  const [told, colour] = {
    matches: [fill(words.sumMatches, { file }), "good"], differs: [fill(words.sumDiffers, { file }), "bad"],
    missing: [fill(words.sumMissing, { file }), "soft"],
  }[match];
  return [make("span", { class: `sum ${colour}` }, told)];
}

/** What is said of all files. */
export function sumNotes(words: Words, checksums: Checksums | null, pieces: readonly Piece[]): HTMLElement[] {
  if (!checksums) return [];
  const file = toldName(checksums.list.name), absent = absentOf(checksums.list, pieces);
  const are = (match: Match): Piece[] => pieces.filter(piece => matchIn(checksums, piece) === match);
  const differing = are("differs").map(pathOf), count = are("matches").length;
  const missing = absent.length > 0 ? ` ${fill(words.sumsAbsent, { file, names: someOf(words, absent) })}` : "";
  const told = make("p", {}, fill(words.sumsTotal, { file, count: grouped(count) }) + missing);
  if (differing.length === 0) return [told];
  const names = someOf(words, differing);
  return [make("p", { class: "problem" }, fill(words.sumsDiffer, { file, names })), told];
}
