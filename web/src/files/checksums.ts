/* Lists of checksums, as sha256sum writes them: which of the files that were given are as they say. */

import type { Found } from "./pieces.js";

/** How a file is to its checksum. */
export type Match = "matches" | "differs" | "missing";

/** A list of checksums: its name, its folder, and the sums by the paths that it names. */
export interface SumList {
  readonly name: string;
  readonly folder: string;
  readonly sums: ReadonlyMap<string, string>;
}

/** No list is longer than this. */
export const LONGEST_LIST = 1 << 20;
const LINE = /^(\\?)([0-9a-f]{64}) [ *](.+)$/i;

export const isListName = (name: string): boolean => /^sha256sums?(\.txt)?$/i.test(name);

/** A name behind a backslash has marks for those of its characters that would end a line. */
function nameOf(mark: string, written: string): string {
  const marks: Readonly<Record<string, string>> = { n: "\n", r: "\r", "\\": "\\" };
  return mark ? written.replace(/\\([nr\\])/g, (_, letter: string) => marks[letter]) : written;
}

/** The sums of a list by the paths that it names, or undefined where a line is none of such a list. */
export function sumsIn(text: string): Map<string, string> | undefined {
  const lines = text.split(/\r?\n/).filter(Boolean).map(line => LINE.exec(line));
  if (lines.length === 0 || lines.includes(null)) return undefined;
  const named = lines as RegExpExecArray[];
  return new Map(named.map(([, mark, sum, written]) => [nameOf(mark, written).replace(/^\.\//, ""), sum.toLowerCase()]));
}

/** The path of a list by which it names a file: that from its own folder, or where no folder was given the name. */
export function namedBy({ folder, sums }: SumList, { file, folder: its }: Found): string | undefined {
  const path = `${its}${file.name}`, near = path.startsWith(folder) ? path.slice(folder.length) : path;
  if (sums.has(near)) return near;
  const ends = [...sums.keys()].filter(each => each.split("/").pop() === file.name);
  return its === "" && ends.length === 1 ? ends[0] : undefined;
}

/** How a file with this sum is to the list. */
export function matchOf(list: SumList, found: Found, sum: string): Match {
  const named = namedBy(list, found);
  return named === undefined ? "missing" : list.sums.get(named) === sum ? "matches" : "differs";
}

/** The paths of a list that name none of these files. */
export function absentOf(list: SumList, found: readonly Found[]): string[] {
  const named = new Set(found.map(each => namedBy(list, each)));
  return [...list.sums.keys()].filter(path => !named.has(path));
}
