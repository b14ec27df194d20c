/* The files of a folder that are audited together (docs/FORMATS.md, The text of a folder). */

export const ENDINGS = { election: ".pb", prices: ".prices.csv", violation: ".violation.csv" } as const;

export type EntryRole = keyof typeof ENDINGS;

/** A name and the files that it has, in the order in which they are reported. */
export interface Entry {
  readonly name: string;
  readonly roles: readonly EntryRole[];
}

export const ROLES = Object.keys(ENDINGS) as EntryRole[];

const isEntryName = (name: string): boolean =>
  name !== "" && [...name].every(letter => letter >= " " && letter !== "\u007f");

/** What a file is by the ending of its name, and the name without it. */
function split(file: string): { role: EntryRole; name: string } | undefined {
  const role = ROLES.find(each => file.endsWith(ENDINGS[each]));
  return role && { role, name: file.slice(0, -ENDINGS[role].length) };
}

/** Compares texts by their bytes in UTF-8, which is by their characters. */
export function byBytes(one: string, other: string): number {
  const encoder = new TextEncoder(), a = encoder.encode(one), b = encoder.encode(other);
  const at = a.findIndex((byte, place) => byte !== b[place]);
  return at < 0 ? a.length - b.length : at < b.length ? a[at] - b[at] : 1;
}

/** The names of elections and certificates among those of files. */
function namesOf(files: readonly string[]): Record<EntryRole, Set<string>> {
  const names = { election: new Set<string>(), prices: new Set<string>(), violation: new Set<string>() };
  for (const file of files) {
    const found = split(file);
    if (found && isEntryName(found.name)) names[found.role].add(found.name);
  }
  return names;
}

/** The elections among files of these names, each with its certificates. */
export function entriesOf(files: readonly string[]): Entry[] {
  const names = namesOf(files);
  return [...names.election].sort(byBytes)
    .map(name => ({ name, roles: ROLES.filter(role => names[role].has(name)) }));
}
