/* The report on a folder, of what the library tells of one election after the other. */

import { COUNTS } from "../auditor/replies.js";
import { saidBy } from "../auditor/says.js";
import { ENDINGS, ROLES } from "./entries.js";
import type { SaidOfTotal } from "../auditor/auditor.js";
import type { EntryObject } from "../auditor/objects.js";
import type { ToldEntry, Total } from "../auditor/replies.js";
import type { Report, Reported } from "./facts.js";

/** What is kept of an entry: what is said of each of its files, its lines, and its total. */
interface Kept {
  readonly files: readonly Reported[];
  readonly text: string;
  readonly total: Total;
}

const NO_FILES: Total = { elections: 0, yes: 0, no: 0, refused: 0 };

/** What is said of each file that was audited. */
const filesIn = (object: EntryObject): Reported[] => ROLES.flatMap(role => {
  const found = object[role];
  return found ? [{ file: `${object.name}${ENDINGS[role]}`, says: saidBy(found) }] : [];
});

export const keptOf = ({ object, text, total }: ToldEntry): Kept => ({ files: filesIn(object), text, total });

const added = (one: Total, other: Total): Total =>
  Object.fromEntries(COUNTS.map(name => [name, one[name] + other[name]])) as Total;

/** The report of what is kept of the elections, in their order, and of what is said of their total. */
export function reportOf(kept: readonly Kept[], said: (total: Total) => SaidOfTotal): Report {
  const { status, text } = said(kept.map(each => each.total).reduce(added, NO_FILES));
  return {
    status: status as Report["status"], answer: "report", files: kept.flatMap(each => each.files),
    text: [...kept.map(each => each.text), text].join(""),
  };
}
