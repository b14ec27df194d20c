/* The sheet of ballots: the ids that each voter approves in one cell, or a column for each project. */

import { trimmed } from "./cells.js";
import { isBlank, Sheet } from "./sheet.js";
import type { Fault, Why } from "./faults.js";

/** The column that has the ids. */
const LISTED = "projects";
const YES = ["x", "X", "1"], NO = ["", "0"], MARKS = ["x", "X"];
/** Columns by which ballots would weigh more or less. */
const WEIGHTS = ["weight", "points", "sign"];

type Ids = ReadonlyMap<string, unknown>;
type Take = (cells: readonly string[]) => Why | undefined;

/** What is a ballot in a row: what is wrong with it, or else it is added. */
type Taking = (votes: string[]) => Take;

/** A ballot whose ids stand in one cell, at this place, with commas or blanks between them. */
function takingList(place: number, ids: Ids): Taking {
  const between = [...ids.keys()].some(id => id.includes(" ")) ? /,/ : /[,\t-\r ]/;
  return votes => cells => {
    const pieces = cells[place].split(between).map(trimmed).filter(Boolean);
    const unknown = pieces.find(piece => !ids.has(piece));
    if (unknown !== undefined) return { is: "unknownProject", text: unknown };
    votes.push(pieces.join(","));
    return undefined;
  };
}

/** A ballot that has a mark in the columns of the projects that it approves. */
function takingMarks(head: readonly string[], ids: Ids): Taking {
  const isProject = head.map(column => ids.has(column));
  const wrongMark = (mark: string, at: number): Why | undefined => {
    if (isProject[at]) {
      return YES.includes(mark) || NO.includes(mark) ? undefined : { is: "badMark", text: mark, column: head[at] };
    }
    return MARKS.includes(mark) ? { is: "markElsewhere", column: head[at] } : undefined;
  };
  return votes => cells => {
    for (let at = 0; at < cells.length; at++) {
      const why = wrongMark(cells[at], at);
      if (why) return why;
    }
    votes.push(head.filter((_, at) => isProject[at] && YES.includes(cells[at])).join(","));
    return undefined;
  };
}

/** Reads the sheet of ballots: of each voter the ids, with commas between them. Faults are added to the others. */
export function readBallots(bytes: Uint8Array, ids: Ids, faults: Fault[]): string[] {
  const isListed = (column: string): boolean => column.toLowerCase() === LISTED;
  const sheet = new Sheet("ballots", bytes, faults, column => isListed(column) || ids.has(column)), { head } = sheet;
  const listed = head.filter(isListed).map(() => LISTED), marked = head.filter(column => ids.has(column));
  const isList = listed.length > 0, needed = !isList && marked.length > 0 ? [...ids.keys()] : [LISTED];
  if (!sheet.hasColumns(isList ? listed : marked, needed)) return [];
  const weight = head.find(column => WEIGHTS.includes(column.toLowerCase()) && !ids.has(column)), votes: string[] = [];
  const take = (isList ? takingList(head.findIndex(isListed), ids) : takingMarks(head, ids))(votes);
  if (weight !== undefined) sheet.tell({ is: "weight", column: weight });
  else sheet.read(cells => isBlank(cells) ? { is: "emptyBallot" } : take(cells));
  return votes;
}
