/* The sheet of projects. */

import { amountFault } from "./amounts.js";
import { isBlank, Sheet } from "./sheet.js";
import type { Fault, Why } from "./faults.js";

const NEEDED = ["project_id", "name", "cost"], SELECTED = "selected";

export interface ListedProject {
  readonly id: string;
  readonly name: string;
  readonly cost: string;
  /** 1 for a funded project; undefined where the sheet doesn't say. */
  readonly selected: string | undefined;
}

export interface ProjectSheet {
  readonly list: readonly ListedProject[];
  /** The rows of the ids. */
  readonly rows: ReadonlyMap<string, number>;
  readonly hasSelected: boolean;
  /** Whether it was read to its end, so that all ids are known. */
  readonly isWhole: boolean;
}

// eslint-disable-next-line no-control-regex
const NO_ID = /[\u0000-\u001f\u007f,]/;

/** What is wrong with a project. Its row is that of the first with its id. */
function wrongProject({ id, cost, selected = "0" }: ListedProject, row: number, rows: ReadonlyMap<string, number>):
    Why | undefined {
  const first = rows.get(id) ?? row;
  if (!id) return { is: "noId" };
  if (NO_ID.test(id)) return { is: "badId", text: id };
  if (first !== row) return { is: "repeatedId", text: id, row: first };
  const why = amountFault(cost);
  return why ?? (selected === "0" || selected === "1" ? undefined : { is: "badSelected", text: selected });
}

/** Reads the sheet of projects; what is wrong is added to the faults. */
export function readProjects(bytes: Uint8Array, faults: Fault[]): ProjectSheet {
  const sheet = new Sheet("projects", bytes, faults, column => column.toLowerCase() === "project_id");
  const columns = sheet.head.map(column => column.toLowerCase());
  const list: ListedProject[] = [], rows = new Map<string, number>(), hasSelected = columns.includes(SELECTED);
  const take = (cells: readonly string[], row: number): Why | undefined => {
    if (isBlank(cells)) return undefined;
    const [id, name, cost, selected] = [...NEEDED, SELECTED].map(each => cells[columns.indexOf(each)]);
    const project = { id, name, cost, selected: hasSelected ? selected : undefined };
    list.push(project);
    if (id && !rows.has(id)) rows.set(id, row);
    return wrongProject(project, row, rows);
  };
  const known = columns.filter(column => column === SELECTED || NEEDED.includes(column));
  const isWhole = sheet.hasColumns(known, NEEDED) && sheet.read(take);
  return { list, rows, hasSelected, isWhole };
}
