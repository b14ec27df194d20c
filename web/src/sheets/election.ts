/* An election file of two sheets, as examples/sheets.py makes it: one table of cases is for both. */

import { amountFault } from "./amounts.js";
import { readBallots } from "./ballots.js";
import { firstRow, SEPARATORS, textOf, trimmed } from "./cells.js";
import { readProjects } from "./projects.js";
import type { Fault } from "./faults.js";
import type { ListedProject } from "./projects.js";

/** What two sheets say, and all that is wrong with them. */
export interface TwoSheets {
  readonly projects: readonly ListedProject[];
  /** Of each voter the ids, with commas between them. */
  readonly votes: readonly string[];
  /** Whether they say which projects are funded. */
  readonly hasSelected: boolean;
  readonly faults: readonly Fault[];
}

export function readSheets(projects: Uint8Array, ballots: Uint8Array): TwoSheets {
  const faults: Fault[] = [], { list, rows, hasSelected, isWhole } = readProjects(projects, faults);
  const votes = isWhole ? readBallots(ballots, rows, faults) : [];
  return { projects: list, votes, hasSelected, faults };
}

/** What is wrong with a budget limit. */
export function limitFault(limit: string): Fault | undefined {
  const why = amountFault(trimmed(limit));
  return why && { sheet: "limit", why };
}

/** A text as a field of an election file. */
const fieldOf = (text: string): string => /[";\r\n]/.test(text) ? `"${text.replace(/"/g, '""')}"` : text;

const lineOf = (fields: readonly string[]): string => `${fields.map(fieldOf).join(";")}\n`;

/** The file of sheets without a fault. `funded` are the ids of the funded projects, where the sheets don't say them. */
export function electionText({ projects, votes, hasSelected }: TwoSheets, limit: string, funded?: ReadonlySet<string>):
    string {
  const stated = hasSelected || funded !== undefined;
  const selectedOf = ({ id, selected }: ListedProject): string => selected ?? (funded?.has(id) ? "1" : "0");
  const lines = [
    ["META"], ["key", "value"], ["budget", trimmed(limit)], ["vote_type", "approval"],
    ["num_projects", `${projects.length}`], ["num_votes", `${votes.length}`],
    ["PROJECTS"], ["project_id", "cost", "name", ...stated ? ["selected"] : []],
    ...projects.map(each => [each.id, each.cost, each.name, ...stated ? [selectedOf(each)] : []]),
    ["VOTES"], ["voter_id", "vote"],
  ];
  return lines.map(lineOf).join("") + votes.map((vote, at) => lineOf([`${at + 1}`, vote])).join("");
}

/** Whether the first row of a sheet has a column, with any separator. */
function hasColumn(bytes: Uint8Array, name: string): boolean {
  const { text } = textOf(bytes);
  return SEPARATORS.some(each => firstRow(text, each).some(column => column.toLowerCase() === name));
}

const onlyAmong = (sheets: readonly Uint8Array[], found: readonly Uint8Array[]): number =>
  found.length === 1 ? sheets.indexOf(found[0]) : -1;

/**
 * The place of the sheet of projects among two: the only one with a column of ids, or where both have one the only one
 * with costs, or where none has one the only one without a column of ballots. Below 0 where none is the only one.
 */
export function placeOfProjects(sheets: readonly Uint8Array[]): number {
  const having = (name: string): Uint8Array[] => sheets.filter(each => hasColumn(each, name));
  const withIds = having("project_id"), withCosts = having("cost"), withBallots = having("projects");
  if (withIds.length === 0) return onlyAmong(sheets, sheets.filter(each => !withBallots.includes(each)));
  return onlyAmong(sheets, withIds.length === 1 ? withIds : withCosts.filter(each => withIds.includes(each)));
}

/** The name for an election of two sheets: the words that both their names begin with. */
export function electionName(one: string, other: string): string {
  const [first, second] = [one, other].map(name => [...name.replace(/\.[^.]*$/, "")]);
  let end = 0;
  while (end < first.length && first[end] === second[end]) end++;
  const isInWord = [first[end], second[end]].some(next => next !== undefined && /[\p{L}\p{N}]/u.test(next));
  const front = first.slice(0, end).join(""), words = isInWord ? front.replace(/[\p{L}\p{N}]+$/u, "") : front;
  return `${words.replace(/[^\p{L}\p{N})\]]+$/u, "") || "election"}.pb`;
}
