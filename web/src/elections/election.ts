/* An election for showing, and for searches. It is read by the rules of docs/FORMATS.md, but only files that the proved
   module accepts: nothing here says what is wrong with a file, and where something is missing it is simply refused. */

import { amountOf } from "./amounts.js";
import { BallotWriter } from "./ballots.js";
import { Places } from "./places.js";
import { cleaned, COMMA, Records, SEMICOLON } from "./records.js";
import type { Ballots } from "./ballots.js";
import type { Field } from "./records.js";

export interface Project {
  readonly id: string;
  /** Empty where the file has none. */
  readonly name: string;
  readonly cost: bigint;
  readonly supporters: number;
  readonly isFunded: boolean;
}

/** What the file says, without the ballots. */
export interface Summary {
  /** What META says, by its keys in small letters. */
  readonly facts: ReadonlyMap<string, string>;
  readonly limit: bigint;
  readonly voters: number;
  readonly projects: readonly Project[];
  /** Without an outcome no project counts as funded. */
  readonly hasOutcome: boolean;
}

export interface Election {
  readonly summary: Summary;
  readonly ballots: Ballots;
  readonly places: Places;
}

/** A file that this module doesn't read as the auditor does. */
export class Unlike extends Error {}

const MARKERS = ["meta", "projects", "votes"];

function sectionOf(records: Records): string | undefined {
  if (records.fields.slice(1).some(({ start, end }) => start < end)) return undefined;
  const marker = records.text(0).toLowerCase();
  return MARKERS.includes(marker) ? marker : undefined;
}

/** Goes on to the next row of a section. Whether there is one before the marker of the next section, or the end. */
function isRow(records: Records, next: string | undefined): boolean {
  const section = records.next() ? sectionOf(records) : "end";
  if (section === undefined) return true;
  if (section !== (next ?? "end")) throw new Unlike(section);
  return false;
}

/** The columns of a section, by their names in small letters; of several the first. */
function columnsOf(records: Records): Map<string, number> {
  const columns = new Map<string, number>();
  records.fields.forEach((_, place) => {
    const name = records.text(place).toLowerCase();
    if (!columns.has(name)) columns.set(name, place);
  });
  return columns;
}

function header(records: Records): Map<string, number> {
  if (!records.next()) throw new Unlike("header");
  return columnsOf(records);
}

function known<Value>(value: Value | undefined, what: string): Value {
  if (value === undefined) throw new Unlike(what);
  return value;
}

function readFacts(records: Records): Map<string, string> {
  const facts = new Map<string, string>();
  if (!records.next() || sectionOf(records) !== "meta") throw new Unlike("meta");
  header(records);
  while (isRow(records, "projects")) {
    const key = records.text(0).toLowerCase();
    if (!facts.has(key)) facts.set(key, records.text(1));
  }
  return facts;
}

interface Listed {
  readonly field: Field;
  readonly id: string;
  readonly name: string;
  readonly cost: bigint;
  readonly isFunded: boolean;
}

function readProjects(records: Records): { listed: Listed[]; hasOutcome: boolean } {
  const columns = header(records), listed: Listed[] = [];
  const id = known(columns.get("project_id"), "project_id"), cost = known(columns.get("cost"), "cost");
  const selected = columns.get("selected"), name = columns.get("name");
  while (isRow(records, "votes")) {
    listed.push({
      field: known(records.fields[id], "project_id"), id: records.text(id),
      name: name === undefined ? "" : records.text(name),
      cost: known(amountOf(records.text(cost)), "cost"),
      isFunded: selected !== undefined && records.text(selected) === "1",
    });
  }
  return { listed, hasOutcome: selected !== undefined };
}

/** Reads a ballot into the writer, and counts the supporters. */
function readBallot({ bytes }: Records, { start, end }: Field, places: Places, into: BallotWriter,
    supporters: Uint32Array): void {
  for (let from = start; from < end;) {
    let to = from;
    while (to < end && bytes[to] !== COMMA) to++;
    const piece = cleaned(bytes, from, to);
    from = to + 1;
    if (piece.start === piece.end) continue;
    const place = places.of(bytes, piece.start, piece.end);
    if (place < 0) throw new Unlike("vote");
    if (into.add(place)) supporters[place]++;
  }
}

const NOTHING: Field = { start: 0, end: 0 };

/** Reads an election. The bytes are changed where fields are in quotes. */
export function readElection(bytes: Uint8Array): Election {
  const records = new Records(bytes, SEMICOLON), facts = readFacts(records);
  const { listed, hasOutcome } = readProjects(records);
  const places = new Places(bytes, listed.map(({ field }) => field)), writer = new BallotWriter(listed.length);
  const supporters = new Uint32Array(listed.length), vote = known(header(records).get("vote"), "vote");
  while (isRow(records, undefined)) {
    readBallot(records, records.fields[vote] ?? NOTHING, places, writer, supporters);
    writer.close();
  }
  const ballots = writer.written();
  const projects = listed.map(({ id, name, cost, isFunded }, at): Project =>
    ({ id, name, cost, isFunded, supporters: supporters[at] }));
  const limit = known(amountOf(facts.get("budget") ?? ""), "budget");
  return { summary: { facts, limit, voters: ballots.starts.length - 1, projects, hasOutcome }, ballots, places };
}

/** The election with the outcome that an outcome file states. */
export function withOutcome(election: Election, bytes: Uint8Array): Election {
  const records = new Records(bytes, COMMA), funded = new Set<number>();
  if (!records.next() || records.text(0) !== "pb-outcome" || records.text(1) !== "1") throw new Unlike("pb-outcome");
  while (records.next()) {
    const { start, end } = records.fields[1] ?? NOTHING, place = election.places.of(bytes, start, end);
    if (records.text(0) !== "project" || place < 0) throw new Unlike("project");
    funded.add(place);
  }
  const projects = election.summary.projects.map((project, at) => ({ ...project, isFunded: funded.has(at) }));
  return { ...election, summary: { ...election.summary, projects, hasOutcome: true } };
}
