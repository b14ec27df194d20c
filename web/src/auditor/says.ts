/* What an answer says, by its object, and the line that the program prints of that. */

import type { Measure } from "./commands.js";
import type { FailedObject, LineObject, Proves, ReadObject, RefusalObject, VerdictObject } from "./objects.js";

/** A yes to prices. */
export interface Supported {
  readonly says: "supported";
  readonly form: "priceable" | "stable";
}

/** A yes to a violation. */
export interface Violated {
  readonly says: "violation";
}

/** A yes to a refutation: no prices support the outcome, or no stable ones, or none that satisfy condition Cover. */
export interface Unpriceable {
  readonly says: "unpriceable";
  readonly stable: boolean;
  readonly cover: boolean;
}

/** No group falls short. */
export interface Satisfied {
  readonly says: "satisfied";
  readonly measure: Measure;
}

/**
 * A no: the condition or the test that is false first, with the voter and the project at which it is. Where a group falls
 * short, it is said by which measure, and how many voters the largest such group for the project has.
 */
export interface Failed {
  readonly says: "failed";
  readonly condition: string;
  readonly measure?: Measure;
  readonly voters?: number;
  readonly voter?: number;
  readonly project?: string;
}

/** A file that is refused: which, the number and the name of its error, and the record. */
export interface RefusedLine {
  readonly says: "refused";
  readonly input: string;
  readonly number: number;
  readonly name: string;
  readonly record: number;
}

/** An election that was read. Without a column `selected` it says nothing of funded projects. */
export interface ReadLine {
  readonly says: "read";
  readonly voters: number;
  readonly projects: number;
  readonly funded?: number;
}

export type Verdict = Supported | Violated | Unpriceable | Satisfied | Failed;
export type Line = Verdict | RefusedLine | ReadLine;

const PROVED: Readonly<Record<Proves, Omit<Unpriceable, "says">>> = {
  "unpriceable": { stable: false, cover: false }, "unpriceable cover": { stable: false, cover: true },
  "unpriceable stable": { stable: true, cover: false }, "unpriceable stable cover": { stable: true, cover: true },
};

export const readLineOf = ({ election: { voters, projects, funded } }: ReadObject): ReadLine =>
  ({ says: "read", voters, projects, ...funded === null ? {} : { funded } });

export const refusedLineOf = ({ input, number, name, record }: RefusalObject): RefusedLine =>
  ({ says: "refused", input, number, name, record });

function failedOf(object: VerdictObject, { name, voter, project }: FailedObject): Failed {
  const short = object.kind === "groups" && object.group
    ? { measure: object.measure, voters: object.group.voters } : {};
  return {
    says: "failed", condition: name, ...short, ...voter === null ? {} : { voter }, ...project === null ? {} : { project },
  };
}

/** An object that the types let nobody hand over. */
const noneSuch = (object: never): never => {
  throw new TypeError(`this isn't said in one line: ${JSON.stringify(object)}`);
};

/** What a yes or a no says. */
export function verdictOf(object: VerdictObject): Verdict {
  if (object.failed) return failedOf(object, object.failed);
  switch (object.kind) {
    case "groups": return { says: "satisfied", measure: object.measure };
    case "prices": return { says: "supported", form: object.mode.stable ? "stable" : "priceable" };
    case "violation": return { says: "violation" };
    case "refutation": return { says: "unpriceable", ...PROVED[object.proves!] };
    default: return noneSuch(object);
  }
}

/** What an answer says. That to `both` says two things, and a table says nothing. */
export function saidBy(object: LineObject): Line {
  if (object.kind === "election") return readLineOf(object);
  return object.kind === "refusal" ? refusedLineOf(object) : verdictOf(object);
}

const shortGroup = ({ measure, voters }: Failed): string => measure ? ` by ${measure} voters ${voters}` : "";
const fundedIn = ({ funded }: ReadLine): string => funded === undefined ? "no outcome" : `${funded} funded`;

function failedLine(failed: Failed): string {
  const { condition, voter, project } = failed;
  const at = `${voter === undefined ? "" : ` voter ${voter}`}${project === undefined ? "" : ` project ${project}`}`;
  return `failed ${condition}${shortGroup(failed)}${at}`;
}

/** The line that the program prints of what an answer says. */
export function lineOf(said: Line): string {
  switch (said.says) {
    case "read": return `read ${said.voters} voters ${said.projects} projects ${fundedIn(said)}`;
    case "refused": return `refused ${said.input} ${said.number} ${said.name} record ${said.record}`;
    case "supported": return `supported ${said.form}`;
    case "violation": return "violation";
    case "unpriceable": return `unpriceable${said.stable ? " stable" : ""}${said.cover ? " cover" : ""}`;
    case "satisfied": return `satisfied ejr+ by ${said.measure}`;
    case "failed": return failedLine(said);
  }
}
