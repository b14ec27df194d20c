/* The texts of certificates (docs/FORMATS.md). They are claims, and the auditor's to check. */

import type { DecidedElection } from "./decided_election.js";
import type { Measure } from "./groups.js";

/** An id as a field of a file. */
export const fieldOf = (id: string): string => /[",]/.test(id) ? `"${id.replaceAll('"', '""')}"` : id;

const linesOf = (lines: readonly string[]): string => lines.map(line => `${line}\n`).join("");

/** A group of voters, counted from 0, and the places of the projects that it demands. */
export interface Demand {
  readonly voters: Uint32Array;
  readonly projects: readonly number[];
}

export function violationText(decided: DecidedElection, measure: Measure, { voters, projects }: Demand): string {
  return linesOf([
    "pb-violation,2", `satisfaction,${measure}`,
    ...Array.from(voters, voter => `voter,${voter + 1}`),
    ...projects.map(project => `project,${fieldOf(decided.ids[project])}`),
  ]);
}

/** What stands before the payments of a price certificate. */
export const pricesHead = (denominator: number, budget: number): string =>
  linesOf(["pb-prices,1", `denominator,${denominator}`, `voter_budget,${budget}`, "voter,project,payment"]);

/** What a refutation says of a project: the kind of its row, and the weight. */
export interface Weight {
  readonly role: "least" | "most" | "left";
  readonly project: number;
  readonly weight: number;
}

export const refutationText = (decided: DecidedElection, cover: number, weights: readonly Weight[]): string => linesOf([
  "pb-refutation,1", `cover,${cover}`, "role,project,weight",
  ...weights.map(({ role, project, weight }) => `${role},${fieldOf(decided.ids[project])},${weight}`),
]);
