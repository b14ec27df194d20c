/* What an election has, as the library tells it, and what is to be remarked on it. */

import type { ElectionObject } from "./objects.js";

/** What is remarked on an election. */
export type Note =
  | { readonly says: "otherCount"; readonly of: "votes" | "projects"; readonly said: string; readonly counted: string }
  | { readonly says: "oddSelected"; readonly projects: string }
  | { readonly says: "unusedColumn"; readonly column: string };

/** What an election has. `funded` is missing where it says of no project whether it is funded. */
export interface ReadElection {
  /** The budget limit, in millionths. */
  readonly limit: bigint;
  readonly projects: number;
  readonly voters: number;
  readonly funded?: number;
  readonly notes: readonly Note[];
}

/** That a file declares another number than was counted. */
function otherCount(of: "votes" | "projects", said: string | null, counted: number): Note[] {
  return said === null || said === `${counted}` ? [] : [{ says: "otherCount", of, said, counted: `${counted}` }];
}

/** What is remarked on an election, in the order of the program's notes. */
function notesOf(election: ElectionObject): Note[] {
  const { other_selected: odd, unused_columns: unused } = election;
  return [
    ...otherCount("projects", election.declared_projects, election.projects),
    ...otherCount("votes", election.declared_voters, election.voters),
    ...odd > 0 ? [{ says: "oddSelected", projects: `${odd}` } as const] : [],
    ...unused.map(column => ({ says: "unusedColumn", column } as const)),
  ];
}

export function electionOf(election: ElectionObject): ReadElection {
  const { limit, projects, voters, funded } = election;
  return { limit: BigInt(limit), projects, voters, ...funded === null ? {} : { funded }, notes: notesOf(election) };
}
