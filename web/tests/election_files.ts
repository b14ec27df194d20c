/* Elections for tests, as text. */

import { readElection } from "../src/elections/election.js";
import { decidedOf } from "../src/finding/decided_election.js";
import type { DecidedElection } from "../src/finding/decided_election.js";

export const bytes = (text: string): Uint8Array => new TextEncoder().encode(text);

/** The file of an election with projects p0, p1 and so on. A ballot names their numbers, as "0,2". */
export function fileOf(costs: readonly (number | string)[], limit: number, ballots: readonly string[],
    funded: readonly number[]): string {
  const projects = costs.map((cost, at) => `p${at};${cost};${funded.includes(at) ? 1 : 0}`);
  const votes = ballots.map((ballot, at) => `${at};${ballot.replace(/\d+/g, "p$&")}`);
  return [
    "META", "key;value", `budget;${limit}`, "vote_type;approval", "PROJECTS", "project_id;cost;selected", ...projects,
    "VOTES", "voter_id;vote", ...votes, "",
  ].join("\n");
}

export const decidedFrom = (...given: Parameters<typeof fileOf>): DecidedElection =>
  decidedOf(readElection(bytes(fileOf(...given))));

/** What a search comes to that is let go on to its end. */
export function ended<Answer>(search: Generator<unknown, Answer>): Answer {
  for (;;) {
    const { done, value } = search.next();
    if (done) return value as Answer;
  }
}
