/* The search for prices and for refutations ends in what tests/tables/prices.json says, which an exact linear programme of the
   tests of Python finds as well. What is found is judged by the conditions as they are written. */

import assert from "node:assert/strict";
import test from "node:test";
import table from "../../tests/tables/prices.json";
import { readElection } from "../src/elections/election.js";
import { refutationText } from "../src/finding/certificates.js";
import { cohortsOf } from "../src/finding/cohorts.js";
import { decidedOf } from "../src/finding/decided_election.js";
import { Decisions } from "../src/finding/deciding.js";
import { seek } from "../src/finding/seeking.js";
import { problemOf } from "../src/finding/shares.js";
import { bytes, ended } from "./election_files.js";
import { failedBy, notRefutedBy } from "./judging.js";
import type { DecidedElection } from "../src/finding/decided_election.js";
import type { Sought } from "../src/finding/seeking.js";

type Kind = "with Cover" | "without Cover" | "none";

interface Row {
  readonly name: string;
  readonly limit: string;
  readonly projects: readonly (readonly [string, string])[];
  readonly ballots: readonly (readonly string[])[];
  readonly funded: readonly string[];
  readonly plain: Kind;
  readonly stable: Kind;
}

const rows = table as unknown as readonly Row[];

function decidedFrom({ limit, projects, ballots, funded }: Row): DecidedElection {
  return decidedOf(readElection(bytes([
    "META", "key;value", `budget;${limit}`, "vote_type;approval", "PROJECTS", "project_id;cost;selected",
    ...projects.map(([id, cost]) => `${id};${cost};${Number(funded.includes(id))}`), "VOTES", "voter_id;vote",
    ...ballots.map((ballot, at) => `${at};${ballot.join()}`), "",
  ].join("\n"))));
}

/** What was found, in a word; the certificate has to be what it says. */
function judged(decided: DecidedElection, sought: Sought, stable: boolean, cover: boolean): Kind {
  if (sought.says === "found") {
    const text = sought.pieces.map(piece => new TextDecoder().decode(piece)).join("");
    assert.equal(failedBy(decided, text, { stable, cover: sought.cover }), undefined);
    return sought.cover ? "with Cover" : "without Cover";
  }
  assert(sought.says === "refuted" || sought.says === "unpaid", sought.says);
  const { refutation } = sought, text = refutationText(decided, refutation.cover, refutation.weights);
  assert.equal(notRefutedBy(decided, text, refutation.stable), undefined);
  assert((stable || !refutation.stable) && (cover || !refutation.cover));
  return "none";
}

for (const row of rows) {
  for (const form of ["plain", "stable"] as const) {
    for (const cover of [true, false]) {
      test(`${row.name}, ${form}, ${cover ? "with Cover" : "any"}`, () => {
        const decided = decidedFrom(row), decisions = new Decisions(problemOf(decided, cohortsOf(decided.ballots)));
        const stable = form === "stable", sought = ended(seek(decisions, "either", { stable, cover }));
        const wanted = cover && row[form] === "without Cover" ? "none" : row[form];
        assert.equal(judged(decided, sought, stable, cover), wanted);
      });
    }
  }
}

test("weights that don't refute, and prices that fail, are judged so", () => {
  const decided = decidedFrom(rows.find(({ name }) => name === "one project for another")!);
  const weights = (...lines: string[]): string => ["pb-refutation,1", "cover,0", "role,project,weight", ...lines, ""].join("\n");
  const text = weights("least,a,1", "left,c,1");
  assert.deepEqual([notRefutedBy(decided, text, true), notRefutedBy(decided, text, false)], [undefined, "U2"]);
  assert.equal(notRefutedBy(decided, weights("left,a,1"), true), "U1");
  assert.equal(notRefutedBy(decided, weights("least,a,1", "left,c,4"), true), "U3");
  const prices = (...lines: string[]): string =>
    ["pb-prices,1", "denominator,1", "voter_budget,3", "voter,project,payment", ...lines, ""].join("\n");
  const judge = (stable: boolean, ...lines: string[]): unknown => failedBy(decided, prices(...lines), { stable, cover: false });
  assert.deepEqual([judge(false, "1,a,2", "2,a,2"), judge(false, "1,a,1", "2,a,3"), judge(false, "1,a,4")], ["C5", "C5", "C2"]);
  assert.deepEqual([judge(false, "1,a,3"), judge(false, "1,a,2", "2,c,1"), judge(false, "1,a,2", "1,c,1", "2,a,2")],
                   ["C3", "C3", "C4"]);
  assert.equal(failedBy(decided, prices("1,a,2", "2,a,2"), { stable: true, cover: true }), "Cover");
});
