/* Looks for certificates of elections as the page does, for tests/web/test_finding.py: `node seek.js FILE..` prints for
   each file a line of JSON. */

import { readFileSync } from "node:fs";
import process from "node:process";
import { readElection } from "../src/elections/election.js";
import { refutationText, violationText } from "../src/finding/certificates.js";
import { cohortsOf } from "../src/finding/cohorts.js";
import { decidedOf } from "../src/finding/decided_election.js";
import { Decisions } from "../src/finding/deciding.js";
import { MEASURES, refutationOf } from "../src/finding/groups.js";
import { Search } from "../src/finding/search.js";
import { seek } from "../src/finding/seeking.js";
import { problemOf } from "../src/finding/shares.js";
import { ended } from "./election_files.js";
import type { DecidedElection } from "../src/finding/decided_election.js";
import type { Need } from "../src/finding/shares.js";

const textOf = (bytes: Uint8Array): string => new TextDecoder().decode(bytes);
const FORMS: readonly Need[] = [false, true].flatMap(stable => [true, false].map(cover => ({ stable, cover })));

/** What is found of prices of one kind: some, or a refutation. */
function soughtBy(decisions: Decisions, need: Need): Record<string, unknown> {
  const began = performance.now(), sought = ended(seek(decisions, "either", need)), { decided } = decisions.problem;
  const told = { ...need, says: sought.says, milliseconds: performance.now() - began };
  if (sought.says === "found") return { ...told, isCovered: sought.cover, prices: sought.pieces.map(textOf).join("") };
  if (sought.says !== "refuted" && sought.says !== "unpaid") return told;
  const { cover, weights, stable } = sought.refutation;
  return { ...told, ofStable: stable, ofCover: cover > 0, refutation: refutationText(decided, cover, weights) };
}

function violationsIn(decided: DecidedElection): Record<string, unknown> {
  const told: Record<string, unknown> = {}, cohorts = cohortsOf(decided.ballots);
  for (const measure of MEASURES) {
    const { demand, tried, isAll } = ended(new Search(decided, measure, cohorts).run());
    const refutation = demand && refutationOf(decided, demand);
    told[measure] = {
      tried, isAll, ...demand ? { violation: violationText(decided, measure, demand) } : {},
      ...refutation ? { refutation: refutationText(decided, refutation.cover, refutation.weights) } : {},
    };
  }
  return told;
}

for (const path of process.argv.slice(2)) {
  const decided = decidedOf(readElection(readFileSync(path)));
  const decisions = new Decisions(problemOf(decided, cohortsOf(decided.ballots)));
  console.log(JSON.stringify({ file: path, forms: FORMS.map(need => soughtBy(decisions, need)), ...violationsIn(decided) }));
}
