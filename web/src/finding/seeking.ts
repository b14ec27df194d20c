/* A search for prices and for a refutation, which ends in one or the other. That it ends in neither is no proof. */

import { roomOf, unpaidRefutation } from "./groups.js";
import { findPrices } from "./prices.js";
import { findRefutation } from "./refutations.js";
import { unpaid } from "./shares.js";
import type { Decisions, Progress } from "./deciding.js";
import type { FoundPrices } from "./prices.js";
import type { FoundRefutation } from "./refutations.js";
import type { Need } from "./shares.js";

/** What is looked for: prices, a refutation, or a refutation where there are no prices. */
export type Seeks = "prices" | "refutation" | "either";

/** What a search comes to. Where the outcome costs too much, or nobody can pay for a project, there can be no prices. */
export type Sought =
  | { readonly says: "infeasible" | "none" }
  | { readonly says: "unpaid"; readonly project: number; readonly refutation: FoundRefutation }
  | { readonly says: "found" } & FoundPrices
  | { readonly says: "refuted"; readonly refutation: FoundRefutation };

export function* seek(decisions: Decisions, seeks: Seeks, need: Need): Generator<Progress, Sought> {
  const { problem } = decisions, project = unpaid(problem);
  if (!roomOf(problem.decided).isFeasible) return { says: "infeasible" };
  if (project !== undefined) {
    return { says: "unpaid", project, refutation: { ...unpaidRefutation(project), stable: false } };
  }
  const prices = seeks === "refutation" ? undefined : yield* findPrices(decisions, need);
  if (prices) return { says: "found", ...prices };
  const refutation = seeks === "prices" ? undefined : yield* findRefutation(decisions, need);
  return refutation ? { says: "refuted", refutation } : { says: "none" };
}
