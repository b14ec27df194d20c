/* How many audits ended in which way. */

import { NO, REFUSED, YES } from "../auditor/statuses.js";
import { grouped } from "../words/formats.js";
import { fill } from "../words/words.js";
import { optionsIn } from "./asked.js";
import { isRead } from "./audits.js";
import type { Kind } from "../auditor/kinds.js";
import type { Words } from "../words/words.js";
import type { Audit } from "./audits.js";

/** How many answers are a yes and a no. */
interface Count {
  yes: number;
  no: number;
}

const told = ({ yes, no }: Count): { yes: string; no: string } => ({ yes: grouped(yes), no: grouped(no) });

/** How many of these answers are which. */
const countOf = (audits: readonly Audit[]): Count => ({
  yes: audits.filter(({ status }) => status === YES).length, no: audits.filter(({ status }) => status === NO).length,
});

/** The totals of prices, of each way in which they were asked. */
function pricesTotals(words: Words, prices: readonly Audit[]): string[] {
  const optionsOf = ({ mode }: Audit): string => mode ? optionsIn(words, mode) : "";
  const little = prices.filter(({ groups }) => groups === "little").length;
  const totals = [...new Set(prices.map(optionsOf))].map(options =>
    fill(words.pricesTotals, { ...told(countOf(prices.filter(audit => optionsOf(audit) === options))), options }));
  return [...totals, little > 0 ? fill(words.littleTotal, { count: grouped(little) }) : ""];
}

/**
 * The totals in sentences. Those of each kind of certificate are told apart, since of these a Yes is no good news. All
 * together are as many as the audits.
 */
export function totalsOf(words: Words, audits: readonly Audit[]): string {
  const done = audits.filter(audit => audit.state === "done" && !audit.problem);
  const answered = done.filter(audit => (audit.status === YES || audit.status === NO) && !isRead(audit));
  const alone = answered.filter(({ task }) => !task.certificate);
  const ofKind = (kind: Kind): Audit[] => answered.filter(({ task }) => task.certificate?.kind === kind);
  const [violations, refutations] = [ofKind("violation"), ofKind("refutation")];
  const refused = done.filter(audit => audit.status === REFUSED).length, read = done.filter(isRead).length;
  const open = audits.length - answered.length - refused - read;
  return [
    alone.length > 0 ? fill(words.groupsTotals, told(countOf(alone))) : "",
    ...pricesTotals(words, ofKind("prices")),
    violations.length > 0 ? fill(words.violationTotals, told(countOf(violations))) : "",
    refutations.length > 0 ? fill(words.refutationTotals, told(countOf(refutations))) : "",
    refused > 0 ? fill(words.refusedTotal, { count: grouped(refused) }) : "",
    read > 0 ? fill(words.readTotal, { count: grouped(read) }) : "",
    open > 0 ? fill(words.openTotal, { count: grouped(open) }) : "",
  ].filter(Boolean).join(" ");
}
