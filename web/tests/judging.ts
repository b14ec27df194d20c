/* Judges certificates by the conditions as they are written (docs/CONDITIONS.md), voter by voter in exact numbers. */

import { MILLION } from "../src/elections/amounts.js";
import { votersIn } from "../src/finding/decided_election.js";
import type { DecidedElection } from "../src/finding/decided_election.js";

const max = (one: bigint, other: bigint): bigint => one > other ? one : other;
const sum = (numbers: readonly bigint[]): bigint => numbers.reduce((all, number) => all + number, 0n);

function ballotOf({ ballots: { starts, places } }: DecidedElection, voter: number): number[] {
  return [...places.subarray(starts[voter], starts[voter + 1])];
}

function rowsOf(text: string, heads: number): string[][] {
  return text.split("\n").slice(heads, -1).map(line => line.split(","));
}

/** The first of C1 to C4, of C5 or S5, and of Cover where it is asked for, that prices fail; undefined where they keep all. */
export function failedBy(decided: DecidedElection, text: string,
    { stable, cover }: { stable: boolean; cover: boolean }): string | undefined {
  const [denominator, budget] = rowsOf(text, 1).slice(0, 2).map(([, number]) => BigInt(number) * MILLION);
  const voters = Array.from({ length: votersIn(decided) }, () => new Map<number, bigint>());
  for (const [voter, id, amount] of rowsOf(text, 4)) {
    voters[Number(voter) - 1].set(decided.ids.indexOf(id), BigInt(amount) * MILLION);
  }
  // All is in millionths times the denominator.
  const spent = voters.map(paid => sum([...paid.values()])), costs = decided.costs.map(cost => cost * denominator / MILLION);
  const paidFor = (project: number): bigint => sum(voters.map(paid => paid.get(project) ?? 0n));
  const offers = voters.map((paid, at) => stable ? [...paid.values()].reduce(max, budget - spent[at]) : budget - spent[at]);
  const offered = (project: number): bigint => sum(offers.filter((_, voter) => ballotOf(decided, voter).includes(project)));
  const projects = [...decided.ids.keys()], total = budget * BigInt(voters.length);
  if (cover && !(total > decided.limit * denominator / MILLION)) return "Cover";
  if (voters.some((paid, voter) => [...paid.keys()].some(project => !ballotOf(decided, voter).includes(project)))) return "C1";
  if (spent.some(each => each > budget)) return "C2";
  if (projects.some(project => decided.isFunded[project] && paidFor(project) !== costs[project])) return "C3";
  if (projects.some(project => !decided.isFunded[project] && paidFor(project))) return "C4";
  const isOver = projects.some(project => !decided.isFunded[project] && offered(project) > costs[project]);
  return isOver ? stable ? "S5" : "C5" : undefined;
}

/** A voter's gain, or in the stable form the number that may take its place. */
function gainOf(results: readonly bigint[], hope: bigint, stable: boolean): bigint {
  const gain = results.reduce(max, 0n);
  if (!stable) return gain;
  // What is asked of it holds of all numbers from the least on.
  let low = 0n, high = gain;
  while (low < high) {
    const middle = (low + high) / 2n, over = sum(results.map(result => max(0n, result - middle)));
    if (over <= middle && over <= hope) high = middle;
    else low = middle + 1n;
  }
  return low;
}

/** The first of U1 to U3 that weights fail; undefined where they refute. */
export function notRefutedBy(decided: DecidedElection, text: string, stable: boolean): string | undefined {
  const cover = BigInt(rowsOf(text, 1)[0][1]), weights = new Map<number, bigint>();
  for (const [role, id, weight] of rowsOf(text, 3)) {
    const project = decided.ids.indexOf(id);
    if ((role === "left") === decided.isFunded[project]) return "U1";
    weights.set(project, role === "most" ? -BigInt(weight) : BigInt(weight));
  }
  const weightOf = (project: number): bigint => weights.get(project) ?? 0n, voters = [...Array(votersIn(decided)).keys()];
  const hopes = voters.map(voter => sum(ballotOf(decided, voter).filter(project => !decided.isFunded[project]).map(weightOf)));
  const gains = voters.map((voter, at) => gainOf(ballotOf(decided, voter).filter(project => decided.isFunded[project])
    .map(project => weightOf(project) + hopes[at]), hopes[at], stable));
  if (sum(gains) + cover * BigInt(voters.length) > sum(hopes)) return "U2";
  const worth = decided.costs.map((cost, project) => cost * weightOf(project) * (decided.isFunded[project] ? 1n : -1n));
  const over = sum(worth) + cover * decided.limit;
  return over > 0n || over === 0n && cover > 0n ? undefined : "U3";
}
