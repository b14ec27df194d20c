/* Looks for certificates, away from the page. It holds one election; searches go on in slices, between which what else
   is asked is answered. Nothing that it tells is proved. */

import { outcomesOf } from "../comparing/outcomes.js";
import { Electorate } from "../comparing/rule.js";
import { readElection, Unlike, withOutcome } from "../elections/election.js";
import { refutationText, violationText } from "../finding/certificates.js";
import { cohortsOf } from "../finding/cohorts.js";
import { decidedOf } from "../finding/decided_election.js";
import { Decisions } from "../finding/deciding.js";
import { claimantsOf, figuresOf, MEASURES, refutationOf, roomOf } from "../finding/groups.js";
import { Search } from "../finding/search.js";
import { seek } from "../finding/seeking.js";
import { problemOf } from "../finding/shares.js";
import { sumOf } from "./bytes.js";
import type { Completion } from "../comparing/shares.js";
import type { Cohorts } from "../finding/cohorts.js";
import type { DecidedElection } from "../finding/decided_election.js";
import type { Claim, Measure, Refutation } from "../finding/groups.js";
import type { Sought } from "../finding/seeking.js";
import type {
  FindOrder, FindProgress, FindTold, FoundGroups, Numbered, PricesOrder, PricesTold, ReadOrder, SearchedGroups, ShownClaim,
  ShownFigures, ViolationOrder,
} from "./finds.js";
import type { Sums } from "./orders.js";

/** A search goes on for so many milliseconds until it looks whether something else is asked. */
const SLICE = 50;

type Tell = (progress: FindProgress) => void;

/** A file can't be read. */
class Unreadable extends Error {}

/** A file isn't any more what was read of it. */
class Changed extends Error {}

const bytesOf = async (file: File): Promise<Uint8Array> =>
  new Uint8Array(await file.arrayBuffer().catch(() => { throw new Unreadable(file.name); }));

const filesOf = ({ election, outcome }: ReadOrder): File[] => outcome ? [election, outcome] : [election];

/** The bytes of the election, and of the outcome file where there is one. */
const contentsOf = (order: ReadOrder): Promise<Uint8Array[]> => Promise.all(filesOf(order).map(bytesOf));

/** Refuses other sums than those of what was read before. */
function requireSums(order: ReadOrder, sums: Sums): void {
  const other = filesOf(order).find((_, at) => order.sums && order.sums[at] !== sums[at]);
  if (other) throw new Changed(other.name);
}

const shownClaim = ({ voters, share, most, isViolation }: Claim): ShownClaim =>
  ({ members: voters.length, share, most, isViolation });

const refutationFile = (decided: DecidedElection, { cover, weights }: Refutation): Blob =>
  new Blob([refutationText(decided, cover, weights)]);

/** What is told of prices, with the file of what was found. */
function pricesTold(decided: DecidedElection, sought: Sought): PricesTold {
  if (sought.says === "found") {
    return { tells: "prices", says: "found", cover: sought.cover, file: new Blob([...sought.pieces]) };
  }
  if (sought.says === "unpaid") {
    return { tells: "prices", ...sought, refutation: refutationFile(decided, sought.refutation) };
  }
  if (sought.says !== "refuted") return { tells: "prices", says: sought.says };
  const { refutation } = sought, { stable } = refutation;
  const file = refutationFile(decided, refutation);
  return { tells: "prices", says: "refuted", stable, cover: refutation.cover > 0, refutation: file };
}

class Finder {
  private decided: DecidedElection | undefined;
  private cohorts: Cohorts | undefined;
  /** What was decided of prices, from one search to the next. */
  private decisions: Decisions | undefined;
  private isStopped = false;
  /** The files that were read, with the sums of what was read. */
  private given: ReadOrder | undefined;
  private reading: Promise<FindTold> | undefined;

  async answer(order: Exclude<FindOrder, { asks: "stop" }>, tell: Tell): Promise<FindTold> {
    if (order.asks === "read") return this.reading = this.read(order);
    // A search may be stopped before it has begun, and what else is asked may come before the election is read.
    if (order.asks !== "figures" && order.asks !== "violation") this.isStopped = false;
    await this.reading;
    if (order.asks === "figures") return this.figures(order.projects);
    await this.requireSame();
    switch (order.asks) {
      case "violation": return this.violation(order);
      case "groups": return this.groups(tell);
      case "prices": return this.prices(order, tell);
      case "outcomes": return this.outcomes(order.completion, tell);
    }
  }

  stop(): void {
    this.isStopped = true;
  }

  private async read(order: ReadOrder): Promise<FindTold> {
    const contents = await contentsOf(order), [election, outcome] = contents, sums = contents.map(sumOf);
    requireSums(order, sums);
    this.given = { ...order, sums };
    const bare = readElection(election), whole = outcome ? withOutcome(bare, outcome) : bare;
    this.decided = decidedOf(whole);
    return { tells: "summary", summary: whole.summary, ...roomOf(this.decided), sums };
  }

  /** Refuses where files aren't any more what was read: a certificate is of them, and not of what is kept of them. */
  private async requireSame(): Promise<void> {
    if (this.given) requireSums(this.given, (await contentsOf(this.given)).map(sumOf));
  }

  private known(): { decided: DecidedElection; cohorts: Cohorts } {
    if (!this.decided) throw new Error("no election was read");
    return { decided: this.decided, cohorts: this.cohorts ??= cohortsOf(this.decided.ballots) };
  }

  private figures(ticked: readonly number[]): ShownFigures {
    const { projects, cost, approving, share, claims } = figuresOf(this.known().decided, ticked);
    return {
      tells: "figures", projects, cost, approving, share,
      claims: { count: shownClaim(claims.count), cost: shownClaim(claims.cost) },
    };
  }

  private violation({ measure, projects }: ViolationOrder): FindTold {
    const { decided } = this.known(), voters = claimantsOf(decided, measure, projects);
    const refutation = refutationOf(decided, { voters, projects });
    return {
      tells: "violation", file: new Blob([violationText(decided, measure, { voters, projects })]),
      ...refutation ? { refutation: refutationFile(decided, refutation) } : {},
    };
  }

  private async groups(tell: Tell): Promise<FoundGroups> {
    const found: SearchedGroups[] = [];
    let isStopped = false;
    for (const measure of MEASURES) {
      const search = this.searchFor(measure);
      const isDone = await this.sliced(search.run(), size => tell({ tells: "progress", of: "groups", measure, size }));
      const { demand, tried, isAll } = search.searched();
      found.push({ measure, projects: demand?.projects ?? [], voters: demand?.voters.length ?? 0, tried, isAll });
      isStopped = !isDone;
      if (isStopped) break;
    }
    return { tells: "groups", isStopped, found };
  }

  private searchFor(measure: Measure): Search {
    const { decided, cohorts } = this.known();
    return new Search(decided, measure, cohorts);
  }

  private async outcomes(completion: Completion, tell: Tell): Promise<FindTold> {
    const { decided, cohorts } = this.known();
    const done = await this.sliced(outcomesOf(new Electorate(decided, cohorts), completion), step =>
      tell({ tells: "progress", of: "outcomes", ...step }));
    return done ? { tells: "outcomes", ...done.value } : { tells: "stopped" };
  }

  private async prices({ seeks, need }: PricesOrder, tell: Tell): Promise<PricesTold> {
    const { decided, cohorts } = this.known(), decisions = this.decisions ??= new Decisions(problemOf(decided, cohorts));
    const done = await this.sliced(seek(decisions, seeks, need), step => tell({ tells: "progress", of: "prices", ...step }));
    return done ? pricesTold(decided, done.value) : { tells: "prices", says: "stopped" };
  }

  /** Lets a search go on to its end, and answers what it comes to; undefined where it was stopped. */
  private async sliced<Step, Answer>(search: Generator<Step, Answer>, tell: (step: Step) => void):
      Promise<{ value: Answer } | undefined> {
    for (;;) {
      const ends = performance.now() + SLICE;
      let next = search.next();
      while (!next.done && performance.now() < ends) next = search.next();
      if (next.done) return { value: next.value };
      tell(next.value);
      await new Promise(resolve => setTimeout(resolve));
      if (this.isStopped) return undefined;
    }
  }
}

/** Why there is no answer. */
function failedBy(error: unknown): FindTold {
  if (error instanceof Unlike) return { tells: "failed", why: "unlike" };
  if (error instanceof Unreadable) return { tells: "failed", why: "unreadable", file: error.message };
  if (error instanceof Changed) return { tells: "failed", why: "changed", file: error.message };
  return { tells: "failed", why: error instanceof RangeError ? "memory" : "trap" };
}

const finder = new Finder();

onmessage = async ({ data: { number, content } }: MessageEvent<Numbered<FindOrder>>) => {
  if (content.asks === "stop") return finder.stop();
  const tell = (told: FindTold): void => postMessage({ number, content: told });
  tell(await finder.answer(content, tell).catch(failedBy));
};
