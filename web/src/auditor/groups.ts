/* Whether a group of voters falls short, as the library answers it from an election alone: by what projects cost, and by
   how many they are. */

import { electionOf } from "./elections.js";
import type { Measure } from "./commands.js";
import type { ReadElection } from "./elections.js";
import type { GroupObject, GroupsObject } from "./objects.js";

/** A fraction of whole numbers. Shares of the limit are in millionths. */
export interface Fraction {
  readonly numerator: bigint;
  readonly denominator: bigint;
}

/**
 * A group of voters who all approve a project that isn't funded. Amounts are in millionths, and by count `most` is a
 * number of projects.
 */
export interface Group {
  /** The project: its id, and its place in the election, from 1. */
  readonly project: string;
  readonly number: number;
  readonly cost: bigint;
  /** How many approve the project, and how many of them are in the group: all who got at most so much. */
  readonly supporters: number;
  readonly voters: number;
  readonly most: bigint;
  /** What the group has to have for the project, and its equal part of the limit. */
  readonly need: bigint;
  readonly share: Fraction;
}

/**
 * The answer by one measure. The group is the largest that falls short for the first project for which one does, or the
 * one that comes closest; null where no project could be meant.
 */
export interface GroupsAnswer {
  readonly isShort: boolean;
  readonly group: Group | null;
  readonly election: ReadElection;
  /** What is funded in the outcome that was looked at: how many projects, and what they cost together. */
  readonly funded: number;
  readonly cost: bigint;
}

export type GroupsAnswers = Readonly<Record<Measure, GroupsAnswer>>;

/** The answer by cost, which comes first, and that by count where it is there. */
export type FirstAnswers = Pick<GroupsAnswers, "cost"> & Partial<GroupsAnswers>;

function groupOf({ project, number, cost, supporters, voters, most, need, share }: GroupObject): Group {
  const [numerator, denominator] = [BigInt(share.numerator), BigInt(share.denominator)];
  const amounts = { cost: BigInt(cost), most: BigInt(most), need: BigInt(need) };
  return { project, number, supporters, voters, ...amounts, share: { numerator, denominator } };
}

export function groupsOf({ answer, election, group, outcome }: GroupsObject): GroupsAnswer {
  return {
    isShort: answer === "no", group: group && groupOf(group), election: electionOf(election),
    funded: outcome.funded, cost: BigInt(outcome.cost),
  };
}

/** Which part of what a group has to have its part of the limit covers, in percent and cut; undefined where that is 0. */
export function covered({ need, share: { numerator, denominator } }: Group): bigint | undefined {
  return need > 0n && denominator > 0n ? 100n * numerator / (need * denominator) : undefined;
}

/**
 * How much an answer weighs in a list: which part of the voters is in the group that falls short, or else which part of
 * its need the closest group's part covers. Undefined without a group.
 */
export function weightOf({ isShort, group, election }: GroupsAnswer): Fraction | undefined {
  if (!group) return undefined;
  if (isShort) return { numerator: BigInt(group.voters), denominator: BigInt(election.voters) };
  return { numerator: group.share.numerator, denominator: group.share.denominator * group.need };
}

const HUNDREDTH = 10_000n;

/**
 * A group's part of the limit as it is told beside its need: cut to hundredths, or to millionths where the need has more
 * places, so that it stays on its side of the need.
 */
export function cutPart({ need, share: { numerator, denominator } }: Group): { millionths: bigint; isCut: boolean } {
  const step = need % HUNDREDTH === 0n ? HUNDREDTH : 1n, whole = numerator / denominator;
  const millionths = whole - whole % step;
  return { millionths, isCut: millionths * denominator !== numerator };
}
