/* The answer on an election alone: whether a group of its voters falls short. All that is said of it is the auditor's answer;
   names of projects and the currency are read in the file by the script that shows the election. */

import { covered, cutPart } from "../auditor/groups.js";
import { amountIn } from "../elections/amounts.js";
import { shownName, toldName } from "../files/names.js";
import { grouped } from "../words/formats.js";
import { fill } from "../words/words.js";
import { element, make, refill } from "./elements.js";
import { sumTable } from "./short_sum.js";
import type { Measure } from "../auditor/commands.js";
import type { FirstAnswers, Group, GroupsAnswer } from "../auditor/groups.js";
import type { Words } from "../words/words.js";
import type { Audit } from "./audits.js";
import type { Page } from "./page.js";

/** An audit of an election alone, with its answer. */
export interface ShortAudit extends Audit {
  readonly short: FirstAnswers;
}

export const isShortAudit = (audit: Audit): audit is ShortAudit => audit.short !== undefined;

/** Where the words, the names and the amounts of an election come from. */
export class Teller {
  constructor(readonly page: Page, private readonly audit: Audit) {}

  get words(): Words {
    return this.page.words;
  }

  /** A project by its name in quotes, or by its id until that is known. */
  named({ project, number }: Group): string {
    const name = this.page.election.titleIn(this.audit.task.election, number - 1);
    return name === undefined ? fill(this.words.projectNumbered, { project: toldName(project) })
      : fill(this.words.projectNamed, { project: toldName(name) });
  }

  plain(millionths: bigint): string {
    return amountIn(millionths, this.page.language);
  }

  money(millionths: bigint): string {
    const currency = this.page.election.currencyIn(this.audit.task.election);
    return `${this.plain(millionths)}${currency ? `\u00a0${currency}` : ""}`;
  }

  /** A group's part of the limit, with an ellipsis where something was cut. */
  part(group: Group, tell: (millionths: bigint) => string): string {
    const { millionths, isCut } = cutPart(group);
    return `${tell(millionths)}${isCut ? "…" : ""}`;
  }

  /** The need of a group as a sum. */
  sum({ cost, most, need }: Group, measure: Measure): string {
    const [one, other, all] = [cost, most, need].map(amount => this.plain(amount));
    return measure === "cost" ? `${one} + ${other} = ${all}` : `${one} × (1 + ${grouped(most)}) = ${all}`;
  }
}

/** What a group that falls short is, in a sentence. */
function shortLine(teller: Teller, group: Group, measure: Measure): string {
  const { words } = teller, { voters, supporters, cost, most } = group;
  const values = {
    voters: grouped(voters), all: grouped(supporters), project: teller.named(group), cost: teller.money(cost),
    share: teller.part(group, amount => teller.money(amount)), sum: teller.sum(group, measure),
    part: teller.part(group, amount => teller.plain(amount)),
  };
  return measure === "cost" ? fill(words.shortByCost, { ...values, most: teller.money(most) })
    : fill(words.shortByCount, { ...values, count: grouped(most) });
}

/** The answer by a measure, in a sentence or two. */
function leadOf(teller: Teller, { isShort, group }: GroupsAnswer, measure: Measure): string {
  const { words } = teller;
  if (isShort && group) return `${shortLine(teller, group, measure)} ${words.notAddable}`;
  return group ? measure === "cost" ? words.noneByCost : words.noneByCount : words.noneUnfunded;
}

const isOver = ({ cost, election }: GroupsAnswer): boolean => cost > election.limit;

/** Less than half of the limit was used. */
const isLittle = ({ cost, election }: GroupsAnswer): boolean => 2n * cost < election.limit;

/** What an answer by a measure says, in few words. */
export function wordOf(words: Words, answer: GroupsAnswer): string {
  if (answer.isShort) return words.someShort;
  return isOver(answer) ? words.noneShortOver : words.noneShort;
}

export const headOf = (words: Words, { short }: ShortAudit): string => wordOf(words, short.cost);

/** The group of an answer, for a list. */
export function rowOf(teller: Teller, { isShort, group }: GroupsAnswer): string {
  const { words } = teller;
  if (!group) return words.noneUnfunded;
  const values = { voters: grouped(group.voters), all: grouped(group.supporters), project: teller.named(group) };
  const percent = covered(group);
  const text = percent === undefined ? fill(words.rowGroupFree, values)
    : fill(words.rowGroup, { ...values, percent: grouped(percent) });
  return isShort ? text : fill(words.rowClosest, { text });
}

const wordIn = (words: Words, { isShort }: GroupsAnswer): string => isShort ? words.someShort : words.noneShort;

/** What stands in the list beside the answer: the group by cost, and the answer by the number of projects. */
export function shortSentence(page: Page, audit: ShortAudit): string {
  const teller = new Teller(page, audit), { words } = page, { cost, count } = audit.short;
  if (!count) return rowOf(teller, cost);
  return `${rowOf(teller, cost)} ${fill(words.rowByCount, { text: wordIn(words, count) })}.`;
}

/** The answers as columns of a table: what each measure says, and of which group. */
export function shortColumns(page: Page, audit: Audit): string[] {
  if (!isShortAudit(audit)) return ["", "", "", ""];
  const teller = new Teller(page, audit), { words } = page;
  return [audit.short.cost, audit.short.count].flatMap(answer =>
    answer ? [wordIn(words, answer), rowOf(teller, answer)] : ["", ""]);
}

function meansOf(teller: Teller, { isShort, group }: GroupsAnswer): string[] {
  const { words } = teller;
  if (!group) return [words.noneUnfunded];
  const { voters, supporters, most, need } = group, share = teller.part(group, amount => teller.money(amount));
  if (isShort) {
    return [fill(words.meansShort, { share }), fill(words.meansAll, { most: teller.money(most) })];
  }
  const values = { voters: grouped(voters), all: grouped(supporters), project: teller.named(group), share };
  const sum = { need: teller.money(need), sum: teller.sum(group, "cost") };
  return [words.meansNone, fill(words.closestIs, { ...values, ...sum })];
}

/** What the answer doesn't say. Where all that anybody wants was funded, no group got less than it deserves. */
function meansNotOf(teller: Teller, answer: GroupsAnswer): string[] {
  const { words } = teller, values = { cost: teller.money(answer.cost), limit: teller.money(answer.election.limit) };
  const limit = fill(isOver(answer) ? words.limitBroken : words.limitKept, values);
  if (answer.isShort) return [...isOver(answer) ? [limit] : [], words.notBroken, words.countsBallots];
  return [
    ...answer.group ? [fill(words.roomForOne, { option: words.checkFurther })] : [], limit,
    ...isLittle(answer) && answer.group ? [fill(words.littleFunded, values)] : [], words.notFairest,
  ];
}

/** Which election it is. */
function aboutOf(teller: Teller, audit: ShortAudit): HTMLElement[] {
  const { words, page } = teller, { election, outcome } = audit.task, { cost } = audit.short;
  const title = page.election.headIn(election) ?? shownName(election!.file.name), { voters, projects } = cost.election;
  const figures = fill(words.electionFigures, {
    voters: grouped(voters), limit: teller.money(cost.election.limit), funded: grouped(cost.funded),
    projects: grouped(projects), cost: teller.money(cost.cost),
  });
  const whose = outcome ? ` ${words.outcome}: ${toldName(outcome.file.name)}.` : "";
  return [make("strong", {}, make("bdi", {}, title)), make("span", { class: "soft" }, `${figures}${whose}`)];
}

/** The answer by the number of projects, or what has become of it. */
function countOf(teller: Teller, { short: { count }, remaining, task }: ShortAudit): string {
  const { words } = teller;
  if (count) return `${count.isShort ? words.someShortByCount : words.noneShortByCount} ${leadOf(teller, count, "count")}`;
  if (remaining !== "awaited") return remaining === "stopped" ? words.stopped : words.isFailed;
  return fill(words.checking, { file: toldName(task.election!.file.name) });
}

/** Draws the answer that is shown, or nothing. */
export function drawShort(page: Page): void {
  const { short: audit, words } = page, section = element("on-groups");
  section.hidden = !audit;
  if (!audit) return;
  const teller = new Teller(page, audit), { cost, count } = audit.short;
  const paragraphs = (texts: readonly string[], name: string): HTMLElement[] => texts.map(text => make(name, {}, text));
  section.classList.toggle("short", cost.isShort);
  element("on-groups-about").replaceChildren(...aboutOf(teller, audit));
  element("on-groups-icon").setAttribute("href", cost.isShort ? "#sign-short" : "#sign-none");
  element("on-groups-word").textContent = headOf(words, audit);
  element("on-groups-lead").textContent = leadOf(teller, cost, "cost");
  refill(element("on-groups-sum"), cost.group ? sumTable(teller, cost.group, cost.isShort) : []);
  element("further-asks").textContent = fill(words.checkFurtherAsks, { option: words.checkFurther });
  element("on-groups-means").replaceChildren(...paragraphs(meansOf(teller, cost), "p"));
  element("on-groups-not").replaceChildren(...paragraphs(meansNotOf(teller, cost), "li"));
  element("on-groups-count").textContent = countOf(teller, audit);
  element("on-groups-count-tags").hidden = !count;
}
