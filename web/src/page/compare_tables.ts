/* The tables of a comparison: the auditor's answer on each outcome, what voters got, and the projects on which outcomes
   differ. On a phone each row is a block, and each figure has its name beside it. */

import { amountIn } from "../elections/amounts.js";
import { shownName } from "../files/names.js";
import { grouped } from "../words/formats.js";
import { fill } from "../words/words.js";
import { element, make, makeSvg } from "./elements.js";
import { saveButton } from "./made.js";
import { titleOf } from "./projects.js";
import { rowOf, Teller, wordOf } from "./short.js";
import type { RuleName } from "../comparing/outcomes.js";
import type { Measure } from "../finding/groups.js";
import type { Words } from "../words/words.js";
import type { Compared, Comparison } from "./compare.js";
import type { Page } from "./page.js";

type Inside = readonly (Node | string)[];

const BAR_HIGH = "10";
/** Of more projects on which outcomes differ the first are shown. */
const MOST_ROWS = 300;

/** What an outcome is called. */
export const ruleIn = (words: Words, rule: RuleName): string =>
  ({ own: words.ruleOwn, votes: words.ruleVotes, cost: words.ruleCost, count: words.ruleCount })[rule];

/** A table with a head. The first cell of a row is its head. Numbers are those in the columns from `numbers` on. */
function fillTable(id: string, heads: readonly string[], rows: readonly (readonly Inside[])[], numbers = heads.length): void {
  const head = heads.map((text, at) =>
    make("th", { role: "columnheader", scope: "col", ...at >= numbers ? { class: "num" } : {} }, text));
  const cellOf = (inside: Inside, at: number): HTMLElement => at === 0
    ? make("th", { role: "rowheader", scope: "row" }, ...inside)
    : make("td", { role: "cell", "data-label": heads[at], ...at >= numbers ? { class: "num" } : {} }, ...inside);
  element(id).replaceChildren(
    make("thead", { role: "rowgroup" }, make("tr", { role: "row" }, ...head)),
    make("tbody", { role: "rowgroup" }, ...rows.map(row => make("tr", { role: "row" }, ...row.map(cellOf)))),
  );
}

const isSame = (one: Compared, other: Compared): boolean => `${one.funded}` === `${other.funded}`;

/** The name of an outcome, and of which other one it is the same. */
function headOf(words: Words, compared: readonly Compared[], at: number): Inside {
  const same = compared.slice(0, at).find(other => isSame(other, compared[at]));
  const more = same ? [" ", make("span", { class: "soft" }, fill(words.sameOutcome, { text: ruleIn(words, same.rule) }))] : [];
  return [ruleIn(words, compared[at].rule), ...more];
}

/** The auditor's answer by a measure: the sign, a word, and which group it is about. */
function answerOf(teller: Teller, { answers }: Compared, measure: Measure): Inside {
  const { words } = teller, answer = answers[measure];
  const sign = makeSvg("svg", { class: answer.isShort ? "sign bad" : "sign", "aria-hidden": "true" },
                       makeSvg("use", { href: answer.isShort ? "#sign-short" : "#sign-none" }));
  return [sign, " ", make("strong", {}, wordOf(words, answer)), " ",
          make("span", { class: "soft" }, rowOf(teller, answer))];
}

function drawAnswers(page: Page, { audit, compared }: Comparison): void {
  const { words } = page, teller = new Teller(page, audit);
  const rows = compared.map((each, at): Inside[] => [
    headOf(words, compared, at), answerOf(teller, each, "cost"), answerOf(teller, each, "count"), [teller.money(each.cost)],
  ]);
  fillTable("compared-answers", [words.comparedOutcome, words.byCost, words.byCount, words.costOfFunded], rows, 3);
}

/** How many voters, as a bar and a number. */
function barOf(voters: number, most: number): Inside {
  const hundredths = most > 0 ? Math.floor(10_000 * voters / most) : 0;
  const width = `${Math.floor(hundredths / 100)}.${`${hundredths % 100}`.padStart(2, "0")}%`;
  return [makeSvg("svg", { class: "got-bar", height: BAR_HIGH, "aria-hidden": "true" },
                  makeSvg("rect", { class: "part", width, height: BAR_HIGH })), grouped(voters)];
}

function drawGot(page: Page, { audit, compared, width }: Comparison): void {
  const { words, language } = page, teller = new Teller(page, audit);
  const most = Math.max(...compared.flatMap(({ got }) => got.voters)), [{ got: { voters } }] = compared;
  const amount = (ranges: number): string => amountIn(width * BigInt(ranges), language);
  const rows = voters.map((_, at): Inside[] => [
    [fill(words.gotRange, { least: amount(at), most: amount(at + 1) })],
    ...compared.map(({ got }) => barOf(got.voters[at], most)),
  ]);
  const figures = (text: string, tell: (one: Compared) => bigint): Inside[] =>
    [[text], ...compared.map(each => [teller.money(tell(each))])];
  const more = [figures(words.gotMiddle, ({ got }) => got.middle), figures(words.gotLeast, ({ got }) => got.least)];
  fillTable("compared-got", [words.gotAmount, ...compared.map(({ rule }) => ruleIn(words, rule))], [...rows, ...more], 1);
}

/** The projects that some of the outcomes fund and others don't, and how many are funded by all and by none. */
function drawProjects(page: Page, { audit, summary: { projects }, compared }: Comparison): void {
  const { words } = page, teller = new Teller(page, audit), funded = compared.map(each => new Set(each.funded));
  const times = projects.map((_, at) => funded.filter(each => each.has(at)).length);
  const differ = [...projects.keys()].filter(at => times[at] > 0 && times[at] < compared.length);
  const countOf = (wanted: number): string => grouped(times.filter(each => each === wanted).length);
  const word = (isFunded: boolean): HTMLElement =>
    make("span", { class: isFunded ? "good" : "soft" }, isFunded ? words.isFunded : words.isUnfunded);
  const rows = differ.slice(0, MOST_ROWS).map((at): Inside[] => [
    [make("bdi", {}, shownName(titleOf(projects[at])))], [teller.money(projects[at].cost)],
    [grouped(projects[at].supporters)], ...funded.map(each => [word(each.has(at))]),
  ]);
  const heads = [words.project, words.cost, words.supporters, ...compared.map(({ rule }) => ruleIn(words, rule))];
  fillTable("compared-projects", heads, rows);
  element("compared-projects").hidden = differ.length === 0;
  const more = differ.length > MOST_ROWS ? `…${fill(words.more, { count: grouped(differ.length - MOST_ROWS) })}. ` : "";
  const rest = fill(words.differRest, { funded: countOf(compared.length), count: countOf(0) });
  element("compared-rest").textContent = `${more}${rest}`;
}

export function drawCompared(page: Page, comparison: Comparison): void {
  const { words } = page;
  drawAnswers(page, comparison);
  drawGot(page, comparison);
  drawProjects(page, comparison);
  const files = comparison.compared.flatMap(({ file }) => file ? [file] : []);
  element("compared-files").replaceChildren(...files.map(file => saveButton(words, file)));
}
