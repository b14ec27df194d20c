/* A group's part of the limit and what it would have needed, as a table with a bar in each row. Bars have their lengths by
   attributes, since the page's policy allows no styles, and every figure stands beside them as text. */

import { cutPart } from "../auditor/groups.js";
import { fill } from "../words/words.js";
import { make, makeSvg } from "./elements.js";
import type { Group } from "../auditor/groups.js";
import type { Teller } from "./short.js";

const HIGH = 24;
/** Widths are told to hundredths of a percent. */
const WHOLE = 10_000n;

const percent = (part: bigint, whole: bigint): string => {
  const hundredths = whole > 0n ? part * WHOLE / whole : 0n;
  return `${hundredths / 100n}.${`${hundredths % 100n}`.padStart(2, "0")}%`;
};

const rectangle = (name: string, x: string, width: string): SVGElement =>
  makeSvg("rect", { class: name, x, width, y: "1", height: `${HIGH - 2}` });

const bar = (...inside: SVGElement[]): SVGElement =>
  makeSvg("svg", { class: "sum-bar", height: `${HIGH}`, "aria-hidden": "true" }, ...inside);

/** The bars of a group on one scale: its part, and what it needs, of which the first piece is what the project costs. */
function barsOf(group: Group, isShort: boolean): [SVGElement, SVGElement] {
  const { cost, need } = group;
  const part = cutPart(group).millionths, whole = part > need ? part : need;
  const [first, rest] = [percent(cost, whole), percent(need - cost, whole)];
  return [
    bar(rectangle(isShort ? "part short" : "part", "0", percent(part, whole))),
    bar(rectangle("cost", "0", first), rectangle("got", first, rest),
        rectangle("frame", "0", percent(need, whole))),
  ];
}

const row = (head: string, drawn: SVGElement, figure: string): HTMLElement => make(
  "tr", {}, make("th", { scope: "row" }, head), make("td", { class: "bars" }, drawn), make("td", { class: "num" }, figure));

const keyOf = (name: string, text: string): HTMLElement => make(
  "span", {}, makeSvg("svg", { class: "key-sign", "aria-hidden": "true" },
                      makeSvg("rect", { class: name, width: "24", height: "13" })), text);

/** The table of a group by cost, and what its colours stand for. */
export function sumTable(teller: Teller, group: Group, isShort: boolean): HTMLElement[] {
  const { words } = teller, [upper, lower] = barsOf(group, isShort);
  const money = (millionths: bigint): string => teller.money(millionths);
  return [
    make("table", { class: "sum" }, make("caption", { class: "unseen" }, words.sumHead),
         make("tbody", {}, row(words.theirPart, upper, teller.part(group, money)),
              row(words.theirNeed, lower, money(group.need)))),
    make("p", { class: "key" }, keyOf("cost", fill(words.costPart, { cost: money(group.cost) })),
         keyOf("got framed", fill(words.mostPart, { most: money(group.most) }))),
  ];
}
