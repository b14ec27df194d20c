/* The list of an election's projects: sorted by any column, searched, and ticked. */

import { amountIn } from "../elections/amounts.js";
import { shownName, toldName } from "../files/names.js";
import { grouped } from "../words/formats.js";
import { fill } from "../words/words.js";
import { element, input, make, makeButton } from "./elements.js";
import type { Project, Summary } from "../elections/election.js";
import type { Words } from "../words/words.js";

/** So many projects are shown at first, and more at each press. */
const AT_ONCE = 100;

const COLUMNS = ["project", "cost", "supporters", "funded"] as const;

type Column = typeof COLUMNS[number];

/** What a project is called. */
export const titleOf = ({ name, id }: Project): string => name || id;

const isLess = (one: Project, other: Project): boolean => one.cost < other.cost;

/** By which of two projects a list begins that rises. */
function compared(column: Column, one: Project, other: Project, language: string): number {
  if (column === "project") return titleOf(one).localeCompare(titleOf(other), language, { numeric: true });
  if (column === "cost") return Number(isLess(other, one)) - Number(isLess(one, other));
  if (column === "supporters") return one.supporters - other.supporters;
  return Number(one.isFunded) - Number(other.isFunded);
}

/** The places of the projects in whose name or id something is, in the order that is asked for. */
export function arranged(projects: readonly Project[], searched: string, order: { column: Column; isFalling: boolean } |
    undefined, language: string): number[] {
  const lower = (text: string): string => text.toLocaleLowerCase(language), wanted = lower(searched.trim());
  const found = [...projects.keys()].filter(at =>
    lower(projects[at].name).includes(wanted) || lower(projects[at].id).includes(wanted));
  if (!order) return found;
  const sign = order.isFalling ? -1 : 1;
  return found.sort((one, other) =>
    sign * compared(order.column, projects[one], projects[other], language) || one - other);
}

interface Place {
  readonly words: Words;
  readonly language: string;
}

export class ProjectList {
  readonly ticked = new Set<number>();
  private order: { column: Column; isFalling: boolean } | undefined;
  private most = AT_ONCE;

  constructor(private readonly page: Place, private readonly summary: Summary, private readonly changed: () => void) {
    const search = input("search-projects");
    search.value = "";
    search.oninput = () => {
      this.most = AT_ONCE;
      this.drawRows();
    };
  }

  draw(): void {
    const head = element("projects").querySelector("thead tr");
    const columns = this.summary.hasOutcome ? COLUMNS : COLUMNS.slice(0, 3);
    head?.replaceChildren(...columns.map(column => this.headOf(column)));
    this.drawRows();
  }

  /** Ticks these projects and no others. */
  tick(projects: readonly number[]): void {
    this.ticked.clear();
    for (const project of projects) this.ticked.add(project);
    this.drawRows();
    this.changed();
  }

  private headOf(column: Column): HTMLElement {
    const { words } = this.page, { order } = this, isSorted = order?.column === column;
    const sort: Record<string, string> = isSorted ? { "aria-sort": order.isFalling ? "descending" : "ascending" } : {};
    const button = make("button", { type: "button", click: () => this.sortBy(column) }, words[column]);
    return make("th", { role: "columnheader", scope: "col", class: column, ...sort }, button);
  }

  /** Names rise at first, and what is large or funded comes first. */
  private sortBy(column: Column): void {
    const isSame = this.order?.column === column;
    this.order = { column, isFalling: isSame ? !this.order?.isFalling : column !== "project" };
    this.draw();
    element("projects").querySelector<HTMLElement>(`th.${column} button`)?.focus();
  }

  private drawRows(): void {
    const { projects } = this.summary, { words, language } = this.page;
    const places = arranged(projects, input("search-projects").value, this.order, language);
    const rest = Math.min(AT_ONCE, places.length - this.most), more = element("more-projects");
    const rows = places.slice(0, this.most).map(at => this.rowOf(at));
    element("projects").querySelector("tbody")?.replaceChildren(...rows);
    element("none-like-it").hidden = places.length > 0;
    element("projects").hidden = places.length === 0;
    more.hidden = rest <= 0;
    const word = fill(words.showMore, { count: grouped(rest) });
    more.replaceChildren(makeButton(word, word, () => {
      this.most += AT_ONCE;
      this.drawRows();
    }));
  }

  private rowOf(at: number): HTMLElement {
    const { words, language } = this.page, project = this.summary.projects[at], { hasOutcome } = this.summary;
    const { id, name, cost, supporters, isFunded } = project;
    const cell = (column: Column, ...inside: (Node | string)[]): HTMLElement =>
      make("td", { role: "cell", class: column, "data-label": words[column] }, ...inside);
    const told = make("bdi", {}, shownName(titleOf(project)));
    const number = name ? [" ", make("bdi", { class: "soft" }, shownName(id))] : [];
    const title = make("span", {}, told, ...number);
    const state = make("span", { class: isFunded ? "good" : "soft" }, isFunded ? words.isFunded : words.isUnfunded);
    return make(
      "tr", { role: "row" },
      cell("project", ...hasOutcome ? [make("label", {}, this.boxOf(at), title)] : [title]),
      cell("cost", amountIn(cost, language)), cell("supporters", grouped(supporters)),
      ...hasOutcome ? [cell("funded", state)] : [],
    );
  }

  private boxOf(at: number): HTMLElement {
    const label = fill(this.page.words.tickProject, { project: toldName(titleOf(this.summary.projects[at])) });
    const box = make("input", { type: "checkbox", autocomplete: "off", label }) as HTMLInputElement;
    box.checked = this.ticked.has(at);
    box.addEventListener("change", () => {
      if (box.checked) this.ticked.add(at);
      else this.ticked.delete(at);
      this.changed();
    });
    return box;
  }
}
