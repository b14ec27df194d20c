/* The searches for prices and for groups: how far they are, and what they come to. */

import { isSameMode } from "../auditor/statuses.js";
import { shownLine, toldName } from "../files/names.js";
import { grouped } from "../words/formats.js";
import { fill } from "../words/words.js";
import { askedIn, optionsIn } from "./asked.js";
import { failureItem, handOver, isOfChange, nameOf, namesOf } from "./desk.js";
import { element, elementOf, make, makeButton } from "./elements.js";
import { makeViolation } from "./group.js";
import { givenItem } from "./made.js";
import { refutedBy } from "../words/headlines.js";
import type { Mode } from "../auditor/statuses.js";
import type { Measure } from "../finding/groups.js";
import type { Seeks } from "../finding/seeking.js";
import type { Need } from "../finding/shares.js";
import type { FindProgress, FoundGroups, PricesTold, SearchedGroups } from "../worker/finds.js";
import type { Words } from "../words/words.js";
import type { Desk } from "./desk.js";
import type { FindEnding } from "./finder.js";
import type { ProjectList } from "./projects.js";

/** By this the Python package looks further. */
const LOOKS_FURTHER = "python -m pbaudit find NAME.pb";

const BUTTONS = ["look-for-prices", "look-for-groups", "check-further"];

const measureIn = (words: Words, measure: Measure): string => measure === "count" ? words.byCount : words.byCost;

/** That the outcome itself fails, so that nothing is looked for. */
interface Failing {
  readonly tells: "failedAnyway";
  readonly line: string;
  readonly isAddable: boolean;
}

type Told = FindEnding | Failing;

/**
 * What a search came to: what was told, what was asked of prices and looked for, the file that was given to the auditor, and
 * what was made of a group that was found. Of all that the page looks for by itself, nobody needs to press anything.
 */
interface Result {
  readonly told: Told;
  readonly asked?: Mode;
  readonly seeks?: Seeks;
  readonly file?: File;
  readonly isFurther?: boolean;
  made: readonly HTMLElement[];
}

/** Where it was stopped between two searches. */
const STOPPED: Result = { told: { tells: "prices", says: "stopped" }, made: [] };

/** A search. It isn't done after some that came before, and then answers nothing. */
type Searching = (before: readonly Result[]) => Promise<Result> | undefined;

/** Whether a search that was done answers whether there are such prices: by some, or by why there are none. */
function isAnswered(before: readonly Result[], need: Need): boolean {
  return before.some(({ told, asked }) => {
    if (told.tells === "failedAnyway") return !told.isAddable;
    if (told.tells !== "prices") return false;
    if (told.says === "found") return (asked?.stable || !need.stable) && (told.cover || !need.cover);
    if (told.says === "refuted") return (need.stable || !told.stable) && (need.cover || !told.cover);
    return told.says === "unpaid" || told.says === "infeasible";
  });
}

const isStopped = ({ told }: Result): boolean =>
  (told.tells === "prices" && told.says === "stopped") || (told.tells === "groups" && told.isStopped);

export class Looking {
  /** Whether a search is going on. */
  isLooking = false;
  /** Whether somebody has pressed Stop since the search began. */
  private isStopping = false;
  private results: readonly Result[] = [];
  /** Whether all was looked for. */
  private isAll = false;
  /** What the boxes said when prices were looked for last. */
  private boxes: Mode | undefined;

  constructor(private readonly desk: Desk, private readonly list: ProjectList) {
    element("look-for-prices").onclick = () => this.lookForPrices(desk.page.mode);
    element("look-for-groups").onclick = () => this.look("look-for-groups", [() => this.groups()]);
    element("stop-looking").onclick = () => this.stop();
    this.show(false);
    this.draw();
  }

  /** Has the search end that runs, and no other one begin. */
  private stop(): void {
    this.isStopping = true;
    this.desk.finder.stop();
  }

  /** Leaves the page, since the election isn't looked at any more. */
  end(): void {
    this.results = [];
    this.show(false);
  }

  /** Draws what is asked of prices, and what the last search came to. */
  draw(): void {
    if (this.desk.finder.isClosed) return;
    const { words, mode } = this.desk.page, { results, isAll } = this;
    element("look-asks").textContent = `${fill(words.lookAsks, { head: words.options })} ${askedIn(words, mode)}`;
    const last = isAll ? [make("p", {}, words.furtherDone)] : [];
    element("looked").replaceChildren(...results.flatMap(result => this.itemsOf(result)), ...last);
    element("further").hidden = !this.isLooking && results.length === 0;
    element("looked-tag").hidden = results.length === 0;
  }

  /** Looks for prices that are asked so, or a refutation, unless the outcome fails whatever the prices are. */
  private lookForPrices(asked: Mode): void {
    this.look("look-for-prices", [() => this.prices(asked, "either")]);
  }

  /**
   * Looks for all that the page can look for: stable prices with Cover, and where there are none, for what there is of either
   * form, prices or a refutation; then for groups. What is found is given to the auditor.
   */
  lookFurther(): void {
    const exhaustive = this.desk.failed?.name !== "Exhaustive";
    const unlessKnown = (stable: boolean, cover: boolean, seeks: Seeks): Searching => before =>
      isAnswered(before, { stable, cover }) ? undefined : this.prices({ stable, exhaustive, cover }, seeks, true);
    this.look("check-further", [
      ...exhaustive ? [] : [() => this.prices({ stable: true, exhaustive: true, cover: true }, "prices", true)],
      unlessKnown(true, true, "prices"), unlessKnown(false, false, "either"), unlessKnown(true, false, "either"),
      unlessKnown(true, true, "refutation"), () => this.groups(true),
    ], true);
  }

  private async look(button: string, searches: readonly Searching[], isAll = false): Promise<void> {
    if (this.isLooking) return;
    this.results = [];
    this.isAll = this.isStopping = false;
    this.boxes = this.desk.page.mode;
    this.desk.page.election.remark(undefined);
    element("looking-for").textContent = "";
    this.show(true, button);
    this.draw();
    const done = await this.searched(searches);
    if (done === "ended") return;
    this.show(false, button);
    this.isAll = isAll && done === "done";
    this.draw();
  }

  /** Does searches one after the other, until they are stopped or the election isn't looked at any more. */
  private async searched(searches: readonly Searching[]): Promise<"done" | "stopped" | "ended"> {
    for (const search of searches) {
      const result = this.isStopping ? STOPPED : await search(this.results);
      if (this.desk.finder.isClosed) return "ended";
      if (!result) continue;
      if (result.told.tells === "failed" && isOfChange(result.told)) {
        this.isLooking = false;
        this.desk.page.election.readAnew(this.desk, result.told);
        return "ended";
      }
      this.results = [...this.results, result];
      if (isStopped(result)) return "stopped";
      this.draw();
    }
    return "done";
  }

  private async prices(asked: Mode, seeks: Seeks, isFurther = false): Promise<Result> {
    const { failed, finder } = this.desk, { stable, cover } = asked;
    if (failed && (failed.name === "Feasible" || asked.exhaustive)) {
      const told = { tells: "failedAnyway", line: failed.line, isAddable: failed.name === "Exhaustive" } as const;
      return { told, asked, isFurther, made: [] };
    }
    const told = await finder.ask({ asks: "prices", seeks, need: { stable, cover } }, step => this.tell(step));
    return { told, asked, seeks, isFurther, file: told.tells === "prices" ? this.handed(told, asked) : undefined, made: [] };
  }

  private async groups(isFurther = false): Promise<Result> {
    const told = await this.desk.finder.ask({ asks: "groups" }, step => this.tell(step)), made: HTMLElement[] = [];
    const found = told.tells === "groups" && isFurther ? told.found.filter(({ projects }) => projects.length) : [];
    for (const { measure, projects } of found) made.push(...await makeViolation(this.desk, measure, projects));
    return { told, isFurther, made };
  }

  /** Gives the auditor what was found: prices, or a refutation. Those of the stable form stand beside the others. */
  private handed(told: PricesTold, asked: Mode): File | undefined {
    const { desk } = this, ending = (stable: boolean, kind: string): string => `${stable ? "stable." : ""}${kind}.csv`;
    if (told.says === "found") return handOver(desk, told.file, ending(asked.stable, "prices"), asked);
    if (told.says === "unpaid") return handOver(desk, told.refutation, ending(false, "refutation"));
    if (told.says !== "refuted") return undefined;
    return handOver(desk, told.refutation, ending(told.stable, "refutation"), { ...asked, stable: told.stable });
  }

  /** Shows that a search is going on, or that none is. The focus goes to what stops it, and back. */
  private show(isLooking: boolean, button = BUTTONS[0]): void {
    const hasFocus = document.activeElement === element("stop-looking");
    this.isLooking = isLooking;
    element("looking").hidden = !isLooking;
    element("further").hidden = !isLooking && this.results.length === 0;
    for (const id of BUTTONS) elementOf(id, HTMLButtonElement).disabled = isLooking;
    if (isLooking) element("stop-looking").focus();
    else if (hasFocus) element(button).focus({ preventScroll: true });
  }

  private tell(step: FindProgress): void {
    const { words } = this.desk.page;
    if (step.of === "outcomes" || step.of === "prices" && step.by === "whole") return;
    element("looking-for").textContent = step.of === "groups"
      ? fill(words.trying, { measure: measureIn(words, step.measure), count: grouped(step.size) })
      : step.by === "waterFilling" ? fill(words.levelling, { count: grouped(step.count + 1) })
      : fill(words.deciding, { count: grouped(step.count) });
  }

  private itemsOf(result: Result): HTMLElement[] {
    const { told } = result;
    if (told.tells === "failedAnyway") return this.failedItems(result, told);
    if (told.tells === "prices") return this.pricesItems(result, told);
    if (told.tells === "groups") return [...this.groupItems(result, told), ...result.made];
    return [failureItem(this.desk, told)];
  }

  /** That no prices support the outcome, with the auditor's line; where a project could be added, a way round that. */
  private failedItems({ asked, isFurther }: Result, { line, isAddable }: Failing): HTMLElement[] {
    const { words } = this.desk.page, { addable } = this.desk, option = words.exhaustive;
    const code = make("code", { lang: "en" }, shownLine(line));
    if (!isAddable || addable === undefined || !asked) return [make("p", {}, `${words.pricesInfeasible} `, code)];
    const project = nameOf(this.desk, addable), word = fill(words.lookWithout, { option });
    const told = make("p", {}, `${fill(words.addable, { project, option })} `, code);
    if (isFurther) return [told];
    const button = makeButton(word, word, () => this.lookForPrices({ ...asked, exhaustive: false }));
    return [told, make("p", { class: "buttons" }, button)];
  }

  private pricesItems(result: Result, told: PricesTold): HTMLElement[] {
    const { words } = this.desk.page, { asked, seeks, isFurther, file } = result;
    const given = file ? [givenItem(words, file)] : [];
    if (told.says === "found") return [...this.otherItems(result), ...given];
    if (told.says === "refuted") {
      return [make("p", {}, fill(words.refutationFound, { text: words[refutedBy(told)] })), ...given];
    }
    if (told.says === "unpaid") {
      return [make("p", {}, fill(words.pricesUnpaid, { project: nameOf(this.desk, told.project) })), ...given];
    }
    if (told.says === "stopped") {
      return [make("p", {}, this.results.some(each => each.file) ? `${words.isStopped}.` : words.nothingYet)];
    }
    // That there are none is told once a refutation was looked for as well.
    if (seeks === "prices") return [];
    const none = isFurther && asked ? `${optionsIn(words, asked)}: ${words.pricesNone}` : words.pricesNone;
    return [make("p", {}, `${none} `, make("code", {}, LOOKS_FURTHER))];
  }

  /** That prices were found for something else than what is asked by now. */
  private otherItems({ file, asked, isFurther }: Result): HTMLElement[] {
    const { words, mode } = this.desk.page;
    if (!file || !asked || isFurther || isSameMode(mode, this.boxes)) return [];
    const values = { file: toldName(file.name), options: optionsIn(words, asked) };
    return [make("p", { class: "problem" }, fill(words.madeOtherwise, values))];
  }

  private groupItems(result: Result, { found, isStopped }: FoundGroups): HTMLElement[] {
    const { words } = this.desk.page, isAny = found.some(({ projects }) => projects.length);
    const items = found.map((each, at) => this.groupItem(result, each, isStopped && at === found.length - 1));
    return [...items, ...isAny ? [] : [make("p", {}, words.noProof)]];
  }

  private groupItem(result: Result, searched: SearchedGroups, isStopped: boolean): HTMLElement {
    const { words } = this.desk.page, { measure, projects, tried, isAll } = searched;
    if (projects.length) return this.foundItem(result, searched);
    const values = { measure: measureIn(words, measure), count: grouped(tried) };
    const none = isStopped ? words.groupNoneStopped : words.groupNone;
    return make("p", {}, isAll ? fill(words.groupNoneAtAll, values) : fill(none, values));
  }

  /** A group that was found, with what can be done with it. */
  private foundItem(result: Result, { measure, projects, voters }: SearchedGroups): HTMLElement {
    const { words } = this.desk.page, names = namesOf(this.desk, projects);
    const values = { measure: measureIn(words, measure), voters: grouped(voters), names };
    const certify = async (): Promise<void> => {
      result.made = await makeViolation(this.desk, measure, projects);
      this.draw();
    };
    const tick = (): void => {
      elementOf("election-open", HTMLDetailsElement).open = true;
      this.list.tick(projects);
      element("list").scrollIntoView();
    };
    const making = makeButton(words.makeViolation, `${words.makeViolation}: ${values.measure}`, certify);
    const buttons = [...result.isFurther ? [] : [making],
                     makeButton(words.tickThese, `${words.tickThese}: ${names}`, tick)];
    return make("div", { class: "claim" }, make("p", {}, fill(words.groupFound, values)),
                make("p", { class: "buttons" }, ...buttons));
  }
}
