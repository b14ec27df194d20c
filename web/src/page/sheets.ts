/* Two sheets that were given in the place of an election: what is wrong with them, or the election file of them. */

import { LONGEST_FILE } from "../auditor/statuses.js";
import { toldName } from "../files/names.js";
import { isSheet, sheetsAmong, withPieces } from "../files/pieces.js";
import { electionName, limitFault } from "../sheets/election.js";
import { faultIn } from "../sheets/sentences.js";
import { grouped } from "../words/formats.js";
import { fill } from "../words/words.js";
import { element, input, make, makeButton, saveAs } from "./elements.js";
import { SheetMaker } from "./sheet_maker.js";
import { SheetTicks } from "./sheet_ticks.js";
import { speak } from "./work.js";
import type { Piece } from "../files/pieces.js";
import type { SheetsFailed, SheetsTold, SheetTold } from "../worker/sheet_orders.js";
import type { Page } from "./page.js";

const TYPE = "application/octet-stream";

const PARTS = ["sheets-told", "sheets-faulty", "sheets-form", "sheets-wrong", "sheets-made"];

const isSame = (some: readonly unknown[], others: readonly unknown[]): boolean =>
  some.length === others.length && some.every((each, at) => each === others[at]);

export class SheetsView {
  /** The two sheets. */
  private given: readonly Piece[] = [];
  /** The sheets that came together, and were passed over. */
  private passed: readonly Piece[] = [];
  private maker: SheetMaker | undefined;
  private told: SheetTold | undefined;
  private ticks: SheetTicks | undefined;
  /** What was made of sheets. */
  private made: File | undefined;
  /** What is shown now. */
  private drawn: readonly unknown[] = [];

  constructor(private readonly page: Page) {
    element("make-election").addEventListener("click", () => this.make());
    element("sheets-form").addEventListener("input", () => this.tellWrong(""));
    input("sheets-limit").addEventListener("keydown", ({ key }) => key === "Enter" && this.make());
  }

  /** Whether a file is one of two sheets of which an election file can be made. */
  uses(piece: Piece): boolean {
    return this.given.includes(piece);
  }

  /** What is read out of two sheets. */
  get spoken(): string {
    return ["sheets-told", "sheets-faulty"].map(element).map(part => part.hidden ? "" : part.innerText).join("");
  }

  /** Draws what is to be seen by the files that are there now. */
  draw(): void {
    const { pieces, words } = this.page, given = this.sheetsNow();
    if (!isSame(given, this.given)) this.begin(given);
    const isMade = pieces.some(({ file }) => file === this.made), drawn = [this.given, this.told, isMade, words];
    if (isSame(drawn, this.drawn)) return;
    const wasMade = this.drawn[2] === true;
    this.drawn = drawn;
    this.show(isMade ? this.made : undefined);
    // The button that was pressed is gone then.
    if (isMade && !wasMade) element("sheets-made").querySelector("button")?.focus({ preventScroll: true });
  }

  /** The two sheets, while there is no election. One that is given alone takes the place of the one of its name. */
  private sheetsNow(): readonly Piece[] {
    const { pieces, passedOver } = this.page, isEmpty = pieces.length + passedOver.length === 0;
    const passed = passedOver.filter(isSheet);
    if (passed.length > 0 || isEmpty) this.passed = passed;
    if (pieces.some(({ kind }) => kind === "election")) this.passed = [];
    const all = withPieces(this.passed, sheetsAmong(pieces, []).filter(isSheet));
    return all.length === 2 ? all : [];
  }

  private async begin(given: readonly Piece[]): Promise<void> {
    this.given = given;
    this.maker?.close();
    this.maker = this.told = this.ticks = undefined;
    if (given.length === 0 || given.some(({ file }) => file.size > LONGEST_FILE)) return;
    const maker = this.maker = new SheetMaker();
    const told = await maker.ask({ asks: "sheets", files: given.map(({ file }) => file) });
    if (this.maker !== maker) return;
    this.told = told;
    if (told.tells === "sheets" && !told.hasSelected) this.ticks = new SheetTicks(told.projects, this.page.words);
    this.draw();
    element("sheets").scrollIntoView();
    speak(this.spoken);
  }

  /** Makes the election file, and gives it to the page as if it had been dropped. */
  private async make(): Promise<void> {
    const { given, maker, ticks } = this, { words } = this.page, limit = input("sheets-limit").value;
    const fault = limitFault(limit), [one, other] = given.map(({ file }) => file.name);
    if (fault) return this.tellWrong(`${words.limit}: ${faultIn(words, fault, { projects: one, ballots: other })}`);
    if (ticks && !ticks.isSaid) return this.tellWrong(words.sheetsUnstated);
    const told = await maker?.ask({ asks: "election", limit, funded: ticks?.funded });
    if (!told || this.maker !== maker) return;
    if (told.tells === "failed") return this.tellWrong(this.failureIn(told));
    if (told.tells !== "election") throw new Error(`a file of sheets is told ${told.tells}`);
    this.made = new File([told.file], electionName(one, other), { type: TYPE });
    this.page.takeFromSheets(this.made, given);
  }

  private tellWrong(text: string): void {
    element("sheets-wrong").textContent = text;
    element("sheets-wrong").hidden = !text;
  }

  private failureIn({ why, file = "" }: SheetsFailed): string {
    const { words } = this.page;
    return {
      unreadable: fill(words.unreadable, { file: toldName(file) }), memory: words.outOfMemory, trap: words.sheetsBroken,
    }[why];
  }

  /** Shows what was made, or how far the two sheets are. */
  private show(made: File | undefined): void {
    const { given, told, ticks } = this, { words } = this.page;
    element("sheets").hidden = given.length === 0 && !made;
    for (const id of PARTS) element(id).hidden = true;
    if (made) return this.showMade(made);
    if (given.length === 0) return;
    if (told?.tells === "sheets" && told.faultCount > 0) return this.showFaults(told);
    element("sheets-told").hidden = false;
    element("sheets-told").textContent = this.sentence(given.map(({ file }) => toldName(file.name)));
    ticks?.draw(words);
    element("sheets-unstated").hidden = !ticks;
    element("sheets-form").hidden = told?.tells !== "sheets";
  }

  /** What is told of two sheets with these names. */
  private sentence(names: readonly string[]): string {
    const { told, given } = this, { words } = this.page, long = given.find(({ file }) => file.size > LONGEST_FILE);
    if (long) return fill(words.tooLong, { file: toldName(long.file.name), count: grouped(LONGEST_FILE) });
    if (!told) return fill(words.sheetsReading, { names: names.join(", ") });
    if (told.tells === "alike") return fill(words.sheetsAlike, { names: names.join(", ") });
    if (told.tells === "failed") return this.failureIn(told);
    if (told.tells !== "sheets") throw new Error(`two sheets are told ${told.tells}`);
    const counts = { projects: grouped(told.projects.length), voters: grouped(told.voters) };
    return fill(words.sheetsTold, { file: names[told.place], names: names[1 - told.place], ...counts });
  }

  private showFaults({ faults, faultCount, place }: SheetsTold): void {
    const { words } = this.page, nameAt = (at: number): string => this.given[at].file.name;
    const names = { projects: nameAt(place), ballots: nameAt(1 - place) }, rest = faultCount - faults.length;
    const items = faults.map(fault => make("li", {}, make("bdi", {}, faultIn(words, fault, names))));
    const more = rest > 0 ? [make("li", {}, fill(words.more, { count: grouped(rest) }))] : [];
    element("sheets-faults").replaceChildren(...items, ...more);
    element("sheets-faulty").hidden = false;
  }

  private showMade(made: File): void {
    const { words } = this.page, file = toldName(made.name), word = fill(words.saveFile, { file });
    const button = makeButton(word, word, () => saveAs(made.name, TYPE, made));
    element("sheets-made").replaceChildren(
      make("p", {}, fill(words.sheetsMade, { file })), make("p", { class: "buttons" }, button));
    element("sheets-made").hidden = false;
  }
}
