/* The proved page about the groups of an election alone: the library writes it when somebody opens it. */

import { fitFrame, savedName, showPage } from "./answer.js";
import { element, elementOf, saveAs } from "./elements.js";
import { problemSentence } from "./told.js";
import type { NoAnswer } from "./engine.js";
import type { Page } from "./page.js";
import type { ShortAudit } from "./short.js";
import type { Ending } from "../worker/orders.js";

/** A page in a language, about an answer. */
interface Made {
  readonly audit: ShortAudit;
  readonly language: string;
  readonly text?: string;
}

const frame = (): HTMLIFrameElement => elementOf("groups-frame", HTMLIFrameElement);

export class GroupsPage {
  /** What was asked for, with its text once this is there. */
  private made: Made | undefined;

  constructor(private readonly page: Page) {
    this.details.addEventListener("toggle", () => {
      this.draw();
      if (this.details.open) fitFrame(frame());
    });
    element("print-groups").addEventListener("click", () => frame().contentWindow?.print());
    element("save-groups").addEventListener("click", () => this.save());
    element("save-groups-with-files").addEventListener("click", () =>
      this.made?.text && page.saving.withFiles(this.made.audit, "groupsPage", "groups-saved"));
    addEventListener("resize", () => this.details.open && fitFrame(frame()));
  }

  private get details(): HTMLDetailsElement {
    return elementOf("groups-open", HTMLDetailsElement);
  }

  /** Asks for the page where it is open and there is another answer or language than before. */
  draw(): void {
    const { short: audit, language } = this.page;
    if (!audit || (this.made && this.made.audit.task !== audit.task)) this.details.open = false;
    if (this.made?.audit === audit && this.made?.language === language) return;
    this.made = undefined;
    element("groups-made").hidden = true;
    element("groups-saved").textContent = "";
    if (!audit || !this.details.open || audit.remaining === "awaited") return;
    const asked = this.made = { audit, language };
    this.page.askGroups(audit, told => this.made === asked && this.take(asked, told));
  }

  private take(asked: Made, told: Ending | NoAnswer | undefined): void {
    if (!told) return this.close();
    if ("sums" in told && `${told.sums}` !== `${asked.audit.sums}`) return this.page.again(asked.audit);
    if (told.tells === "nothing") element("groups-saved").textContent = problemSentence(this.page.words, told);
    if (told.tells !== "answer") return;
    const text = new TextDecoder().decode(told.text);
    this.made = { ...asked, text };
    element("groups-made").hidden = false;
    showPage(frame(), text);
  }

  /** It was stopped, and is asked for again when it is opened again. */
  private close(): void {
    this.made = undefined;
    this.details.open = false;
  }

  private save(): void {
    if (this.made?.text) saveAs(savedName(this.made.audit, ".groups.html"), "text/html", this.made.text);
  }
}
