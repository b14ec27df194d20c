/* What is saved of an answer beside its page: what another command writes on its files, and the page with these inside. */

import { savedName } from "./answer.js";
import { element, saveAs } from "./elements.js";
import { savedNames, withFiles } from "./holding.js";
import { kindWord } from "./lists.js";
import { problemSentence } from "./told.js";
import type { Command, PageCommand } from "../auditor/commands.js";
import type { Answer } from "../worker/orders.js";
import type { Audit } from "./audits.js";
import type { How, Page } from "./page.js";

export class Saving {
  constructor(private readonly page: Page) {}

  /** Saves what a command writes on the files of the answer that is shown. */
  by(command: Command, ending: string): void {
    const audit = this.page.shown, name = audit && savedName(audit, ending);
    if (!audit || !name) return;
    this.page.inTurn(async () => {
      const { text } = await this.toldAgain(audit, command, name, "saved") ?? {};
      if (text) saveAs(name, "text/csv", text);
    });
  }

  /** Saves the page of an answer with the files that it is about inside. What is wrong is said at an element. */
  withFiles(audit: Audit, command: PageCommand, at: string): void {
    const { task, mode } = audit, name = savedName(audit, ".with-files.html"), savedAs = savedNames(task);
    this.page.inTurn(async () => {
      const { words } = this.page, kind = task.certificate ? kindWord(words, task.certificate.kind) : "";
      const { text, held } = await this.toldAgain(audit, command, name, at, { mode, savedAs }) ?? {};
      if (text && held) saveAs(name, "text/html", ...withFiles(words, new TextDecoder().decode(text), held, kind));
    });
  }

  /**
   * What a command answers on the files of an answer, if they are still what they were. Otherwise that is said, and they
   * are checked again.
   */
  private async toldAgain(
    audit: Audit, command: Command, name: string, at: string, how: How = {},
  ): Promise<Answer | undefined> {
    const { page } = this, told = await page.order(audit.task, command, name, how);
    const isTold = told?.tells === "answer" || told?.tells === "refused";
    const isOther = isTold && `${told.sums}` !== `${audit.sums}`;
    const problem = told?.tells === "nothing" ? problemSentence(page.words, told) : "";
    element(at).textContent = isOther ? page.words.changed : problem;
    if (isOther && page.audits.includes(audit)) page.again(audit);
    return told?.tells === "answer" && !isOther ? told : undefined;
  }
}
