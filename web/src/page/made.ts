/* Certificates that the page makes: they are given to the auditor, and can be saved. */

import { toldName } from "../files/names.js";
import { fill } from "../words/words.js";
import { element, make, makeButton, saveAs } from "./elements.js";
import type { Piece } from "../files/pieces.js";
import type { Words } from "../words/words.js";

/** The file of a certificate for an election. Its name isn't one that others give to theirs. */
export const madeFile = (content: Blob, election: Piece, ending: string): File =>
  new File([content], `${election.file.name.replace(/\.pb$/i, "")}.found.${ending}`, { type: "text/csv" });

export const saveButton = (words: Words, file: File): HTMLElement => {
  const word = fill(words.saveFile, { file: toldName(file.name) });
  return makeButton(word, word, () => saveAs(file.name, "text/csv", file));
};

/** That a certificate was given to the auditor, with what can be done with it now. */
export function givenItem(words: Words, file: File): HTMLElement {
  const told = fill(words.givenToAuditor, { file: toldName(file.name), head: words.audits });
  const go = (): void => {
    element("audits").scrollIntoView();
    element("audit-list").focus({ preventScroll: true });
  };
  const buttons = [makeButton(words.showVerdict, words.showVerdict, go), saveButton(words, file)];
  return make("div", { class: "made" }, make("p", {}, told), make("p", { class: "buttons" }, ...buttons));
}

/** The refutation that a group gives, to be checked and saved. `check` gives it to the auditor. */
export function refutationItem(words: Words, file: File, check: () => void): HTMLElement {
  const told = fill(words.refutationOffered, { file: toldName(file.name) });
  const button = makeButton(words.checkIt, `${words.checkIt}: ${toldName(file.name)}`, () => {
    check();
    item.replaceWith(givenItem(words, file));
  });
  const item = make("div", { class: "made" }, make("p", {}, told),
                    make("p", { class: "buttons" }, button, saveButton(words, file)));
  return item;
}
