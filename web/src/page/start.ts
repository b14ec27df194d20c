/* Ties the page to what somebody does on it. */

import { pieceOf } from "../files/pieces.js";
import { LANGUAGES, wordsOf } from "../words/languages.js";
import { fitFrame, frame, printByKeys, savedName } from "./answer.js";
import { warm } from "./audits.js";
import { bytesOf, element, elementOf, input, make, saveAs } from "./elements.js";
import { noEngine } from "./engine.js";
import { chosenFiles, droppedFiles } from "./gather.js";
import { MAKES_PRICES } from "./notes.js";
import { isPhone, Page, setWords } from "./page.js";
import { problemText } from "./told.js";
import { listenToTools } from "./tools.js";
import type { Found } from "../files/pieces.js";

function listenToFiles(page: Page): void {
  const inputs = { choose: "files-input", "choose-folder": "folder-input" };
  for (const [button, id] of Object.entries(inputs)) {
    const files = input(id);
    element(button).addEventListener("click", () => files.click());
    files.addEventListener("change", () => {
      page.take(chosenFiles(files.files));
      files.value = "";
    });
  }
  const other = input("replace-input");
  other.addEventListener("change", () => {
    page.replaceBy(chosenFiles(other.files));
    other.value = "";
  });
  element("clear").addEventListener("click", () => {
    page.clear();
    element("choose").focus();
  });
  element("example").addEventListener("click", () => page.take(ownFiles("example"), true));
}

/** The files that the page brings along: the example, or those that were put into it. */
function ownFiles(kind: "example" | "brought"): Found[] {
  const holders = [...document.querySelectorAll<HTMLElement>(`.${kind}`)];
  return holders.map(holder => ({ file: new File([bytesOf(holder)], holder.dataset.name ?? ""), folder: "" }));
}

/** Files may be dropped anywhere. */
function listenToDrops(page: Page): void {
  const mark = (isOver: boolean): boolean => element("drop").classList.toggle("over", isOver);
  document.addEventListener("dragover", event => {
    event.preventDefault();
    mark(true);
  });
  document.addEventListener("dragleave", event => event.relatedTarget || mark(false));
  document.addEventListener("drop", async event => {
    event.preventDefault();
    mark(false);
    if (event.dataTransfer) page.take(await droppedFiles(event.dataTransfer).catch(() => page.tellUnreadable()));
  });
}

function listenToOptions(page: Page): void {
  for (const id of ["stable", "exhaustive", "cover"]) element(id).addEventListener("change", () => page.askAnew());
  addEventListener("pageshow", () => page.askAnew());
  const choice = elementOf("language", HTMLSelectElement);
  choice.append(...LANGUAGES.map(code => make("option", { value: code, lang: code }, wordsOf(code).name)));
  choice.value = page.language;
  choice.addEventListener("change", () => page.speakIn(choice.value));
}

function listenToAnswer(page: Page): void {
  element("stop").addEventListener("click", () => {
    page.stop();
    element("audit-list").focus({ preventScroll: true });
  });
  element("check-further").addEventListener("click", () => page.short && page.election.lookFurther(page.short.task));
  element("compare-outcomes").addEventListener("click", () => page.compare.begin());
  element("stop-comparing").addEventListener("click", () => page.compare.stop());
  element("completion").addEventListener("change", () => page.compare.begin());
  element("print").addEventListener("click", () => frame().contentWindow?.print());
  element("save").addEventListener("click", () =>
    page.shown?.page && saveAs(savedName(page.shown, ".html"), "text/html", page.shown.page));
  element("save-with-files").addEventListener("click", () => page.shown && page.saving.withFiles(page.shown, "page", "saved"));
  element("margins").addEventListener("click", () => page.saving.by("margins", ".margins.csv"));
  element("tidy").addEventListener("click", () => page.saving.by("tidy", ".tidy.csv"));
  addEventListener("keydown", printByKeys);
  addEventListener("resize", () => fitFrame(frame()));
}

/** Shows that the policy of the page refuses a connection. */
function listenToConnect(page: Page): void {
  element("connect").addEventListener("click", async () => {
    const isMade = await fetch("https://example.org/", { mode: "no-cors" }).then(() => true, () => false);
    element("connected").textContent = isMade ? page.words.connectedAfterAll : page.words.refusedConnection;
  });
}

/** Starts the page. */
function start(): void {
  const page = new Page();
  setWords(page.words, page.language);
  element("makes-prices").textContent = MAKES_PRICES;
  const listeners = [
    listenToFiles, listenToDrops, listenToOptions, listenToTools, listenToAnswer, listenToConnect,
  ];
  for (const listen of listeners) listen(page);
  elementOf("options-open", HTMLDetailsElement).open = !isPhone();
  page.engine.module.catch(error => {
    element("broken").replaceChildren(...problemText(page.words, noEngine(error)));
    element("broken").hidden = false;
  });
  const [election, certificate] = ownFiles("example").map(found => pieceOf(found));
  warm(page.runners, { election, certificate, outcome: null });
  element("unstarted").remove();
  const brought = ownFiles("brought");
  if (brought.length > 0) page.take(brought);
}

start();
