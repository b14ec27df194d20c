/* The answer of an audit: the page that the library wrote, in a frame in which no script runs; or why there is none. */

import { NO_OUTCOME } from "../auditor/objects.js";
import { LONGEST_LINE, shortened, shownLine, toldName, visible } from "../files/names.js";
import { fill } from "../words/words.js";
import { element, elementOf, make } from "./elements.js";
import { problemText } from "./told.js";
import type { Piece } from "../files/pieces.js";
import type { Refused } from "../worker/orders.js";
import type { Words } from "../words/words.js";
import type { Audit } from "./audits.js";

/** The height of the frame is that of what is in it, up to this. */
const HIGHEST_FRAME = 100_000;

export const frame = (): HTMLIFrameElement => elementOf("frame", HTMLIFrameElement);

/** What an answer is about. */
function aboutOf(words: Words, { task }: Audit): string {
  const { certificate, election, outcome } = task;
  const nameOf = (piece: Piece): string => toldName(piece.file.name);
  if (!certificate || !election) return "";
  const about = fill(words.about, { certificate: nameOf(certificate), election: nameOf(election) });
  return outcome ? about + fill(words.withOutcome, { outcome: nameOf(outcome) }) : about;
}

export function showAnswer(words: Words, audit: Audit): void {
  const { task, page, refused, problem } = audit;
  element("about").textContent = aboutOf(words, audit);
  element("saved").textContent = "";
  element("found").hidden = page === undefined;
  element("refusal").hidden = page !== undefined;
  for (const id of ["margins", "tidy"]) element(id).hidden = task.certificate?.kind !== "prices";
  if (page !== undefined) return showPage(frame(), page);
  const why = problem ? [make("p", {}, ...problemText(words, problem))] : refused ? refusalOf(words, refused) : [];
  element("refusal").replaceChildren(...why);
}

/**
 * Shows the library's page. The policy holds in the frame as well, and allows no style in an attribute. There the page
 * has the lengths of its bars: they go by another name until the page stands, and are then set.
 */
export function showPage(place: HTMLIFrameElement, page: string): void {
  place.onload = () => {
    const styled = [...place.contentDocument?.querySelectorAll<HTMLElement>("[data-style]") ?? []];
    for (const each of styled) each.style.cssText = each.dataset.style ?? "";
    // Keys that are pressed in the frame don't come to the page.
    place.contentDocument?.addEventListener("keydown", printByKeys);
    fitFrame(place);
  };
  place.srcdoc = page.replaceAll(' style="', ' data-style="');
}

/**
 * The keys that print do it as the button does, where there is one. As a part of this page an answer would be cut
 * through its lines.
 */
export function printByKeys(event: KeyboardEvent): void {
  const { key, ctrlKey, metaKey, shiftKey, altKey } = event;
  const isPrint = key.toLowerCase() === "p" && (ctrlKey || metaKey) && !shiftKey && !altKey;
  if (!isPrint || element("answer").hidden || element("found").hidden) return;
  event.preventDefault();
  element("print").click();
}

export function fitFrame(place: HTMLIFrameElement): void {
  const inside = place.contentDocument?.documentElement, parent = place.parentElement;
  if (!inside || !parent) return;
  // Less than any page is high, so that what is measured is the page and not the frame. Its place stays as high as it
  // is meanwhile, so that nobody who has scrolled down is thrown back.
  parent.style.minHeight = `${parent.offsetHeight}px`;
  place.style.height = "4rem";
  place.style.height = `${Math.min(HIGHEST_FRAME, inside.scrollHeight + 4)}px`;
  parent.style.minHeight = "";
}

/** What is wrong with a file, where, and what stands there. */
function refusalOf(words: Words, { fault, file, line, sentences, excerpt, text }: Refused): HTMLElement[] {
  const name = toldName(file), stands = shortened(visible(excerpt, "\t"), LONGEST_LINE);
  const wantsOutcome = fault.input === "election" && fault.number === NO_OUTCOME;
  return [
    make("p", {}, make("strong", {}, fill(words.refused, { file: name }))),
    ...line > 0 ? [make("p", {}, fill(words.atLine, { file: name, line })), make("pre", {}, stands)] : [],
    ...sentences.map(each => make("p", { lang: "en" }, shownLine(each))),
    ...wantsOutcome ? [make("p", {}, words.needsOutcome)] : [],
    make("p", { class: "soft" }, `${words.programPrints} `, make("code", { lang: "en" }, shownLine(text))),
  ];
}

/** The name for a file that is saved. */
export function savedName({ task }: Audit, ending: string): string {
  const name = (task.certificate ?? task.election)?.file.name ?? "audit";
  return `${name.replace(/\.csv$|\.pb$/, "")}${ending}`;
}
