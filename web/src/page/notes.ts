/* What the page says of the files beside the answers: which it doesn't use, and what is missing. */

import { toldName } from "../files/names.js";
import { isCertificate, pathOf, sheetsAmong } from "../files/pieces.js";
import { fill } from "../words/words.js";
import { make } from "./elements.js";
import { MOST_CHOICES } from "./choices.js";
import { someOf } from "./some.js";
import { sumNotes } from "./sums.js";
import type { Kind } from "../auditor/kinds.js";
import type { Piece } from "../files/pieces.js";
import type { Page } from "./page.js";

export const MAKES_PRICES = "python -m pbaudit equal-shares NAME.pb --completion add1 -o NAME.prices.csv";

/** The outcome files that no audit uses, and that nobody looks at. */
function unusedOf({ pieces, audits, election }: Page): Piece[] {
  const isAsking = audits.some(({ task }) => task.asks === "outcome");
  const outcomes = pieces.filter(piece => piece.kind === "outcome");
  const isUnused = (piece: Piece): boolean => audits.every(({ task }) => task.outcome !== piece);
  return isAsking ? [] : outcomes.filter(piece => isUnused(piece) && !election.looksAt(piece));
}

function unusedNote({ words, pieces }: Page, unused: readonly Piece[]): HTMLElement {
  const outcomes = pieces.filter(piece => piece.kind === "outcome");
  const canChoose = outcomes.length <= MOST_CHOICES ? words.chooseOutcome : "";
  const how = pieces.some(isCertificate) ? canChoose : words.outcomeAlone;
  return make("p", {}, `${fill(words.unused, { names: someOf(words, unused.map(pathOf)) })} ${how}`);
}

export function notesOf(page: Page): HTMLElement[] {
  const { words, pieces, twice, checksums, sheets } = page;
  const passedOver = page.passedOver.filter(piece => !sheets.uses(piece));
  const ofKind = (kind: Kind): Piece[] => pieces.filter(piece => piece.kind === kind);
  const notes = ofKind("unknown").filter(piece => !sheets.uses(piece))
    .map(piece => make("p", { class: "problem" }, fill(words.isNoFile, { names: toldName(pathOf(piece)) })));
  notes.push(...sumNotes(words, checksums, [...pieces, ...passedOver]));
  const replaced = twice.filter(name => pieces.some(piece => pathOf(piece) === name)), unused = unusedOf(page);
  if (replaced.length > 0) notes.push(make("p", {}, fill(words.twice, { names: someOf(words, replaced) })));
  if (unused.length > 0) notes.push(unusedNote(page, unused));
  if (passedOver.length > 0) {
    notes.push(make("p", { class: "soft" }, fill(words.passedOver, { names: someOf(words, passedOver.map(pathOf)) })));
  }
  if (sheetsAmong(pieces, passedOver).some(piece => !sheets.uses(piece))) notes.push(make("p", {}, words.isSheet));
  return notes;
}
