/* The choices of an audit: its election, and whose outcome is audited. */

import { toldName } from "../files/names.js";
import { pathOf } from "../files/pieces.js";
import { make, makeChoice } from "./elements.js";
import type { Kind } from "../auditor/kinds.js";
import type { Piece } from "../files/pieces.js";
import type { Audit } from "./audits.js";
import type { Page } from "./page.js";

/** Of more files a choice has the chosen one alone. */
export const MOST_CHOICES = 20;

/**
 * The files among which somebody may choose: all of a kind, or of very many the one that is chosen. A certificate
 * without an election may have any.
 */
function candidates({ pieces }: Page, kind: Kind, chosen: Piece | null, isAsked = false): Piece[] {
  const all = pieces.filter(piece => piece.kind === kind);
  if (all.length <= MOST_CHOICES || isAsked) return all;
  return chosen ? [chosen] : kind === "election" ? all : [];
}

/** A word, and what it stands for; undefined changes nothing. */
type Option = readonly [string, Piece | null | undefined];

/** A list of files to choose from, with words ahead of them that stand for no file. */
function pieceChoice(
  word: string, first: readonly Option[], pieces: readonly Piece[], chosen: Piece | null | undefined,
  change: (piece: Piece | null) => void,
): HTMLElement {
  const options: Option[] = [...first, ...pieces.map((piece): Option => [toldName(pathOf(piece)), piece])];
  const place = options.findIndex(([, piece]) => piece === chosen);
  const choice = makeChoice(word, options.map(([each]) => each), place, at => {
    const piece = options[at]?.[1];
    if (piece !== undefined) change(piece);
  });
  return make("label", {}, make("span", { class: "soft" }, word), choice);
}

/** Where a choice is asked for, none is made yet. */
export function choicesOf(page: Page, { task }: Audit): HTMLElement[] {
  const { words } = page, { certificate, election, outcome, asks } = task;
  if (!certificate) return [];
  const elections = candidates(page, "election", election);
  const outcomes = election ? candidates(page, "outcome", outcome, asks === "outcome") : [];
  const choices: HTMLElement[] = [];
  if (elections.length > 1 || (elections.length === 1 && !election)) {
    const none: Option[] = election ? [] : [[words.noElection, undefined]];
    choices.push(pieceChoice(words.against, none, elections, election ?? undefined,
                             chosen => chosen && page.choose(certificate, { election: chosen })));
  }
  if (outcomes.length > 0) {
    const none: Option[] = asks ? [[words.noOutcome, undefined]] : [];
    choices.push(pieceChoice(words.outcome, [...none, [words.ownOutcome, null]], outcomes, asks ? undefined : outcome,
                             chosen => page.choose(certificate, { outcome: chosen })));
  }
  return choices;
}
