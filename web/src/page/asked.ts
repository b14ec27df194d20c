/* What is asked of prices, by the names of the options. */

import { fill } from "../words/words.js";
import type { Mode } from "../auditor/statuses.js";
import type { Words } from "../words/words.js";

/** What is asked. */
export const optionsIn = (words: Words, { stable, exhaustive, cover }: Mode): string =>
  [stable ? words.stable : words.plain, exhaustive ? words.exhaustive : "", cover ? words.cover : ""]
    .filter(Boolean).join(", ");

/** What is asked, and what isn't. */
export function askedIn(words: Words, mode: Mode): string {
  const others = [mode.exhaustive ? "" : words.exhaustive, mode.cover ? "" : words.cover].filter(Boolean).join(", ");
  const asked = fill(words.askedFor, { options: optionsIn(words, mode) });
  return others ? `${asked} ${fill(words.notAskedFor, { options: others })}` : asked;
}
