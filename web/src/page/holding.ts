/* A page that holds the files that it is about, to be passed on: links in it save them again. No script runs in it. */

import { savedTogether, toldName } from "../files/names.js";
import { fill } from "../words/words.js";
import type { Task } from "../files/pieces.js";
import type { Words } from "../words/words.js";
import type { Files, Held } from "../worker/orders.js";

/** With this each page of the library ends. */
const END = "</body></html>";

const escaped = (text: string): string => text.replace(/[&<>"']/g, letter => `&#${letter.charCodeAt(0)};`);

/** The names under which the files of a task are saved. */
export function savedNames({ election, outcome, certificate }: Task): Files<string> {
  const given = [election, outcome, certificate].filter(piece => piece !== null).map(piece => piece!.file.name);
  const names = savedTogether(given), next = (isThere: boolean): string | null => isThere ? names.shift() ?? null : null;
  return { election: next(true)!, outcome: next(outcome !== null), certificate: next(certificate !== null) };
}

const capital = (text: string): string => text.slice(0, 1).toUpperCase() + text.slice(1);

/** A file, with the link that saves it, in pieces, since that is as long as the file. */
function itemOf(words: Words, what: string, { name, sum, link }: Held): string[] {
  const word = escaped(fill(words.saveFile, { file: toldName(name) }));
  return [
    `<div><dt>${escaped(capital(what))}</dt><dd><a download="${escaped(name)}" href="`, link,
    `"><bdi>${word}</bdi></a><br>SHA-256 <code>${escaped(sum)}</code></dd></div>`,
  ];
}

/** A page of the library with its files inside, in pieces. `kind` is what the certificate is. */
export function withFiles(words: Words, page: string, { election, outcome, certificate }: Files<Held>, kind: string): string[] {
  if (!page.endsWith(END)) throw new Error("a page that doesn't end as one");
  const items = [
    itemOf(words, words.isElection, election), outcome ? itemOf(words, words.isOutcome, outcome) : [],
    certificate ? itemOf(words, kind, certificate) : [],
  ];
  return [
    page.slice(0, -END.length), `<section><h2>${escaped(words.heldHead)}</h2><p>${escaped(words.heldHow)}</p><dl class="files">`,
    ...items.flat(), "</dl></section>", END,
  ];
}
