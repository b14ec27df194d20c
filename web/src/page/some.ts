/* Some of many names. */

import { toldName } from "../files/names.js";
import { grouped } from "../words/formats.js";
import { fill } from "../words/words.js";
import type { Words } from "../words/words.js";

/** Of more files the names aren't all told. */
const MOST_NAMED = 5;

export const someOf = (words: Words, names: readonly string[]): string =>
  names.slice(0, MOST_NAMED).map(toldName).join(", ")
  + (names.length > MOST_NAMED ? fill(words.more, { count: grouped(names.length - MOST_NAMED) }) : "");
