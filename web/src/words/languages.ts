/* What the page says in each language, by its code. */

import { GERMAN } from "./de.js";
import { ENGLISH } from "./en.js";
import { FRENCH } from "./fr.js";
import { POLISH } from "./pl.js";
import { translated } from "./words.js";
import type { Words } from "./words.js";

export const WORDS = { en: translated(ENGLISH), pl: POLISH, de: GERMAN, fr: FRENCH };

export type Language = keyof typeof WORDS;

export const LANGUAGES = Object.keys(WORDS) as Language[];

export const wordsOf = (language: Language): Words => WORDS[language];

/** The first language of those that are wanted, or English. */
export function preferred(wanted: readonly string[]): Language {
  const codes = wanted.map(each => each.slice(0, 2).toLowerCase());
  return LANGUAGES.find(code => code === codes.find(each => each in WORDS)) ?? "en";
}
