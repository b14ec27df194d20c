/* The texts of each language: slots that are filled, and nothing left of them. */

import assert from "node:assert/strict";
import test from "node:test";
import { ENGLISH } from "../src/words/en.js";
import { LANGUAGES, preferred, wordsOf } from "../src/words/languages.js";
import { fill } from "../src/words/words.js";

const slotsOf = (text: string): string[] => [...text.matchAll(/\{(\w*)\}/g)].map(([, name]) => name).sort();

test("each slot is filled with what is given, and what is given isn't read", () => {
  const words = wordsOf("en");
  assert.equal(fill(words.about, { certificate: "{election}", election: "$&" }), "{election}, checked against $&");
});

test("every language has the texts of the English one, with its slots and no other braces", () => {
  for (const language of LANGUAGES) {
    const texts = wordsOf(language) as unknown as Readonly<Record<string, string>>;
    assert.deepEqual(Object.keys(texts), Object.keys(ENGLISH), language);
    for (const [name, text] of Object.entries(ENGLISH)) {
      assert.deepEqual(slotsOf(texts[name]), slotsOf(text), `${language}: ${name}`);
      assert.equal(texts[name].replace(/\{\w+\}/g, "").search(/[{}]/), -1, `${language}: ${name}`);
      assert(texts[name].trim() !== "", `${language}: ${name}`);
    }
  }
});

test("no text of another language is the English one, unless it is made of slots alone", () => {
  const others = LANGUAGES.filter(language => language !== "en");
  const same = others.flatMap(language => Object.entries(ENGLISH)
    .filter(([name, text]) => (wordsOf(language) as unknown as Readonly<Record<string, string>>)[name] === text)
    .filter(([, text]) => /\p{L}/u.test(text.replace(/\{\w+\}/g, "")))
    .map(([name]) => `${language}: ${name}`));
  assert.deepEqual(same, []);
});

test("the first language that is wanted and there is", () => {
  assert.equal(preferred(["pl-PL", "de"]), "pl");
  assert.equal(preferred(["it", "fr-CA"]), "fr");
  assert.equal(preferred(["it"]), "en");
});
