/* Pages that hold the files that they are about. */

import assert from "node:assert/strict";
import test from "node:test";
import { savedNames, withFiles } from "../src/page/holding.js";
import { LANGUAGES, wordsOf } from "../src/words/languages.js";
import type { Piece, Task } from "../src/files/pieces.js";
import type { Held } from "../src/worker/orders.js";

const words = wordsOf("en");
const held = (name: string): Held => ({ name, sum: "0f", link: "data:application/octet-stream;base64,YQ==" });
const piece = (name: string): Piece => ({ file: { name } }) as unknown as Piece;
const PAGE = "<!DOCTYPE html>\n<html><head></head><body><p>It holds</p></body></html>";

test("the page stays as it is, and the files stand before its end, each with a link and its sum", () => {
  const files = { election: held("a.pb"), outcome: held("a.outcome.csv"), certificate: held("a.prices.csv") };
  const text = withFiles(words, PAGE, files, "price certificate").join("");
  assert(text.startsWith("<!DOCTYPE html>\n<html><head></head><body><p>It holds</p><section>"));
  assert(text.endsWith("</section></body></html>"));
  const item = '<dt>Price certificate</dt><dd><a download="a.prices.csv" href="data:application/octet-stream;base64,YQ==">'
    + "<bdi>Save a.prices.csv</bdi></a><br>SHA-256 <code>0f</code></dd>";
  assert(text.includes(item), text);
  assert.equal(text.split("<dt>").length - 1, 3);
});

test("without an outcome file and a certificate there is the election alone", () => {
  const text = withFiles(words, PAGE, { election: held("a.pb"), outcome: null, certificate: null }, "").join("");
  assert.deepEqual(text.match(/<dt>[^<]*/g), ["<dt>Election"]);
});

test("a name is no markup", () => {
  const hostile = `"><script>alert('1')</script>&amp;--><b>.pb`;
  const text = withFiles(words, PAGE, { election: held(hostile), outcome: null, certificate: null }, "<i>").join("");
  assert(!/<script|<b>|<i>|&amp;|-->/.test(text), text);
  const shown = "&#34;&#62;&#60;script&#62;alert(&#39;1&#39;)&#60;/script&#62;&#38;amp;--&#62;&#60;b&#62;.pb";
  assert(text.includes(`download="${shown}"`) && text.includes(`Save ${shown}</bdi>`), text);
});

test("what doesn't end as a page of the library isn't one", () => {
  assert.throws(() => withFiles(words, `${PAGE}\n`, { election: held("a"), outcome: null, certificate: null }, ""), Error);
});

test("the section is in each language", () => {
  const texts = LANGUAGES.map(language =>
    withFiles(wordsOf(language), PAGE, { election: held("a"), outcome: null, certificate: null }, "").join(""));
  assert.equal(new Set(texts).size, LANGUAGES.length);
});

test("files of one name are saved under two", () => {
  const task: Task = { election: piece("a.pb"), outcome: piece("x.csv"), certificate: piece("X.csv") };
  assert.deepEqual(savedNames(task), { election: "a.pb", outcome: "x.csv", certificate: "2_X.csv" });
  assert.deepEqual(savedNames({ ...task, outcome: null }), { election: "a.pb", outcome: null, certificate: "X.csv" });
});
