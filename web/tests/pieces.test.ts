/* Which files belong together. */

import assert from "node:assert/strict";
import test from "node:test";
import { choicesAmong, pieceOf, sheetsAmong, tasksOf, withPieces } from "../src/files/pieces.js";
import type { Kind } from "../src/auditor/kinds.js";
import type { Piece, Task } from "../src/files/pieces.js";

/** A file of which only the name matters. */
const piece = (path: string, kind?: Kind): Piece => {
  const folder = path.replace(/[^/]*$/, ""), name = path.slice(folder.length);
  return pieceOf({ file: { name } as File, folder }, kind);
};

const nameOf = (each: Piece | null): string | null => each && `${each.folder}${each.file.name}`;

const told = (tasks: readonly Task[]): unknown[] =>
  tasks.map(({ certificate, election, outcome, asks }) =>
    [nameOf(certificate), nameOf(election), nameOf(outcome), ...asks ? [asks] : []]);

const pairs = (...paths: string[]): unknown[] => told(tasksOf(paths.map(path => piece(path)), new Map()));

test("a file is what the auditor tells, and else what its name says", () => {
  assert.equal(piece("a.prices.csv").kind, "prices");
  assert.equal(piece("A.PB").kind, "election");
  assert.equal(piece("a.prices.csv", "violation").kind, "violation");
  assert.equal(piece("a.Refutation.csv").kind, "refutation");
  assert.equal(piece("a.csv").kind, "unknown");
});

test("sheets are told that nobody can use, of several files while there is no election", () => {
  const sheets = (pieces: readonly Piece[], ...passedOver: string[]): unknown[] =>
    sheetsAmong(pieces, passedOver.map(path => piece(path))).map(nameOf);
  assert.deepEqual(sheets([piece("a/ballots.csv")]), ["a/ballots.csv"]);
  assert.deepEqual(sheets([], "a.CSV", "b.tsv", "c.xls", "d.xlsx", "e.ods", "f.pdf", "csv", "g.csv.txt"),
                   ["a.CSV", "b.tsv", "c.xls", "d.xlsx", "e.ods"]);
  assert.deepEqual(sheets([piece("a.prices.csv"), piece("b.csv", "outcome")], "c.csv"), ["c.csv"]);
  assert.deepEqual(sheets([piece("a.pb"), piece("a.prices.csv")], "c.csv"), []);
  assert.deepEqual(sheets([piece("a.pb"), piece("c.csv")]), ["c.csv"]);
});

test("a certificate belongs to the election of whose name its own begins", () => {
  assert.deepEqual(pairs("a.pb", "a.prices.csv"), [["a.prices.csv", "a.pb", null]]);
  assert.deepEqual(pairs("a.pb", "a.b.pb", "a.b.prices.csv"), [
    ["a.b.prices.csv", "a.b.pb", null], [null, "a.pb", null],
  ]);
  assert.deepEqual(pairs("A.pb", "a.prices.csv"), [["a.prices.csv", "A.pb", null]]);
});

test("of several elections it is the longest, and but for capitals the only one, whatever the names", () => {
  const parts = ["a", "A", "b", ".", "a.b", ".."], count = 4;
  for (let round = 0; round < parts.length ** count; round++) {
    const part = (at: number): string => parts[Math.floor(round / parts.length ** at) % parts.length];
    const stems = [...new Set([part(0), part(1), `${part(0)}${part(2)}`, `${part(1)}${part(3)}`])];
    const name = `${part(0)}${part(2)}${part(3)}.prices.csv`;
    const [longest] = stems.filter(stem => name.startsWith(`${stem}.`)).sort((a, b) => b.length - a.length);
    const alike = stems.filter(stem => name.toLowerCase().startsWith(`${stem.toLowerCase()}.`));
    const wanted = longest ?? (alike.length === 1 ? alike[0] : null);
    const tasks = tasksOf([name, ...stems.map(stem => `${stem}.pb`)].map(each => piece(each)), new Map());
    const its = tasks.find(({ certificate }) => certificate)!.election;
    assert.equal(nameOf(its), wanted === null ? null : `${wanted}.pb`, `${name} among ${stems.join(" ")}`);
  }
});

test("files of other folders don't belong together", () => {
  assert.deepEqual(pairs("one/a.pb", "two/a.prices.csv"), [
    [null, "one/a.pb", null], ["two/a.prices.csv", null, null, "election"],
  ]);
});

test("an election alone is asked about with the outcome file of its name, or with the one that was chosen", () => {
  assert.deepEqual(pairs("a.pb", "a.outcome.csv", "b.outcome.csv", "b.pb", "c.pb"),
                   [[null, "a.pb", "a.outcome.csv"], [null, "b.pb", "b.outcome.csv"], [null, "c.pb", null]]);
  assert.deepEqual(pairs("A.PB", "a.Outcome.csv"), [[null, "A.PB", "a.Outcome.csv"]]);
  const election = piece("a.pb"), own = piece("a.outcome.csv"), other = piece("b.outcome.csv");
  const by = (outcome: Piece | null): unknown[] => told(tasksOf([election, own, other], new Map([[election, { outcome }]])));
  assert.deepEqual(by(other), [[null, "a.pb", "b.outcome.csv"]]);
  assert.deepEqual(by(null), [[null, "a.pb", null]]);
});

test("an outcome of the same name is the certificate's, and one of another name is asked about", () => {
  assert.deepEqual(pairs("a.pb", "a.prices.csv", "a.outcome.csv"), [["a.prices.csv", "a.pb", "a.outcome.csv"]]);
  assert.deepEqual(pairs("a.pb", "a.prices.csv", "b.outcome.csv"), [["a.prices.csv", "a.pb", null, "outcome"]]);
});

test("of files of one name the last is kept", () => {
  const [old, other, last] = [piece("a.pb"), piece("b.pb"), piece("a.pb")];
  assert.deepEqual(withPieces([old, other], [last]), [other, last]);
});

test("a choice goes over to the file that takes the place, and falls with the file that is gone", () => {
  const certificate = piece("c.csv", "prices"), election = piece("a.pb"), outcome = piece("o.outcome.csv");
  const choices = new Map([[certificate, { election, outcome }]]);
  const corrected = piece("c.csv", "prices");
  assert.deepEqual([...choicesAmong(choices, [corrected, election, outcome], new Map())],
                   [[corrected, { election, outcome }]]);
  assert.deepEqual([...choicesAmong(choices, [certificate, election], new Map())],
                   [[certificate, { election, outcome: undefined }]]);
  assert.deepEqual([...choicesAmong(choices, [election], new Map())], []);
});
