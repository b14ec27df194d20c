/* Elections are read by the rules of docs/FORMATS.md. */

import assert from "node:assert/strict";
import test from "node:test";
import { amountIn, amountOf, commonDenominator } from "../src/elections/amounts.js";
import { readElection, Unlike, withOutcome } from "../src/elections/election.js";
import { COMMA, Records, SEMICOLON } from "../src/elections/records.js";
import { bytes } from "./election_files.js";
import type { Election } from "../src/elections/election.js";

function recordsOf(text: string, separator = SEMICOLON): string[][] {
  const records = new Records(bytes(text), separator), found: string[][] = [];
  while (records.next()) found.push(records.fields.map((_, place) => records.text(place)));
  return found;
}

const SAMPLE = `META
key;value
description;Sample
num_projects;3
budget;10
vote_type;approval
PROJECTS
project_id;cost;name;selected
a;6;Park;1
b;4;Library;1
c;9;Pool;0
VOTES
voter_id;vote
1;a,b
2;a
3;b,c
`;

const read = (text: string): Election => readElection(bytes(text));

const ballotsOf = ({ ballots: { starts, places } }: Election): number[][] =>
  [...starts.slice(1)].map((end, voter) => [...places.slice(starts[voter], end)]);

test("records end at any line end, and blank ones are none", () => {
  assert.deepEqual(recordsOf("a;b\rc\r\n\n ; \t\nd;"), [["a", "b"], ["c"], ["d", ""]]);
  assert.deepEqual(recordsOf("\ufeff\ufeffa"), [["a"]]);
  assert.deepEqual(recordsOf(""), []);
  assert.deepEqual(recordsOf("a,b;c", COMMA), [["a", "b;c"]]);
});

test("quotes hold separators, line ends and doubled quotes", () => {
  assert.deepEqual(recordsOf('"a;b\nc";d'), [["a;b\nc", "d"]]);
  assert.deepEqual(recordsOf('"say ""a""";d\ne'), [['say "a"', "d"], ["e"]]);
  assert.deepEqual(recordsOf('"a"b;c'), [["ab", "c"]]);
  assert.deepEqual(recordsOf('"a"b"";c'), [['ab""', "c"]]);
  assert.deepEqual(recordsOf('a"b";c'), [['a"b"', "c"]]);
  assert.deepEqual(recordsOf(' "a;b"'), [['"a', 'b"']]);
  assert.deepEqual(recordsOf('a;"open\nto the end'), [["a", "open\nto the end"]]);
  assert.deepEqual(recordsOf('"";x\n""""'), [["", "x"], ['"']]);
});

test("fields are cleaned of spaces, tabs and line ends, but not of other spaces", () => {
  assert.deepEqual(recordsOf(" \ta\v\f ;\u00a0b\u00a0"), [["a", "\u00a0b\u00a0"]]);
});

test("amounts are exact", () => {
  const cases: [string, bigint | undefined][] = [
    ["10", 10_000_000n], ["10.5", 10_500_000n], ["10,50", 10_500_000n], ["007", 7_000_000n],
    ["1.0000010000", 1_000_001n], ["1.0000001", undefined], ["", undefined], ["1.", undefined], ["-1", undefined],
    ["1e3", undefined], ["1000000000000", 10n ** 18n],
  ];
  for (const [text, wanted] of cases) assert.equal(amountOf(text), wanted, text);
  assert.equal(commonDenominator([10_500_000n, 250_000n]), 4);
  assert.equal(commonDenominator([10_000_000n, 0n]), 1);
  assert.equal(commonDenominator([1n]), 1_000_000);
  assert.equal(commonDenominator([]), 1);
});

test("amounts are written as each language does", () => {
  assert.equal(amountIn(1_234_567_000_000n, "en"), "1\u202f234\u202f567");
  assert.equal(amountIn(1_234_500_000n, "de"), "1\u202f234,50");
  assert.equal(amountIn(1_234_567_891n, "en"), "1\u202f234.567891");
  assert.equal(amountIn(1_234_500_000n, "pl"), "1\u202f234,50");
  assert.equal(amountIn(500_000n, "fr"), "0,50");
});

test("an election is read", () => {
  const { summary, ballots } = read(SAMPLE);
  assert.equal(summary.facts.get("description"), "Sample");
  assert.equal(summary.limit, 10_000_000n);
  assert.equal(summary.voters, 3);
  assert.equal(summary.hasOutcome, true);
  assert.deepEqual(summary.projects, [
    { id: "a", name: "Park", cost: 6_000_000n, supporters: 2, isFunded: true },
    { id: "b", name: "Library", cost: 4_000_000n, supporters: 2, isFunded: true },
    { id: "c", name: "Pool", cost: 9_000_000n, supporters: 1, isFunded: false },
  ]);
  assert.deepEqual([...ballots.starts], [0, 2, 3, 5]);
  assert.deepEqual([...ballots.places], [0, 1, 0, 1, 2]);
});

test("ballots are sets: in any order, with repeats and empty pieces; a voter may have none", () => {
  const text = SAMPLE.replace("1;a,b", '1;" c , a,,c,"').replace("2;a", "2").replace("3;b,c", "3;;b");
  const election = read(text);
  assert.deepEqual(ballotsOf(election), [[0, 2], [], []]);
  assert.deepEqual(election.summary.projects.map(({ supporters }) => supporters), [1, 0, 1]);
});

test("markers and columns may have other letters, places and fields", () => {
  const turned = ['"Meta";;', "k;v", "Budget;1,5", "VOTE_TYPE;approval", "Projects;", "COST;Project_ID", "2;x;more",
                  "Votes;;", "Vote", "x", ""];
  const { summary } = read(turned.join("\n"));
  assert.deepEqual([summary.limit, summary.voters, summary.hasOutcome], [1_500_000n, 1, false]);
  assert.deepEqual(summary.projects, [{ id: "x", name: "", cost: 2_000_000n, supporters: 1, isFunded: false }]);
});

test("ids are compared byte for byte", () => {
  const text = SAMPLE.replace("b;4", "\u00e9;4").replace("c;9", "e\u0301;9").replace("1;a,b", "1;e\u0301")
    .replace("3;b,c", "3;a,\u00e9");
  assert.deepEqual(ballotsOf(read(text)), [[2], [0], [0, 1]]);
});

test("many ids are each found", () => {
  const ids = Array.from({ length: 3000 }, (_, at) => `id ${at * 7}`);
  const lines = ["META", "k;v", "budget;1", "vote_type;approval", "PROJECTS", "project_id;cost",
                 ...ids.map(id => `${id};1`), "VOTES", "vote", ...[...ids].reverse(), ""];
  assert.deepEqual(ballotsOf(read(lines.join("\n"))), ids.map((_, at) => [ids.length - 1 - at]));
});

test("an outcome file says which projects are funded", () => {
  const election = withOutcome(read(SAMPLE), bytes('pb-outcome,1\n"project",c\nproject, a ,\n'));
  assert.deepEqual(election.summary.projects.map(({ isFunded }) => isFunded), [true, false, true]);
  assert.throws(() => withOutcome(read(SAMPLE), bytes("pb-outcome,1\nproject,d\n")), Unlike);
  assert.throws(() => withOutcome(read(SAMPLE), bytes("pb-prices,1\n")), Unlike);
});

test("what the auditor refuses isn't read", () => {
  const changes: [string, string][] = [
    ["META", "MET"], ["VOTES", "VOTE"], ["1;a,b", "1;a,d"], ["a;6;", "a;six;"], ["budget;10\n", ""],
    ["voter_id;vote", "x"], ["project_id;cost", "project_id;price"], ["VOTES", "VOTES\nv;vote\nMETA"],
  ];
  for (const [old, changed] of changes) {
    assert.throws(() => read(SAMPLE.replace(old, changed)), Unlike);
  }
});
