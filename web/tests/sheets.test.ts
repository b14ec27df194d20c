/* Two sheets become an election file, or their faults are told, as tests/tables/sheets.txt says. */

import assert from "node:assert/strict";
import test from "node:test";
import table from "../../tests/tables/sheets.txt";
import { MOST_TOLD } from "../src/sheets/faults.js";
import { electionName, electionText, limitFault, placeOfProjects, readSheets } from "../src/sheets/election.js";
import { faultIn } from "../src/sheets/sentences.js";
import { wordsOf } from "../src/words/languages.js";
import { bytes } from "./election_files.js";
import type { Fault } from "../src/sheets/faults.js";

const NAMES = { projects: "projects.csv", ballots: "ballots.csv" };

interface Case {
  readonly name: string;
  limit: string;
  readonly projects: number[];
  readonly ballots: number[];
  readonly election: number[];
  readonly told: string[];
}

/** The bytes of a text in which \t, \r and \x with two digits stand for others. */
function unescaped(text: string): number[] {
  const marks: Readonly<Record<string, number>> = { "\\t": 9, "\\r": 13 };
  return text.split(/(\\(?:t|r|x[0-9a-f]{2}))/).flatMap((piece, at) =>
    at % 2 === 0 ? [...bytes(piece)] : [marks[piece] ?? parseInt(piece.slice(2), 16)]);
}

function casesOf(text: string): Case[] {
  const cases: Case[] = [], last = (): Case => cases[cases.length - 1];
  for (const line of text.split("\n")) {
    const mark = line.slice(0, 1), end = mark === mark.toLowerCase() ? [10] : [], rest = line.slice(2);
    const noted = (): number[] => [...unescaped(rest), ...end];
    if (line.startsWith("== ")) {
      cases.push({ name: line.slice(3), limit: "", projects: [], ballots: [], election: [], told: [] });
    } else if (line.startsWith("limit ")) last().limit = line.slice(6);
    else if (mark.toLowerCase() === "p") last().projects.push(...noted());
    else if (mark.toLowerCase() === "b") last().ballots.push(...noted());
    else if (mark === ">") last().election.push(...noted());
    else if (mark === "!") last().told.push(rest);
  }
  return cases;
}

function told(faults: readonly Fault[]): string[] {
  const words = wordsOf("en"), rest = faults.length - MOST_TOLD;
  const lines = faults.slice(0, MOST_TOLD).map(fault =>
    fault.sheet === "limit" ? `${words.limit}: ${faultIn(words, fault, NAMES)}` : faultIn(words, fault, NAMES));
  return rest > 0 ? [...lines, `and ${rest} more`] : lines;
}

for (const each of casesOf(table)) {
  test(`sheets: ${each.name}`, () => {
    const read = readSheets(Uint8Array.from(each.projects), Uint8Array.from(each.ballots));
    const limit = limitFault(each.limit);
    const faults = [...limit ? [limit] : [], ...read.faults];
    assert.deepEqual(told(faults), each.told);
    if (faults.length > 0) return;
    assert.equal(electionText(read, each.limit), new TextDecoder().decode(Uint8Array.from(each.election)));
  });
}

test("the table has cases of both kinds", () => {
  const cases = casesOf(table), refused = cases.filter(each => each.told.length > 0).length;
  assert(refused > 10 && cases.length - refused > 10);
});

test("projects that are ticked are funded, and the file says so", () => {
  const read = readSheets(bytes("project_id;name;cost\na;Park;6\nb;Library;4\n"), bytes("voter;projects\n1;a\n"));
  const lines = electionText(read, "10", new Set(["b"])).split("\n");
  assert.deepEqual(lines.slice(7, 10), ["project_id;cost;name;selected", "a;6;Park;0", "b;4;Library;1"]);
  assert.deepEqual(electionText(read, "10", new Set()).split("\n")[8], "a;6;Park;0");
});

test("which of two sheets is that of the projects", () => {
  const projects = bytes("project_id,name,cost\n"), ballots = bytes("voter;projects\n");
  const other = bytes("PROJECT_ID\tvoter\n"), costs = bytes("cost\tname\n");
  assert.equal(placeOfProjects([projects, ballots]), 0);
  assert.equal(placeOfProjects([ballots, projects]), 1);
  assert.equal(placeOfProjects([other, projects]), 1);
  assert.equal(placeOfProjects([ballots, other]), 1);
  assert.equal(placeOfProjects([costs, other]), 1);
  assert.equal(placeOfProjects([ballots, costs]), 1);
  const twice = (bytes: Uint8Array): Uint8Array[] => [bytes, Uint8Array.from(bytes)];
  for (const each of [projects, ballots, other, costs]) assert.equal(placeOfProjects(twice(each)), -1);
});

test("an election is named by the words that both sheets begin with", () => {
  const names: readonly (readonly [string, string, string])[] = [
    ["sheet.projects.csv", "sheet.ballots.csv", "sheet.pb"], ["projects.csv", "ballots.csv", "election.pb"],
    ["Altstadt projects.csv", "Altstadt prices.csv", "Altstadt.pb"], ["town.csv", "town ballots.csv", "town.pb"],
    ["town1.csv", "town2.csv", "election.pb"],
    ["Łódź 2024 – projekty.tsv", "Łódź 2024 – głosy.tsv", "Łódź 2024.pb"],
    ["Wahl (2024)_a.csv", "Wahl (2024)_b.csv", "Wahl (2024).pb"], ["town.csv", "town.tsv", "town.pb"],
  ];
  for (const [one, other, wanted] of names) assert.equal(electionName(one, other), wanted);
});

test("a long cell of blanks, or of quotation marks, is read in a time that its length has", () => {
  const blanks = `${" ".repeat(1 << 20)}x${" ".repeat(1 << 20)}y`, quotes = `"${'""'.repeat(1 << 20)}"`;
  const sheet = bytes(`project_id;name;cost\na;${blanks};6\nb;${quotes};4\n`);
  const { projects, faults } = readSheets(sheet, bytes("projects\na\n"));
  assert.deepEqual([projects[0].name.length, projects[1].name.length, faults.length], [(1 << 20) + 2, 1 << 20, 0]);
});
