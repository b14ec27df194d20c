/* What the package answers to `both`: two verdicts, each with its own line, and with the note that the program tells beside
   them (docs/FORMATS.md, Printed lines). */

import assert from "node:assert/strict";
import test from "node:test";
import { bothIn } from "../src/package/facts.js";
import type { BothObject } from "../src/auditor/objects.js";

const election = {
  limit: "100000000000", projects: 2, voters: 100, funded: 1, declared_projects: null, declared_voters: null, other_selected: 0,
  unused_columns: [],
};
const mode = { stable: true, exhaustive: false, cover: false };
const prices = { answer: "yes", election, failed: null, groups: "little", kind: "prices", mode } as const;
const violation = { answer: "yes", election, failed: null, kind: "violation" } as const;
const LITTLE = "note: the voter budgets together are less than the limit, so this yes says little";

const ofViolation = { status: 0, answer: "yes", saysOfGroups: null, notes: [], text: "violation\n" };

test("a yes to both, where that to prices says little", () => {
  const object: BothObject = { answer: "yes", kind: "both", prices, violation };
  assert.deepEqual(bothIn(object, "supported stable\nviolation\n", [LITTLE]), {
    status: 0, answer: "yes", text: "supported stable\nviolation\n", violation: ofViolation,
    prices: { status: 0, answer: "yes", form: "stable", saysOfGroups: "little", notes: [LITTLE], text: "supported stable\n" },
  });
});

test("a no to prices, which has no note", () => {
  const failed = { name: "C2", voter: 7, project: null }, no = { ...prices, answer: "no", failed, groups: null } as const;
  const object: BothObject = { answer: "no", kind: "both", prices: no, violation };
  assert.deepEqual(bothIn(object, "failed C2 voter 7\nviolation\n", []), {
    status: 1, answer: "no", text: "failed C2 voter 7\nviolation\n", violation: ofViolation,
    prices: { status: 1, answer: "no", condition: "C2", voter: 7, saysOfGroups: null, notes: [], text: "failed C2 voter 7\n" },
  });
});
