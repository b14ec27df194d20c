"use strict";
/* Tells how the scripts of the page call the library. Each command is asked of an auditor that has no module, once with each thing
   on that can be, what a file is, and what is told of an entry of a folder and of a total; and the calls are written down, and not
   answered.

   node tests/border.js FOLDER ASKED

   FOLDER has the scripts, as web/src/auditor. ASKED is JSON: `switches` and `ofEntry`, the names of what can be on, and `places`, the
   address and the length of each file and text that is handed over. The answer is JSON: `commands`, as they are; `statuses`, the
   numbers that statuses.ts exports; `kinds`, of files, as kinds.ts has them; and `calls`: of each the command, the measure, what is
   on, the name, the words with their types, and how long the room is that was taken, by its address. */
const { execFileSync } = require("child_process"), vm = require("vm");

const ALL = 'export * from "./auditor.js"; export * from "./commands.js"; export * from "./kinds.js"; export * as statuses from "./statuses.js";';
const FIRST_ROOM = 10000, KIND_OF = "kindOf", ENTRY = "entry", OF_TOTAL = "ofTotal";

function exportsIn(cwd) {
  const how = ["--bundle", "--format=cjs", "--loader=ts", "--log-level=warning"], exported = { exports: {} };
  vm.runInThisContext(`module => {${execFileSync("esbuild", how, { cwd, input: ALL })}}`)(exported);
  return exported.exports;
}

const { Auditor, COMMANDS, KINDS, isPage, statuses } = exportsIn(process.argv[2]);
const { ofEntry, places, switches } = JSON.parse(process.argv[3]);

function placeOf(name) {
  const [at, length] = places[name].map(BigInt);
  return { at, length };
}

const placesOf = (roles, end = "") => Object.fromEntries(roles.map(role => [role, placeOf(role + end)]));

const modeWith = on => ({ stable: on === "stable", exhaustive: on === "exhaustive", cover: on === "cover" });

const entryWith = on => placesOf(["name", "election", ...["prices", "violation"].filter(role => on === `${role}_state`)]);

const questionWith = (on, measure) => ({
  files: placesOf(["election", "certificate", "violation", ...(on === "has_outcome" ? ["outcome"] : [])]),
  names: placesOf(["election", "outcome", "certificate"], "_name"),
  mode: modeWith(on), measure, language: placeOf("language"),
});

class Kept extends Error {}

const asks = (auditor, command, on, measure) => {
  if (command === KIND_OF) return auditor.kindOf(placeOf("file"));
  if (command === ENTRY) return auditor.entry(entryWith(on), modeWith(on));
  if (command === OF_TOTAL) return auditor.ofTotal({ elections: 1, yes: 2, no: 3, refused: 4 });
  return auditor[isPage(command) ? "page" : "report"](command, questionWith(on, measure));
};

/** The call of a command, by an auditor whose rooms lie one behind the other. */
function callOf(command, on) {
  const kept = { command, on, measure: on === "by_count" ? "count" : "cost", rooms: {} };
  let next = FIRST_ROOM;
  const room = length => {
    const at = next;
    kept.rooms[at] = Number(length);
    next += Number(length);
    return BigInt(at);
  };
  const call = name => (...words) => {
    Object.assign(kept, { name, words: words.map(word => [typeof word, Number(word)]) });
    throw new Kept();
  };
  const auditor = Object.create(Auditor.prototype);
  const memory = { buffer: new ArrayBuffer(2 * FIRST_ROOM) }, own = { memory, pbaudit_room: room };
  auditor.calls = new Proxy(own, { get: (_, name) => own[name] ?? call(name) });
  try {
    asks(auditor, command, on, kept.measure);
  } catch (error) {
    if (!(error instanceof Kept)) throw error;
  }
  return kept;
}

const calls = Object.keys(COMMANDS).flatMap(command => switches.map(on => callOf(command, on)));
calls.push(callOf(KIND_OF, ""), ...ofEntry.map(on => callOf(ENTRY, on)), callOf(OF_TOTAL, ""));
const numbers = Object.fromEntries(Object.entries(statuses).filter(([, value]) => typeof value === "number"));
process.stdout.write(JSON.stringify({ commands: COMMANDS, statuses: numbers, kinds: KINDS, calls }));
