"use strict";
/* Answers calls of the page's module under Node: a call on each line of standard input as JSON, its answer on each line
   of standard output. The module is that of the page, and the calls are made by what the page's worker calls it by.

   node tests/module.js PAGE

   A call of `kind` has the bytes of a file, in Base64, and its answer what the file is.
   A call has `command`, `files` (paths by what each is), `names`, `mode`, `measure` and `language`. An answer has what it says as
   facts and as lines, the notes beside it, and of a refusal the hint. `starve` has the call made again and again with too little memory,
   where the module's memory never grows. */
const { execFileSync } = require("child_process"), fs = require("fs"), path = require("path");
const readline = require("readline"), vm = require("vm");

/** What a module of web/src/auditor exports, with all that it imports. */
function exportsOf(name) {
  const cwd = path.join(__dirname, "../web/src/auditor"), how = ["--bundle", "--format=cjs", "--log-level=warning"];
  const exported = { exports: {} };
  vm.runInThisContext(`module => {${execFileSync("esbuild", [`${name}.ts`, ...how], { cwd })}}`)(exported);
  return exported.exports;
}

const [{ Auditor, FACTS_LENGTH }, { ABOUT_PAGE, isPage, pageCall, reportCall }, { ofModule }, { lineOf, saidBy }, { NO_MEMORY }] =
  ["auditor", "commands", "loaded", "says", "statuses"].map(exportsOf);
const page = fs.readFileSync(process.argv[2], "utf8");
const [, written] = /<script type="text\/plain" id="module">(.*?)<\/script>/s.exec(page);
const UNTOUCHED = 0xaa, ROOM = 1 << 22;
// By how many bytes the memory that is left is raised.
const STEP = 144;

const load = ofModule(new WebAssembly.Module(Buffer.from(written, "base64")));

function questionOf(auditor, { files, names = {}, mode, measure = "cost", language = "en" }) {
  const asked = { mode, measure, files: {}, names: {}, language: auditor.putText(language) };
  for (const [role, path] of Object.entries(files)) asked.files[role] = auditor.put(fs.readFileSync(path));
  for (const role of ["election", "outcome", "certificate"]) asked.names[role] = auditor.putText(names[role] ?? "");
  return asked;
}

/** What an answer says: a list, since that to `both` says two things, and a table or a certificate says nothing. */
function saysOf({ object }) {
  if (!object || ["margins", "group_margins"].includes(object.kind)) return [];
  return object.kind === "both" ? [object.prices, object.violation].map(saidBy) : [saidBy(object)];
}

const kindOf = ({ kind: file }) => {
  const auditor = new Auditor(load());
  return { kind: auditor.kindOf(auditor.put(Buffer.from(file, "base64"))) };
};

function answer(call) {
  const auditor = new Auditor(load()), asked = questionOf(auditor, call), { command, guess } = call;
  const reply = auditor.report(isPage(command) ? ABOUT_PAGE[command] : command, asked, guess);
  const { status, bytes } = isPage(command) ? auditor.page(command, asked) : { status: reply.status, bytes: reply.text };
  const { hint, notes } = reply.beside, says = saysOf(reply);
  return { status, text: Buffer.from(bytes).toString("base64"), says, lines: says.map(lineOf), notes, ...hint };
}

/** The call that a command makes, of a page without what it says. */
const rawCall = (auditor, command, asked) =>
  isPage(command) ? pageCall(command, asked, auditor.room(FACTS_LENGTH)) : reportCall(command, asked);

/** How a call ends with so many bytes of memory left: out of memory with nothing written, as usual, or wrongly. */
function endOf(call, left, usual) {
  const auditor = new Auditor(load()), asked = questionOf(auditor, call);
  const out = auditor.room(usual.length), needed = auditor.room(8), { name, words } = rawCall(auditor, call.command, asked);
  auditor.bytes(out).fill(UNTOUCHED);
  auditor.room(auditor.calls.memory.buffer.byteLength - Number(auditor.room(0).at) - left);
  const status = auditor.calls[name](...words, out.at, out.length, needed.at);
  const length = auditor.number(needed), written = Buffer.from(auditor.bytes(out));
  if (status === NO_MEMORY) return length === 0 && written.every(byte => byte === UNTOUCHED) ? "failed" : "wrong";
  return status === usual.status && length === usual.length && written.equals(usual.text) ? "answered" : "wrong";
}

/** Makes a call with less memory than it needs, so that each allocation fails: how often it ended in which way. */
function starve(call) {
  const auditor = new Auditor(load()), asked = questionOf(auditor, call);
  const { status, bytes } = auditor.call(rawCall(auditor, call.command, asked), ROOM);
  const usual = { status, text: Buffer.from(bytes), length: bytes.length }, counts = { failed: 0, answered: 0, wrong: 0 };
  for (let left = 0; counts.answered < 20 && counts.wrong === 0; left += STEP) counts[endOf(call, left, usual)]++;
  return counts;
}

readline.createInterface({ input: process.stdin }).on("line", line => {
  const call = JSON.parse(line);
  let told;
  try {
    told = call.starve ? starve(call) : "kind" in call ? kindOf(call) : answer(call);
  } catch (error) {
    told = { error: `${error.stack}` };
  }
  process.stdout.write(`${JSON.stringify(told)}\n`);
});
