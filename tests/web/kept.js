"use strict";
/* Sees that an auditor which was kept is as a new one, whatever it did before: its memory, and its answers. It prints a
   line of JSON for each thing that is done before: whether it was kept after that, and what differs then.

   node tests/web/kept.js MODULE EXAMPLES */
const { execFileSync } = require("child_process"), fs = require("fs"), path = require("path"), vm = require("vm");

/** What modules of web/src/auditor export, with all that they import. */
function exportsOf(...names) {
  const cwd = path.join(__dirname, "../../web/src/auditor"), how = ["--bundle", "--format=cjs", "--log-level=warning"];
  const input = names.map(name => `export * from "./${name}.js";`).join("\n"), exported = { exports: {} };
  vm.runInThisContext(`module => {${execFileSync("esbuild", how, { cwd, input })}}`)(exported);
  return exported.exports;
}

const { Auditor, Keeper, MOST_KEPT, OutOfMemory, isPage, ofModule } = exportsOf("auditor", "commands", "keeper", "loaded", "statuses");
const load = ofModule(new WebAssembly.Module(fs.readFileSync(process.argv[2])));
const file = name => fs.readFileSync(path.join(process.argv[3], name));
const mode = { stable: true, exhaustive: true, cover: false };
const HEAD = "META\nkey;value\nbudget;9\nvote_type;approval\nPROJECTS\nproject_id;cost;selected\na;9;1\nVOTES\nvoter_id;vote\n";

/** Asks a command of these files. */
function ask(auditor, command, files) {
  const places = Object.entries(files).map(([role, bytes]) => [role, auditor.put(bytes)]);
  const names = Object.fromEntries(["election", "outcome", "certificate"].map(role => [role, auditor.putText(role)]));
  const asked = { files: Object.fromEntries(places), names, mode, language: auditor.putText("de") };
  if (isPage(command)) return auditor.page(command, asked);
  const { status, text, object, beside } = auditor.report(command, asked);
  return { status, text: Buffer.from(text).toString(), object, beside };
}

const election = file("district.pb"), certificate = file("district.prices.csv"), violation = file("district.violation.csv");
const other = file("district.stable.prices.csv"), outcome = file("district.stable.outcome.csv");
const ASKED = [
  ["read", { election }], ["prices", { election, certificate }], ["prices", { election, outcome, certificate: other }],
  ["violation", { election, certificate: violation }], ["violation", { election, certificate }],
  ["read", { election: violation }],
  ["refutation", { election: file("school.pb"), certificate: file("school.refutation.csv") }],
  ["both", { election, outcome, certificate: other, violation }], ["explain", { election, certificate }],
  ["margins", { election, certificate }], ["tidy", { election, certificate }], ["page", { election, certificate }],
];
/** An election of so many bytes. */
const large = bytes => Buffer.concat([Buffer.from(HEAD), Buffer.alloc(bytes, ";a\n")]);
const BEFORE = {
  nothing: () => undefined,
  ...Object.fromEntries(ASKED.map((asked, at) => [`${at} ${asked[0]}`, auditor => ask(auditor, ...asked)])),
  "garbage everywhere": auditor => auditor.put(new Uint8Array(1 << 20).fill(255)),
  "a large election": auditor => ask(auditor, "read", { election: large(3 << 20) }),
  "a file that is too large to be kept": auditor => ask(auditor, "read", { election: Buffer.alloc(MOST_KEPT, "x") }),
  "room that isn't there": auditor => auditor.room(2 ** 33),
  "a trap": auditor => auditor.report("read", { files: { election: { at: 2n ** 32n - 9n, length: 99n } }, names: {}, mode }),
  "an exception": () => JSON.parse("{"),
};

/** Whether two memories have the same bytes, but for zeros at the end of the longer one. */
function isSameMemory(one, another) {
  const [short, long] = [one, another].map(each => Buffer.from(each.calls.memory.buffer)).sort((a, b) => a.length - b.length);
  const rest = Buffer.alloc(long.length - short.length);
  return short.equals(long.subarray(0, short.length)) && long.subarray(short.length).equals(rest);
}

for (const [name, does] of Object.entries(BEFORE)) {
  const keeper = new Keeper(load), told = { name };
  const first = keeper.use(auditor => auditor);
  try {
    keeper.use(does);
  } catch (error) {
    told.error = error instanceof OutOfMemory ? "OutOfMemory" : error.constructor.name;
  }
  told.isKept = keeper.use(auditor => auditor) === first;
  told.isClean = keeper.use(auditor => isSameMemory(auditor, new Auditor(load())));
  told.differ = ASKED.filter(asked => {
    const [kept, fresh] = [keeper.use(auditor => ask(auditor, ...asked)), ask(new Auditor(load()), ...asked)];
    return JSON.stringify(kept) !== JSON.stringify(fresh);
  }).map(([command]) => command);
  console.log(JSON.stringify(told));
}
