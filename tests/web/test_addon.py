"""The package's native code for Node (web/addon.c): which words it takes, that it is used where it can be loaded, that the module answers
where it can't and in workers, and what is told where memory runs out. test_javascript.py and its neighbours try all answers with it and
without; test_border.py compares its table with the header."""
import json
import re
import shutil
import subprocess
import sys

import pytest

import handing
from border import Border, kinds_for_addon
from common import HERE, INTERFACE, TOP, needs, ran
from native import MACHINE, linked, native_of, stand_in
from tables import EXAMPLES

CALLS = {row["name"]: Border((HERE / "tables/border.txt").read_text(encoding="utf-8")).calls[row["name"]]
         for row in Border((HERE / "tables/border.txt").read_text(encoding="utf-8")).groups["calls"] if row["web/src"] != "-"}  # fmt: skip
# How much memory there is, and how long each place is; those that have to lie at a multiple of eight.
SIZE = 4096
LENGTHS = {"BYTES": 24, "ROOM": 40, "NEEDED": 8, "KIND": 1, "FACTS": 40, "TOTAL": 32, "GIVEN_TOTAL": 32}
ALIGNED, WRITTEN = {"NEEDED", "FACTS", "TOTAL", "GIVEN_TOTAL"}, {"ROOM", "NEEDED", "KIND", "FACTS", "TOTAL"}
# Makes each call that a line of standard input has, and writes what it answers or the name of the error that it throws. A word `1n` is a
# bigint; others are evaluated.
CALLER = """
const addon = require(process.argv[2]), memory = new ArrayBuffer(SIZE);
const gone = new ArrayBuffer(SIZE);
structuredClone(gone, { transfer: [gone] });
require('readline').createInterface({ input: process.stdin }).on('line', line => {
  const [name, ...words] = JSON.parse(line);
  let told;
  try {
    told = addon[name](...words.map(word => eval(word)));
  } catch (error) {
    told = error.constructor.name;
  }
  console.log(JSON.stringify(told));
});
""".replace("SIZE", str(SIZE))


class Places:
    """The words of a call that is right, by what they are: each place stands by itself."""

    def __init__(self, name):
        self.name, self.words, self.places = name, ["memory"], []
        at = 64
        for kind, types in kinds_for_addon(CALLS[name]):
            if kind in LENGTHS:
                self.places.append((kind, len(self.words), at))
                self.words += [f"{at}n", *[f"{LENGTHS[kind]}n"] * (len(types) - 1)]
                at += 64
            else:
                self.words.append("1")

    def with_words(self, *changes):
        words = [*self.words]
        for at, word in changes:
            words[at] = word
        return [self.name, *words]

    def right(self):
        """Words that are taken."""
        yield self.with_words()
        for kind, word, at in self.places:
            yield self.with_words((word, f"{SIZE - LENGTHS[kind]}n"))
            if kind in ("BYTES", "ROOM"):
                yield self.with_words((word, f"{SIZE}n"), (word + 1, "0n"))
                # Of what is empty no byte is in another place, nor in one that it is beside.
                yield from (self.with_words((word, f"{other + by}n"), (word + 1, "0n")) for _, _, other in self.places for by in (0, 1))
                sides = [side for other_kind, _, other in self.places for side in (other - LENGTHS[kind], other + LENGTHS[other_kind]) if other != at]
                yield from (self.with_words((word, f"{side}n")) for side in sides)
        files = [(word, at) for kind, word, at in self.places if kind == "BYTES"]
        yield self.with_words(*((word, f"{files[0][1]}n") for word, _ in files))

    def of_wrong_type(self):
        yield [self.name]
        yield [self.name, *self.words[:-1]]
        yield [self.name, *self.words, "0"]
        yield [self.name, *self.words, *["0n"] * 40]
        for buffer in ("undefined", "null", "16n", "{}", "new Uint8Array(4096)", "new SharedArrayBuffer(4096)", "memory.slice.bind(memory)"):
            yield self.with_words((0, buffer))
        for at, word in enumerate(self.words[1:], 1):
            others = ["undefined", "null", "'1'", "true", "{}", "Symbol()", "1" if word.endswith("n") else "1n", "[1]", "new Number(1)"]
            yield from (self.with_words((at, other)) for other in others)

    def out_of_range(self):
        yield self.with_words((0, "gone"))
        yield self.with_words((0, "new ArrayBuffer(0)"))
        switches = [kind == "BOOL" for kind, types in kinds_for_addon(CALLS[self.name]) for _ in types]
        for at, word in enumerate(self.words[1:], 1):
            numbers = ["-1n", f"{2 ** 64}n", f"{2 ** 64 - 1}n"] if word.endswith("n") else ["-1", "256", "0.5", "NaN", "Infinity", "2 ** 32", "2 ** 64"]
            yield from (self.with_words((at, number)) for number in numbers + ["2"] * switches[at - 1])
        for kind, word, _ in self.places:
            # Nothing lies at 0, and nothing beyond the end.
            yield from (self.with_words((word, f"{at}n")) for at in (0, SIZE - LENGTHS[kind] + 1, SIZE + 1, 2 ** 64 - LENGTHS[kind]))
            if kind in ALIGNED:
                yield from (self.with_words((word, f"{128 * 16 + by}n")) for by in range(1, 8))

    def overlapping(self):
        """Each place that is written in the place of each other one, and what is shorter at its end."""
        for kind, word, at in self.places:
            for other_kind, other, other_at in self.places:
                if kind in WRITTEN and other != word:
                    yield self.with_words((word, f"{other_at}n"))
                    if other_kind not in ALIGNED:
                        yield self.with_words((other, f"{at + LENGTHS[kind] - 1}n"))


@pytest.mark.parametrize("name, kind", [("sample.pb", 1), ("sample.prices.csv", 3)])
def test_kind_of_a_file(natively, name, kind):
    """Of which the package itself doesn't ask."""
    done = ran("node", "-p", """
const [path, file] = process.argv.slice(1), bytes = require('fs').readFileSync(file), memory = new ArrayBuffer(bytes.length + 32);
new Uint8Array(memory).set(bytes, 16);
[require(path).pbaudit_kind(memory, 16n, BigInt(bytes.length), BigInt(bytes.length + 16)), new Uint8Array(memory)[bytes.length + 16]].join()
""", native_of(natively), EXAMPLES / name)
    assert (done.stdout, done.stderr) == (f"0,{kind}\n", "")


@pytest.fixture(scope="module")
def asked(tmp_path_factory):
    """What calls of the addon answer, where each function of the library answers how often one was called."""
    needs("node", "cc", "ar")
    folder = tmp_path_factory.mktemp("counting")
    addon = linked(stand_in(folder, "calls"), folder / MACHINE)
    (folder / "caller.cjs").write_text(CALLER)

    def ask(rows):
        done = ran("node", folder / "caller.cjs", addon, input="".join(f"{json.dumps(row)}\n" for row in rows), stdin=None)
        assert done.returncode == 0, done.stderr
        return [json.loads(line) for line in done.stdout.splitlines()]
    return ask


@pytest.mark.parametrize("name", CALLS)
def test_right_words_are_taken(asked, name):
    rows = [*Places(name).right()]
    assert len(rows) > 2 and asked(rows) == [number % 256 for number in range(1, len(rows) + 1)]


@pytest.mark.parametrize("name", CALLS)
@pytest.mark.parametrize("error, which", [("TypeError", "of_wrong_type"), ("RangeError", "out_of_range"), ("RangeError", "overlapping")])
def test_wrong_words_are_refused_and_nothing_is_called(asked, name, error, which):
    """The call behind them is the first."""
    rows = [*getattr(Places(name), which)()]
    told = asked([*rows, Places(name).with_words()])
    assert rows and [row for row, came in zip(rows, told) if came != error] == []
    assert told[len(rows):] == [1]


# Has a file read by each kind of auditor, imported and required, and tells what is said, whether the addon is mapped, and how often a
# module was compiled.
EACH = """
import { readFileSync } from 'node:fs';
import { createRequire } from 'node:module';
const require = createRequire(import.meta.url), { compile } = WebAssembly;
let compiled = 0;
WebAssembly.compile = (...words) => (compiled++, compile(...words));
const told = [], pb = readFileSync(process.argv[2]);
for (const from of [name => import(name), async name => require(name)]) {
  const { auditor, asyncAuditor, OutOfMemory } = await from('pbaudit'), { workerAuditor } = await from('pbaudit/worker');
  for (const make of [auditor, asyncAuditor, workerAuditor]) {
    const a = await make(), tell = async () => (await a.read(pb)).text;
    told.push(await tell().catch(error => error instanceof OutOfMemory ? 'OutOfMemory' : `${error}`));
    a.close?.();
  }
}
console.log(JSON.stringify([told, readFileSync('/proc/self/maps', 'utf8').includes('.node\\n'), compiled]));
"""
SAID = "read 3 voters 3 projects 2 funded\n"


def each(folder, file=EXAMPLES / "sample.pb", *options):
    (folder / "each.mjs").write_text(EACH)
    done = ran("node", *options, "each.mjs", file, cwd=folder)
    assert done.returncode == 0, done.stderr
    return json.loads(done.stdout)


def test_native_code_is_used(natively):
    """By each auditor but a worker, for which the module is compiled."""
    assert each(natively) == [[SAID] * 6, True, 2]


def test_elsewhere_the_module_is_used(by_module):
    assert each(by_module) == [[SAID] * 6, False, 6]


@pytest.fixture
def another(by_module, tmp_path):
    """The package with another addon, which a test writes."""
    shutil.copytree(by_module, tmp_path / "another")
    native_of(tmp_path / "another").parent.mkdir()
    return tmp_path / "another"


OTHERS = {
    "empty": b"", "garbage": b"garbage\n" * 1000, "no addon": None,
    "for another machine": b"\x7fELF\x02\x01\x01" + bytes(9) + b"\x03\x00\xf3\x00" + bytes(4000),
}


@pytest.mark.parametrize("what", OTHERS)
def test_what_is_not_loaded_leaves_the_module(another, what, tmp_path):
    native = native_of(another)
    if OTHERS[what] is None:
        (tmp_path / "empty.c").write_text("int nothing;\n")
        subprocess.run(["cc", "-shared", "-fPIC", "-o", native, tmp_path / "empty.c"], check=True)
    else:
        native.write_bytes(OTHERS[what])
    told, _, compiled = each(another)
    assert (told, compiled) == ([SAID] * 6, 6)


def test_an_addon_of_another_interface_leaves_the_module(another, tmp_path):
    """One that says of each file that memory ran out; with the right number that would be told."""
    for name in ("packaging/link-addon", "web/addon.c", "include/pbaudit.h"):
        (tmp_path / "copy" / name).parent.mkdir(parents=True, exist_ok=True)
        shutil.copy(TOP / name, tmp_path / "copy" / name)
    header = tmp_path / "copy/include/pbaudit.h"
    text = header.read_text(encoding="utf-8")
    for number, said in ((INTERFACE + 1, SAID), (INTERFACE, "OutOfMemory")):
        header.write_text(re.sub(r"(#define PBAUDIT_INTERFACE) \d+", rf"\1 {number}", text), encoding="utf-8")
        linked(stand_in(tmp_path, "4"), native_of(another), tmp_path / "copy")
        told, _, compiled = each(another)
        assert (told, compiled) == ([said, said, SAID] * 2, 6 if number != INTERFACE else 2)


@pytest.mark.parametrize("name", ["bun", "deno", "electron"])
def test_who_takes_addons_of_node_and_is_another_leaves_the_module(natively, name, tmp_path):
    (tmp_path / "other.cjs").write_text(f"Object.defineProperty(process, 'versions', {{ value: {{ ...process.versions, {name}: '1' }} }});\n")
    assert each(natively, EXAMPLES / "sample.pb", "--require", tmp_path / "other.cjs") == [[SAID] * 6, False, 6]


def test_addons_that_are_not_let_run_leave_the_module(natively):
    assert each(natively, EXAMPLES / "sample.pb", "--no-addons") == [[SAID] * 6, False, 6]


# Asks all that can be asked of the examples, and of files that are cut, and writes each answer.
ALL = """
import { readdirSync, readFileSync } from 'node:fs';
import { auditor } from 'pbaudit';
const folder = process.argv[2], a = await auditor(), file = name => readFileSync(`${folder}/${name}`), names = readdirSync(folder);
const tell = (call, ...given) => console.log(JSON.stringify([call, a[call](...given)]));
const modes = [{}, { stable: true }, { exhaustive: false, cover: true }];
for (const name of names.filter(name => name.endsWith('.pb'))) {
  const pb = file(name), town = name.slice(0, -3), others = names.filter(each => each.startsWith(`${town}.`) && each.endsWith('.csv')).map(file);
  const [outcome] = names.filter(each => each.startsWith(`${town}.`) && each.endsWith('.outcome.csv')).map(file);
  for (const election of [pb, pb.subarray(0, pb.length / 2)]) {
    tell('read', election);
    for (const satisfaction of ['cost', 'count']) for (const call of ['groups', 'explainGroups', 'groupMargins', 'groupsPage']) {
      tell(call, election, { satisfaction, outcome });
    }
  }
  for (const csv of others.flatMap(csv => [csv, csv.subarray(0, csv.length - 3)])) {
    for (const mode of modes) for (const call of ['prices', 'explain', 'page']) tell(call, pb, csv, mode);
    for (const call of ['violation', 'refutation', 'margins']) for (const asked of [{}, { outcome }]) tell(call, pb, csv, asked);
    tell('tidy', pb, csv);
    for (const mode of modes) tell('both', pb, csv, others.at(-1), mode);
    tell('page', pb, csv, { language: 'pl', names: { election: '<b>', certificate: 'x'.repeat(10000) } });
  }
}
const files = new Map(names.map(name => [name, file(name)]));
for (const mode of modes) tell('folder', files, mode);
"""


def test_answers_are_those_of_the_module(natively, by_module):
    """Texts and facts of each call."""
    told = []
    for folder in (natively, by_module):
        (folder / "all.mjs").write_text(ALL)
        done = ran("node", "all.mjs", EXAMPLES, cwd=folder)
        assert done.returncode == 0, done.stderr
        told.append(done.stdout.splitlines())
    first, second = told
    assert len(first) > 500 and {json.loads(line)[0] for line in first} == {*handing.CALLS}
    assert {json.loads(line)[1]["answer"] for line in first} == {"yes", "no", "refused", "read", "written", "report"}
    assert [each for each in zip(first, second, strict=True) if each[0] != each[1]] == []


WORKERS = """
import { readFileSync } from 'node:fs';
import { auditor } from 'pbaudit';
import { workerAuditor } from 'pbaudit/worker';
const [pb, prices] = process.argv.slice(2).map(name => readFileSync(name)), a = await auditor();
const workers = await Promise.all(Array.from({ length: 4 }, workerAuditor)), asked = Array.from({ length: 40 }, (_, at) => ({ stable: at % 2 > 0 }));
const wanted = asked.map(mode => a.explain(pb, prices, mode).text);
const told = await Promise.all(workers.map(w => Promise.all(asked.map(mode => w.explain(pb, prices, mode).then(({ text }) => text)))));
for (const w of workers) w.close();
const again = asked.map(mode => a.explain(pb, prices, mode).text);
console.log(JSON.stringify([new Set(wanted).size, [...told, again].map(texts => texts.join() === wanted.join())]));
"""


def test_workers_at_once(natively):
    """Beside native code, which goes on once they have ended."""
    (natively / "workers.mjs").write_text(WORKERS)
    done = ran("node", "workers.mjs", EXAMPLES / "district.pb", EXAMPLES / "district.prices.csv", cwd=natively)
    assert (done.returncode, json.loads(done.stdout)) == (0, [2, [True] * 5]), done.stderr


# Has the library's Nth allocation fail, where the variable LEFT is N. Once it failed, that is empty.
FAILING = """
#include <stdio.h>
#include <stdlib.h>
void *__real_malloc(size_t), *__real_realloc(void *, size_t);
static int fails(void) {
    char text[24], *left = getenv("LEFT");
    long number = left ? strtol(left, NULL, 10) : 0;
    if (number > 0) {
        snprintf(text, sizeof text, "%ld", number - 1);
        setenv("LEFT", number == 1 ? "" : text, 1);
    }
    return number == 1;
}
void *__wrap_malloc(size_t size) { return fails() ? NULL : __real_malloc(size); }
void *__wrap_realloc(void *block, size_t size) { return fails() ? NULL : __real_realloc(block, size); }
"""
STARVED = """
import { readFileSync } from 'node:fs';
import { auditor, OutOfMemory } from 'pbaudit';
const [pb, prices] = process.argv.slice(2).map(name => readFileSync(name)), a = await auditor(), counts = {};
for (const call of ['read', 'groups', 'prices', 'page']) {
  const ask = () => JSON.stringify(a[call](pb, ...call === 'read' || call === 'groups' ? [] : [prices])), usual = ask();
  const told = left => {
    process.env.LEFT = left;
    try {
      return ask() === usual ? 'usual' : 'other';
    } catch (error) {
      return error instanceof OutOfMemory ? 'OutOfMemory' : `${error}`;
    }
  };
  let left = 1;
  for (; told(left) === 'OutOfMemory' && process.env.LEFT === ''; left++);
  counts[call] = [left, told(left), told('')];
}
console.log(JSON.stringify(counts));
"""


def test_each_allocation_fails(another, library, tmp_path):
    """It is told, and the next call is answered."""
    (tmp_path / "failing.c").write_text(FAILING)
    subprocess.run(["cc", "-fPIC", "-c", "-o", tmp_path / "failing.o", tmp_path / "failing.c"], check=True)
    compiler = f"cc {tmp_path}/failing.o -Wl,--wrap=malloc,--wrap=realloc"
    linked(library / "libpbaudit.a", native_of(another), CC=compiler)
    (another / "starved.mjs").write_text(STARVED)
    done = ran("node", "starved.mjs", EXAMPLES / "district.pb", EXAMPLES / "district.prices.csv", cwd=another)
    assert done.returncode == 0, done.stderr
    counts = json.loads(done.stdout)
    assert len(counts) == 4 and [(call, told) for call, told in counts.items() if told[0] < 10 or told[1:] != ["usual", "usual"]] == []


FULL = """
import { readFileSync } from 'node:fs';
import { auditor, OutOfMemory } from 'pbaudit';
const { ArrayBuffer } = globalThis, a = await auditor();
let isFull = true;
globalThis.ArrayBuffer = class extends ArrayBuffer {
  constructor(length) {
    if (isFull && length > 2 ** 20) throw new RangeError('Array buffer allocation failed');
    super(length);
  }
};
const small = readFileSync(process.argv[2], 'utf8'), large = small.trimEnd() + '\\n4;a'.repeat(2 ** 19);
const told = () => {
  try {
    return a.read(large).voters;
  } catch (error) {
    return error instanceof OutOfMemory;
  }
};
const first = [told(), a.read(small).voters];
isFull = false;
console.log(JSON.stringify([...first, told()]));
"""


def test_memory_that_javascript_has_not(natively):
    """Later there may be some again."""
    (natively / "full_of_files.mjs").write_text(FULL)
    done = ran("node", "full_of_files.mjs", EXAMPLES / "sample.pb", cwd=natively)
    assert (done.returncode, json.loads(done.stdout)) == (0, [True, 3, 3 + 2 ** 19]), done.stderr


def test_nothing_is_left_of_what_was_asked_before(natively, tmp_path):
    """Memory is zero where the library is given room again."""
    (natively / "left.mjs").write_text("""
import { createRequire } from 'node:module';
const path = process.argv[2], require = createRequire(import.meta.url), addon = require(path), { pbaudit_report } = addon, seen = [];
addon.pbaudit_report = (memory, ...words) => {
  const bytes = new Uint8Array(memory), [at, length, needed] = words.slice(-3).map(Number);
  seen.push(bytes.subarray(at, at + length).every(byte => byte === 0));
  const status = pbaudit_report(memory, ...words), written = Number(new DataView(memory).getBigUint64(needed, true));
  // What the library leaves as it was.
  bytes.fill(255, at + written, at + length);
  return status;
};
const a = await (await import('pbaudit')).auditor();
for (const text of ['META', 'x'.repeat(100000), 'META\\n'.repeat(1000), '']) a.read(text);
console.log(JSON.stringify(seen));
""")
    done = ran("node", "left.mjs", native_of(natively), cwd=natively)
    assert (done.returncode, json.loads(done.stdout)) == (0, [True] * 4), done.stderr


def test_same_bytes_elsewhere(library, tmp_path):
    """Whatever the sources' folder and that of the library are called."""
    needs("cc")
    first = linked(library / "libpbaudit.a", tmp_path / "first.node").read_bytes()
    for name in ("packaging/link-addon", "web/addon.c", "include/pbaudit.h"):
        (tmp_path / "a longer name" / name).parent.mkdir(parents=True, exist_ok=True)
        shutil.copy(TOP / name, tmp_path / "a longer name" / name)
    shutil.copy(library / "libpbaudit.a", tmp_path / "other.a")
    assert linked(tmp_path / "other.a", tmp_path / "second.node", tmp_path / "a longer name").read_bytes() == first


@pytest.mark.built
@pytest.mark.parametrize("fixture, compiler, dump", [
    ("library", "cc", "objdump"), ("arm_library", "aarch64-linux-gnu-gcc", "aarch64-linux-gnu-objdump")])  # fmt: skip
def test_what_it_exports_and_asks_for(request, fixture, compiler, dump, tmp_path):
    """Of glibc nothing that is newer than 2.28, and one function that no other C library has."""
    library = request.getfixturevalue(fixture)
    needs(compiler, dump)
    told = ran(dump, "-T", linked(library / "libpbaudit.a", tmp_path / MACHINE, CC=compiler)).stdout
    exports = re.findall(r"^\w+ g +\w* \S+\s+\w+\s+Base +(\S+)$", told, re.MULTILINE)
    asks = {name: version for version, name in re.findall(r"\*UND\*\s+\w+ +(?:\(?GLIBC_([\d.]+)\)?|Base) +(\S+)$", told, re.MULTILINE)}
    assert exports == ["napi_register_module_v1"]
    assert [name for name, version in asks.items() if not version and not name.startswith(("napi_", "_"))] == []
    assert max(tuple(map(int, version.split("."))) for version in asks.values() if version) <= (2, 28)
    assert asks["gnu_get_libc_version"]


def test_a_library_that_lacks_a_function_is_not_linked(tmp_path):
    needs("cc", "ar")
    (tmp_path / "less.c").write_text("int nothing;\n")
    subprocess.run(["cc", "-fPIC", "-c", "-o", tmp_path / "less.o", tmp_path / "less.c"], check=True)
    subprocess.run(["ar", "rcs", tmp_path / "less.a", tmp_path / "less.o"], check=True)
    done = ran(TOP / "packaging/link-addon", tmp_path / "less.a", tmp_path / MACHINE)
    assert done.returncode != 0 and "pbaudit_report" in done.stderr and not (tmp_path / MACHINE).exists()


def test_calls_are_measured(natively, packed, library, program):
    """Of an election that the program says yes to, the program is timed beside Python, the addon and the module."""
    done = ran(sys.executable, TOP / "bench/calls.py", program, library, packed, "60", "20")
    assert (done.returncode, done.stderr) == (0, "")
    lines = [re.fullmatch(r" +[\d.]+ s +[\d.]+  (\S.*?) {2,}supported priceable", line) for line in done.stdout.splitlines()[1:]]
    assert [line and line[1] for line in lines] == ["program", "Python", "JavaScript, native code", "JavaScript, module"]
