#!/usr/bin/env python3
"""Measures `prices` called from Python and from JavaScript beside the program: the seconds of a processor that one call takes.

    python3 bench/calls.py PROGRAM LIBRARY PACKAGE [VOTERS PROJECTS]

PROGRAM is release/pbaudit, or crates/pbaudit/out/pbaudit; LIBRARY has libpbaudit.so.2; and PACKAGE is the package for JavaScript,
of which the native code and the module are measured each by itself. The election is one of bench.py, with 200,000 voters and 1,000
projects unless it is said otherwise. All read the same files, the program starts for each of its runs, and those that call it don't.
They take turns, and what is told is the least of 12 times, how many times the program's that is, and the answer.
"""
import os
import pathlib
import shutil
import subprocess
import sys
import tarfile
import tempfile

import bench
from hostile import LIBRARY

USUAL, ROUNDS = [(200_000, 1_000)], 12
ADDONS = "native"

# Each calls once for a line that it reads, and writes the seconds and the answer.
PYTHON = """
import sys, time
sys.path.insert(0, sys.argv[1])
import pbaudit
for _ in sys.stdin:
    began = time.process_time()
    answer = pbaudit.audit_prices(*sys.argv[2:])
    print(time.process_time() - began, answer, flush=True)
"""
JAVASCRIPT = """
import { readFileSync } from 'node:fs';
import { createInterface } from 'node:readline';
import { auditor } from 'pbaudit';

const a = await auditor();
for await (const _ of createInterface({ input: process.stdin })) {
  const began = process.cpuUsage(), answer = a.prices(...process.argv.slice(2).map(path => readFileSync(path)));
  const { user, system } = process.cpuUsage(began);
  console.log((user + system) / 1e6, answer.text.trimEnd());
}
"""


class Calls:
    """A process that calls once for each line."""

    def __init__(self, *words):
        self._process = subprocess.Popen(words, stdin=subprocess.PIPE, stdout=subprocess.PIPE, text=True)

    def time(self):
        """The seconds of a call, and its answer."""
        self._process.stdin.write("\n")
        self._process.stdin.flush()
        seconds, answer = self._process.stdout.readline().split(" ", 1)
        return float(seconds), answer.strip()

    def has_loaded(self, ending):
        """Whether it has a library whose name ends so."""
        maps = pathlib.Path(f"/proc/{self._process.pid}/maps").read_text()
        return any(line.endswith(ending) for line in maps.splitlines())

    def end(self):
        self._process.stdin.close()
        self._process.wait()


class Runs:
    """Runs of the program."""

    def __init__(self, program, *files):
        self._words = [program, "prices", *files]

    def time(self):
        with subprocess.Popen(self._words, stdout=subprocess.PIPE, text=True) as child:
            answer = child.stdout.read().strip()
            _, _, used = os.wait4(child.pid, 0)
            child.returncode = 0
        return used.ru_utime + used.ru_stime, answer

    def end(self):
        pass


def by_python(library, room, files):
    package = pathlib.Path(__file__).resolve().parent.parent / "python/pbaudit"
    shutil.copytree(package, room / "python/pbaudit", ignore=shutil.ignore_patterns("*.so*", "__pycache__"))
    shutil.copy(library / LIBRARY, room / "python/pbaudit")
    return Calls(sys.executable, "-c", PYTHON, room / "python", *files)


def by_javascript(package, room, files, is_native):
    """The package as npm installs it, without its native code where that isn't asked for."""
    put = room / ("native" if is_native else "module")
    with tarfile.open(package) as packed:
        packed.extractall(put / "unpacked")
    (put / "node_modules").mkdir()
    (put / "unpacked/package").rename(put / "node_modules/pbaudit")
    if not is_native:
        shutil.rmtree(put / "node_modules/pbaudit" / ADDONS)
    (put / "calls.mjs").write_text(JAVASCRIPT)
    calls = Calls("node", put / "calls.mjs", *files)
    calls.time()
    if calls.has_loaded(".node") != is_native:
        sys.exit(f"the package answers {'by its module' if is_native else 'natively'} here")
    return calls


def tell(ways):
    """Prints a line for each way, the first of which is the program."""
    times, answers = {name: [] for name in ways}, {}
    for _ in range(ROUNDS):
        for name, way in ways.items():
            seconds, answers[name] = way.time()
            times[name].append(seconds)
    for way in ways.values():
        way.end()
    least = {name: min(taken) for name, taken in times.items()}
    for name, seconds in least.items():
        print(f"  {seconds:6.3f} s {seconds / least['program']:5.2f}  {name:28} {answers[name]}", flush=True)


def measure(given, room, voters, projects):
    files = [room / f"e.{ending}" for ending in bench.ENDINGS]
    bench.in_child(bench.write_files, *map(str, files), voters, projects)
    election, prices, *_ = files
    print(f"{voters} voters, {projects} projects, {election.stat().st_size / 1e6:.1f} MB, certificate {prices.stat().st_size / 1e6:.1f} MB")
    tell({
        "program": Runs(given.program, election, prices),
        "Python": by_python(given.library, room, (election, prices)),
        "JavaScript, native code": by_javascript(given.package, room, (election, prices), True),
        "JavaScript, module": by_javascript(given.package, room, (election, prices), False),
    })  # fmt: skip


def has_native_code(package):
    try:
        with tarfile.open(package) as packed:
            return any(name.startswith(f"package/{ADDONS}/") for name in packed.getnames())
    except (OSError, tarfile.TarError):
        return False


def main():
    words = bench.arguments(__doc__, "program")
    words.add_argument("library", type=pathlib.Path)
    words.add_argument("package", type=pathlib.Path)
    words.add_argument("size", nargs="*", type=int, metavar="VOTERS PROJECTS")
    given = words.parse_args()
    if not (given.library / LIBRARY).is_file():
        words.error(f"{given.library} has no {LIBRARY}")
    if not has_native_code(given.package):
        words.error(f"{given.package} is no package for JavaScript with native code")
    if not shutil.which("node"):
        words.error("node is not installed")
    for voters, projects in bench.sizes_of(words, given.size, USUAL):
        with tempfile.TemporaryDirectory() as room:
            measure(given, pathlib.Path(room), voters, projects)


if __name__ == "__main__":
    main()
