#!/usr/bin/env python3
"""Tries the edits of must-fail/, as many in one check as it can tell apart.

    tests/edits.py COPY [--wait] [--anew] [--jobs N] [CRATE..]

COPY is a copy of the repository in which nothing else works. Its crates are proved there, lowest first, and the edits of a
crate are tried beside the proofs of those above it. With --wait they are proved elsewhere, and COPY is given the libraries
that they become: the edits of a crate wait for its own and for those below it. What is refused is noted in
~/.cache/pbaudit/edits by the sum of all that it rests on, and isn't tried again on this machine until some of that changes,
but with --anew. A crate is proved only where an edit of it or of one above is to be tried.

Checks of edits go on side by side, of one crate or of several: N, or as many as there are processors, but no more than
memory allows. First come those of the largest crates. The proofs go before all of them.

A function is proved from its own body and from the contracts of what it calls, and a check says of each function
whether it is proved. So edits in the bodies of different functions are made in one text, of which those functions are
checked. Each is refused where a goal of its own function is open or the answer to one is wrong. An edit of which that isn't
seen is tried again alone, and one that stands in no body is tried alone at once; alone, the goal may be any. Then all is
checked, but first what the edit names, if it has lines `refused: FUNCTION`, with a path below the crate. A check begins with
what earlier ones have kept of the functions that they left as they are.

An edit that doesn't compile has failed. So has one that spoils a proof only because that names what the edit took away,
since right code would be refused too. `rt must-fail` lets that pass, and tries each edit by a check of its own.

The last line is 'N passed, M failed'; an edit that is refused has passed.
"""
import argparse
import functools
import hashlib
import heapq
import itertools
import os
import pathlib
import re
import shutil
import subprocess
import sys
import tempfile
import threading
import time

HEADER = re.compile(r'(?m)^( *)(?:pub(?:\(\w+\))? )?(?:const )?(?:unsafe )?(?:extern "C" )?fn (\w+)')
# the paths by which a check names a closure and a function, with the module and the function's name
CLOSURE = re.compile(r"((?:[^:]+::)*?)fn::(?:([A-Z][^:]*)::)?([^:]+)")
FUNCTION = re.compile(r"((?:[^:A-Z][^:]*::)*)(?:([A-Z].*)::)?([^:]+)$")
# how an impl begins: the trait, if it is of one, and the type
IMPL = re.compile(r"(?m)^impl(?:<[^\n]*?>)? (?:(\w+)(?:<[^\n]*>)? for )?(\w+)")
# what a check says of a function, and what of a place in a proof
JUDGED = re.compile(r"(?m)^fn \w+::(\S+): (.*)$")
ERROR = re.compile(r"(?m)^(?:\./)?proofs/(\S+)\.antt:\d+:\d+: error: (.*)$")
# what an error says where a name isn't there, or an answer rests on one that is wrong
NAMES = re.compile(r"has no field|is not in scope|has no `|was not admitted|was not checked")
# how many edits are made in one text
MOST = 32
# what a check reads in a crate's folder
PARTS = ("src", "specs", "proofs")
# where a check keeps its work, from which a later one goes on
WORK = "out/incremental"
# for how many seconds a note that isn't asked for is kept
MONTH = 30 * 24 * 60 * 60
# how much memory a check may come to take, and after how many seconds it has taken what it needs
ROOM = 4_000_000_000
BEGINNING = 30
# by how much checks of edits stand back behind proofs
BEHIND = 5


def module_of(path):
    """The module of a source, without a name at the root: 'prices::rows' for src/prices/rows.rt."""
    parts = pathlib.PurePath(path).with_suffix("").parts[1:]
    return "" if parts in (("lib",), ("main",)) else "::".join(parts)


def type_around(before):
    """The type whose methods stand behind this text, with the trait, if they are of one: MarginAudit, or MarginAuditAudit."""
    begun = [*IMPL.finditer(before)]
    return begun[-1][2] + (begun[-1][1] or "") if begun else None


class Functions:
    """The functions of a crate, each a module and a name, and where the bodies stand."""

    def __init__(self, crate):
        self.crate, self.bodies, self.methods = crate.name, [], {}
        for file in sorted((crate / "src").rglob("*.rt")):
            path, text = str(file.relative_to(crate)), file.read_text()
            for header in HEADER.finditer(text):
                margin, function = header[1], (module_of(path), header[2])
                start = re.compile(rf"(?m)^{margin}(?:\S.* )?\{{$").search(text, header.start())
                end = start and re.compile(rf"(?m)^{margin}\}}$").search(text, start.end())
                if end:
                    self.bodies.append((path, start.end(), end.start(), function))
                    if margin:
                        self.methods.setdefault(function[1], []).append((type_around(text[: header.start()]), function))
        self.known = {it for *_, it in self.bodies}

    def path(self, function, by_type=True):
        """The path by which a check looks at a function: its own; of a method the end that tells its type, since a check has it
        where that is handed on, or its module's; and of methods of one name in one module that module's."""
        module, name = function
        kinds = [kind for kind, it in self.methods.get(name, []) if it == function]
        if by_type and len(kinds) == 1 and kinds[0]:
            return f"{kinds[0]}::{name}"
        return "::".join(filter(None, (self.crate, module, "" if kinds else name)))

    def around(self, path, start, end):
        """The function in whose body this part of a source stands, or None."""
        return next((it for file, low, high, it in self.bodies if file == path and low <= start and end <= high), None)

    def named(self, path):
        """The function of a path, as a check has it: money::Money::read, or ids::fn::has_id::any of a closure.

        A check has the methods of a type where the type is handed on. So where the path's module has no function of the
        name, it is the one method that has it, and of several the one of the path's type.
        """
        module, kind, name = (CLOSURE.match(path) or FUNCTION.match(path)).groups()
        function, methods = (module.removesuffix("::"), name), self.methods.get(name, [])
        if len(methods) > 1:
            methods = [it for it in methods if it[0] == kind]
        return methods[0][1] if function not in self.known and len(methods) == 1 else function


class Edit:
    """What an edit replaces, and the functions in whose bodies that stands, None for what stands in none; and those that it names."""

    def __init__(self, file, crate, functions):
        self.name, self.text, self.pairs, self.functions, self.named = file.stem, file.read_text(), [], set(), []
        path = old = None
        for line in self.text.split("\n"):
            if line.startswith("refused: "):
                self.named.append(line.removeprefix("refused: "))
            elif line.startswith("file: "):
                path = line.removeprefix("file: ")
            elif line.startswith("old: "):
                old = line.removeprefix("old: ")
            elif line.startswith("new:"):
                self.pairs.append((path, old, line.removeprefix("new:").removeprefix(" ")))
                start = (crate / path).read_text().find(old)
                self.functions.add(functions.around(path, start, start + len(old)) if start >= 0 else None)

    def fits(self, edits):
        """Whether it may be made beside these: each in bodies, none in another's, nor in what another writes."""
        others = set().union(*(it.functions for it in edits))
        return (
            len(edits) < MOST
            and None not in self.functions | others
            and not self.functions & others
            and not any(self.writes_for(it) or it.writes_for(self) for it in edits)
        )

    def writes_for(self, other):
        return any(old in new for _, _, new in self.pairs for _, old, _ in other.pairs)

    def make(self, crate):
        for path, old, new in self.pairs:
            text = (crate / path).read_text()
            if text.count(old) != 1:
                raise ValueError(f"{self.name}: an 'old:' text stands in {path} {text.count(old)} times, and not once")
            (crate / path).write_text(text.replace(old, new))


class Verdict:
    """What a check says: the functions of which it refuses a goal or an answer, and whether it refuses any."""

    def __init__(self, text, functions):
        self.text, judged, errors = text, JUDGED.findall(text), {}
        for path, said in ERROR.findall(text):
            errors.setdefault(functions.named(os.path.dirname(path).replace("/", "::") or path), []).append(said)
        self.refused = {it for it, all_said in errors.items() if not all(map(NAMES.search, all_said))}
        for path, said in judged:
            function = functions.named(path)
            if "did not prove" in said or said == "not proved" and function not in errors:
                self.refused.add(function)
        self.is_read = bool(judged)
        self.is_proved = all(said == "proved" for _, said in judged)

    def why_not(self):
        """Why the edit that was tried alone isn't refused, if it isn't."""
        if not self.is_read:
            return "it doesn't compile"
        if self.is_proved:
            return "it is proved"
        return "" if self.refused else "a proof only names what it took away"


def rt(word, crate, *flags, behind=0):
    words = ["nice", "-n", str(behind), "rt", word, *flags]
    ran = subprocess.run(words, cwd=crate, stdin=subprocess.DEVNULL, stdout=subprocess.PIPE, stderr=subprocess.STDOUT)
    return ran.returncode, ran.stdout.decode(errors="replace")


def prove(copy, crate, lines):
    """Proves a crate, of which those above then read what it states, and not how that is proved. All wait for it, so it has as
    many jobs as `rt` finds room for."""
    return rt("lib", copy / "crates" / crate, *([] if "staticlib" in lines[crate] else ["--statements"]))


def await_libraries(copy, crate, lines):
    """Waits until the library that a crate becomes is there, if it becomes one, and those below it."""
    for name in below(crate, lines) | {crate}:
        while "staticlib" not in lines[name] and not (copy / "crates" / name / "out/rlib/stamp").exists():
            time.sleep(1)


def below(crate, lines):
    """The crates of the repository on which a crate stands."""
    used = [it for it in lines[crate].partition(":")[2].split() if it in lines]
    return set(used).union(*(below(it, lines) for it in used))


class Kept:
    """Which edits were refused on this machine before, by the sums of all that each rests on: the kit, this script, the
    crate and those below it, and the edit itself."""

    def __init__(self, copy, lines, is_asked):
        caches = pathlib.Path(os.environ.get("XDG_CACHE_HOME") or pathlib.Path.home() / ".cache")
        self.folder, self.copy, self.lines, self.is_asked = caches / "pbaudit" / "edits", copy, lines, is_asked
        self.kit = subprocess.run(["rt", "version"], stdout=subprocess.PIPE, check=True).stdout
        self.folder.mkdir(parents=True, exist_ok=True)
        for note in self.folder.iterdir():
            if time.time() - note.stat().st_mtime > MONTH:
                note.unlink(missing_ok=True)

    @functools.lru_cache(maxsize=None)
    def sum_of_crate(self, crate):
        parts = [self.kit, pathlib.Path(__file__).read_bytes(), (self.copy / "HANDLES").read_bytes()]
        for name in sorted({crate, *below(crate, self.lines)}):
            files = [it for part in PARTS for it in (self.copy / "crates" / name / part).rglob("*") if it.is_file()]
            parts += [self.lines[name], *((str(it.relative_to(self.copy)), it.read_bytes()) for it in sorted(files))]
        return hashlib.sha256(repr(parts).encode()).hexdigest()

    def note_of(self, crate, edit):
        return self.folder / hashlib.sha256(f"{self.sum_of_crate(crate)} {edit.text}".encode()).hexdigest()

    def has(self, crate, edit):
        note = self.note_of(crate, edit)
        if not self.is_asked or not note.exists():
            return False
        note.touch()
        return True

    def add(self, crate, edit):
        self.note_of(crate, edit).touch()


class Room:
    """A copy of a crate that is proved, with those below it, in which edits of it are tried."""

    def __init__(self, copy, crate, lines, folder):
        self.crate, lower = folder / "crates" / crate, below(crate, lines)
        (folder / "crates.txt").write_text("".join(lines[it] for it in lines if it == crate or it in lower))
        shutil.copy(copy / "HANDLES", folder)
        left_out = shutil.ignore_patterns("incremental", "must-fail")
        for it in lower:
            shutil.copytree(copy / "crates" / it, folder / "crates" / it, copy_function=os.link, ignore=left_out)
        for part in PARTS:
            if (copy / "crates" / crate / part).is_dir():
                shutil.copytree(copy / "crates" / crate / part, self.crate / part)

    def begin_with(self, work):
        """Puts there what earlier checks have kept, if they have."""
        if work.is_dir():
            shutil.copytree(work, self.crate / WORK)

    def check(self, edits, paths):
        """What a check says of the crate with these edits, or of the functions of these paths."""
        for edit in edits:
            edit.make(self.crate)
        words = [word for path in sorted(paths) for word in ("--only", path)]
        return rt("check", self.crate, "--jobs", "1", *words, behind=BEHIND)[1]


def edits_of(crate):
    functions = Functions(crate)
    return [Edit(it, crate, functions) for it in sorted((crate / "must-fail").glob("*.edit"))]


def rounds_of(edits):
    """The edits of a crate, those together that fit."""
    rounds = []
    for edit in edits:
        fitting = next((it for it in rounds if edit.fits(it)), None)
        if fitting is None:
            rounds.append([edit])
        else:
            fitting.append(edit)
    return rounds


def free_memory():
    """The bytes of memory that the system has left."""
    return 1024 * int(re.search(r"(?m)^MemAvailable: *(\d+)", pathlib.Path("/proc/meminfo").read_text())[1])


class Lanes:
    """Runs calls side by side, the heaviest of those that wait first; beside another only where memory is left."""

    def __init__(self, count, memory):
        self.memory, self.change, self.numbers = memory, threading.Condition(), itertools.count()
        self.waiting, self.begun, self.errors = [], {}, []
        for _ in range(count):
            threading.Thread(target=self.work, daemon=True).start()

    def add(self, weight, call, *given):
        with self.change:
            heapq.heappush(self.waiting, (-weight, next(self.numbers), call, given))
            self.change.notify_all()

    def has_room(self):
        """Whether another may begin. One that has just begun has yet to take its memory."""
        young = sum(time.monotonic() - began < BEGINNING for began in self.begun.values())
        return not self.begun or self.memory() >= ROOM * (1 + young)

    def take(self):
        with self.change:
            while not (self.waiting and self.has_room()):
                self.change.wait(1)
            self.begun[threading.get_ident()] = time.monotonic()
            return heapq.heappop(self.waiting)[2:]

    def work(self):
        while True:
            call, given = self.take()
            try:
                call(*given)
            except Exception as error:
                self.errors.append(error)
            with self.change:
                del self.begun[threading.get_ident()]
                self.change.notify_all()

    def finish(self):
        """Waits until nothing is left, also of what the calls have added."""
        with self.change:
            self.change.wait_for(lambda: not self.waiting and not self.begun)
        if self.errors:
            raise self.errors[0]


class Trial:
    """The trial of a crate's edits, each round of them in one check, and alone where they have to be."""

    def __init__(self, copy, crate, lines, kept, lanes, folder):
        self.copy, self.crate, self.lines, self.kept, self.lanes = copy, crate, lines, kept, lanes
        self.not_refused, self.change, self.work = [], threading.Lock(), pathlib.Path(folder) / crate
        self.functions = Functions(copy / "crates" / crate)
        self.weight = sum(it.stat().st_size for part in PARTS for it in (copy / "crates" / crate / part).rglob("*") if it.is_file())
        if (copy / "crates" / crate / WORK).is_dir():
            # Later others may build of the crate in its place.
            shutil.copytree(copy / "crates" / crate / WORK, self.work)

    def keep(self, crate, edits=()):
        """Adds to the work that is kept what a check has of functions that its edits left as they are: files whose names have
        the modules that they are of. What an edit outside of bodies changes isn't told by names, and isn't kept."""
        functions = set().union(*(it.functions for it in edits))
        if None in functions:
            return
        edited = {f".{name}." for _, name in functions}
        with self.change:
            for file in [*(crate / WORK).rglob("*")]:
                kept = self.work / file.relative_to(crate / WORK)
                if file.is_file() and not kept.exists() and not any(it in file.name for it in edited):
                    kept.parent.mkdir(parents=True, exist_ok=True)
                    shutil.move(file, kept)

    def begin(self, edits):
        """Tries these edits: one round, of edits in bodies if there are such, before the others, which begin with what is kept of it."""
        first, *others = sorted(rounds_of(edits), key=lambda it: any(None in edit.functions for edit in it))
        self.lanes.add(2 * self.weight, self.try_first, first, others)

    def try_first(self, first, others):
        self.try_together(first)
        for together in others:
            # A round is followed by some of its edits alone.
            self.lanes.add(2 * self.weight, self.try_together, together)

    def try_together(self, edits):
        began, functions = time.monotonic(), set().union(*(it.functions for it in edits))
        if None in functions:
            self.try_alone(*edits)
            return
        verdict = self.check(edits, *(self.functions.path(it) for it in functions))
        if not verdict.is_read:
            # A check may have a type's method by another path, as one of a trait with parameters.
            verdict = self.check(edits, *(self.functions.path(it, by_type=False) for it in functions))
        alone = [it for it in edits if not it.functions & verdict.refused]
        self.say(f"{len(edits)} edits in one check, {len(alone)} of them to be tried alone", began)
        for edit in edits:
            if edit in alone:
                self.lanes.add(self.weight, self.try_alone, edit)
            else:
                self.kept.add(self.crate, edit)

    def try_alone(self, edit):
        began = time.monotonic()
        if edit.named and self.check([edit], *edit.named).refused:
            self.kept.add(self.crate, edit)
            self.say(f"{edit.name} by what it names", began)
            return
        verdict = self.check([edit])
        if not verdict.is_read:
            # once more, since a check may have been killed for want of memory
            verdict = self.check([edit])
        if verdict.why_not():
            self.not_refused.append(f"{self.crate}/{edit.name}: {verdict.why_not()}\n{verdict.text}")
        else:
            self.kept.add(self.crate, edit)
        self.say(f"{edit.name} alone", began)

    def check(self, edits, *paths):
        """Checks the crate with these edits, or the functions of these paths."""
        with tempfile.TemporaryDirectory(dir=self.copy) as folder:
            room = Room(self.copy, self.crate, self.lines, pathlib.Path(folder))
            with self.change:
                room.begin_with(self.work)
            verdict = Verdict(room.check(edits, paths), self.functions)
            self.keep(room.crate, edits)
        return verdict

    def say(self, what, began):
        print(f"{self.crate}: {what}, {time.monotonic() - began:.0f} s", flush=True)


def arguments():
    words = argparse.ArgumentParser(description=__doc__, formatter_class=argparse.RawDescriptionHelpFormatter)
    words.add_argument("copy", type=lambda path: pathlib.Path(path).resolve())
    words.add_argument("crates", nargs="*")
    words.add_argument("--wait", action="store_true")
    words.add_argument("--anew", action="store_true")
    words.add_argument("--jobs", type=int, default=os.cpu_count())
    given = words.parse_intermixed_args()
    if not (given.copy / "crates.txt").is_file():
        words.error(f"{given.copy} is no copy of the repository")
    lines = lines_of(given.copy)
    unknown = [it for it in given.crates if it not in lines]
    if unknown or given.jobs < 1:
        words.error(f"there is no crate {unknown[0]}" if unknown else "--jobs is at least 1")
    return given, lines


def lines_of(copy):
    """The line of each crate in crates.txt, lowest first."""
    lines = (copy / "crates.txt").read_text().splitlines(keepends=True)
    return {re.match(r"\w+", line)[0]: line for line in lines if re.match(r"\w", line)}


def new_edits(kept, crate, edits):
    """Those of a crate's edits that were not refused before."""
    new = [it for it in edits if not kept.has(crate, it)]
    if len(new) < len(edits):
        print(f"{crate}: {len(edits) - len(new)} of {len(edits)} edits were refused on this machine before", flush=True)
    return new


def begin_trials(given, lines, lanes, folder):
    """Proves the crates that have edits to be tried, or waits for that, and begins to try them: the trials, how many edits there
    are, and why a crate isn't proved."""
    kept, trials, count = Kept(given.copy, lines, not given.anew), [], 0
    for crate in given.crates or lines:
        edits = edits_of(given.copy / "crates" / crate)
        new = new_edits(kept, crate, edits)
        if new:
            began = time.monotonic()
            if given.wait:
                await_libraries(given.copy, crate, lines)
            else:
                status, said = prove(given.copy, crate, lines)
                if status:
                    return trials, count, [f"{crate}: it isn't proved\n{said}"]
            print(f"{crate}: proved, {time.monotonic() - began:.0f} s", flush=True)
            trials.append(Trial(given.copy, crate, lines, kept, lanes, folder))
            trials[-1].begin(new)
        count += len(edits)
    return trials, count, []


def main():
    given, lines = arguments()
    lanes = Lanes(given.jobs, free_memory)
    with tempfile.TemporaryDirectory(dir=given.copy) as folder:
        trials, count, failed = begin_trials(given, lines, lanes, folder)
        lanes.finish()
    not_refused = [said for trial in trials for said in trial.not_refused]
    print(*failed, *not_refused, sep="\n")
    print(f"{count - len(not_refused)} passed, {len(failed) + len(not_refused)} failed")
    return 1 if failed or not_refused or not count else 0


if __name__ == "__main__":
    sys.exit(main())
