"""What the callers of the C library say of its border: the Python package, c_library.py and the scripts of the page. They are asked with a
library in which each call is kept and none is answered. Each word that they hand over shows by its value what it is, and a switch by
when it is on."""
import collections
import contextlib
import ctypes
import itertools
import json
import pathlib
import re
import tempfile
import types
from unittest import mock

from border import answers, lines_in_c, numbered, shown_in_python, takes
from border_places import FILES, faults_of_formats, snake, text_at
from common import HERE, TOP, needs, ran

SWITCHES = ("has_outcome", "stable", "exhaustive", "cover", "by_count")
# What can be on of an entry of a folder: which certificates it has, and what is asked of prices.
OF_ENTRY = ("prices_state", "violation_state", "stable", "exhaustive", "cover")
# How long each file and each text is that is handed over.
LENGTHS = {"election": 100, "outcome": 101, "certificate": 102, "violation": 103, "election_name": 104, "outcome_name": 105,
           "certificate_name": 106, "language": 107, "file": 108, "name": 109, "prices": 110}  # fmt: skip
BY_LENGTH = {length: f"{name}_length" for name, length in LENGTHS.items()}


def words_in(calls, known, small="question"):
    """What the words of the calls of a function are: a switch is named by when it is on, and the words behind it are told by the call
    in which it alone is on, since a file may be there only then; others by the first call. A small number is what is asked for."""
    told = first = [*calls.values()][0]
    for at in range(len(first)):
        values = [words[at] if at < len(words) else None for words in calls.values()]
        if all(value in (0, 1) for value in values):
            on = [on for on, value in zip(calls, values) if value]
            # What is on in each call is the state of the election, without which there is no entry.
            switch = " and ".join(on) if len(on) < len(calls) or len(on) == 1 else "election_state"
            yield switch
            told = calls.get(switch, told)
        else:
            word = told[at]
            yield small if isinstance(word, int) and word < min(BY_LENGTH) else known.get(word, str(word))


# The Python package, and c_library.py.

VALUES = {name: (name * length)[:length].encode() for name, length in LENGTHS.items()}
KNOWN = {value: name for name, value in VALUES.items()} | BY_LENGTH
# What is asked of a hint: on a file, by the number and the record of its refusal.
REFUSED = ("certificate", 201, 202)
OF_HINT = KNOWN | {VALUES["certificate"]: "file", LENGTHS["certificate"]: "file_length", 201: "number", 202: "record"}


class Kept(Exception):
    """A call that is kept, and not answered."""


class Function:
    """A function of a library, and its calls by what is on."""

    argtypes, restype = (), None

    def __init__(self, name, library):
        self.name, self.library, self.calls = name, library, {}

    def __call__(self, *words):
        self.calls[self.library.on] = [*plain(words)]
        raise Kept

    @property
    def lines(self):
        """Its name, with the types and the words that it is given, or that it never is."""
        if not self.calls:
            return {f"{self.name} is never called"}
        known, small = (OF_HINT, "input") if self.name == "pbaudit_hint" else (KNOWN, "question")
        if any(word is None for words in self.calls.values() for word in words):
            return {f"{self.name} is given no address"}
        kinds = [shown_in_python(kind) for kind in self.argtypes]
        given = itertools.zip_longest(kinds, words_in(self.calls, known, small), fillvalue="nothing")
        return lines_in_c({self.name if self.restype is ctypes.c_uint8 else f"{self.name} -> {self.restype}": [*given]})


class AnyLibrary:
    """A library that has every function."""

    def __init__(self):
        self.on, self.functions = "", {}

    def __getattr__(self, name):
        return self.functions.setdefault(name, Function(name, self))

    def ask(self, on, call, *words):
        self.on = on
        with contextlib.suppress(Kept):
            call(*words)

    @property
    def lines(self):
        return set().union(*(function.lines for function in self.functions.values()))


def plain(words):
    """The words of a call, with names for addresses: that of room, of a struct, and of a number, which is the length behind room."""
    rooms = [at for at, word in enumerate(words) if isinstance(word, ctypes.Array)]
    for at, word in enumerate(words):
        if at in rooms:
            yield "out"
        elif at - 1 in rooms and word == len(words[at - 1]):
            yield "room"
        elif hasattr(word, "_obj"):
            named = {"c_ubyte": "kind", "TotalOfC": "total", "c_ulong_Array_4": "total", "c_ulong": "needed" if at - 2 in rooms else "line"}
            yield named.get(type(word._obj).__name__, "facts")
        else:
            yield word


def loaded(name, text):
    """The module that a text makes in the package."""
    module = types.ModuleType(f"pbaudit.{name}")
    module.__package__, module.__file__ = "pbaudit", str(TOP / f"python/pbaudit/{name}.py")
    exec(compile(text, name, "exec"), vars(module))
    return module


def question_with(on, command, package):
    """A question of the package with all files, and with one thing on."""
    files = [VALUES[name] for name in ("election", "certificate", "violation")]
    page = package.PageWords(*(VALUES[name].decode() for name in ("election_name", "certificate_name", "outcome_name", "language")))
    mode = package.Mode(on == "stable", on == "exhaustive", on == "cover")
    outcome = VALUES["outcome"] if on == "has_outcome" else None
    return package.Question(command, *files, outcome, mode, page, "count" if on == "by_count" else "cost")


def asked(make, package):
    """What calls a library, and that library, with its calls by a question and by pages."""
    library = AnyLibrary()
    with mock.patch("ctypes.CDLL", lambda _: library):
        caller = make("")
    for command, on in itertools.product(("both", "page", "groups_page"), SWITCHES):
        library.ask(on, caller.ask, question_with(on, command, package))
    return caller, library


def ask_of_entries(library, call, package, words_of):
    """Asks about an entry, once with each certificate and once in each mode."""
    for on in OF_ENTRY:
        mode = package.Mode(on == "stable", on == "exhaustive", on == "cover")
        library.ask(on, call, *words_of({kind: on == f"{kind}_state" for kind in ("prices", "violation")}, mode))


def in_python(texts):
    package, files, places = (loaded(name, text_at(texts, f"{name}.py")) for name in ("_auditor", "files", "_places"))
    caller, library = asked(package._Library, package)
    ask_of_entries(library, caller.ask_entry, package, lambda files, mode: [package.EntryFiles(VALUES["name"].decode(), {
        "election": VALUES["election"], **{kind: VALUES[kind] for kind, is_there in files.items() if is_there}}, mode)])
    numbers = {("statuses", number, name) for name, number in vars(package).items() if type(number) is int}
    numbers |= {("other numbers", files.MOST_BYTES, "MOST_BYTES"), ("other numbers", places.LIBRARY.rpartition(".")[2], "LIBRARY")}
    return library.lines | {numbered(*each) for each in numbers} | {*asked_by_python(package)}


def asked_by_python(package):
    """The questions, with what of the mode the program is told for them."""
    for name in package._QUESTIONS:
        command, _, measure = name.partition("_by_")
        question = package.Question(command, b"", mode=package.Mode(True, False, True), satisfaction=measure or "cost")
        options = {*package._options(question)} & {*question.mode.options}
        yield numbered("questions", package._Library.words(question)[0], name)
        yield takes(name, {3: ["switches"], 1: ["stable"]}.get(len(options), []))
        yield answers(name, "text" if command in package._TEXTS else "object")


def in_tests(texts):
    tests = loaded("c_library", text_at(texts, "c_library.py"))
    package = tests._auditor
    caller, library = asked(tests.Library, package)
    for on in SWITCHES:
        library.ask(on, caller.says_of_groups, question_with(on, "both", package))
    library.ask("", caller.kind, VALUES["file"])
    ask_of_entries(library, caller.entry, package, lambda files, mode: [
        VALUES["name"], [("there", VALUES["election"]), *((tests.STATES[is_there], VALUES[kind]) for kind, is_there in files.items())], mode])
    library.ask("", caller.of_total, (1, 2, 3, 4))
    for on, name in (("has_election", REFUSED[0]), ("", "election")):
        library.ask(on, caller.hint, question_with(on, "explain", package), tests.Facts(name, *REFUSED[1:]))
    structs = {f"pbaudit_{name.removesuffix('OfC').lower()}": [(shown_in_python(kind), field) for field, kind in it._fields_]
               for name, it in vars(tests).items() if isinstance(it, type) and issubclass(it, ctypes.Structure)}  # fmt: skip
    return library.lines | lines_in_c(structs) | {*numbers_of_tests(tests)}


def numbers_of_tests(tests):
    named = {"conditions and tests": tests.CULPRITS.items(), "inputs": enumerate(tests.INPUTS, 1), "groups": enumerate(tests.ON_GROUPS),
             "file kinds": enumerate(tests.FILE_KINDS), "files of an entry": enumerate(tests.STATES), "kinds": [(number, name) for name, number in tests.KINDS.items()]}  # fmt: skip
    yield from (numbered(group, number, name) for group, rows in named.items() for number, name in rows if name)
    yield from (f"the certificate of {name} is of kind {number}" for name, number in tests.CERTIFICATES.items())


# The scripts of the page, by Node. Beside the library their module has a call that gives room.

OF_MODULE = "pbaudit_room"
FAULTS = {name.lower() for _, name in faults_of_formats(FILES["FORMATS.md"][0].read_text(encoding="utf-8"))}
NUMBER = re.compile(r"\b([A-Z][A-Z0-9_]+) = (\d+)[,;]")
# The bytes of a total.
TOTAL = 32
# The addresses of what is handed over.
PLACES = {1000 + at: name for at, name in enumerate(LENGTHS)}


def in_web(texts):
    told = told_by_scripts({path.rpartition("/")[2]: text for path, text in texts.items() if path.startswith("web/src/auditor/")})
    calls = collections.defaultdict(dict)
    for call in told["calls"]:
        if call["command"] in ("both", "page", "groupsPage", "kindOf", "entry", "ofTotal"):
            calls[call["name"]][call["on"]] = call
    text = "\n".join(texts.values())
    unseen = {*re.findall(r"[\"'`](pbaudit_\w+)", text)} - {*calls, OF_MODULE}
    numbers = {("statuses", number, name) for name, number in told["statuses"].items()}
    numbers |= {("file kinds", number, name) for number, name in enumerate(told["kinds"])}
    numbers |= {("faults", number, name) for name, number in NUMBER.findall(text) if name.replace("_", "").lower() in FAULTS}
    return (lines_in_c({name: of_scripts(asked) for name, asked in calls.items()}) | {f"{name} is never called" for name in unseen}
            | {numbered(*each) for each in numbers} | {*rooms_in(told["calls"]), *asked_by_scripts(told)})  # fmt: skip


def told_by_scripts(scripts):
    """What border.js tells of the scripts of the auditor."""
    needs("node", "esbuild")
    given = {"switches": SWITCHES, "ofEntry": OF_ENTRY, "places": {name: [at, LENGTHS[name]] for at, name in PLACES.items()}}
    with tempfile.TemporaryDirectory() as folder:
        for name, text in scripts.items():
            pathlib.Path(folder, name).write_text(text, encoding="utf-8")
        done = ran("node", HERE / "border.js", folder, json.dumps(given))
    assert done.returncode == 0, done.stderr
    return json.loads(done.stdout)


def of_scripts(asked):
    """The types and the words of the calls of a function."""
    words = {on: [*plain_in(call)] for on, call in asked.items()}
    kinds = [kind for kind, _ in [*asked.values()][0]["words"]]
    told = [*words_in(words, BY_LENGTH)]
    addresses = [at for at, (kind, word) in enumerate(zip(kinds, told)) if kind == "bigint" and not word.endswith("_length")]
    is_null = any(call[at] == 0 for call in words.values() for at in addresses if at < len(call))
    return [*zip(kinds, told), *[("no", "address")] * is_null]


def plain_in(call):
    """The words of a call, with names for addresses, as `plain` has them."""
    words = [number for _, number in call["words"]]
    rooms = {int(at): length for at, length in call["rooms"].items()}
    outs = [at for at, word in enumerate(words[:-1]) if word in rooms and rooms[word] == words[at + 1]]
    for at, word in enumerate(words):
        if at in outs or at - 1 in outs:
            yield "out" if at in outs else "room"
        elif word in rooms:
            yield "needed" if at - 2 in outs else {1: "kind", TOTAL: "total"}.get(rooms[word], "facts")
        else:
            yield PLACES.get(word, word)


def rooms_in(calls):
    """How much room there is for facts, and for a total."""
    for call in calls:
        for (_, number), word in zip(call["words"], plain_in(call)):
            if word in ("facts", "total"):
                yield f"{word} takes {call['rooms'][str(number)]} bytes"


def asked_by_scripts(told):
    """The questions, with the files that they need."""
    for call in told["calls"]:
        command = told["commands"].get(call["command"], {})
        if "question" in command:
            by_measure = isinstance(command["question"], dict)
            name = snake(call["command"]) + (f"_by_{call['measure']}" if by_measure else "")
            yield numbered("questions", call["words"][0][1], name)
            yield takes(name, [command["certificate"] if each == "certificate" else each for each in command["needs"]])
            yield answers(name, "text" if command.get("lacksObject", False) else "object")
