"""The auditor itself: the proved library where it is found, and otherwise the program `pbaudit`, or the proved module, which Node
runs as the same command.

All answer the same: an exit status of 0, 1 or 2, and an object (docs/JSON.md). What is printed for people is handed on as it is,
and nothing is read from it but notes and hints, which the program tells on standard error alone.
"""
import ctypes
import json
import os
import pathlib
import reprlib
import subprocess
import tempfile
from dataclasses import dataclass, replace
from typing import Any, Callable, Dict, List, Literal, Optional, Protocol, Tuple, Union

from . import _places
from .objects import Found, election_notes, entry_in, object_of, unread_entry, unread_of
from .records import line_of_record

_HOW_TO_BUILD = (
    f"neither {_places.LIBRARY} nor the program pbaudit was found; from the repository of pbaudit, install this package again "
    "with pip install ./python, or the program with ./install into a folder on the PATH"
)


def switch(name: str, value: object) -> bool:
    """A switch, which is True or False, and anything else a TypeError."""
    # A true one of numpy equals 1, and a text doesn't.
    if not any(value is each or type(value).__name__ in ("bool_", "bool") and value == each for each in (False, True)):
        raise TypeError(f"{name} is {value!r}, not True or False")
    return bool(value)


Satisfaction = Literal["count", "cost"]


def measured(satisfaction: object) -> Satisfaction:
    """A satisfaction, which is "count" or "cost", and anything else a ValueError."""
    if isinstance(satisfaction, str) and satisfaction in ("count", "cost"):
        return "cost" if satisfaction == "cost" else "count"
    raise ValueError(f"the satisfaction is {satisfaction!r}, not 'count' or 'cost'")


@dataclass(frozen=True)
class Mode:
    """Which conditions are asked of prices; of a refutation `stable` alone counts. Each switch is True or False, and
    anything else a TypeError."""

    stable: bool = False
    exhaustive: bool = True
    cover: bool = False

    def __post_init__(self) -> None:
        for name, value in vars(self).items():
            object.__setattr__(self, name, switch(name, value))

    @property
    def switches(self) -> List[bool]:
        """Its switches in the order of the library."""
        return [self.stable, self.exhaustive, self.cover]

    @property
    def options(self) -> List[str]:
        """The options of a command that ask for it."""
        options = [("--stable", self.stable), ("--no-exhaustive", not self.exhaustive), ("--cover", self.cover)]
        return [option for option, is_on in options if is_on]


@dataclass(frozen=True)
class PageWords:
    """What a page calls the files, and the code of its language."""

    election: str = "election"
    certificate: str = "certificate"
    outcome: str = "outcome"
    language: str = "en"


@dataclass(frozen=True)
class Question:
    """A command, its files as bytes, the mode where the command asks for conditions, the words of a page, and how groups
    are measured. Two certificates are the prices and then the violation."""

    command: str
    election: bytes
    certificate: Optional[bytes] = None
    violation: Optional[bytes] = None
    outcome: Optional[bytes] = None
    mode: Mode = Mode()
    page: PageWords = PageWords()
    satisfaction: Satisfaction = "cost"


@dataclass(frozen=True)
class EntryFiles:
    """The files of one name in a folder, as bytes, or None for one that couldn't be read: `election`, and `prices` and
    `violation` where they are there; and in which mode prices are audited."""

    name: str
    files: Dict[str, Optional[bytes]]
    mode: Mode = Mode()


@dataclass(frozen=True)
class Hint:
    """What a person is told of a refusal: the line of the file on which the refused record begins, from 1, or None; and
    sentences. Those of the program name the file, by its role, and the line themselves."""

    line: Optional[int]
    sentences: Tuple[str, ...]
    names_file: bool = False


@dataclass(frozen=True)
class Report:
    """What answers a question: the exit status; the object, which is empty where a certificate or a page is given; what is
    printed, for people, which the program is asked for where it is wanted; the notes beside it; and what is told of a refusal."""

    status: int
    found: Found
    printed: Callable[[], bytes]
    notes: Tuple[str, ...] = ()
    hint: Optional[Hint] = None

    @property
    def text(self) -> bytes:
        return self.printed()


class Auditor(Protocol):
    """What the library and the program have in common."""

    def ask(self, question: Question) -> Report:
        """What answers a question."""

    def ask_entry(self, entry: EntryFiles) -> Found:
        """The object of `pbaudit folder --json` on the files of one name."""

    def has(self, command: str) -> bool:
        """Whether it has this command, which an older program may lack."""


# How the names of a folder's files end.
ENDINGS = {"election": ".pb", "prices": ".prices.csv", "violation": ".violation.csv"}
# What the library can be asked, by its numbers from 0.
_QUESTIONS = ("read", "prices", "violation", "refutation", "both", "explain", "margins", "tidy", "groups_by_cost",
              "groups_by_count", "explain_groups_by_cost", "explain_groups_by_count", "group_margins_by_cost",
              "group_margins_by_count")
# What is answered by a text alone, and no object.
_TEXTS = ("tidy",)
# What is asked by one of two measures; and what the program answers with --groups, by the command that it belongs to.
_BY_MEASURE = ("groups", "explain_groups", "group_margins")
# What has a row for each project, or for each group, and so is about as long as the election.
_TABLES = ("margins", "group_margins")
_WITH_GROUPS = {"explain_groups": "explain", "group_margins": "margins", "groups_page": "page"}
_PAGES = ("page", "groups_page")
_WITH_MODE = ("prices", "both", "explain", "page")
# The questions that take the same files and are answered by an object, which says why one is refused.
_OF_SAME_FILES = {"tidy": "prices", "page": "explain", "groups_page": "groups"}
_NOTHING_FUNDED = b"pb-outcome,1\n"
_OUT_OF_MEMORY = "pbaudit: fault memory"
_REFUSED, _USAGE, _MEMORY = 2, 3, 4
_MISSING, _THERE, _UNREAD = 0, 1, 2


class _Library:
    """Calls the library. A call lets other threads run."""

    _SIZE = ctypes.c_size_t
    _FILE = [ctypes.c_char_p, _SIZE]
    _OUTCOME = _FILE + [ctypes.c_bool]
    _MODE = [ctypes.c_bool] * 3
    # As much room as `pbaudit_facts` takes, which a page fills, and `pbaudit_total`, which an entry of a folder does. Nothing is
    # read from either here.
    FACTS, TOTAL = ctypes.c_uint64 * 5, _SIZE * 4
    _FACTS, _TOTAL = ctypes.POINTER(FACTS), ctypes.POINTER(TOTAL)
    _OUT = [ctypes.c_char_p, _SIZE, ctypes.POINTER(_SIZE)]
    _REPORT: List[Any] = [ctypes.c_uint8, *_FILE, *_OUTCOME, *_FILE, *_FILE, *_MODE, *_OUT]
    _PAGE: List[Any] = [*_FILE, *_FILE, *_FILE, *_OUTCOME, *_FILE, *_FILE, *_MODE, *_FILE, _FACTS, *_OUT]
    _GROUPS_PAGE: List[Any] = [*_FILE, *_FILE, *_FILE, *_OUTCOME, ctypes.c_bool, *_FILE, _FACTS, *_OUT]
    _ENTRY: List[Any] = [*_FILE, *([ctypes.c_uint8, *_FILE] * 3), *_MODE, _TOTAL, *_OUT]

    def __init__(self, path: Union[str, pathlib.Path]):
        library = ctypes.CDLL(str(path))
        self._report = self._function(library, "report", self._REPORT)
        self._page = self._function(library, "answer_page", self._PAGE)
        self._groups_page = self._function(library, "groups_page", self._GROUPS_PAGE)
        self._entry = self._function(library, "folder_entry", self._ENTRY)

    @staticmethod
    def _function(library: ctypes.CDLL, name: str, types: List[Any]) -> Any:
        function = getattr(library, f"pbaudit_{name}")
        function.restype = ctypes.c_uint8
        function.argtypes = types
        return function

    def ask(self, question: Question) -> Report:
        if question.command in _PAGES:
            return self._asked_for_page(question)
        status, data = self._call(self._report, self.words(question), self.room(question))
        try:
            return self._read(question, status, data)
        except (KeyError, TypeError, ValueError) as why:
            raise RuntimeError(f"the library is of another version than this package, and answers {why}") from why

    @staticmethod
    def _read(question: Question, status: int, data: bytes) -> Report:
        line, _, rest = data.partition(b"\n")
        beside = json.loads(line)
        if question.command in _TEXTS:
            found, text = beside["refusal"] or {}, rest
        else:
            line, _, text = rest.partition(b"\n")
            found = object_of(line, status)
        told = beside["hint"]
        hint = None if told is None else Hint(told["line"], tuple(told["sentences"]))
        return Report(status, found, lambda: text, tuple(beside["notes"]), hint)

    def ask_entry(self, entry: EntryFiles) -> Found:
        words = _text(entry.name.encode())
        for kind in ENDINGS:
            file = entry.files.get(kind)
            state = _MISSING if kind not in entry.files else _UNREAD if file is None else _THERE
            words += [state, *_text(file or b"")]
        _, text = self._call(self._entry, [*words, *entry.mode.switches, ctypes.byref(self.TOTAL())], 2**15)
        return _entry_in(text, "the library")

    def _asked_for_page(self, question: Question) -> Report:
        function = self._page if question.command == "page" else self._groups_page
        words = [*self.words(question), ctypes.byref(self.FACTS())]
        status, text = self._call(function, words, self.room(question))
        return _refusal(self, question) if status == _REFUSED else Report(status, {}, lambda: text)

    def has(self, command: str) -> bool:
        return command in (*_QUESTIONS, *_BY_MEASURE, *_PAGES)

    def _call(self, function: Any, words: List[Any], room: int) -> Tuple[int, bytes]:
        while True:
            out, needed = ctypes.create_string_buffer(room), self._SIZE()
            status = function(*words, out, room, ctypes.byref(needed))
            if status == _MEMORY:
                raise MemoryError(_OUT_OF_MEMORY)
            if status == _USAGE:
                raise RuntimeError("the library is older than this package, and can't answer all that it asks")
            if needed.value <= room:
                return status, ctypes.string_at(out, needed.value)
            room = needed.value

    @staticmethod
    def room(question: Question) -> int:
        """How many bytes an answer is given at first; where it needs more, all is audited once more. A page mostly has less
        than 4 MB, and an object and its lines a few thousand bytes. Beside these the text of `tidy` is mostly no longer
        than the certificate, and object and table of margins together no longer than the election twice."""
        if question.command in _PAGES:
            return 2**22
        if question.command == "tidy":
            return 2**15 + len(question.certificate or b"")
        return 2**15 + (2 * len(question.election) if question.command in _TABLES else 0)

    @staticmethod
    def words(question: Question) -> List[Any]:
        """What a call is given ahead of its room, and of the facts of a page."""
        if question.command in _PAGES:
            return _page_words(question)
        # No pointer may be null.
        outcome, certificate, violation = (
            file or b"" for file in (question.outcome, question.certificate, question.violation))
        name = question.command + (f"_by_{question.satisfaction}" if question.command in _BY_MEASURE else "")
        return [_QUESTIONS.index(name), question.election, len(question.election), outcome, len(outcome),
                question.outcome is not None, certificate, len(certificate), violation, len(violation), *question.mode.switches]


class _Program:
    """Runs the program, or what another runs in its place, on files in a folder of their own: with --json, and once more
    where what it prints for people is wanted."""

    def __init__(self, *run: str):
        first, *rest = run
        # The folder of the files is where it runs.
        self._run_by, self._path = [os.path.abspath(first) if os.sep in first else first, *rest], run[-1]

    def ask(self, question: Question) -> Report:
        if question.command in (*_TEXTS, *_PAGES):
            return self._asked_for_text(question)
        status, line, told = self._answer(question, "--json")
        try:
            return self._read(question, status, line, told)
        except (KeyError, TypeError, ValueError) as why:
            answer = f"{reprlib.repr(line)} with status {status}"
            raise RuntimeError(f"{self._path} answers {answer}, which this package can't read") from why

    def _read(self, question: Question, status: int, line: bytes, told: bytes) -> Report:
        found = object_of(line, status)
        notes, sentences = self._notes_and_hint(told)
        if found["kind"] == "election":
            # They are among the lines that are printed.
            notes = tuple(f"note: {note}" for note in election_notes(found["election"]))
        hint = self._hint(question, found, sentences) if status == _REFUSED else None
        return Report(status, found, lambda: self._answer(question)[1], notes, hint)

    def _asked_for_text(self, question: Question) -> Report:
        status, text, _ = self._answer(question)
        if status != _REFUSED:
            return Report(status, {}, lambda: text)
        refusal = _refusal(self, question)
        # A certificate has no notes, which the other question may have.
        return replace(refusal, notes=()) if question.command in _TEXTS else refusal

    def has(self, command: str) -> bool:
        words = [*self._run_by, command, "--help"]
        return subprocess.run(words, stdin=subprocess.DEVNULL, capture_output=True, check=False).returncode == 0

    @staticmethod
    def _notes_and_hint(told: bytes) -> Tuple[Tuple[str, ...], Tuple[str, ...]]:
        """What is told on standard error: notes, behind the name of the election's file, and the sentences of a hint as they
        come."""
        name, lines = "election: ", list(filter(None, told.decode("utf-8", "replace").split("\n")))
        notes = [line for line in lines if line.startswith(f"{name}note: ")]
        return tuple(note[len(name):] for note in notes), tuple(line for line in lines if line not in notes)

    @staticmethod
    def _hint(question: Question, found: Found, sentences: Tuple[str, ...]) -> Optional[Hint]:
        name = found["input"]
        line = line_of_record(_files(question)[name], b";" if name == "election" else b",", found["record"])
        return Hint(line, sentences, names_file=True) if sentences else None

    def ask_entry(self, entry: EntryFiles) -> Found:
        """It is run on a folder of these files. One that couldn't be read is empty there, and what is found of it put right."""
        if entry.files["election"] is None:
            return unread_entry(entry.name)

        def run() -> "subprocess.CompletedProcess[bytes]":
            with tempfile.TemporaryDirectory(prefix="pbaudit-") as folder:
                for kind, file in entry.files.items():
                    self._file(folder, f"entry{ENDINGS[kind]}", file or b"")
                return self._run_on(folder, ["folder", ".", "--json", *entry.mode.options])
        _, text, _ = self._done(run)
        found = _entry_in(text, self._path)
        for kind, file in entry.files.items():
            # That the election is refused, or states no outcome, stands before that the certificate can't be read.
            if file is None and found[kind] is not None and found[kind].get("input") != "election":
                found[kind] = unread_of("certificate")
        return {**found, "name": entry.name}

    def _answer(self, question: Question, *options: str) -> Tuple[int, bytes, bytes]:
        """The status, and what comes on standard output and on standard error."""
        return self._done(lambda: self._run(question, *options))

    def _done(self, run: Callable[[], "subprocess.CompletedProcess[bytes]"]) -> Tuple[int, bytes, bytes]:
        """The same of a run that ends with an answer."""
        try:
            done = run()
        except OSError as why:
            # No file that was given is at fault, so that this is none of the errors of reading them.
            raise RuntimeError(f"{self._path} can't be run on copies of the files: {why}") from why
        if done.returncode in (0, 1, 2):
            return done.returncode, done.stdout, done.stderr
        told = done.stderr.decode("utf-8", "replace").strip()
        if done.returncode == _MEMORY and told == "fault memory":
            raise MemoryError(_OUT_OF_MEMORY)
        older = " (it may be older than this package)" if done.returncode == _USAGE else ""
        raise RuntimeError(f"{self._path} ended with status {done.returncode}{older}: {told}")

    def _run(self, question: Question, *options: str) -> "subprocess.CompletedProcess[bytes]":
        with tempfile.TemporaryDirectory(prefix="pbaudit-") as folder:
            words = self._page_words(question, folder) if question.command in _PAGES else self._words(question, folder)
            return self._run_on(folder, [*words, *_options(question), *options])

    def _run_on(self, folder: str, words: List[str]) -> "subprocess.CompletedProcess[bytes]":
        return subprocess.run([*self._run_by, *words], cwd=folder, stdin=subprocess.DEVNULL, capture_output=True, check=False)

    def _words(self, question: Question, folder: str) -> List[str]:
        """The command and its files, which have the names of their roles."""
        files = _files(question)
        for role, data in files.items():
            self._file(folder, role, data)
        outcome = [] if question.outcome is None else ["--outcome", "outcome"]
        command = _WITH_GROUPS.get(question.command, question.command)
        return [command, *(role for role in files if role != "outcome"), *outcome]

    def _page_words(self, question: Question, folder: str) -> List[str]:
        page = question.page
        words = ["page", self._named(folder, "election", page.election, question.election)]
        if question.command == "page":
            words.append(self._named(folder, "certificate", page.certificate, question.certificate or b""))
        if question.outcome is not None:
            words += ["--outcome", self._named(folder, "outcome", page.outcome, question.outcome)]
        return [*words, "--language", page.language]

    def _named(self, folder: str, role: str, name: str, data: bytes) -> str:
        """A file of a name in a folder of its own; where no file can have that name, its name is its role."""
        os.mkdir(os.path.join(folder, role))
        try:
            return self._file(os.path.join(folder, role), os.path.basename(name) or role, data)
        except (OSError, ValueError):
            return self._file(os.path.join(folder, role), role, data)

    @staticmethod
    def _file(folder: str, name: str, data: bytes) -> str:
        path = os.path.join(folder, name)
        with open(path, "wb") as file:
            file.write(data)
        return path


def _refusal(auditor: Auditor, question: Question) -> Report:
    """Why a file is refused, where the answer is a certificate or a page and so no object: by another question that takes
    the same files."""
    other = replace(question, command=_OF_SAME_FILES[question.command])
    if question.command == "tidy":
        # That takes no outcome.
        other = replace(other, outcome=_NOTHING_FUNDED)
    report = auditor.ask(other)
    if report.status != _REFUSED:
        raise RuntimeError(f"pbaudit refuses a file for {question.command}, and none for {other.command}")
    return report


def _entry_in(text: bytes, who: str) -> Found:
    """The object of an entry, which is the first line of what somebody answers."""
    line, _, _ = text.partition(b"\n")
    try:
        return entry_in(line)
    except ValueError as why:
        raise RuntimeError(f"{who} answers {why}, which this package can't read") from why


def _files(question: Question) -> Dict[str, bytes]:
    """The files of a question by their roles, in the order of the command."""
    names = ("certificate", "violation") if question.violation is None else ("prices", "violation")
    files = zip(("election", *names, "outcome"), (question.election, question.certificate, question.violation, question.outcome))
    return {name: file for name, file in files if file is not None}


def _options(question: Question) -> List[str]:
    """The options by which the program is asked the question."""
    if question.command == "groups":
        return ["--satisfaction", question.satisfaction]
    if question.command in _WITH_GROUPS:
        return ["--groups", "--satisfaction", question.satisfaction]
    if question.command == "refutation":
        return ["--stable"] if question.mode.stable else []
    return question.mode.options if question.command in _WITH_MODE else []


def _page_words(question: Question) -> List[Any]:
    """The files of a page with their names, how it asks, and its language."""
    page, has_outcome = question.page, question.outcome is not None
    words = [*_named(question.election, page.election), *_named(question.outcome, page.outcome), has_outcome]
    if question.command == "groups_page":
        words.append(question.satisfaction == "count")
    else:
        words += [*_named(question.certificate, page.certificate), *question.mode.switches]
    return [*words, *_text(page.language.encode("utf-8", "replace"))]


def _named(file: Optional[bytes], name: str) -> List[Any]:
    """A file and its name. No pointer may be null."""
    return [*_text(file or b""), *_text(name.encode("utf-8", "replace"))]


def _text(data: bytes) -> List[Any]:
    return [data, len(data)]


def _loaded(path: pathlib.Path) -> _Library:
    try:
        return _Library(path)
    except (OSError, AttributeError) as why:
        raise ImportError(f"{path} can't be used: {why}; build it again with ./pbaudit-library, and if it is that of "
                          "the package, install this package again with pip install ./python") from why


def _find() -> Auditor:
    library = _places.library()
    if library is not None:
        return _loaded(library)
    program = _places.program()
    if program is not None:
        return _Program(str(program))
    module = _places.module()
    if module is not None:
        return _Program(*module)
    raise ImportError(_HOW_TO_BUILD)


_found: Optional[Auditor] = None


def auditor() -> Auditor:
    """The auditor. Raises ImportError where neither the library nor the program nor the module is found, or it can't be
    used."""
    global _found
    if _found is None:
        _found = _find()
    return _found


def ask(question: Question) -> Report:
    """What answers a question. Raises MemoryError where memory ran out, ImportError as `auditor`, and RuntimeError where the
    program can't be run or doesn't answer."""
    return auditor().ask(question)


def ask_entry(entry: EntryFiles) -> Found:
    """What is found of the files of one name in a folder: an object with those on the election and on its certificates, each
    None where it isn't there or the election is refused. Raises as `ask`."""
    return auditor().ask_entry(entry)
