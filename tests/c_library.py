"""The C library by Python: the calls that the Python package doesn't make any more, with what the header says of them, and what they
tell in numbers."""
import ctypes
from dataclasses import dataclass
from typing import Optional

from pbaudit import _auditor

# By their numbers: the inputs from 1, the conditions and tests, and what is said of groups, of which 0 tells that a file is refused.
INPUTS = ("election", "outcome", "certificate", "prices", "violation")
CULPRITS = {**dict(enumerate(("Feasible", "Exhaustive", "Cover", "C1", "C2", "C3", "C4", "C5", "S5"), 1)),
            **dict(enumerate(("V1", "V2", "V3", "V4"), 11)), **dict(enumerate(("U1", "U2", "U3"), 21)), 31: "EJR+"}  # fmt: skip
ON_GROUPS = (None, "little", "weak", "strict")
# What a file is by its first record, of which 0 tells that it is none of these.
FILE_KINDS = (None, "election", "outcome", "prices", "violation", "refutation")
# How a file of an entry of a folder is.
STATES = ("missing", "there", "unread")
# What kind of file a hint is on, by the input, or of a certificate by the command.
KINDS = {"election": 0, "outcome": 1, "prices": 2, "violation": 3}
CERTIFICATES = {"prices": 2, "violation": 3, "refutation": 5, "margins": 2, "tidy": 2, "explain": 4, "page": 4}


@dataclass(frozen=True)
class Culprit:
    """A condition or a test that fails, and the voter and the project at which it does, each from 1, or None."""

    name: str
    voter: Optional[int] = None
    project: Optional[int] = None


@dataclass(frozen=True)
class Facts:
    """How an answer ends, as `pbaudit_facts` has it."""

    input: Optional[str] = None
    number: int = 0
    record: int = 0
    condition: Optional[Culprit] = None
    test: Optional[Culprit] = None


@dataclass(frozen=True)
class Answer:
    """The status, the text, and how that ends."""

    status: int
    text: bytes
    facts: Facts = Facts()


class CulpritOfC(ctypes.Structure):
    """The header's `pbaudit_culprit`."""

    _fields_ = [(name, ctypes.c_uint32) for name in ("number", "voter", "project")]

    def value(self):
        return Culprit(CULPRITS[self.number], self.voter or None, self.project or None) if self.number else None


class FactsOfC(ctypes.Structure):
    """The header's `pbaudit_facts`."""

    _fields_ = [("input", ctypes.c_uint32), ("fault", ctypes.c_uint32), ("record", ctypes.c_uint64),
                ("condition", CulpritOfC), ("test", CulpritOfC)]  # fmt: skip

    def value(self):
        refused = INPUTS[self.input - 1] if self.input else None
        return Facts(refused, self.fault, self.record, self.condition.value(), self.test.value())


class TotalOfC(ctypes.Structure):
    """The header's `pbaudit_total`."""

    _fields_ = [(name, ctypes.c_size_t) for name in ("elections", "yes", "no", "refused")]

    def value(self):
        return tuple(getattr(self, name) for name, _ in self._fields_)


class Library:
    """Calls the library as a program in C does. The files of a call are those of a question of the package."""

    _SIZE = ctypes.c_size_t
    _FILE = [ctypes.c_char_p, _SIZE]
    _OUTCOME = _FILE + [ctypes.c_bool]
    _MODE = [ctypes.c_bool] * 3
    _FACTS = ctypes.POINTER(FactsOfC)
    _OUT = [ctypes.c_char_p, _SIZE, ctypes.POINTER(_SIZE)]
    _ANSWER = [ctypes.c_uint8, *_FILE, *_OUTCOME, *_FILE, *_FILE, *_MODE]
    _PAGE = [*_FILE, *_FILE, *_FILE, *_OUTCOME, *_FILE, *_FILE, *_MODE, *_FILE, _FACTS]
    _GROUPS_PAGE = [*_FILE, *_FILE, *_FILE, *_OUTCOME, ctypes.c_bool, *_FILE, _FACTS]
    _GROUPS = [*_FILE, *_FILE, ctypes.c_bool]
    _KIND = [*_FILE, ctypes.POINTER(ctypes.c_uint8)]
    _TOTAL = ctypes.POINTER(TotalOfC)
    _ENTRY = [*_FILE, *([ctypes.c_uint8, *_FILE] * 3), *_MODE, _TOTAL]
    _HINT = [ctypes.c_uint8, ctypes.c_uint32, ctypes.c_uint64, *_FILE, *_OUTCOME, ctypes.POINTER(ctypes.c_uint64)]

    def __init__(self, path):
        library = ctypes.CDLL(str(path))
        self.answer = self._function(library, "answer", self._ANSWER + [self._FACTS] + self._OUT)
        self.page = self._function(library, "answer_page", self._PAGE + self._OUT)
        self.groups_page = self._function(library, "groups_page", self._GROUPS_PAGE + self._OUT)
        self._groups = self._function(library, "groups", self._GROUPS)
        self._kind = self._function(library, "kind", self._KIND)
        self._hint = self._function(library, "hint", self._HINT + self._OUT)
        self._entry = self._function(library, "folder_entry", self._ENTRY + self._OUT)
        self._of_total = self._function(library, "folder_total", [self._TOTAL] + self._OUT)

    @staticmethod
    def _function(library, name, types):
        function = getattr(library, f"pbaudit_{name}")
        function.restype, function.argtypes = ctypes.c_uint8, types
        return function

    @staticmethod
    def words(question):
        """What a call is given ahead of its facts and its room."""
        return _auditor._Library.words(question)

    def ask(self, question):
        function = {"page": self.page, "groups_page": self.groups_page}.get(question.command, self.answer)
        facts = FactsOfC()
        status, text = self._call(function, [*self.words(question), ctypes.byref(facts)])
        return Answer(status, text, facts.value())

    def says_of_groups(self, question):
        words = [word for file in (question.election, question.certificate or b"") for word in (file, len(file))]
        return ON_GROUPS[self._groups(*words, question.mode.exhaustive)]

    def kind(self, file):
        """What a file is by its first record."""
        kind = ctypes.c_uint8(99)
        assert self._kind(file, len(file), ctypes.byref(kind)) == 0
        return FILE_KINDS[kind.value]

    def entry(self, name, files, mode):
        """What is told of an entry, by its files: each how it is, or its number, with its bytes. The status, the text and the total."""
        words = [name, len(name)]
        for state, data in files:
            words += [state if isinstance(state, int) else STATES.index(state), data, len(data)]
        total = TotalOfC(*[99] * 4)
        status, text = self._call(self._entry, [*words, mode.stable, mode.exhaustive, mode.cover, ctypes.byref(total)])
        return status, text, total.value()

    def of_total(self, total):
        """How the report on a folder of this total ends, and what is told of it."""
        return self._call(self._of_total, [ctypes.byref(TotalOfC(*total))])

    def hint(self, question, facts):
        """The line and the text of a hint."""
        line, kind = ctypes.c_uint64(), KINDS.get(facts.input, CERTIFICATES.get(question.command))
        files = {"election": question.election, "outcome": question.outcome, "violation": question.violation}
        file, has_election = files.get(facts.input, question.certificate), facts.input != "election"
        election = question.election if has_election else b""
        words = [kind, facts.number, facts.record, file, len(file), election, len(election), has_election, ctypes.byref(line)]
        _, text = self._call(self._hint, words)
        return line.value, text.decode()

    @classmethod
    def _call(cls, function, words, room=2**20):
        while True:
            out, needed = ctypes.create_string_buffer(room), cls._SIZE()
            status = function(*words, out, room, ctypes.byref(needed))
            if needed.value <= room:
                return status, ctypes.string_at(out, needed.value)
            room = needed.value
