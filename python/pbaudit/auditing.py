"""Audits of files: those of docs/FORMATS.md, by their paths, as bytes, or open.

A `str` or `os.PathLike` is the path of a file, `bytes` are a file's bytes, and a binary file that is open is read from
where it stands. What a file can't be read for is an OSError, and a file that isn't what it has to be is a Refusal. Both
are exceptions, since neither is an answer to what was asked. That a condition fails is an answer, and so a value. All
files are read before the first is judged.

Where neither the library nor the program is found, or what is found can't be used, that is an ImportError or a
RuntimeError.
"""
import os
from dataclasses import dataclass, replace
from fractions import Fraction
from typing import Any, ClassVar, Dict, List, Literal, Optional, Tuple

from ._auditor import Hint, Mode, PageWords, Question, Report, Satisfaction, ask
from .files import MOST_BYTES, File, bytes_of, path_of
from .kept import Kept, keep, source_of, stamp_of
from .objects import Found, amount_of, election_notes, line_of
from .sentences import group_sentences, rows_of
from .shown import visible
from .tables import Result

__all__ = [
    "MOST_BYTES", "Asked", "Explanation", "File", "Finding", "NearestGroup", "ProjectMargins", "Refusal", "Summary",
    "Verdict", "answered", "audit_both", "audit_prices", "audit_refutation", "audit_violation", "bytes_of", "explain",
    "margins", "read", "tidy", "verdict",
]
OnGroups = Literal["strict", "weak", "little"]
Refutes = Literal["all", "with Cover", "stable", "stable with Cover"]
# By what a refutation proves.
_REFUTES: Dict[str, Refutes] = {"unpriceable": "all", "unpriceable cover": "with Cover", "unpriceable stable": "stable",
                                "unpriceable stable cover": "stable with Cover"}
# Longer bytes are no path.
_LONGEST_PATH = 4096
_GIVE_A_PATH = ("bytes are taken for the contents of a file: give a path as a str",)
_REFUSED = 2


class Refusal(ValueError):
    """A file isn't what it has to be. `str` tells all: the line that the program prints, and what is wrong.

    `input` is "election", "outcome" or "certificate" (of `audit_both` "prices" or "violation"); `file` is the path by
    which it was given, or otherwise that name; `number` and `name` are those of docs/FORMATS.md; `record` is the record at
    which the first fault stands, numbered from 1, or 0 where it stands at none; `line` is the line of the file on which
    that record begins, from 1, or None; `reason` is what is wrong, in sentences of a line each, or None where nothing is
    told (where the program or Node answers, each sentence begins with what is refused, and the line); and `printed` is the
    line that the program prints.

    >>> try:
    ...     read(b"PROJECTS")
    ... except Refusal as why:
    ...     print(why.printed)
    refused election 2 NoMeta record 1
    """

    def __init__(self, found: Found, file: Optional[str] = None, hint: Optional[Hint] = None, advice: Tuple[str, ...] = ()):
        hint = hint or Hint(None, ())
        printed, reason = line_of(found), "\n".join([*hint.sentences, *advice]) or None
        super().__init__(printed, file, hint.line, reason)
        self._parts = found, file, hint, advice
        self.input, self.number, self.name, self.record = (found[key] for key in ("input", "number", "name", "record"))
        self.printed, self.file, self.line, self.reason = printed, file or self.input, hint.line, reason

    def __reduce__(self) -> Tuple[Any, ...]:
        return Refusal, self._parts

    def __str__(self) -> str:
        return "\n".join([self.printed, *self.sentences()])

    def sentences(self) -> List[str]:
        """The reason, sentence by sentence, each behind the file, in a visible form; the first, which is about the record,
        behind its line too."""
        _, _, hint, advice = self._parts
        if hint.names_file:
            return [*hint.sentences, *self._placed(advice)]
        at = "" if hint.line is None else f":{hint.line}"
        return self._placed(hint.sentences[:1], at) + self._placed(hint.sentences[1:] + advice)

    def _placed(self, sentences: Tuple[str, ...], at: str = "") -> List[str]:
        return [f"{visible(self.file)}{at}: {sentence}" for sentence in sentences]


@dataclass(frozen=True)
class Verdict(Result):
    """The answer to an audit: true where all that was asked holds. `str` is the line that the program prints.

    If something fails, `condition` names the first that does, as "C3", "V4" or "U2", and `voter` (numbered from 1, by
    the ballots) and `project` (the id) say where, each None if the condition names none. `moved` is None but where
    `validate_price_system` was asked for prices near the given ones: then it is how far the payment that moved farthest
    did, in the currency of the costs. A notebook shows a verdict as the page about its certificate.

    A yes to prices says one of three things of any voters who all approve an unfunded project, which `says_of_groups`
    names. "strict": their equal part of the limit is less than that project's cost plus the cost of all funded projects
    that at least one of them approves, which is PJR+ up to any project, by cost (Brill and Peters 2023). So it is where
    the voter budgets together are more than the limit, or are the limit and Exhaustive was asked for. "weak": it is no
    more than that, where they are the limit and Exhaustive was left out. "little": nothing, where they are less; then
    nearly any outcome that costs little is supported, and `says_little` is true. Of any other verdict it is None.

    Of a yes to a refutation `refutes` says which prices can't support the outcome: "all", or "with Cover", those whose
    voter budgets together are more than the limit; where stable ones were asked for, "stable" or "stable with Cover" too,
    which are those in the stable form. It is None of any other verdict.

    >>> verdict = audit_prices("town.pb", write_prices(4, [{"a": 2, "b": 2}, {"a": 4}, {"b": 1}]))
    >>> bool(verdict), verdict.condition, verdict.project
    (False, 'C3', 'b')
    >>> [finding.name for finding in verdict.explain().findings if finding.state == "fails"]
    ['C3']
    """

    holds: bool
    line: str
    condition: Optional[str] = None
    voter: Optional[int] = None
    project: Optional[str] = None
    moved: Optional[Fraction] = None
    raised: Optional[Fraction] = None
    says_of_groups: Optional[OnGroups] = None
    refutes: Optional[Refutes] = None
    # What was asked; and of a verdict that was pickled the page. They are no fields, and so no part of it.
    _kept: ClassVar[Optional[Kept]] = None
    _page: ClassVar[Optional[str]] = None

    @property
    def says_little(self) -> bool:
        """Whether it is a yes to prices that says nothing of groups."""
        return self.says_of_groups == "little"

    def explain(self) -> "Explanation":
        """What each condition comes to that was audited. Raises ValueError where the files aren't there any more: large
        ones that were given as bytes aren't kept, nor are those of a verdict that was pickled, and others may have
        changed; ask `pbaudit.explain` of them. Raises MemoryError too."""
        question = None if self._kept is None else self._kept.question()
        if question is None:
            raise ValueError("the files of this verdict aren't kept, or have changed: ask pbaudit.explain of them")
        return _explained(replace(question, command="explain"), self._kept)

    def __getstate__(self) -> Dict[str, Any]:
        return {**{name: value for name, value in vars(self).items() if name != "_kept"}, "_page": self._repr_html_()}

    def _repr_html_(self) -> Optional[str]:
        """The page about the certificate, as a notebook shows it."""
        from .notebook import framed
        return self._page if self._kept is None else framed(self._kept.question())

    def __bool__(self) -> bool:
        return self.holds

    def __str__(self) -> str:
        return self.line


@dataclass(frozen=True)
class Summary(Result):
    """What an election has. `funded` is None where it states no outcome; `notes` are without their `note: `.

    >>> summary = read("town.pb")
    >>> summary.voters, summary.projects, summary.funded
    (3, 3, 2)
    """

    voters: int
    projects: int
    funded: Optional[int]
    notes: Tuple[str, ...]
    line: str

    def __str__(self) -> str:
        return self.line


@dataclass(frozen=True)
class Finding(Result):
    """What a condition or test comes to: its name, as "C3"; "holds", "fails" or "not asked"; and a sentence with the
    amounts that it compares.

    >>> first, *_ = explain("town.pb", "town.prices.csv").findings
    >>> first.name, first.state
    ('Feasible', 'holds')
    """

    name: str
    state: str
    sentence: str


@dataclass(frozen=True)
class NearestGroup(Result):
    """The supporters of an unfunded `project` who come nearest to what a yes to prices says of every group: how many there
    are, their `share` of the limit, what the project costs, and what was funded that at least one of them approves.
    Amounts are exact, in the currency.

    >>> explain("town.pb", "town.prices.csv").nearest.share
    Fraction(10, 3)
    """

    project: str
    supporters: int
    share: Fraction
    cost: Fraction
    funded_for: Fraction


@dataclass(frozen=True)
class Explanation(Result):
    r"""What each condition comes to, in their order, with the answer to the audit itself, and true where that is.
    `groups` has, of a yes to prices, a sentence on what it says of every group, and one on the unfunded project whose
    supporters come nearest to what that compares; `nearest` has its figures. `str` is the text that the program prints.

    >>> str(explain("town.pb", "town.prices.csv")).split("\n")[0]
    'supported priceable'
    """

    verdict: Verdict
    findings: Tuple[Finding, ...]
    text: str
    groups: Tuple[str, ...] = ()
    nearest: Optional[NearestGroup] = None

    def rows_of_table(self) -> List[Dict[str, Any]]:
        """A row for each condition."""
        return [finding.to_dict() for finding in self.findings]

    def _repr_html_(self) -> Optional[str]:
        """The page about the certificate, as a notebook shows it."""
        return self.verdict._repr_html_()

    def __bool__(self) -> bool:
        return self.verdict.holds

    def __str__(self) -> str:
        return self.text


@dataclass(frozen=True)
class ProjectMargins(Result):
    """The figures of a project by a price certificate: its id, whether it is funded, how many voters approve it, and
    exact amounts in the currency of the election. `left` is what its supporters have left together, which may be less
    than 0, and `offer` the same where for each supporter the largest single payment counts if it is more.

    >>> [(each.project, each.left) for each in margins("town.pb", "town.prices.csv") if not each.funded]
    [('c', Fraction(2, 1))]
    """

    project: str
    funded: bool
    supporters: int
    cost: Fraction
    paid: Fraction
    left: Fraction
    offer: Fraction


def read(election: File) -> Summary:
    """Reads an election. Raises Refusal, OSError and MemoryError.

    >>> print(read("town.pb"))
    read 3 voters 3 projects 2 funded
    """
    found = Asked("read", election).object()
    counts = found["election"]
    return Summary(counts["voters"], counts["projects"], counts["funded"], tuple(election_notes(counts)), line_of(found))


def audit_prices(election: File, certificate: File, outcome: Optional[File] = None, *, stable: bool = False,
                 exhaustive: bool = True, cover: bool = False) -> Verdict:
    """Whether the payments of a price certificate support the outcome: that of the outcome file, and where that is None
    the election's own, the column `selected`. `stable` asks for S5 in place of C5; without `exhaustive` the condition
    Exhaustive is left out; `cover` adds Cover. Raises Refusal, OSError and MemoryError.

    >>> print(audit_prices("town.pb", "town.prices.csv"))
    supported priceable
    """
    mode = Mode(stable, exhaustive, cover)
    return _only_verdict(Asked("prices", election, certificate=certificate, outcome=outcome, mode=mode))


def audit_violation(election: File, certificate: File, outcome: Optional[File] = None) -> Verdict:
    """Whether the group and its demand are a violation of EJR, by the measure that the certificate states. The outcome
    is as for `audit_prices`. Raises Refusal, OSError and MemoryError.

    >>> claim, nothing = write_violation([1, 2], ["a"]), write_outcome([])
    >>> print(audit_violation("town.pb", claim, nothing))
    violation
    """
    return _only_verdict(Asked("violation", election, certificate=certificate, outcome=outcome))


def audit_refutation(election: File, certificate: File, outcome: Optional[File] = None, *,
                     stable: bool = False) -> Verdict:
    """Whether the weights of a refutation prove that no prices whatever support the outcome, in any form; with a weight
    of Cover, none whose voter budgets together are more than the limit. With `stable`, weights that don't prove it may
    prove it of prices in the stable form, and `refutes` of the verdict says which it is. The outcome is as for
    `audit_prices`. Raises Refusal, OSError and MemoryError.

    >>> claim = write_refutation(least={"a": 2}, most={"b": 1}, left={"c": 1})
    >>> verdict = audit_refutation("town.pb", claim)
    >>> bool(verdict), verdict.condition
    (False, 'U2')
    >>> town = write_election(Instance([Project("a", 4), Project("c", 1)], 10), [["a", "c"]] * 2, ["a"])
    >>> audit_refutation(town, write_refutation(least={"a": 1}, left={"c": 1}), stable=True).refutes
    'stable'
    """
    return _only_verdict(Asked("refutation", election, certificate=certificate, outcome=outcome, mode=Mode(stable)))


def audit_both(election: File, prices: File, violation: File, outcome: Optional[File] = None, *, stable: bool = False,
               exhaustive: bool = True, cover: bool = False) -> Tuple[Verdict, Verdict]:
    """The verdict on a price certificate and then that on a violation certificate, for one outcome. The switches are
    those of `audit_prices`. In the stable form, prices that support the outcome and say "strict" of groups never stand
    beside a violation by counting. Raises Refusal, OSError and MemoryError.

    >>> prices, violation = audit_both("town.pb", "town.prices.csv", write_violation([1, 2], ["a"]))
    >>> bool(prices), violation.condition
    (True, 'V4')
    """
    mode = Mode(stable, exhaustive, cover)
    asked = Asked("both", election, prices=prices, violation=violation, outcome=outcome, mode=mode)
    of_prices, of_violation = asked.verdicts()
    return of_prices, of_violation


def margins(election: File, certificate: File, outcome: Optional[File] = None) -> Tuple[ProjectMargins, ...]:
    """What each project costs, is paid and could be offered by a price certificate, in the order of the election;
    amounts are in its currency. The outcome is as for `audit_prices`. Raises Refusal, OSError and MemoryError.

    >>> first, *_ = margins("town.pb", "town.prices.csv")
    >>> first.project, first.cost == first.paid
    ('a', True)
    """
    found = Asked("margins", election, certificate=certificate, outcome=outcome).object()
    return tuple(_margins(project, found["grains_per_unit"]) for project in found["projects"])


def _margins(project: Found, grains_per_unit: int) -> ProjectMargins:
    cost, paid, left, offer = (Fraction(int(project[key]), grains_per_unit) for key in ("cost", "paid", "left", "offer"))
    return ProjectMargins(project["project"], project["funded"], project["supporters"], cost, paid, left, offer)


def explain(election: File, certificate: File, outcome: Optional[File] = None, *, stable: bool = False,
            exhaustive: bool = True, cover: bool = False) -> Explanation:
    """What each condition comes to by a price certificate, or each test by a violation certificate or a refutation, with
    the verdict of `audit_prices`, `audit_violation` or `audit_refutation`. The outcome and the switches are as for
    `audit_prices`; only prices depend on all of them, and a refutation on `stable`. Raises Refusal, OSError and
    MemoryError.

    >>> told = explain("town.pb", "town.prices.csv")
    >>> [finding.name for finding in told.findings if finding.state != "holds"]
    ['Cover', 'S5']
    """
    asked = Asked("explain", election, certificate=certificate, outcome=outcome, mode=Mode(stable, exhaustive, cover))
    found, = asked.verdicts()
    return _explanation(found, asked.question, asked.report())


def _explained(question: Question, kept: Optional[Kept]) -> Explanation:
    """The explanation that answers a question, whose files were accepted before."""
    report = answered(question)
    return _explanation(_verdict(report.found, kept), question, report)


def _explanation(verdict: Verdict, question: Question, report: Report) -> Explanation:
    findings = tuple(Finding(*row) for row in rows_of(report.found, question.certificate or b""))
    return Explanation(verdict, findings, report.text.decode("utf-8"), tuple(group_sentences(report.found)),
                       _nearest(report.found.get("nearest")))


def _nearest(found: Optional[Found]) -> Optional[NearestGroup]:
    if found is None:
        return None
    return NearestGroup(found["project"], found["supporters"], amount_of(found["share"]), amount_of(found["cost"]),
                        amount_of(found["funded_for"]))


def tidy(election: File, certificate: File) -> bytes:
    r"""The canonical form of a price certificate. Raises Refusal, OSError and MemoryError.

    >>> untidy = b"pb-prices,1\ndenominator,1\nvoter_budget,4\nvoter,project,payment\n 1 , a ,02\n"
    >>> tidy("town.pb", untidy).splitlines()[-1]
    b'1,a,2'
    """
    return Asked("tidy", election, certificate=certificate).text()


def asked_in_turn(blank: Question, election: File, outcome: Optional[File], **certificates: File) -> "Asked":
    """A question that has no files yet, of these. Raises OSError; or Refusal, where a file is refused that stands before
    the one that can't be read, as with the program."""
    try:
        return Asked(blank.command, election, outcome=outcome, mode=blank.mode, page=blank.page,
                     satisfaction=blank.satisfaction, **certificates)
    except OSError:
        given = {"election": election, **({} if outcome is None else {"outcome": outcome}), **certificates}
        _judge_ahead(blank, given)
        raise


def _judge_ahead(question: Question, given: Dict[str, File]) -> None:
    """Raises the refusal of a file that is judged ahead of one that can't be read. An open file can't be read again."""
    if not all(isinstance(file, (bytes, bytearray, memoryview, str, os.PathLike)) for file in given.values()):
        return
    data: Dict[str, bytes] = {}
    try:
        for name, file in given.items():
            data[name] = bytes_of(file)
    except OSError:
        pass
    if "election" not in data:
        return
    # What can't be read, and what is behind it, is empty here.
    certificates = [data.get(name, b"") for name in given if name not in ("election", "outcome")]
    first, second = (*certificates, None, None)[:2]
    outcome = data.get("outcome", b"") if "outcome" in given else None
    try:
        answered(replace(question, election=data["election"], certificate=first, violation=second, outcome=outcome), given)
    except Refusal as refusal:
        if refusal.input in data:
            raise refusal from None


def verdict(question: Question) -> Verdict:
    """The verdict that answers a question on a certificate, with files that were made of values."""
    return _verdict(answered(question).found, keep(question))


def _only_verdict(asked: "Asked") -> Verdict:
    only, = asked.verdicts()
    return only


def _verdict(answer: Found, kept: Optional[Kept]) -> Verdict:
    """The verdict that an object on one certificate is."""
    line, failed = line_of(answer), answer["failed"]
    if failed is None:
        found = Verdict(True, line, says_of_groups=answer.get("groups"), refutes=_REFUTES.get(answer.get("proves", "")))
    else:
        found = Verdict(False, line, failed["name"], failed["voter"], failed["project"])
    object.__setattr__(found, "_kept", kept)
    return found


def with_moved(found: Verdict, moved: Fraction, raised: Fraction) -> Verdict:
    """The same verdict, of prices whose payments moved so far, and whose voter budget was raised by so much."""
    other = replace(found, moved=moved, raised=raised)
    object.__setattr__(other, "_kept", found._kept)
    return other


class Asked:
    """A command on files as they were given, which are all read here, and its answer."""

    def __init__(self, command: str, election: File, *, outcome: Optional[File] = None, mode: Mode = Mode(),
                 page: PageWords = PageWords(), satisfaction: Satisfaction = "cost", **certificates: File):
        self._given: Dict[str, File] = {"election": election, **certificates}
        if outcome is not None:
            self._given["outcome"] = outcome
        stamps = {name: stamp_of(file) for name, file in self._given.items()}
        data = {name: bytes_of(file) for name, file in self._given.items()}
        self._sources = {name: source_of(file, stamps[name], data[name]) for name, file in self._given.items()}
        first, second = (*(data[name] for name in certificates), None, None)[:2]
        outcome_data = data.get("outcome")
        self.question = Question(command, data["election"], first, second, outcome_data, mode, page, satisfaction)
        self._report: Optional[Report] = None

    def report(self) -> Report:
        """What answers. Raises Refusal where a file is refused."""
        if self._report is None:
            self._report = answered(self.question, self._given)
        return self._report

    def object(self) -> Found:
        """The answer as an object. Raises as `report`."""
        return self.report().found

    def text(self) -> bytes:
        """What is printed. Raises as `report`."""
        return self.report().text

    def verdicts(self) -> List[Verdict]:
        """The verdict on each certificate. Raises as `report`."""
        question, found = self.question, self.object()
        election, first, second, outcome = question.election, question.certificate, question.violation, question.outcome
        certificates = [name for name in self._given if name not in ("election", "outcome")]
        questions, answers = [question], [found]
        if second is not None:
            questions = [Question("prices", election, first, None, outcome, question.mode),
                         Question("violation", election, second, None, outcome)]
            answers = [found["prices"], found["violation"]]
        kept = [keep(each, {**self._sources, "certificate": self._sources[name]})
                for name, each in zip(certificates, questions)]
        return list(map(_verdict, answers, kept))


def answered(question: Question, given: Optional[Dict[str, File]] = None) -> Report:
    """What answers a question, of which the status is 0 or 1. Raises Refusal where a file is refused, with the name of the
    one that was given."""
    report = ask(question)
    if report.status == _REFUSED:
        raise _refusal(report, given or {})
    return report


def _refusal(report: Report, given: Dict[str, File]) -> Refusal:
    file = given.get(report.found["input"])
    is_path = isinstance(file, (bytes, bytearray, memoryview)) and _looks_like_a_path(bytes(file))
    return Refusal(report.found, path_of(file), report.hint, _GIVE_A_PATH if is_path else ())


def _looks_like_a_path(data: bytes) -> bool:
    if not data or len(data) > _LONGEST_PATH or b"\n" in data or b"\0" in data:
        return False
    return data.lower().endswith((b".pb", b".csv")) or os.path.exists(data)
