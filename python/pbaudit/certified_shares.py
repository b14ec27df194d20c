"""The command `equal-shares`: an outcome of the Method of Equal Shares with a certificate, and what of it holds."""
import errno
import os
import shlex
import sys
import time
from dataclasses import dataclass
from fractions import Fraction
from typing import Iterator, List, Optional, Set

from . import auditing
from ._auditor import Question
from ._places import command
from .amounts import MILLION, money
from .auditing import Explanation
from .certificates import PriceCertificate, certified
from .decided import DecidedElection
from .election_files import Election, election_of
from .files import bytes_of, write_to
from .shares import EqualShares, Progress, Rule, result
from .shown import is_hidden, shown, visible
from .values import Payments
from .writing import write_outcome

# How long nothing is told on a terminal, and how long the last line stays.
PAUSE = 0.5
SHOWN = 12
# The conditions of a form of prices. Exhaustive and Cover are told by themselves.
ASKED = {"plain": ("Feasible", "C1", "C2", "C3", "C4", "C5"), "stable": ("Feasible", "C1", "C2", "C3", "C4", "S5")}


@dataclass(frozen=True)
class Certified:
    """The outcome of the rule, the certificate of it, and what the auditor finds of both; `is_own` is whether the
    election states this outcome, and None where it states none."""

    election: Election
    shares: EqualShares
    is_own: Optional[bool]
    certificate: PriceCertificate
    outcome: bytes
    plain: Explanation
    stable: Explanation

    def lines(self) -> Iterator[str]:
        """What is told of it."""
        ids, shares = self.election.projects.ids, self.shares
        funded = {self.election.projects.place[name] for name in shares.funded}
        spent = sum((self.election.costs[project] for project in funded), Fraction(0))
        yield f"{len(self.election.ballots)} voters, {len(ids)} projects, limit {_amount(self.election.limit)}"
        runs = f" after {shares.runs} runs" if shares.runs > 1 else ""
        yield f"voter budget {_amount(shares.voter_budget)}{runs}; {len(funded)} projects for {_amount(spent)}:"
        yield "  " + " ".join(map(shown, shares.funded))
        yield self._compared(funded)
        yield f"certificate over the denominator {self.certificate.denominator}, {self._off()}, as it was audited:"
        for name in ("plain", "stable", "Exhaustive", "Cover"):
            yield f"  {name:<12}{self._holds(name)}"

    def checked_by(self, election: str, certificate: str, outcome: Optional[str] = None) -> Optional[str]:
        """The command by which anybody checks what was written, or none where a path has letters that aren't seen."""
        paths = [election, certificate, *([] if outcome is None else [outcome])]
        called = command()
        if any(map(is_hidden, "".join(called + paths))):
            return None
        # None is taken for an option.
        election, certificate, *others = (os.path.join(".", path) if path.startswith("-") else path for path in paths)
        more = [word for other in others for word in ("--outcome", other)]
        if self._holds("Exhaustive") != "holds":
            more.append("--no-exhaustive")
        return shlex.join([*called, "prices", election, certificate, *more])

    def _off(self) -> str:
        """How far the certificate's amounts are from the rule's."""
        moved, raised = self.certificate.moved, self.certificate.raised
        if not moved and not raised:
            return "with the budget and the payments of the rule"
        budget = "the budget of the rule"
        if raised:
            budget = f"a budget that is {'more' if raised > 0 else 'less'} than the rule's by {_about(abs(raised))}"
        return f"with {budget}, and payments off by {_about(moved)} at most"

    def _compared(self, funded: Set[int]) -> str:
        own, ids = self.election.funded, self.election.projects.ids
        if own is None:
            return "the election states no outcome"
        if self.is_own:
            return "this is the outcome that the election states"
        more, less = ([ids[project] for project in sorted(some)] for some in (funded - own, own - funded))
        parts = [f"{what} {_some(names)}" for what, names in (("funds", more), ("doesn't fund", less)) if names]
        return "the election states another outcome: the rule " + " and ".join(parts)

    def _holds(self, name: str) -> str:
        explanation = self.stable if name == "stable" else self.plain
        found = [finding for finding in explanation.findings if finding.name in ASKED.get(name, (name,))]
        failing = [finding for finding in found if finding.state != "holds"]
        told = (f"{'' if each.name == name else each.name + ' '}fails: {visible(each.sentence)}" for each in failing)
        return "holds" if found and not failing else "; ".join(told)


def certify(path: str, by: str, completion: str, increment: Fraction) -> Certified:
    """The outcome of the rule on an election file, with a certificate. Raises Refusal, OSError, MemoryError and
    CannotKeep."""
    data = bytes_of(path)
    auditing.answered(Question("read", data), {"election": path})
    election = election_of(data)
    rule = Rule(election.costs, election.limit, election.ballots, by)
    shares = result(election.projects, rule, *rule.completed(completion, increment, _Teller(rule.voters)))
    funded = {election.projects.place[name] for name in shares.funded}
    decided = DecidedElection(election.projects.ids, election.costs, election.limit, funded, election.ballots)
    payments = Payments(shares.payments)
    certificate = certified(decided, election.projects, shares.voter_budget, payments, stable=False, exhaustive=False)
    outcome = write_outcome(shares.funded)
    plain, stable = (auditing.explain(data, certificate.file, outcome, stable=stable, cover=True)
                     for stable in (False, True))
    is_own = None if election.funded is None else election.funded == funded
    return Certified(election, shares, is_own, certificate, outcome, plain, stable)


def outcome_path(certificate: str) -> str:
    """Where the outcome file lies that belongs to a certificate."""
    ending = ".prices.csv"
    return (certificate[:-len(ending)] if certificate.endswith(ending) else certificate) + ".outcome.csv"


def write_files(made: Certified, certificate: str) -> List[str]:
    """Writes the certificate, and the outcome where it isn't the election's own. Answers the paths. Raises OSError, and
    FileExistsError before anything is written where another outcome is there, since nobody named that file."""
    outcome = outcome_path(certificate)
    if not made.is_own and os.path.lexists(outcome) and bytes_of(outcome) != made.outcome:
        raise FileExistsError(errno.EEXIST, "another outcome is there, and stays: remove it, or write to another CERTIFICATE",
                              outcome)
    write_to(certificate, made.certificate.file)
    if made.is_own:
        return [certificate]
    write_to(outcome, made.outcome)
    return [certificate, outcome]


class _Teller:
    """Tells on a terminal how far the rule is, and how long it may still take by what is spent of the limit."""

    def __init__(self, voters: int):
        self._voters, self._began, self._told = voters, time.monotonic(), time.monotonic()

    def __call__(self, progress: Progress) -> None:
        now = time.monotonic()
        if now - self._told < PAUSE or not sys.stderr.isatty():
            return
        self._told = now
        part = float(progress.spent / progress.limit) if progress.limit else 1.0
        left = (now - self._began) * (1 - part) / part if part and progress.run == 1 else None
        more = "" if left is None else f", about {left:.0f} s left"
        print(f"\r{self._voters} voters, run {progress.run}, voter budget {float(progress.voter_budget):.2f}, "
              f"{part:.0%} of the limit spent{more} \033[K", end="", file=sys.stderr, flush=True)


def clear_progress() -> None:
    """Takes the line on the progress away."""
    if sys.stderr.isatty():
        print("\r\033[K", end="", file=sys.stderr, flush=True)


def _amount(amount: Fraction) -> str:
    """An exact amount: a decimal if it has at most six decimals, and otherwise a whole number and a fraction."""
    if (amount * MILLION).denominator == 1:
        return money(amount, "the amount")
    whole, rest = divmod(amount, 1)
    return f"{whole} {rest}" if whole else str(rest)


def _about(amount: Fraction) -> str:
    """An amount to three digits, or exactly where it has no more."""
    told = f"{float(amount):.3g}"
    return told if Fraction(told) == amount else f"about {told}"


def _some(names: List[str]) -> str:
    return ", ".join(map(shown, names[:SHOWN])) + (f" and {len(names) - SHOWN} others" if len(names) > SHOWN else "")
