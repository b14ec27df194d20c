"""What an earlier search found, taken into one that looks only for what is missing. Of each certificate the file alone is taken,
which is what the auditor is asked about."""
from dataclasses import dataclass, replace
from typing import Dict, Optional

from ..auditing import Refusal, Verdict, audit_prices, audit_refutation, audit_violation
from ..certificates import PriceCertificate
from ..records import records
from ..writing import Satisfaction
from .prices import Given
from .results import Found, FoundPrices, FoundRefutation, FoundViolation, Wanted
from .there import measure_of, refuting

# What a search is at where it looks for prices.
PRICES_UNFINISHED = "prices"


@dataclass(frozen=True)
class Kept:
    """Whether prices, or a refutation, aren't looked for again."""

    prices: bool = False
    refutation: bool = False


def taken(earlier: Found, given: Given, wanted: Wanted, found: Found) -> Kept:
    """Puts into `found` what an earlier search found, as far as it is wanted, and the auditor accepts it for these files.
    Answers which of prices and a refutation needn't be looked for again; violations that are there aren't."""
    if earlier.prices and wanted.prices:
        found.prices = _prices(earlier.prices, given, wanted)
    if earlier.refutation and not found.prices:
        found.refutation = _refutation(earlier.refutation, given, wanted)
    violations: Dict[Satisfaction, FoundViolation] = {}
    for each in earlier.violations if wanted.violation else ():
        violation = _violation(each.file, given)
        if violation is not None:
            violations.setdefault(violation.by, violation)
    found.violations += violations.values()
    # A search that was stopped there may have had prices with Cover still to look for.
    is_done = found.prices is not None and (found.prices.cover or earlier.unfinished != PRICES_UNFINISHED)
    return Kept(is_done, found.refutation is not None)


def _prices(prices: FoundPrices, given: Given, wanted: Wanted) -> Optional[FoundPrices]:
    for cover in (True, False)[:1 if wanted.cover else 2]:
        try:
            verdict = audit_prices(given.election, prices.file, given.outcome, stable=wanted.stable,
                                   exhaustive=given.exhaustive, cover=cover)
        except Refusal:
            return None
        if verdict:
            made = _certificate(prices.certificate, len(given.problem.decided.ballots), verdict)
            return FoundPrices(made, verdict, wanted.stable, given.exhaustive, cover)
    return None


def _certificate(earlier: PriceCertificate, voters: int, verdict: Verdict) -> PriceCertificate:
    """A certificate of an election with so many voters, by its file and the auditor's answer."""
    _, (_, denominator), (_, budget), *_ = records(earlier.file, b",")
    return replace(earlier, denominator=int(denominator), voter_budget=int(budget), voters=voters, status=str(verdict))


def _refutation(refutation: FoundRefutation, given: Given, wanted: Wanted) -> Optional[FoundRefutation]:
    try:
        verdict = audit_refutation(given.election, refutation.file, given.outcome, stable=wanted.stable)
    except Refusal:
        return None
    is_wanted = (wanted.prices or wanted.refutation) and verdict.refutes in refuting(wanted)
    return _with_weights(refutation.file, verdict) if is_wanted else None


def _with_weights(file: bytes, verdict: Verdict) -> FoundRefutation:
    weights: Dict[bytes, Dict[str, int]] = {b"least": {}, b"most": {}, b"left": {}}
    _, (_, cover), _, *rows = records(file, b",")
    for role, project, weight in rows:
        weights[role][project.decode("utf-8")] = int(weight)
    return FoundRefutation(weights[b"least"], weights[b"most"], weights[b"left"], int(cover), verdict, file)


def _violation(file: bytes, given: Given) -> Optional[FoundViolation]:
    try:
        verdict = audit_violation(given.election, file, given.outcome)
    except Refusal:
        return None
    if not verdict:
        return None
    voters = [int(row[1]) for row in records(file, b",") if row[0] == b"voter"]
    projects = [row[1].decode("utf-8") for row in records(file, b",") if row[0] == b"project"]
    return FoundViolation(measure_of(file), voters, projects, verdict, file)
