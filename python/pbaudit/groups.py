"""Groups of voters who fall short for an unfunded project: EJR+ up to any project, which needs no certificate."""
from dataclasses import dataclass, field
from fractions import Fraction
from typing import Any, Dict, Iterable, Iterator, List, Optional, Sequence, Set, Tuple

from ._auditor import Question, Satisfaction, auditor, measured
from .amounts import MILLION, common_denominator
from .auditing import Asked, answered
from .files import File
from .objects import Found, amount_of, limit_notes, line_of
from .tables import Result
from .values import AnyInstance, AnyProject, Ballots, Profile, ballots_of, each_ballot, funded_of, projects_of
from .writing import election_file

@dataclass(frozen=True)
class GroupFigures(Result):
    """The figures of a group of voters who all approve an unfunded `project`: what that costs, how many `supporters` it
    has, and how many `voters` the group has. These are all supporters who got at most `most`: what the funded projects on
    a ballot cost together, or by count how many there are. `need` is what the one who got most needs, and `share` the
    group's part of the limit. The group falls short where `missing`, the need less the share, is at most 0. Amounts are
    exact, in the currency of the costs.

    >>> group = audit_groups("town.pb").group
    >>> group.project, group.voters, group.need, group.share
    ('c', 1, Fraction(13, 1), Fraction(10, 3))
    """

    project: str
    cost: Fraction
    supporters: int
    voters: int
    most: Fraction
    need: Fraction
    share: Fraction
    missing: Fraction


@dataclass(frozen=True)
class GroupsVerdict(Result):
    """Whether no group of voters falls short: true where none does. `str` is the line that the program prints.

    Where one does, `condition` is "EJR+", `project` is the first project for which a group falls short, and `voters` is
    how many voters the largest such group has. `group` has the figures of that group; after a yes those of the group
    whose share covers most of its need, or None where no unfunded project has a supporter. `notes` say what else the
    reader has to know: that the outcome costs more than the limit, which this doesn't ask.

    >>> verdict = audit_groups("town.pb", write_outcome([]))
    >>> bool(verdict), verdict.project, verdict.voters
    (False, 'a', 2)
    """

    holds: bool
    line: str
    satisfaction: Satisfaction
    condition: Optional[str] = None
    project: Optional[str] = None
    voters: Optional[int] = None
    group: Optional[GroupFigures] = None
    notes: Tuple[str, ...] = ()

    def rows_of_table(self) -> List[Dict[str, Any]]:
        """The figures of the group, behind the answer."""
        figures = {} if self.group is None else self.group.to_dict()
        return [{"answer": self.line, **figures}]

    def __bool__(self) -> bool:
        return self.holds

    def __str__(self) -> str:
        return self.line


@dataclass(frozen=True)
class ShortGroup(Result):
    """The largest group that falls short for a `project`: its `voters`, by their numbers from 1, their `share` of the
    limit, and what the one of them who got most needs, which is no more than that.

    >>> town = Instance([Project("x", 3), Project("y", 2), Project("z", 2)], 6)
    >>> for group in groups_that_fall_short(town, [{"x"}, {"y", "z"}, {"y", "z"}], ["x"]):
    ...     print(group.project, group.voters, group.share, group.need)
    y (2, 3) 4 2
    z (2, 3) 4 2
    """

    project: str
    voters: Tuple[int, ...] = field(repr=False)
    share: Fraction
    need: Fraction


@dataclass(frozen=True)
class GroupsExplanation(Result):
    """The answer of `audit_groups` with the figures of its group in words: true where no group falls short. `str` is the
    text that the program prints.

    >>> bool(explain_groups("town.pb"))
    True
    """

    verdict: GroupsVerdict
    text: str

    def rows_of_table(self) -> List[Dict[str, Any]]:
        """The figures of the group, behind the answer."""
        return self.verdict.rows_of_table()

    def __bool__(self) -> bool:
        return self.verdict.holds

    def __str__(self) -> str:
        return self.text


@dataclass(frozen=True)
class GroupMargins(Result):
    """The figures of one group for an unfunded `project`: the largest that falls short for it, or else the one whose share
    covers most of its need. It has so many `voters`: all supporters who got at most `most`, the cost of the funded projects
    on a ballot, or by count how many they are. `need`, `share` and `missing` are as in `GroupFigures`: the group falls short
    where `missing` is at most 0. Amounts are exact, in the currency of the costs.

    >>> group, = group_margins("town.pb", satisfaction="count")
    >>> group.project, group.most, group.missing
    ('c', Fraction(1, 1), Fraction(44, 3))
    """

    project: str
    voters: int
    most: Fraction
    need: Fraction
    share: Fraction
    missing: Fraction


def audit_groups(election: File, outcome: Optional[File] = None, *, satisfaction: Satisfaction = "cost") -> GroupsVerdict:
    """Whether no group of voters falls short: EJR+ up to any project (after Brill and Peters 2023), which needs no
    certificate. Voters who all approve an unfunded project fall short for it where for each of them their share of the
    limit would have been enough for that project on top of the funded projects on the voter's ballot. With `satisfaction`
    "cost" these count by what they cost, and with "count" each counts as much as the unfunded project costs; any other is
    a ValueError. The outcome is as for `audit_prices`. Raises Refusal, OSError and MemoryError.

    >>> print(audit_groups("town.pb"))
    satisfied ejr+ by cost
    """
    asked = Asked("groups", election, outcome=outcome, satisfaction=measured(satisfaction))
    return _verdict(asked.object())


def explain_groups(election: File, outcome: Optional[File] = None, *,
                   satisfaction: Satisfaction = "cost") -> GroupsExplanation:
    """The answer of `audit_groups`, with the figures of one group in words, asked as that is. Raises Refusal, ValueError,
    OSError and MemoryError.

    >>> print(explain_groups("town.pb"))
    satisfied ejr+ by cost
    <BLANKLINE>
    Project     1 of 3 voters approve project c, which costs 9.00
    Group       1 of these: all who got at most 4.00 by cost
    Need        13.00: the cost of the project and the most that a member got
    Share       3 1/3: the equal part of the limit for so many voters
    Missing     9 2/3: no group falls short, and this one comes closest
    """
    asked = Asked("explain_groups", election, outcome=outcome, satisfaction=measured(satisfaction))
    return GroupsExplanation(_verdict(asked.object()), asked.text().decode("utf-8").rstrip("\n"))


def group_margins(election: File, outcome: Optional[File] = None, *,
                  satisfaction: Satisfaction = "cost") -> Tuple[GroupMargins, ...]:
    """The figures of one group for each unfunded project with a supporter, in the order of the election, whether or not it
    falls short, asked as `audit_groups` is. Raises Refusal, ValueError, OSError and MemoryError.

    >>> for group in group_margins("town.pb"):
    ...     print(group.project, group.voters, group.need, group.share)
    c 1 13 10/3
    """
    found = Asked("group_margins", election, outcome=outcome, satisfaction=measured(satisfaction)).object()
    figures = (_figures(group, measured(found["measure"])) for group in found["groups"])
    return tuple(GroupMargins(each.project, each.voters, each.most, each.need, each.share, each.missing) for each in figures)


def groups_by_cost(election: bytes, outcome: Optional[bytes]) -> Optional[GroupsVerdict]:
    """The answer of `audit_groups` by cost, or None where the auditor is older than this package, and has none."""
    return audit_groups(election, outcome) if auditor().has("groups") else None


def groups_that_fall_short(instance: AnyInstance, profile: Profile, budget_allocation: Iterable[AnyProject],
                           satisfaction: Satisfaction = "cost") -> Tuple[ShortGroup, ...]:
    """The largest group that falls short, for each unfunded project for which one does, in the order of the instance:
    no groups where `audit_groups` says yes. The values are taken as by `validate_price_system`; a profile may also be a
    mapping from ballots to how many voters have each, as a MultiProfile of pabutools is, whose voters are numbered in the
    order of the ballots.

    Whether there is such a group, the first project and how many voters its group has are what the auditor says. The
    members, and the groups behind the first, are computed here, in whole numbers; that isn't proved. A satisfaction that
    is neither "cost" nor "count" is a ValueError. Raises TypeError and MemoryError too.

    >>> town = Instance([Project("x", 8), Project("y", 2)], 12)
    >>> short, = groups_that_fall_short(town, [{"y"}, {"y"}, {"x", "y"}, {"x"}], ["x"])
    >>> short.project, short.voters, short.share, short.need
    ('y', (1, 2), Fraction(6, 1), Fraction(2, 1))
    """
    by = measured(satisfaction)
    projects, costs, limit = projects_of(instance)
    ballots = ballots_of(each_ballot(profile), projects)
    funded = funded_of(budget_allocation, projects)
    # What falls short doesn't depend on the unit of amounts, so that any fractions of it can be costs.
    unit = common_denominator([limit, *costs, Fraction(1, MILLION)])
    scaled = [cost * (unit // MILLION) for cost in costs]
    election = election_file(projects, scaled, limit * (unit // MILLION), ballots, funded)
    found = _verdict(answered(Question("groups", election, satisfaction=by)).found)
    if found:
        return ()
    whole = [int(cost * unit) for cost in costs]
    short = [ShortGroup(projects.ids[at], tuple(voters), Fraction(share, unit), Fraction(need, unit))
             for at, voters, share, need in _short(whole, int(limit * unit), ballots, set(funded), by)]
    if [(each.project, len(each.voters)) for each in short[:1]] != [(found.project, found.voters)]:
        raise RuntimeError(f"pbaudit answers '{found}', where this package finds another first group")
    return tuple(short)


def _short(costs: Sequence[int], limit: int, ballots: Ballots, funded: Set[int],
           by: Satisfaction) -> Iterator[Tuple[int, List[int], Fraction, int]]:
    """Of each unfunded project for which a group falls short the place, the members of the largest, from 1, their share,
    and the most that one of them needs."""
    worth = {at: costs[at] if by == "cost" else 1 for at in funded}
    got = [sum(worth[at] for at in ballot if at in worth) for ballot in ballots]
    most: Dict[int, int] = {}
    counted = [0] * len(costs)
    # If a voter and all before it in this order fall short, so does each larger group of those who got as much.
    for voter in sorted(range(len(ballots)), key=got.__getitem__):
        for at in ballots[voter]:
            counted[at] += 1
            if at not in worth and len(ballots) * _need(costs[at], got[voter], by) <= counted[at] * limit:
                most[at] = got[voter]
    members: Dict[int, List[int]] = {at: [] for at in sorted(most)}
    for voter, ballot in enumerate(ballots):
        for at in ballot:
            if at in members and got[voter] <= most[at]:
                members[at].append(voter + 1)
    for at, voters in members.items():
        yield at, voters, Fraction(limit * len(voters), len(ballots)), _need(costs[at], most[at], by)


def _need(cost: int, got: int, by: Satisfaction) -> int:
    """What a voter who got so much needs for a project of this cost."""
    return cost + got if by == "cost" else cost * (got + 1)


def _verdict(found: Found) -> GroupsVerdict:
    """The verdict by the object that answers."""
    by = measured(found["measure"])
    group = None if found["group"] is None else _figures(found["group"], by)
    line, notes, failed = line_of(found), tuple(limit_notes(found)), found["failed"]
    if group is None or failed is None:
        return GroupsVerdict(True, line, by, group=group, notes=notes)
    return GroupsVerdict(False, line, by, failed["name"], failed["project"], group.voters, group, notes)


def _figures(group: Found, by: Satisfaction) -> GroupFigures:
    most = amount_of(group["most"]) if by == "cost" else Fraction(group["most"])
    return GroupFigures(group["project"], amount_of(group["cost"]), group["supporters"], group["voters"], most,
                        amount_of(group["need"]), amount_of(group["share"]), amount_of(group["missing"]))
