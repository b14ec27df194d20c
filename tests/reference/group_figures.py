"""The figures of groups that fall short: for each unfunded project with a supporter, those of the group that is told."""
from dataclasses import dataclass
from fractions import Fraction

from .groups import Sharing


@dataclass
class GroupFigures:
    """A group of supporters of an unfunded project: how many these and the group are, the most that a member got by the measure,
    what the group's share of the limit has to come to in millionths, and whether the group falls short."""

    project: int
    supporters: int
    voters: int
    most: int
    need: int
    is_short: bool


def figures_of(sharing, project, group):
    """The figures of a group for a project that all of it approve."""
    most = max(sharing.got(voter) for voter in group)
    need = max(sharing.need(voter, project) for voter in group)
    return GroupFigures(project, len(sharing.election.supporters(project)), len(group), most, need, sharing.falls_short({*group}, project))


def groups_for(sharing, project):
    """For each amount that a supporter got, the supporters who got at most that. Any other group has the need of one of these
    and fewer voters."""
    got = {voter: sharing.got(voter) for voter in sharing.election.supporters(project)}
    return [[voter for voter in got if got[voter] <= most] for most in sorted({*got.values()})]


def told(figures):
    """Of the figures of groups for one project, those of the largest that falls short, or else of the one that comes closest."""
    short = [each for each in figures if each.is_short]
    return max(short, key=lambda each: each.voters) if short else max(figures, key=lambda each: (closeness(each), each.voters))


def closeness(figures):
    """How much of its need the share of a group covers, up to what is the same for all groups: the limit and all voters. A group
    that needs nothing falls short, whatever the limit is."""
    return Fraction(figures.voters, figures.need)


def of_all(election, funded, by_cost, groups_for=groups_for):
    """The figures that are told of each unfunded project with a supporter, in the order of the file."""
    sharing = Sharing(election, funded, by_cost)
    wanted = [project for project in election.projects if project not in funded and election.supporters(project)]
    return [told([figures_of(sharing, project, group) for group in groups_for(sharing, project)]) for project in wanted]


def shown(figures):
    """Those of the first project for which a group falls short, or else of the one whose group comes closest."""
    return next((each for each in figures if each.is_short), None) or closest(figures)


def closest(figures):
    """Those of the first project whose group comes closest of all; None without a project."""
    return max(figures, key=closeness, default=None)
