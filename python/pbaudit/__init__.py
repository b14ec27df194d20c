"""Proved checks of participatory budgeting outcomes.

    from pbaudit import audit_prices, price_certificate, validate_price_system

Audits of files are `read`, `audit_groups`, `audit_prices`, `audit_violation`, `audit_refutation`, `audit_both`,
`explain`, `explain_groups`, `margins`, `group_margins`, `tidy` and `audit_folder`; of Python values
`validate_price_system` and `groups_that_fall_short`. `write_page` and `write_groups_page` show what was found on a page
for people, and `write_folder_pages` writes the pages of a folder with an index. `write_election`, `write_outcome`,
`write_prices`, `write_violation` and `write_refutation` write the files, `price_certificate` makes exact prices of a
solver's floats, `equal_shares` has those of a rule, `find` and `find_folder` look for prices, refutations and
violations of any outcome, `smallest_relaxation` says how far an outcome is from prices, and `largest_voter_budget` makes
prices with the largest voter budget. The answers are those of the program `pbaudit`: they come from the proved library, or
from the program where the library isn't there. What this package does before and after isn't proved.

Voters are numbered from 1, in the order of the profile. Amounts are in the currency of the costs. Files are given by
their paths (`str` or `os.PathLike`), as bytes, or as binary files that are open. Where Python values are taken, what no
file can say is a ValueError, and a value of another kind than is wanted a TypeError.

In the examples town.pb and town.prices.csv are examples/sample.pb and examples/sample.prices.csv of the repository, and
the folder elections has both.
"""
from typing import TYPE_CHECKING, List

from ._version import VERSION

if TYPE_CHECKING:
    from .amounts import TooManyDenominators
    from .auditing import (
        Explanation, Finding, NearestGroup, ProjectMargins, Refusal, Summary, Verdict, audit_both, audit_prices,
        audit_refutation, audit_violation, explain, margins, read, tidy,
    )
    from .certificates import PriceCertificate, price_certificate
    from .elections import Instance, Project
    from .finding import find, find_folder, largest_voter_budget, smallest_relaxation
    from .finding.results import (
        Found, FoundFolder, FoundPrices, FoundRefutation, FoundRow, FoundViolation, Relaxation, Stopped,
    )
    from .folder_pages import NotReplaced, write_folder_pages
    from .folders import FileResult, FolderReport, audit_folder
    from .groups import (
        GroupFigures, GroupMargins, GroupsExplanation, GroupsVerdict, ShortGroup, audit_groups, explain_groups, group_margins,
        groups_that_fall_short,
    )
    from .pages import groups_page, page, write_groups_page, write_page
    from .price_systems import validate_price_system
    from .rounding import CannotKeep
    from .shares import EqualShares, equal_shares
    from .tables import PriceSystem
    from .writing import write_election, write_outcome, write_prices, write_refutation, write_violation

__version__ = VERSION
__all__ = [
    "CannotKeep", "EqualShares", "Explanation", "FileResult", "Finding", "FolderReport", "Found", "FoundFolder",
    "FoundPrices", "FoundRefutation", "FoundRow", "FoundViolation", "GroupFigures", "GroupMargins",
    "GroupsExplanation", "GroupsVerdict", "Instance", "NearestGroup", "NotReplaced", "PriceCertificate", "PriceSystem",
    "Project", "ProjectMargins", "Refusal", "Relaxation", "ShortGroup", "Stopped", "Summary", "TooManyDenominators", "Verdict",
    "audit_both", "audit_folder", "audit_groups", "audit_prices", "audit_refutation", "audit_violation",
    "equal_shares", "explain", "explain_groups", "find", "find_folder", "group_margins", "groups_page",
    "groups_that_fall_short", "largest_voter_budget", "margins", "page", "price_certificate", "read",
    "smallest_relaxation", "tidy", "validate_price_system", "write_election", "write_folder_pages",
    "write_groups_page", "write_outcome", "write_page", "write_prices", "write_refutation", "write_violation",
]
# The parts are loaded when they are first used, since an import of all takes long beside an audit.
_PARTS = {
    "amounts": ("TooManyDenominators",),
    "auditing": ("Explanation", "Finding", "NearestGroup", "ProjectMargins", "Refusal", "Summary", "Verdict",
                 "audit_both", "audit_prices", "audit_refutation", "audit_violation", "explain", "margins", "read", "tidy"),
    "certificates": ("PriceCertificate", "price_certificate"),
    "elections": ("Instance", "Project"),
    "finding": ("find", "find_folder", "largest_voter_budget", "smallest_relaxation"),
    "finding.results": ("Found", "FoundFolder", "FoundPrices", "FoundRefutation", "FoundRow", "FoundViolation",
                        "Relaxation", "Stopped"),
    "folder_pages": ("NotReplaced", "write_folder_pages"),
    "folders": ("FileResult", "FolderReport", "audit_folder"),
    "groups": ("GroupFigures", "GroupMargins", "GroupsExplanation", "GroupsVerdict", "ShortGroup", "audit_groups",
               "explain_groups", "group_margins", "groups_that_fall_short"),
    "pages": ("groups_page", "page", "write_groups_page", "write_page"),
    "price_systems": ("validate_price_system",),
    "rounding": ("CannotKeep",),
    "shares": ("EqualShares", "equal_shares"),
    "tables": ("PriceSystem",),
    "writing": ("write_election", "write_outcome", "write_prices", "write_refutation", "write_violation"),
}
_PART_OF = {name: part for part, names in _PARTS.items() for name in names}


# A checker of types has the imports above, and would take any name for one that is here.
if not TYPE_CHECKING:
    def __getattr__(name: str) -> object:
        if name not in _PART_OF:
            raise AttributeError(f"module {__name__!r} has no attribute {name!r}")
        from importlib import import_module
        value: object = getattr(import_module(f".{_PART_OF[name]}", __name__), name)
        globals()[name] = value
        return value


def __dir__() -> List[str]:
    return sorted({*globals(), *__all__})
