"""The page about a certificate or about groups that fall short, for readers who know no file formats. The auditor makes
it."""
import os
import stat
from typing import Literal, Mapping, Optional

from ._auditor import Mode, PageWords, Question, Satisfaction, measured
from .auditing import asked_in_turn
from .files import File, Path, checked_path, path_of, write_to

Language = Literal["en", "pl", "de", "fr"]
LANGUAGES = ("en", "pl", "de", "fr")


def page(election: File, certificate: File, outcome: Optional[File] = None, *, stable: bool = False,
         exhaustive: bool = True, cover: bool = False, language: Language = "en") -> str:
    """A page on a certificate of any kind, as one HTML file. The outcome and the switches are as for
    `explain`, and the language is "en", "pl", "de" or "fr". Raises Refusal, OSError and MemoryError, and a ValueError
    for another language.

    >>> page("town.pb", "town.prices.csv", language="de").startswith("<!DOCTYPE html>")
    True
    """
    return _made(election, certificate, outcome, Mode(stable, exhaustive, cover), language).decode("utf-8")


def write_page(election: File, certificate: File, outcome: Optional[File] = None, *, path: Optional[Path] = None,
               stable: bool = False, exhaustive: bool = True, cover: bool = False, language: Language = "en") -> bytes:
    """The bytes of `page`, written to `path` as well where one is given. Raises as `page`, and a ValueError where the
    page would replace one of these files, and then writes nothing.

    >>> made = write_page("town.pb", "town.prices.csv", path="town.html")
    >>> with open("town.html", "rb") as file:
    ...     file.read() == made
    True
    """
    _check_path(path, {"election": election, "certificate": certificate, "outcome": outcome})
    return write_to(path, _made(election, certificate, outcome, Mode(stable, exhaustive, cover), language))


def groups_page(election: File, outcome: Optional[File] = None, *, satisfaction: Satisfaction = "cost",
                language: Language = "en") -> str:
    """A page on groups of voters that fall short, as one HTML file, which needs no certificate. The outcome and the
    satisfaction are as for `audit_groups`, and the language as for `page`. Raises Refusal, ValueError,
    OSError and MemoryError.

    >>> groups_page("town.pb", satisfaction="count", language="de").startswith("<!DOCTYPE html>")
    True
    """
    return _made_of_groups(election, outcome, satisfaction, language).decode("utf-8")


def write_groups_page(election: File, outcome: Optional[File] = None, *, path: Optional[Path] = None,
                      satisfaction: Satisfaction = "cost", language: Language = "en") -> bytes:
    """The bytes of `groups_page`, written to `path` as well where one is given. Raises as that, and ValueError where
    `path` is that of one of the files.

    >>> made = write_groups_page("town.pb", path="groups.html")
    >>> with open("groups.html", "rb") as file:
    ...     file.read() == made
    True
    """
    _check_path(path, {"election": election, "outcome": outcome})
    return write_to(path, _made_of_groups(election, outcome, satisfaction, language))


def _check_path(path: Optional[Path], files: Mapping[str, Optional[File]]) -> None:
    over = None if path is None else replaced(checked_path(path), files)
    if over:
        raise ValueError(f"the path of the page is that of the {over}, which it would replace")


def replaced(path: Path, files: Mapping[str, Optional[File]]) -> Optional[str]:
    """The name of the file that a page at this path would replace, or None."""
    return next((name for name, file in files.items() if _is_same(file, path)), None)


def _made(election: File, certificate: File, outcome: Optional[File], mode: Mode, language: str) -> bytes:
    words = PageWords(_name(election, "election"), _name(certificate, "certificate"), _name(outcome, "outcome"),
                      checked_language(language))
    blank = Question("page", b"", mode=mode, page=words)
    return asked_in_turn(blank, election, outcome, certificate=certificate).text()


def _made_of_groups(election: File, outcome: Optional[File], satisfaction: Satisfaction, language: str) -> bytes:
    words = PageWords(_name(election, "election"), outcome=_name(outcome, "outcome"), language=checked_language(language))
    blank = Question("groups_page", b"", page=words, satisfaction=measured(satisfaction))
    return asked_in_turn(blank, election, outcome).text()


def checked_language(language: str) -> str:
    """The code of a language that there is. Raises a ValueError for another."""
    if language not in LANGUAGES:
        raise ValueError(f"the language is {language!r}, not one of {', '.join(LANGUAGES)}")
    return language


def _name(file: Optional[File], role: str) -> str:
    """The name of a file without its folders; where bytes were given, what it is."""
    path = path_of(file)
    return role if path is None else os.path.basename(path)


def _is_same(file: Optional[File], path: Path) -> bool:
    """Whether a file, given by a path or open, is the regular file at another path."""
    try:
        there = os.stat(path)
        if isinstance(file, (str, os.PathLike)):
            found = os.stat(file)
        else:
            number = getattr(file, "fileno", None)
            if number is None:
                return False
            found = os.fstat(number())
    except (OSError, ValueError):
        return False
    return stat.S_ISREG(there.st_mode) and os.path.samestat(found, there)
