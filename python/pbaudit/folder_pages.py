"""The pages about the certificates of a folder, and an index of them. The auditor makes each page. On the index each answer
has the line of `pbaudit folder` and a title, which is that of the page."""
import html
import os
from dataclasses import dataclass
from functools import lru_cache, partial
from typing import Dict, List
from urllib.parse import quote

from ._auditor import Mode, PageWords, Question, ask
from .files import Path
from .folders import (
    CERTIFICATES, Entry, FolderReport, Line, audit_read, bytes_of_entry, entries_of, folder_path, report_on, total_line,
)
from .headlines import title_of
from .pages import Language, checked_language
from .shown import visible

INDEX = "index.html"
# What stands in each page that the auditor makes, and in the index, near the begin.
GENERATOR = b'<meta name="generator" content="pbaudit">'
_NEAR = 2000
_STYLE = """
:root { color-scheme: light dark; }
body { margin: 0 auto; padding: 1.25rem 1rem 3rem; max-width: 52rem; font: 1.0625rem/1.55 system-ui, sans-serif; }
body { overflow-wrap: anywhere; }
h1, h2 { font-family: Georgia, serif; line-height: 1.2; margin-bottom: .3rem; }
h2 { font-size: 1.25rem; }
ul { list-style: none; margin: 0; padding: 0; }
li { margin: 0 0 .6rem; }
section { border-top: 1px solid; break-inside: avoid; }
bdi { unicode-bidi: isolate; }
code { display: block; font-size: .88em; }
"""
_POLICY = "default-src 'none'; style-src 'unsafe-inline'; base-uri 'none'; form-action 'none'"
_TITLES = {
    "en": "Participatory budgeting: the results, checked",
    "pl": "Bud\u017cet obywatelski: sprawdzenie wynik\u00f3w",
    "de": "B\u00fcrgerhaushalt: die Ergebnisse, gepr\u00fcft",
    "fr": "Budgets participatifs\u00a0: v\u00e9rification des r\u00e9sultats",
}


class NotReplaced(ValueError):
    """A file stands where a page is to be written, and isn't one that pbaudit made.

    >>> with open("mine/index.html", "w") as file:
    ...     print("my page", file=file)
    >>> try:
    ...     write_folder_pages("elections", "mine")
    ... except NotReplaced:
    ...     print("it stays")
    it stays
    """


@dataclass(frozen=True)
class _Pages:
    """An entry with the line on each of its files, and its pages and their titles by the endings of their certificates."""

    entry: Entry
    lines: List[Line]
    pages: Dict[str, bytes]
    titles: Dict[str, str]


def write_folder_pages(folder: Path, path: Path, *, stable: bool = False, exhaustive: bool = True,
                       cover: bool = False, language: Language = "en") -> FolderReport:
    """Audits a folder as `audit_folder` does, and answers what it answers. Writes to the folder at `path`, which is
    made where it isn't there, a page for each certificate that is answered yes or no, NAME.prices.html or
    NAME.violation.html, and index.html, which has the answers and links to the pages.
    Raises what `audit_folder` and `page` raise, and NotReplaced, a ValueError, where something stands at a place of
    these that pbaudit didn't make; nothing is written then. Each page is written as soon as it is made, and the index
    last.

    >>> bool(write_folder_pages("elections", "pages"))
    True
    """
    mode = Mode(stable, exhaustive, cover)
    checked_language(language)
    entries, path = entries_of(folder, mode), folder_path(path)
    _check_free(path, [INDEX, *(_page_name(entry, ending) for entry in entries for ending in entry.certificates)])
    os.makedirs(path, exist_ok=True)
    found: Dict[Entry, List[Line]] = {}
    sections: List[str] = []
    for entry in entries:
        made = _made(entry, language)
        for ending, page in made.pages.items():
            _write(path, _page_name(entry, ending), page)
        found[entry] = made.lines
        sections.append(_section(made))
    report = report_on(entries, found)
    _write(path, INDEX, _index(sections, report, language).encode("utf-8"))
    return report


def _made(entry: Entry, language: str) -> _Pages:
    """What is found of an entry, and the pages on its certificates that are answered. Each file is read once."""
    read = lru_cache(maxsize=None)(partial(bytes_of_entry, entry))
    lines = audit_read(entry, read)
    pages, titles, election, name = {}, {}, read(".pb") or b"", entry.name + ".pb"
    for ending, is_yes in ((each.ending, each.status == 0) for each in lines if each.ending != ".pb" and each.status < 2):
        words = PageWords(name, entry.name + ending, language=language)
        pages[ending] = ask(Question("page", election, read(ending) or b"", mode=entry.mode, page=words)).text
        titles[ending] = title_of(election, name, CERTIFICATES[ending], is_yes, entry.mode.stable, language)
    return _Pages(entry, lines, pages, titles)


def _page_name(entry: Entry, ending: str) -> str:
    return entry.name + ending[:-len(".csv")] + ".html"


def _check_free(path: Path, names: List[str]) -> None:
    """Raises NotReplaced where a file that pbaudit didn't make stands at one of these names."""
    for name in names:
        place = os.path.join(path, name)
        if os.path.lexists(place) and not _is_own(place):
            raise NotReplaced(f"{visible(place)} is there, and isn't a page that pbaudit made")


def _is_own(place: str) -> bool:
    if os.path.islink(place) or not os.path.isfile(place):
        return False
    with open(place, "rb") as file:
        return GENERATOR in file.read(_NEAR)


def _write(path: Path, name: str, page: bytes) -> None:
    with open(os.path.join(path, name), "wb") as file:
        file.write(page)


def _section(made: _Pages) -> str:
    """The part of the index on an entry: its answers, each with a link to its page where there is one."""
    name = html.escape(made.entry.name)
    items = "".join(f"<li>{_item(made, line)}</li>\n" for line in made.lines)
    return f"<section>\n<h2><bdi>{name}</bdi></h2>\n<ul>\n{items}</ul>\n</section>\n"


def _item(made: _Pages, found: Line) -> str:
    ending = found.ending
    code = (f'<code lang="en"><bdi>{html.escape(made.entry.name + ending)}</bdi>: '
            f"<bdi>{html.escape(found.line)}</bdi></code>")
    if ending not in made.pages:
        return code
    # A name with a colon would be taken for a scheme, so that is written by its number as well.
    place = quote(_page_name(made.entry, ending), safe="")
    return f'<a href="{place}"><bdi>{html.escape(made.titles[ending])}</bdi></a>{code}'


def _index(sections: List[str], report: FolderReport, language: str) -> str:
    title = _TITLES[language]
    total = html.escape(total_line(report.results))
    return (f'<!DOCTYPE html>\n<html lang="{language}"><head><meta charset="utf-8">'
            f'<meta http-equiv="Content-Security-Policy" content="{_POLICY}">'
            f'<meta name="viewport" content="width=device-width, initial-scale=1">{GENERATOR.decode()}'
            f"<title>{title}</title><style>{_STYLE}</style></head>\n<body><main>\n<h1>{title}</h1>\n"
            f'{"".join(sections)}<footer><code lang="en">{total}</code></footer>\n</main></body></html>\n')
