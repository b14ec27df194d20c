"""A page for readers: the released pbaudit.html with files in it, which audits them in a browser as soon as it is opened.
The same files and page give the same bytes."""
import base64
import html
import os
import re
from typing import Any, Iterable, List, Sequence, Tuple

from .files import Path, bytes_of, write_to

WHAT_IT_DOES = (
    "Makes of the released page for browsers, pbaudit.html, one that has these files in it. Whoever opens it sees what "
    "the audit finds of them, which their own browser computes. It needs no server, and sends nothing."
)
HOW_IT_ENDS = (
    "Exit statuses: 0 if the page was written; 3 if the arguments aren't understood, PAGE is no page of pbaudit, two files "
    "have one name, or the page would replace one of the files; 4 if a file can't be read or written."
)
# Before this the page has the files of its own, and other pages have nothing like it.
BEHIND_FILES = b'\n<script type="text/plain" id="worker">'
BROUGHT = re.compile(rb'\n<script type="text/plain" class="brought" [^>]*>[^<]*</script>')


class NoPage(ValueError):
    """The page isn't one of pbaudit, or the files can't be in one page."""


def file_element(kind: str, name: str, data: bytes) -> bytes:
    """An element that has a file and shows nothing."""
    written = f'<script type="text/plain" class="{kind}" data-name="{html.escape(name)}">'
    return written.encode("utf-8") + base64.b64encode(data) + b"</script>"


def with_files(page: bytes, files: Iterable[Tuple[str, bytes]]) -> bytes:
    """The page with files in it, by their names, in the place of those that it may have. Raises NoPage."""
    given = list(files)
    names = [name for name, _ in given]
    twice = next((name for at, name in enumerate(names) if name in names[:at]), None)
    if twice is not None:
        raise NoPage(f"two files have the name {twice}")
    bare = BROUGHT.sub(b"", page)
    if bare.count(BEHIND_FILES) != 1:
        raise NoPage("it isn't the page for browsers of pbaudit")
    added = b"".join(b"\n" + file_element("brought", name, data) for name, data in given)
    return bare.replace(BEHIND_FILES, added + BEHIND_FILES)


def write_readers_page(page: Path, files: Sequence[Path], path: Path) -> bytes:
    """Writes a page with these files, of the released one, and answers its bytes. Raises OSError and NoPage."""
    named = [(os.path.basename(os.fsencode(file)).decode("utf-8", "replace"), bytes_of(file)) for file in files]
    return write_to(path, with_files(bytes_of(page), named))


def add_to(commands: Any) -> Any:
    """Adds the command to the subparsers of argparse, and answers its parser."""
    parser = commands.add_parser("readers-page", help="puts files into the page for browsers", description=WHAT_IT_DOES,
                                 epilog=HOW_IT_ENDS, allow_abbrev=False)
    parser.add_argument("files", metavar="FILE", nargs="+", help="an election, a certificate or an outcome")
    parser.add_argument("--page", metavar="PAGE", default="pbaudit.html", help="the released page; the default is the "
                        "pbaudit.html of the folder that one is in")
    parser.add_argument("-o", "--output", metavar="OUT", required=True, help="the HTML file to write")
    return parser


def replaces(output: Path, files: List[Path]) -> bool:
    """Whether the page would be written over one of these files."""
    return any(os.path.exists(output) and os.path.exists(file) and os.path.samefile(output, file) for file in files)
