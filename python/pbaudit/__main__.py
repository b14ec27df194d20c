"""The commands of the package: `python -m pbaudit page` writes a page about a certificate, `readers-page` one for browsers
with files in it, `equal-shares` certifies outcomes of the Method of Equal Shares, and `find` looks for certificates of any
outcome. The other commands of the program are here as well."""
import argparse
import errno
import io
import os
import re
import signal
import subprocess
import sys
from fractions import Fraction
from typing import IO, Any, List, NoReturn, Optional, Sequence

from ._places import program
from ._version import VERSION
from .audit_commands import (
    COMMANDS, add_groups, add_to as add_audits, answer as audited, audited_folder, is_on_groups, refusal as refusal_for,
    run_program,
)
from .auditing import Refusal
from .finding.command import Answer, add_to as add_find, answer, folder_answer
from .folders import left_out
from .objects import refusal_of, unread_of
from .pages import LANGUAGES, replaced, write_groups_page, write_page
from .readers_page import NoPage, add_to as add_readers_page, replaces, write_readers_page
from .rounding import CannotKeep
from .shares import COMPLETIONS, MEASURES
from .shown import shown, visible

DIFFERS, REFUSED, USAGE, FAULT = 1, 2, 3, 4
PAGE_USAGE = (
    "%(prog)s ELECTION CERTIFICATE [OPTIONS] -o PAGE\n"
    "       %(prog)s ELECTION --groups [OPTIONS] -o PAGE\n"
    "       %(prog)s --folder FOLDER [OPTIONS] -o OUT"
)
WHAT_IT_DOES = (
    "Writes a page that says in plain words what the audit of a certificate finds, or with --groups whether a group of voters "
    "falls short: one HTML file, which has no script and loads nothing. With --folder it writes a page for each certificate "
    "of a folder, and an index."
)
HOW_IT_ENDS = (
    "Exit statuses: 0 if the page was written, whatever the answer on it; 2 if a file is refused, with the line of the "
    "refusal on standard output, and what is wrong and where on standard error; 3 if the arguments aren't understood, "
    "or the page would replace one of the files; 4 if memory runs out, the page or that line can't be written, or the "
    "auditor isn't found or can't be used. With --folder the report of `pbaudit folder` is printed, and the status is "
    "that of the report: 0 if no certificate failed, 1 if one did, 2 if a file is refused; and 3 if a file is in the way that "
    "isn't a page of pbaudit, and then nothing is written."
)

OWN_COMMANDS = """
Commands of the Python package:
  find          Look for prices, refutations and violations of an outcome
  equal-shares  Certify an outcome of the Method of Equal Shares
  readers-page  Put files into a page for browsers that audits them

With -o FILE, 'page' writes a file; with --folder FOLDER -o OUT it writes the
pages of a folder. With --workers N, 'folder' audits by N processes.
"""
WHAT_SHARES_DO = (
    "Computes an outcome of the Method of Equal Shares exactly, with ties going to the project that comes first; makes "
    "a price certificate from what the voters pay; has it audited; and says what holds. The computation isn't proved, "
    "and needn't be: its result is audited by code that is."
)
HOW_SHARES_END = (
    "Exit statuses: 0 if there is a certificate; 1 if there is none, or the election states another outcome than the "
    "rule's; 2 if the election is refused; 3 if the arguments aren't understood; 4 if memory runs out, a file or the "
    "answer can't be written, or the auditor isn't found or can't be used."
)


class _Parser(argparse.ArgumentParser):
    """Arguments that aren't understood end with the status that they have with the program."""

    def error(self, message: str) -> NoReturn:
        self.print_usage(sys.stderr)
        self.exit(USAGE, f"{self.prog}: {visible(message)}\n")

    def _print_message(self, message: str, file: Any = None) -> None:
        text = message.rstrip("\n")
        if file is not sys.stdout:
            _tell(text)
        elif _told([text], 0):
            self.exit(FAULT)


def _parser(by_folder: bool, on_groups: bool = False) -> _Parser:
    is_command = os.path.basename(sys.argv[0]) == "pbaudit"
    parser = _Parser(prog="pbaudit" if is_command else "python -m pbaudit",
                     description="Shows what pbaudit finds, and certifies outcomes.",
                     allow_abbrev=False)
    parser.add_argument("--version", action="version", version=f"pbaudit {VERSION}")
    parser.set_defaults(run=_audit)
    commands = parser.add_subparsers(dest="command", required=True)
    _add_page(commands, by_folder, on_groups)
    add_audits(commands, on_groups)
    _add_equal_shares(commands)
    readers = add_readers_page(commands)
    readers.set_defaults(run=_readers_page, end_by_usage=readers.error)
    find = add_find(commands, by_folder)
    find.set_defaults(run=_find_in_folder if by_folder else _find, end_by_usage=find.error)
    return parser


def _add_page(commands: "argparse._SubParsersAction[_Parser]", by_folder: bool, on_groups: bool) -> None:
    page = commands.add_parser("page", help="writes a page about a certificate or about groups, as one HTML file", usage=PAGE_USAGE,
                               description=WHAT_IT_DOES, epilog=HOW_IT_ENDS, allow_abbrev=False)
    # Were these optional, argparse would take no option between them.
    if not by_folder:
        page.add_argument("election", metavar="ELECTION", help="an election file")
        count: Any = "?" if on_groups else None
        page.add_argument("certificate", metavar="CERTIFICATE", nargs=count,
                          help="a price certificate, a violation certificate or a refutation")
        add_groups(page)
    page.add_argument("--folder", metavar="FOLDER", help="instead of ELECTION and CERTIFICATE: write the pages on all "
                      "certificates of a folder, and an index of them, index.html, to the folder that -o names")
    page.add_argument("--stable", action="store_true", help="ask for the stable form of prices")
    page.add_argument("--no-exhaustive", action="store_true", help="leave out the condition Exhaustive")
    page.add_argument("--cover", action="store_true", help="ask for the condition Cover")
    page.add_argument("--outcome", metavar="FILE", help="take the funded projects from this file")
    page.add_argument("--language", choices=LANGUAGES, default="en", help="the language of the page; the default is en")
    page.add_argument("-o", "--output", metavar="PAGE", required=True, help="the HTML file to write, or the folder")
    page.set_defaults(run=_folder_pages if by_folder else _page, end_by_usage=page.error)


def _add_equal_shares(commands: "argparse._SubParsersAction[_Parser]") -> None:
    shares = commands.add_parser("equal-shares", help="certifies an outcome of the Method of Equal Shares",
                                 description=WHAT_SHARES_DO, epilog=HOW_SHARES_END, allow_abbrev=False)
    shares.add_argument("election", metavar="ELECTION", help="an election file")
    shares.add_argument("-o", "--output", metavar="CERTIFICATE", help="the price certificate to write; the outcome "
                        "file beside it ends with .outcome.csv instead of .prices.csv, and never replaces another outcome")
    shares.add_argument("--by", choices=MEASURES, default="cost", help="what a project is worth to each supporter: its "
                        "cost, which is the default, or 1")
    shares.add_argument("--completion", choices=COMPLETIONS, default="none", help="add1 raises the budget of each "
                        "voter by 1 until no other project fits, or the next outcome costs more than the limit")
    shares.add_argument("--increment", type=_increment, default=Fraction(1), metavar="AMOUNT", help="what add1 raises "
                        "the budget by instead of 1, such as 1000 where costs are in millions, or 0.01")
    shares.set_defaults(run=_equal_shares, end_by_usage=shares.error)


def _increment(word: str) -> Fraction:
    """An amount as the words of a command state it: digits, which may have a point. Raises ArgumentTypeError."""
    if not (re.fullmatch(r"[0-9]{1,12}(\.[0-9]{1,6})?", word) and Fraction(word)):
        raise argparse.ArgumentTypeError(f"{word!r} isn't an amount above 0, such as 1000 or 0.01, with at most six decimals")
    return Fraction(word)


def main(words: Optional[Sequence[str]] = None) -> int:
    """Runs a command line, and answers its exit status."""
    words = sys.argv[1:] if words is None else words
    if sys.stderr is None:
        # Whoever closed it wants to be told nothing.
        sys.stderr = open(os.devnull, "w", encoding="utf-8")
    if isinstance(sys.stdout, io.TextIOWrapper):
        # As the program writes, whatever the terminal is said to read; a path may have bytes that are no letters.
        sys.stdout.reconfigure(encoding="utf-8", errors="surrogateescape")
    try:
        if words and words[0] == "help":
            words = [*words[1:], "--help"]
        if words and words[0] in COMMANDS and not _has_option(words, "--workers"):
            run_program(list(words))
        if list(words) in (["-h"], ["--help"]) and _told_by_program():
            return 0
        given = _parser(_has_option(words, "--folder"), _has_option(words, "--groups")).parse_args(words)
        status: int = given.run(given)
    except MemoryError:
        return _fault("fault memory")
    except (ImportError, RuntimeError) as why:
        return _fault(f"fault: {why}")
    except KeyboardInterrupt:
        return _stopped()
    except Exception as why:  # Whatever it is, no status may tell that something was answered.
        return _fault(f"fault: {why!r}")
    return status


def _stopped() -> int:
    """Ends by the signal, as a shell expects of what the keyboard stops."""
    signal.signal(signal.SIGINT, signal.SIG_DFL)
    signal.raise_signal(signal.SIGINT)
    return FAULT


def _has_option(words: Sequence[str], option: str) -> bool:
    return any(word.partition("=")[0] == option for word in words)


def _told_by_program() -> bool:
    """Prints the help of the program, and the commands of the package behind it. Whether there is a program."""
    found = program()
    if found is None:
        return False
    told = subprocess.run([str(found), "--help"], stdin=subprocess.DEVNULL, capture_output=True, check=False)
    _told_bytes(told.stdout + OWN_COMMANDS.encode("utf-8"), told.returncode)
    return True


def _audit(given: argparse.Namespace) -> int:
    if given.command == "folder":
        return _folder(given)
    try:
        status, text, notes = audited(given)
    except Refusal as refusal:
        found = refusal_of(refusal.input, refusal.number, refusal.name, refusal.record)
        return _refused(refusal_for(given, found), "\n".join(refusal.sentences()))
    except OSError as why:
        return _refused(refusal_for(given, unread_of(_role(given, why))), _reason(why))
    for note in notes:
        _tell(note)
    return _told_bytes(text, status)


def _folder(given: argparse.Namespace) -> int:
    status = 0
    try:
        os.listdir(given.folder)
        for text, status in audited_folder(given):
            if _told([text], status) != status:
                return FAULT
        notes = left_out(given.folder, "audited")
    except OSError as unlisted:
        return _refused(refusal_for(given, unread_of("folder")), _reason(unlisted))
    for note in notes:
        _tell(note)
    return status


def _page(given: argparse.Namespace) -> int:
    over = replaced(given.output, {"ELECTION": given.election, "CERTIFICATE": given.certificate,
                                   "--outcome": given.outcome})
    if over:
        given.end_by_usage(f"-o names the same file as {over}, which the page would replace")
    try:
        page = _page_asked(given)
    except Refusal as refusal:
        return _refused(refusal.printed, "\n".join(refusal.sentences()))
    except OSError as unread:
        return _refused(f"refused {_role(given, unread)} 18 Read record 0", _reason(unread))
    try:
        with open(given.output, "wb") as file:
            file.write(page)
    except OSError as unwritten:
        return _fault(f"fault write: {_reason(unwritten)}")
    return 0


def _page_asked(given: argparse.Namespace) -> bytes:
    if is_on_groups(given):
        return write_groups_page(given.election, given.outcome, satisfaction=given.satisfaction or "cost",
                                 language=given.language)
    return write_page(given.election, given.certificate, outcome=given.outcome, stable=given.stable,
                      exhaustive=not given.no_exhaustive, cover=given.cover, language=given.language)


def _readers_page(given: argparse.Namespace) -> int:
    if replaces(given.output, [given.page, *given.files]):
        given.end_by_usage("-o names one of the files, which the page would replace")
    try:
        write_readers_page(given.page, given.files, given.output)
    except NoPage as why:
        given.end_by_usage(f"{shown(given.page)}: {visible(str(why))}")
    except OSError as why:
        return _fault(f"fault: {_reason(why)}")
    return 0


def _folder_pages(given: argparse.Namespace) -> int:
    from .folder_pages import NotReplaced, write_folder_pages
    if given.outcome is not None:
        given.end_by_usage("--folder takes no --outcome: each election of the folder states its own")
    try:
        notes = left_out(given.folder, "audited")
    except OSError as unlisted:
        return _refused("refused folder 18 Read record 0", _reason(unlisted))
    try:
        report = write_folder_pages(given.folder, given.output, stable=given.stable, exhaustive=not given.no_exhaustive,
                                    cover=given.cover, language=given.language)
    except NotReplaced as why:
        given.end_by_usage(str(why))
    except OSError as why:
        if why.errno == errno.EILSEQ:
            return _refused("refused folder 18 Read record 0", _reason(why))
        return _fault(f"fault write: {_reason(why)}")
    return _found(Answer([report.text.rstrip("\n")], report.status, notes=notes))


def _equal_shares(given: argparse.Namespace) -> int:
    from .certified_shares import certify, clear_progress, outcome_path, write_files
    for path in [] if given.output is None else [given.output, outcome_path(given.output)]:
        if replaced(path, {"ELECTION": given.election}):
            given.end_by_usage(f"-o has {shown(path)} written, which is the election")
    try:
        made = certify(given.election, given.by, given.completion, given.increment)
    except Refusal as refusal:
        return _refused(refusal.printed, "\n".join(refusal.sentences()))
    except OSError as unread:
        return _refused("refused election 18 Read record 0", _reason(unread))
    except CannotKeep as why:
        return _told([f"no certificate was found near the payments of the rule: {visible(str(why))}"], DIFFERS)
    finally:
        clear_progress()
    try:
        paths = [] if given.output is None else write_files(made, given.output)
    except OSError as unwritten:
        return _fault(f"fault write: {_reason(unwritten)}")
    lines = [*made.lines(), *(f"written: {shown(path)}" for path in paths)]
    check = made.checked_by(given.election, *paths) if paths else None
    if check is not None:
        lines.append(f"check it with: {check}")
    return _told(lines, DIFFERS if made.is_own is False else 0)


def _find(given: argparse.Namespace) -> int:
    try:
        found = answer(given)
    except Refusal as refusal:
        return _refused(refusal.printed, "\n".join(refusal.sentences()))
    except OSError as unread:
        return _refused(f"refused {_role(given, unread)} 18 Read record 0", _reason(unread))
    return _found(found)


def _find_in_folder(given: argparse.Namespace) -> int:
    if given.outcome is not None:
        given.end_by_usage("--folder takes no --outcome: each election of the folder states its own")
    try:
        found = folder_answer(given)
    except OSError as unlisted:
        return _refused("refused folder 18 Read record 0", _reason(unlisted))
    return _found(found)


def _found(found: Answer) -> int:
    """Tells what was found, and then what went wrong."""
    status = _told(found.lines, found.status) if found.lines else found.status
    for note in found.notes:
        _tell(note)
    return status if found.fault is None else _fault(found.fault)


def _told(lines: List[str], status: int) -> int:
    """Prints lines, and ends with a status, or as by a fault where they can't be written."""
    if sys.stdout is None:
        return _fault("fault write: standard output is closed")
    try:
        print(*lines, sep="\n", flush=True)
    except OSError as unwritten:
        _give_up(sys.stdout)
        return _fault(f"fault write: {_reason(unwritten)}")
    return status


def _told_bytes(text: bytes, status: int) -> int:
    """Prints a text as `_told` does, byte by byte."""
    return _told([text.decode("utf-8", "surrogateescape").removesuffix("\n")], status)


def _role(given: argparse.Namespace, error: OSError) -> str:
    """Which of the files that the words name couldn't be read."""
    roles = ("election", "outcome", "prices", "violation")
    return next((role for role in roles if vars(given).get(role) == _of_path(error).filename), "certificate")


def _of_path(error: OSError) -> OSError:
    """The error of a path, also where its line ends would make it contents if it weren't a word of a command."""
    return error.__cause__ if isinstance(error.__cause__, OSError) else error


def _reason(error: OSError) -> str:
    """What went wrong with which file, as the program says it."""
    error = _of_path(error)
    return visible(f"{os.fsdecode(error.filename)}: {error.strerror}" if error.filename and error.strerror else str(error))


def _refused(line: str, more: str) -> int:
    """Ends with the line of a refusal, and with more on it for people."""
    status = _told([line], REFUSED)
    if status == REFUSED and more:
        _tell(more)
    return status


def _fault(line: str) -> int:
    _tell(line)
    return FAULT


def _tell(lines: str) -> None:
    try:
        print(*map(visible, lines.split("\n")), sep="\n", file=sys.stderr, flush=True)
    except OSError:
        _give_up(sys.stderr)


def _give_up(stream: IO[str]) -> None:
    """Has Python not try again, when it ends, to write what couldn't be written: it would end with another status."""
    os.dup2(os.open(os.devnull, os.O_WRONLY), stream.fileno())


if __name__ == "__main__":
    sys.exit(main())
