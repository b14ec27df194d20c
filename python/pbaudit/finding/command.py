"""The command `find`: looks for certificates of an outcome, writes them, and tells what was found."""
import argparse
import os
from typing import TYPE_CHECKING, Any, List, NamedTuple, Optional, Sequence, Tuple

from .._places import command
from ..audit_commands import workers
from ..groups import groups_by_cost
from ..pages import replaced
from ..shown import visible
from .results import SECONDS, Found, Wanted
from .telling import Teller, quoted
from .writing import COMMANDS, check_folder, endings, files_of, stem_of, write_new

if TYPE_CHECKING:
    from .there import There

USAGE = "%(prog)s ELECTION [--outcome FILE] [OPTIONS]\n       %(prog)s --folder FOLDER [OPTIONS]"
WHAT_IT_DOES = (
    "Says first whether a group of voters falls short, as `pbaudit groups` does, which needs no certificate. Then looks "
    "for certificates of an outcome: for prices that support it, with Cover first and then without; where none are "
    "found, for a refutation, which proves that there are none; and for a group of voters that it treats worse than it "
    "deserves. What is found is audited, and written to NAME.prices.csv, NAME.refutation.csv and NAME.violation.csv "
    "beside the election NAME.pb; where there is a violation by counting and one by cost, the latter is "
    "NAME.cost.violation.csv. The search isn't proved, and needn't be: its results are audited by code that is. That it "
    "finds nothing proves nothing. It needs scipy."
)
HOW_IT_ENDS = (
    "Exit statuses: 0 if a certificate was found; 1 if none was, which proves nothing; 2 if a file is refused; 3 if "
    "the arguments aren't understood, or a file is there already that could be written; 4 if memory runs out, a file "
    "or the answer can't be written, scipy isn't installed, or the auditor isn't found or can't be used. With --folder "
    "it is 4, 2 or 1 where that is so of any election, in this order. There and with --resume a certificate that was there "
    "counts as found. Stopped with Ctrl+C, it writes what it has found, and ends as if there were no more to find."
)
_WAYS = "--resume looks for what is missing, --replace writes over it, --output elsewhere"


class Answer(NamedTuple):
    """The lines that are told, a status, and the fault on standard error, where there was one, behind notes."""

    lines: List[str]
    status: int
    fault: Optional[str] = None
    notes: Sequence[str] = ()


class Unwritable(Exception):
    """A folder to which nothing can be written."""


def add_to(commands: Any, by_folder: bool) -> Any:
    """Adds the command to the subparsers of argparse, and answers its parser."""
    find = commands.add_parser("find", help="looks for prices, refutations and violations of an outcome", usage=USAGE,
                               description=WHAT_IT_DOES, epilog=HOW_IT_ENDS, allow_abbrev=False)
    if not by_folder:
        find.add_argument("election", metavar="ELECTION", help="an election file")
    find.add_argument("--folder", metavar="FOLDER", help="instead of ELECTION: look for certificates of all elections "
                      "of a folder, on all processors, and write a table of them, found.csv")
    find.add_argument("--outcome", metavar="FILE", help="take the funded projects from this file")
    _add_options(find)
    return find


def _add_options(find: Any) -> None:
    find.add_argument("--stable", action="store_true", help="look for stable prices, or for a refutation of these")
    find.add_argument("--cover", action="store_true", help="look for prices with Cover alone, or for a refutation of "
                      "these")
    only = find.add_mutually_exclusive_group()
    only.add_argument("--prices", action="store_true", help="look for prices alone")
    only.add_argument("--refutation", action="store_true", help="look for a refutation alone, and with --cover for one "
                      "of prices with Cover")
    only.add_argument("--violation", action="store_true", help="look for violations alone")
    find.add_argument("--time", metavar="SECONDS", type=_seconds, default=SECONDS, help="how long to look, for each "
                      "election: 60 unless it is given")
    find.add_argument("--output", metavar="FOLDER", help="write to this folder, which is made if it isn't there")
    find.add_argument("--workers", metavar="N", type=workers, help="with --folder: look by so many processes; without it "
                      "there is one for each processor")
    find.add_argument("--resume", action="store_true", help="go on with a search that was stopped: keep the certificates "
                      "that are there, look only for what is missing, and write the table of a folder anew")
    find.add_argument("--replace", action="store_true", help="write over files that are there, and remove "
                      "certificates beside them that no longer belong to the election's own outcome")


def _seconds(text: str) -> float:
    try:
        seconds = float(text)
    except ValueError:
        seconds = 0.0
    if not 0 < seconds <= 10**7:
        raise argparse.ArgumentTypeError(f"{text!r} isn't a number of seconds above 0 and up to 10^7")
    return seconds


def answer(given: argparse.Namespace) -> Answer:
    """Looks for certificates of one election, and writes them. Raises Refusal, OSError where a file can't be read,
    MemoryError and ImportError."""
    stem = stem_of(given.election, given.output)
    _check_paths(given, stem)
    found = Found()
    try:
        there, is_stopped = _search(found, given, stem)
    except Unwritable as why:
        return Answer([], 4, str(why))
    lines = _groups(found, given)
    written, fault = _write(found, given, stem)
    lines += written
    if fault is None:
        beside, fault = _beside(there, [ending for ending, _, _ in files_of(found)], given, stem)
        lines += beside
    lines += map(visible, found.sentences)
    if is_stopped:
        lines.append(f"This was stopped while {found.unfinished or 'the files'} was looked for.")
    is_found = bool(found) or given.resume and any(each.answers for each in there)
    return Answer(lines, 4 if fault else 0 if is_found else 1, fault)


def _check_paths(given: argparse.Namespace, stem: str) -> None:
    """Ends by usage where a file is in the way."""
    _check_words(given)
    if given.workers is not None:
        given.end_by_usage("--workers is for --folder")
    for path in [stem + ending for ending in endings(wanted_by(given))]:
        over = replaced(path, {"ELECTION": given.election, "--outcome": given.outcome})
        if over:
            given.end_by_usage(f"{visible(path)} would be written, which is {over}")
        if os.path.lexists(path) and not (given.replace or given.resume):
            given.end_by_usage(f"{visible(path)} is there already: {_WAYS}")


def _check_folder(folder: str) -> None:
    """Raises Unwritable where what is found couldn't be written, so that nothing is looked for in vain."""
    try:
        check_folder(folder)
    except OSError as why:
        raise Unwritable(f"{_unwritten(str(why.filename), why)}; --output writes elsewhere") from why


def _unwritten(path: str, why: OSError) -> str:
    return f"fault write: {visible(path)}: {why.strerror or why}"


def _check_words(given: argparse.Namespace) -> None:
    if given.replace and given.resume:
        given.end_by_usage("--replace writes over what --resume keeps")


def _search(found: Found, given: argparse.Namespace, stem: str) -> "Tuple[List[There], bool]":
    """Looks for what is asked for. The certificates that are there already, and whether it was stopped by the
    keyboard. Raises Unwritable."""
    # What needs scipy is loaded here, so that other commands don't need it.
    from .search import Seeker
    from .there import left_beside, there_at
    teller, there = Teller(), []
    try:
        seeker = Seeker(found, given.election, given.outcome, wanted_by(given), teller)
        _check_folder(os.path.dirname(stem))
        found.groups = groups_by_cost(seeker.given.election, seeker.given.outcome)
        there = there_at(stem, seeker.given, seeker.wanted)
        if given.resume:
            seeker.wanted = left_beside(there, seeker.wanted)
        seeker.run()
    except KeyboardInterrupt:
        return there, True
    finally:
        teller.clear()
    return there, False


def _groups(found: Found, given: argparse.Namespace) -> List[str]:
    """The lines on groups that fall short, which are told first."""
    if found.groups is None:
        return []
    words = [*command(), "groups", given.election, *_outcome(given)]
    return [f"{visible(given.election)}: {visible(found.groups.line)}", *(f"  note: {note}" for note in found.groups.notes),
            f"  check it with: {quoted(words)}"]


def _outcome(given: argparse.Namespace) -> List[str]:
    return [] if given.outcome is None else ["--outcome", given.outcome]


def wanted_by(given: argparse.Namespace) -> Wanted:
    """What the options ask for."""
    is_any = not (given.prices or given.refutation or given.violation)
    return Wanted(given.stable, given.cover, is_any or given.prices, is_any or given.refutation,
                  is_any or given.violation, given.time)


def _write(found: Found, given: argparse.Namespace, stem: str) -> Tuple[List[str], Optional[str]]:
    """Writes what was found. The lines on it, and what went wrong."""
    lines: List[str] = []
    faults: List[str] = []
    for ending, verdict, data in files_of(found):
        path = stem + ending
        try:
            write_new(path, data, given.replace)
        except OSError as why:
            # What else was found is written all the same.
            faults.append(_unwritten(path, why))
            continue
        sure = [each for each in (found.prices, found.refutation) if each and each.verdict is verdict]
        options = sure[0].options if sure else []
        words = [*command(), COMMANDS[ending], given.election, path, *_outcome(given), *options]
        lines += [f"{visible(path)}: {visible(verdict.line)}", f"  check it with: {quoted(words)}"]
    return lines, "\n".join(faults) or None


def _beside(there: "List[There]", written: List[str], given: argparse.Namespace,
            stem: str) -> Tuple[List[str], Optional[str]]:
    """Removes of what is there what no longer belongs to the election's own outcome, where files are replaced. The lines
    on what is there, and what went wrong."""
    lines: List[str] = []
    for each in there:
        path = stem + each.ending
        if each.ending in written:
            continue
        told = "was there before" if each.holds else "doesn't belong to this outcome"
        if not each.holds and each.was_read and given.replace and given.outcome is None:
            try:
                os.unlink(path)
            except OSError as why:
                return lines, _unwritten(path, why)
            told = "doesn't belong to this outcome, and was removed"
        lines.append(f"{visible(path)} {told}: {visible(each.line)}")
    return lines, None


def folder_answer(given: argparse.Namespace) -> Answer:
    """Looks for certificates of all elections of a folder. Raises OSError where it can't be listed, and ImportError."""
    from .._auditor import auditor
    from ..folders import left_out
    from .folders import TABLE, Folder, entries_in, is_table, table_file, table_lines
    _check_words(given)
    auditor()
    output = given.output or given.folder
    table = os.path.join(output, TABLE)
    if os.path.lexists(table) and not (given.replace or given.resume and is_table(table)):
        given.end_by_usage(f"{visible(table)} is there already: {_WAYS}")
    entries, notes = entries_in(given.folder), left_out(given.folder, "looked at")
    try:
        _check_folder(output)
    except Unwritable as why:
        return Answer([], 4, str(why), notes)
    folder, teller = Folder(entries, output, wanted_by(given), given.replace, workers=given.workers), Teller()
    is_stopped = False
    try:
        folder.run(teller)
    except KeyboardInterrupt:
        is_stopped = True
    finally:
        teller.clear()
    rows, fault = folder.rows(), folder.fault
    try:
        write_new(table, table_file(rows), given.replace or given.resume)
    except OSError as why:
        fault = _unwritten(table, why)
    lines = table_lines(rows) + (["This was stopped before all elections were looked at."] if is_stopped else [])
    return Answer(lines, 4 if fault else folder.status(), fault, notes)
