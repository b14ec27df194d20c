"""The commands of the program in `python -m pbaudit`. The program runs them, or Node does with the proved module; where only the
library is found, that answers the same lines with the same exit statuses."""
import argparse
import os
import signal
import subprocess
import sys
from functools import partial
from typing import TYPE_CHECKING, Any, Dict, Generator, Iterator, List, NoReturn, Optional, Tuple

from ._auditor import Mode, Question
from ._places import module, program
from .auditing import asked_in_turn
from .objects import Found, line_of, text_of_object
from .shown import shown

if TYPE_CHECKING:
    from concurrent.futures import Executor

    from .folders import Entry

COMMANDS = {
    "read": "reads an election and prints how many voters and projects it has",
    "groups": "checks whether a group of voters falls short, for an outcome without a certificate",
    "prices": "checks whether the payments of a price certificate support the outcome",
    "violation": "checks whether the outcome treats a group of voters worse than EJR allows",
    "refutation": "checks whether no prices whatever support the outcome",
    "both": "checks a price certificate and a violation certificate for one outcome",
    "explain": "checks a certificate and prints the figures of each condition or test",
    "margins": "prints what each project costs, is paid and could be offered, as CSV",
    "tidy": "prints a price certificate in its canonical form",
    "folder": "audits the elections of a folder with their certificates",
}
# No machine has more processors.
MOST_WORKERS = 4096
_CERTIFICATES: Dict[str, List[str]] = {"read": [], "groups": [], "both": ["prices", "violation"], "folder": []}
_WITH_OUTCOME = ("groups", "prices", "violation", "refutation", "both", "explain", "margins")
_WITH_MODE = ("prices", "both", "explain", "folder")
_WITH_JSON = ("read", "groups", "prices", "violation", "refutation", "both", "explain", "margins", "folder")
# What is asked where --groups stands in the certificate's place.
_ON_GROUPS = {"explain": "explain_groups", "margins": "group_margins"}


def run_program(words: List[str]) -> None:
    """Has the program go on in the place of this process, with these words, or Node with the module. Returns where neither
    is found. Raises RuntimeError where it can't be run, and ImportError where the module is there without Node."""
    found = program()
    run = module() if found is None else [str(found)]
    if run is not None:
        _go_on_as(run, words)


def _go_on_as(run: List[str], words: List[str]) -> NoReturn:
    try:
        if os.name == "posix":
            os.execv(run[0], [*run, *words])
        # Elsewhere a process doesn't take another's place: whoever waits would be told that it has ended.
        sys.exit(subprocess.run([*run, *words], check=False).returncode)
    except OSError as why:
        raise RuntimeError(f"{run[-1]} can't be run: {why}") from why


def add_to(commands: "argparse._SubParsersAction[Any]", on_groups: bool) -> None:
    """Adds what the commands take, for the library. The certificate is optional only where --groups is given, since argparse
    takes no option ahead of one that is."""
    for command, about in COMMANDS.items():
        parser = commands.add_parser(command, help=about, description=f"{about[0].upper()}{about[1:]}.", allow_abbrev=False)
        if command == "folder":
            parser.add_argument("folder", metavar="FOLDER", help="the folder of elections and certificates")
            parser.add_argument("--workers", metavar="N", type=workers, help="audit by so many processes")
        else:
            parser.add_argument("election", metavar="ELECTION", help="an election file")
        for name in _CERTIFICATES.get(command, ["certificate"]):
            parser.add_argument(name, metavar=name.upper(), help="a certificate",
                                nargs="?" if on_groups and command in _ON_GROUPS else None)
        _add_options(parser, command)
        parser.set_defaults(end_by_usage=parser.error)


def _add_options(parser: Any, command: str) -> None:
    if command in _WITH_MODE:
        parser.add_argument("--stable", action="store_true", help="ask for the stable form of prices")
        parser.add_argument("--no-exhaustive", action="store_true", help="leave out the condition Exhaustive")
        parser.add_argument("--cover", action="store_true", help="ask for the condition Cover")
    if command == "refutation":
        parser.add_argument("--stable", action="store_true", help="ask too whether the weights refute stable prices alone")
    if command == "groups":
        parser.add_argument("--satisfaction", choices=("cost", "count"), default="cost",
                            help="measure what voters got by what it costs, which is the default, or by counting")
    if command in _ON_GROUPS:
        add_groups(parser)
    if command in _WITH_OUTCOME:
        parser.add_argument("--outcome", metavar="FILE", help="take the funded projects from this file")
    if command in _WITH_JSON:
        parser.add_argument("--json", action="store_true", help="print what is found as JSON, one object in a line")


def add_groups(parser: Any) -> None:
    """Adds the options that stand in the place of a certificate."""
    parser.add_argument("--groups", action="store_true",
                        help="instead of CERTIFICATE: ask whether a group of voters falls short")
    parser.add_argument("--satisfaction", choices=("cost", "count"),
                        help="with --groups, measure what voters got by what it costs, which is the default, or by counting")


def is_on_groups(given: argparse.Namespace) -> bool:
    """Whether a command that takes a certificate is given --groups in its place. Ends by its usage where it is given both,
    or an option that doesn't go with what it is given."""
    wrong = _beside_groups(given) if given.groups else _beside_certificate(given)
    if wrong:
        given.end_by_usage(wrong)
    return bool(given.groups)


def _beside_groups(given: argparse.Namespace) -> Optional[str]:
    if given.certificate is not None:
        return "--groups stands in the certificate's place: give one of the two"
    if any(vars(given).get(switch) for switch in ("stable", "no_exhaustive", "cover")):
        return "--stable, --no-exhaustive and --cover are about prices, and don't go with --groups"
    return None


def _beside_certificate(given: argparse.Namespace) -> Optional[str]:
    return None if given.satisfaction is None else "--satisfaction needs --groups"


def workers(text: str) -> int:
    """How many processes a word of a command asks for. Raises ArgumentTypeError."""
    count = int(text) if text.isascii() and text.isdigit() and len(text) < 10 else 0
    if not 0 < count <= MOST_WORKERS:
        raise argparse.ArgumentTypeError(f"{text!r} isn't a whole number from 1 to {MOST_WORKERS}")
    return count


def mode_of(given: argparse.Namespace) -> Mode:
    """The mode that the switches choose."""
    words = vars(given)
    return Mode(words.get("stable", False), not words.get("no_exhaustive", False), words.get("cover", False))


def answer(given: argparse.Namespace) -> Tuple[int, bytes, List[str]]:
    """The status, the text, and what stands beside it for people. Raises Refusal, OSError and MemoryError."""
    words = vars(given)
    on_groups = given.command in _ON_GROUPS and is_on_groups(given)
    command = _ON_GROUPS[given.command] if on_groups else given.command
    blank = Question(command, b"", mode=mode_of(given), satisfaction=words.get("satisfaction") or "cost")
    names = [] if on_groups else _CERTIFICATES.get(given.command, ["certificate"])
    certificates = {name: words[name] for name in names}
    report = asked_in_turn(blank, given.election, words.get("outcome"), **certificates).report()
    text = text_of_object(report.found).encode("utf-8") if words.get("json") else report.text
    # The lines of `read` have its notes, and with --json nothing is said of them.
    notes = () if command == "read" else report.notes
    return report.status, text, [f"{shown(given.election)}: {note}" for note in notes]


def refusal(given: argparse.Namespace, found: Found) -> str:
    """The line of a refusal, or where --json is given the object in its place."""
    return text_of_object(found) if vars(given).get("json") else line_of(found)


def audited_folder(given: argparse.Namespace) -> Iterator[Tuple[str, int]]:
    """The lines on a folder, or its objects, each once it is there: a text, and the status, which is that of the last. Raises
    OSError where it can't be listed."""
    from concurrent.futures import ProcessPoolExecutor
    from contextlib import ExitStack, closing

    from .folders import audit_folder, entries_of, total_object
    mode = mode_of(given)
    found: List[Found] = []
    with ExitStack() as stack:
        # The keyboard stops this process, and that these.
        pool = partial(ProcessPoolExecutor, initializer=signal.signal, initargs=(signal.SIGINT, signal.SIG_IGN))
        executor = stack.enter_context(pool(given.workers)) if given.workers else None
        if not given.json:
            report = audit_folder(given.folder, executor, **vars(mode))
            yield report.text.rstrip("\n"), report.status
            return
        for each in stack.enter_context(closing(_objects(entries_of(given.folder, mode), executor))):
            found.append(each)
            yield text_of_object(each), 0
    total = total_object(found)
    yield text_of_object(total), 2 if total["refused"] else 1 if total["no"] else 0


def _objects(entries: "List[Entry]", executor: "Optional[Executor]") -> Generator[Found, None, None]:
    """The object of each entry, each once it is there. Whoever asks for no more waits for none."""
    from .folders import entry_object
    if executor is None:
        yield from map(entry_object, entries)
        return
    asked = [executor.submit(entry_object, entry) for entry in entries]
    try:
        for each in asked:
            yield each.result()
    finally:
        for each in asked:
            each.cancel()
