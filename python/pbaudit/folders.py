"""Audits a folder of elections, by any executor of `concurrent.futures`."""
import errno
import html
import logging
import os
import queue
import threading
import uuid
from concurrent.futures import BrokenExecutor, Executor, Future
from dataclasses import dataclass, field
from functools import partial
from typing import Any, Callable, Dict, Iterator, List, NamedTuple, Optional, Sequence, Tuple

from ._auditor import ENDINGS, EntryFiles, Mode, Question, Satisfaction, ask, ask_entry, measured
from .files import MOST_BYTES, Path, checked_call
from .helpers import Helper
from .objects import STATUSES, VERSION, Found as Answer, line_of, read_line, unread_of
from .shown import visible
from .tables import Result, frame_of, html_of

# Gives the bytes of the file with an ending, or none where it can't be read.
Read = Callable[[str], Optional[bytes]]
LOG = logging.getLogger("pbaudit")
# A task whose worker was lost so often is cut into its elections, and one of a single election is given up.
MOST_LOSSES = 2
LOST = "fault worker"
UNREAD = line_of(unread_of("{}"))
# What a task has at most: elections, and bytes of their files. A cluster takes about 20 ms for a task, and an audit of
# so many bytes about 100 ms.
MOST_OF_A_TASK, MOST_BYTES_OF_A_TASK = 50, 2**23
CERTIFICATES = {ending: kind for kind, ending in ENDINGS.items() if kind != "election"}
# Why a file isn't one of the elections of a folder, and how many of them a line names.
MISNAMED = "an election is NAME.pb, with the ending in lower case"
IRREGULAR, UNCLEAN = "only regular files are, and no links, folders or pipes", "their names have control characters"
MOST_NAMED = 5


class Line(NamedTuple):
    """What was found of a file that was audited: its ending, the line that the program prints, and the status; of a no the
    condition that fails first with the voter and the project that it names; and of an election the line on groups, where
    that was asked for."""

    ending: str
    line: str
    status: int
    condition: Optional[str] = None
    voter: Optional[int] = None
    project: Optional[str] = None
    groups: Optional[str] = None


class FileResult(NamedTuple):
    """What was found of a file of a folder: the name of its election, without `.pb`, and its own; its `kind`,
    "election", "prices" or "violation"; the `answer`, "read" of an election, "yes" or "no" of a certificate, "refused",
    or "lost"; of a no the condition that fails first with the voter and the project that it names; the line that the
    program prints; and of an election with an outcome, where groups were asked for, the line of `audit_groups`.

    >>> [(result.file, result.answer) for result in audit_folder("elections").results]
    [('town.pb', 'read'), ('town.prices.csv', 'yes')]
    """

    election: str
    file: str
    kind: str
    answer: str
    condition: Optional[str]
    voter: Optional[int]
    project: Optional[str]
    line: str
    groups: Optional[str] = None

    def to_dict(self) -> Dict[str, Any]:
        """Its fields by their names."""
        return self._asdict()

    def rows_of_table(self) -> List[Dict[str, Any]]:
        """The one row of its table."""
        return [self.to_dict()]

    def to_frame(self) -> Any:
        """Its table as a DataFrame of pandas. Raises ImportError where that isn't installed."""
        return frame_of(self.rows_of_table())

    def _repr_html_(self) -> str:
        """Its table, as a notebook shows it."""
        return html_of(self.rows_of_table())


@dataclass(frozen=True)
class FolderReport(Result):
    """The report on a folder: its text, and a status like that of `pbaudit folder`: 2 if a file is refused, otherwise 1
    if a certificate is answered no, and otherwise 0. It is true if the status is 0. Where an election by itself had its
    worker lost twice, the line on it ends in `fault worker`, its name (without `.pb`) is in `lost`, and the status is
    4. `results` has a row for each file in the order of the text, as `pandas.DataFrame(report.results)` takes them.

    >>> audit_folder("elections").status
    0
    """

    text: str
    status: int
    lost: Tuple[str, ...] = ()
    results: Tuple[FileResult, ...] = field(default=(), compare=False, repr=False)

    def rows_of_table(self) -> List[Dict[str, Any]]:
        """A row for each file."""
        return [result.to_dict() for result in self.results]

    def _repr_html_(self) -> str:
        """The report as a table, as a notebook shows it."""
        rows: List[Tuple[str, ...]] = [("File", "Answer", "Groups")]
        rows += [(result.file, result.line, result.groups or "") for result in self.results]
        if not any(result.groups for result in self.results):
            rows = [row[:2] for row in rows]
        cells = ("".join(f"<{tag}><bdi>{html.escape(visible(text))}</bdi></{tag}>" for text in row)
                 for tag, row in zip(["th", *["td"] * len(rows)], rows))
        return f'<table>{"".join(f"<tr>{row}</tr>" for row in cells)}</table><p>{html.escape(total_line(self.results))}</p>'

    def __bool__(self) -> bool:
        return self.status == 0

    def __str__(self) -> str:
        return self.text


@dataclass(frozen=True)
class Entry:
    """An election of a folder, by its name without `.pb`, and the certificates beside it, endings of file names; how many
    bytes these files have; in which mode prices are audited; and by which measure groups are, or None."""

    folder: str
    name: str
    certificates: Tuple[str, ...]
    size: int
    mode: Mode
    groups: Optional[Satisfaction] = None


@dataclass(frozen=True)
class Task:
    """Elections that are audited together, and how often the worker on them was lost."""

    entries: Tuple[Entry, ...]
    losses: int = 0

    def lost(self) -> "Task":
        """The task after one more loss."""
        return Task(self.entries, self.losses + 1)

    def parts(self) -> List["Task"]:
        """What is tried of it: all together, or each election by itself where the worker was lost too often. Nothing of
        a single one then, since it is known which it was."""
        if self.losses < MOST_LOSSES:
            return [self]
        return [Task((entry,)) for entry in self.entries] if len(self.entries) > 1 else []


Found = Dict[Entry, List[Line]]
# Is told what was found of an entry, or none where its workers were lost.
Tell = Callable[[Entry, Optional[List[Line]]], None]
# Takes what was found of the entries of a task.
Take = Callable[[Task, List[List[Line]]], None]
OnResult = Callable[[FileResult], object]


def audit_folder(path: Path, executor: Optional[Executor] = None, *, stable: bool = False,
                 exhaustive: bool = True, cover: bool = False, groups: Optional[Satisfaction] = None,
                 on_result: Optional[OnResult] = None) -> FolderReport:
    """Audits the elections `NAME.pb` of a folder with `NAME.prices.csv` and `NAME.violation.csv` where these lie beside
    them, and answers the text and the status of `pbaudit folder`, without what that says on standard error of files
    that it leaves out. With `groups`, "cost" or "count", the `groups` of each election's FileResult has the line of
    `audit_groups` by this measure; the text and the status are as without. `on_result` is called with each FileResult as
    soon as it is known here.

    Without an executor the elections are audited here, one after the other. With one they are its tasks, small
    elections many to a task: processes of a `ProcessPoolExecutor`, or a Dask cluster by `client.get_executor()`, whose
    workers have to see the folder under the same path and need this package. A task whose worker is lost is tried again
    whole; where the executor is broken by that, or takes no more, all that is left is done in as many processes that are
    started here. Only a task whose worker was lost twice is cut into its elections, each of which is tried twice by
    itself, in these processes; then its line says that its worker was lost, and it is never left out. Raises OSError
    where the folder can't be listed, or lists a name that isn't UTF-8 (errno.EILSEQ): `pbaudit folder` refuses it then,
    as `refused folder 18 Read record 0`.

    >>> print(audit_folder("elections"), end="")
    town.pb: read 3 voters 3 projects 2 funded
    town.prices.csv: supported priceable
    total 1 elections 1 yes 0 no 0 refused
    """
    check_executor(executor)
    checked_call("on_result", on_result)
    entries = entries_of(path, Mode(stable, exhaustive, cover), None if groups is None else measured(groups))

    def tell(entry: Entry, lines: Optional[List[Line]]) -> None:
        if on_result is not None:
            for result in results_of(entry, lines):
                on_result(result)
    found: Found = {}
    if executor is not None:
        _spread(executor, entries, found, tell)
    for entry in entries if executor is None else ():
        found[entry] = audit_entry(entry)
        tell(entry, found[entry])
    return report_on(entries, found)


def check_executor(executor: Optional[Executor]) -> None:
    """Raises TypeError for what is no executor, and not None."""
    if executor is not None and not callable(getattr(executor, "submit", None)):
        raise TypeError(f"the executor is {executor!r}, which has no submit: give one of concurrent.futures, such as a "
                        "ProcessPoolExecutor")


def folder_path(path: Path) -> str:
    """The path of a folder as a str. Raises TypeError for bytes."""
    text = os.fspath(path)
    if not isinstance(text, str):
        raise TypeError(f"the path of the folder is {text!r}, not a str")
    return text


def audit_entries(entries: Sequence[Entry], attempt: str) -> List[List[Line]]:
    """What is found of each of some entries. This is what a worker does. The attempt, which no other call of
    `audit_folder` has, has no part in it: Dask takes a task with the same arguments for the same task, and would answer
    what it answered, or that it was lost, without trying."""
    return [audit_entry(entry) for entry in entries]


def audit_entry(entry: Entry) -> List[Line]:
    """The line on each file of an entry that was audited."""
    return audit_read(entry, partial(bytes_of_entry, entry))


def audit_read(entry: Entry, read: Read) -> List[Line]:
    """The same, where `read` gives the bytes of the file with an ending, or none where it can't be read."""
    return [_line(ending, answer) for ending, answer in answers_on(entry, read)]


def answers_on(entry: Entry, read: Read) -> List[Tuple[str, Answer]]:
    """The ending of each file of an entry that was audited, with the object that answers: of an election the one on groups,
    where that was asked for and it has an outcome."""
    files = _files_of(entry, read)
    found = ask_entry(files)
    answers = [(ending, found[kind]) for kind, ending in ENDINGS.items() if found[kind] is not None]
    election = files.files["election"]
    if entry.groups is not None and election is not None and found["election"]["kind"] != "refusal":
        answer = ask(Question("groups", election, satisfaction=entry.groups)).found
        # An election that states no outcome is read all the same.
        answers[0] = (".pb", answer if answer["kind"] == "groups" else found["election"])
    return answers


def _files_of(entry: Entry, read: Read) -> EntryFiles:
    endings = (".pb", *entry.certificates)
    return EntryFiles(entry.name, {kind: read(ending) for kind, ending in ENDINGS.items() if ending in endings}, entry.mode)


def _line(ending: str, answer: Answer) -> Line:
    if answer["kind"] == "groups":
        return Line(ending, read_line(answer["election"]), 0, groups=line_of(answer))
    failed = answer.get("failed") or {}
    return Line(ending, line_of(answer), STATUSES[answer["answer"]], *map(failed.get, ("name", "voter", "project")))


def entry_object(entry: Entry) -> Answer:
    """What is found of an entry as one object, as `pbaudit folder --json` prints it."""
    return ask_entry(_files_of(entry, partial(bytes_of_entry, entry)))


def total_object(entries: Sequence[Answer]) -> Answer:
    """The object behind those of all entries: how many there are, and how many files are answered how."""
    answers = [entry[kind]["answer"] for entry in entries for kind in ("prices", "violation") if entry[kind]]
    refused = answers.count("refused") + sum(entry["election"]["answer"] == "refused" for entry in entries)
    return {"kind": "total", "version": VERSION, "elections": len(entries), "yes": answers.count("yes"),
            "no": answers.count("no"), "refused": refused}


def bytes_of_entry(entry: Entry, ending: str) -> Optional[bytes]:
    """The bytes of a file, or none where it can't be read."""
    try:
        with open(os.path.join(entry.folder, entry.name + ending), "rb") as file:
            return file.read(MOST_BYTES + 1)
    except OSError:
        return None


def entries_of(path: Path, mode: Mode, groups: Optional[Satisfaction] = None) -> List[Entry]:
    """The elections of a folder, by the bytes of their names. Raises OSError as `audit_folder`."""
    folder = os.path.abspath(folder_path(path))
    sizes: Dict[str, int] = {}
    with os.scandir(folder) as listing:
        for file in listing:
            _check_name(folder, file.name)
            # What can't be looked at counts as a regular file, and is refused when it is read.
            if file.is_file(follow_symlinks=False) and _is_clean(file.name):
                sizes[file.name] = _size_of(file)
    entries = []
    for name in sorted((name[:-3] for name in sizes if name.endswith(".pb") and name != ".pb"), key=str.encode):
        beside = tuple(ending for ending in CERTIFICATES if name + ending in sizes)
        size = sum(sizes[name + ending] for ending in (".pb", *beside))
        entries.append(Entry(folder, name, beside, size, mode, groups))
    return entries


def left_out(path: Path, done: str) -> List[str]:
    """Lines on what may be meant as an election of a folder and isn't one of `entries_of`, to which this isn't done; and that
    there is none. Raises OSError."""
    with os.scandir(folder_path(path)) as listing:
        found = sorted((file.name, _why_left_out(file)) for file in listing if file.name[-3:].lower() == ".pb" != file.name)
    lines = []
    if not any(why == "" for _, why in found):
        lines.append("pbaudit: no election was found: the folder has no file named NAME.pb")
    for why in (MISNAMED, IRREGULAR, UNCLEAN):
        names = [visible(name) for name, other in found if other == why]
        more = f" and {len(names) - MOST_NAMED} more" if len(names) > MOST_NAMED else ""
        if names:
            lines.append(f"pbaudit: not {done}: {', '.join(names[:MOST_NAMED])}{more}; {why}")
    return lines


def _why_left_out(file: "os.DirEntry[str]") -> str:
    if not file.is_file(follow_symlinks=False):
        return IRREGULAR
    if not _is_clean(file.name):
        return UNCLEAN
    return "" if file.name.endswith(".pb") else MISNAMED


def _is_clean(name: str) -> bool:
    return not any(letter < " " or letter == "\x7f" for letter in name)


def _size_of(file: "os.DirEntry[str]") -> int:
    try:
        return file.stat(follow_symlinks=False).st_size
    except OSError:
        return 0


def _check_name(folder: str, name: str) -> None:
    try:
        name.encode("utf-8")
    except UnicodeEncodeError:
        raise OSError(errno.EILSEQ, f"it lists {name!r}, a name that isn't UTF-8", folder) from None


def _spread(executor: Executor, entries: List[Entry], found: Found, tell: Tell) -> None:
    """Adds what is found of each entry by an executor, and by processes that are started here where it loses workers.
    What is lost isn't added."""
    def take(task: Task, made: List[List[Line]]) -> None:
        for entry, lines in zip(task.entries, made):
            found[entry] = lines
            tell(entry, lines)
    call = uuid.uuid4().hex
    waiting, is_usable = [Task(tuple(task)) for task in _tasks(entries)], True
    for attempt in range(MOST_LOSSES):
        if waiting and is_usable:
            waiting, is_usable = _by_executor(executor, waiting, f"{call}/{attempt}", take)
    # An election that the executor lost is tried here, where no other takes its process along.
    waiting = [part for task in waiting for part in (task.parts() or [Task(task.entries)])]
    # Where the executor doesn't say how many it has work at a time, as many as there are processors.
    _Pool(waiting, take).run(getattr(executor, "_max_workers", None) or len(os.sched_getaffinity(0)))
    for entry in entries:
        if entry not in found:
            tell(entry, None)


def _tasks(entries: List[Entry]) -> Iterator[List[Entry]]:
    """Entries in their order, as many together as make a task."""
    task: List[Entry] = []
    for entry in entries:
        size = sum(each.size for each in task) + entry.size
        if task and (len(task) == MOST_OF_A_TASK or size > MOST_BYTES_OF_A_TASK):
            yield task
            task = []
        task.append(entry)
    if task:
        yield task


def _by_executor(executor: Executor, tasks: List[Task], attempt: str, take: Take) -> Tuple[List[Task], bool]:
    """Audits tasks by an executor. What is left of them, and whether the executor can still be used."""
    futures: "List[Tuple[Task, Future[List[List[Line]]]]]" = []
    is_usable = True
    for task in tasks:
        try:
            futures.append((task, executor.submit(audit_entries, list(task.entries), attempt)))
        except RuntimeError as why:
            LOG.warning("the executor takes no more: %r", why)
            is_usable = False
            break
    left = tasks[len(futures):]
    try:
        is_usable &= _taken(futures, left, take)
    finally:
        # What is still to be done isn't where this is stopped.
        for _, future in futures:
            future.cancel()
    return left, is_usable


def _taken(futures: "List[Tuple[Task, Future[List[List[Line]]]]]", left: List[Task], take: Take) -> bool:
    """Takes what tasks find, and adds to what is left those whose worker was lost. Whether the executor can still be used."""
    is_usable = True
    for task, future in futures:
        try:
            made = future.result()
        except BrokenExecutor:
            # On which task its worker was lost isn't known.
            is_usable = False
            left.append(task)
        except (ImportError, MemoryError):
            raise
        except Exception as error:  # Each library has its own class for a worker that was lost.
            LOG.warning("the worker on %s was lost: %r", _named(task), error)
            left.append(task.lost())
        else:
            take(task, made)
    return is_usable


def _named(task: Task) -> str:
    more = f" and {len(task.entries) - 1} elections after it" if len(task.entries) > 1 else ""
    return f"{visible(task.entries[0].name)}.pb{more}"


class _Pool:
    """Processes that audit tasks, each one after the other, so that it is known on which task one was lost."""

    def __init__(self, tasks: List[Task], take: Take):
        self._tasks, self._take = tasks, take
        self._waiting: "queue.Queue[Optional[Task]]" = queue.Queue()
        self._done: "queue.Queue[Tuple[Task, List[List[Line]], Optional[Exception]]]" = queue.Queue()

    def run(self, workers: int) -> None:
        """Audits them in so many processes."""
        helpers = [Helper() for _ in range(min(workers, len(self._tasks)))]
        threads = [threading.Thread(target=self._work, args=(helper,), daemon=True) for helper in helpers]
        for task in self._tasks:
            self._waiting.put(task)
        try:
            for thread in threads:
                thread.start()
            left = len(self._tasks)
            while left:
                left += self._taken() - 1
        finally:
            for helper in helpers:
                helper.stop()
                self._waiting.put(None)
            for thread in threads:
                if thread.ident is not None:
                    thread.join()

    def _taken(self) -> int:
        """Waits for a task, and takes what was found. Where its worker was lost, what is tried again of it waits: how
        many tasks that is."""
        task, made, error = self._done.get()
        if error is None:
            self._take(task, made)
            return 0
        if isinstance(error, (ImportError, MemoryError, OSError)):
            raise error
        LOG.warning("the worker on %s was lost: %r", _named(task), error)
        parts = task.lost().parts()
        for part in parts:
            self._waiting.put(part)
        return len(parts)

    def _work(self, helper: Helper) -> None:
        with helper:
            for task in iter(self._waiting.get, None):
                try:
                    self._done.put((task, helper.call(audit_entries, list(task.entries), ""), None))
                except Exception as error:  # Whatever it is, it is told where it is waited for.
                    self._done.put((task, [], error))


def report_on(entries: List[Entry], found: Found) -> FolderReport:
    """The report on entries, by what was found of each."""
    results = tuple(result for entry in entries for result in results_of(entry, found.get(entry)))
    lines = [*(f"{result.file}: {result.line}" for result in results), total_line(results)]
    lost, answers = tuple(entry.name for entry in entries if entry not in found), {result.answer for result in results}
    status = 4 if lost else 2 if "refused" in answers else 1 if "no" in answers else 0
    return FolderReport("".join(line + "\n" for line in lines), status, lost, results)


def total_line(results: Sequence[FileResult]) -> str:
    """The last line of a report: how many elections there are, and how many files are answered how."""
    elections = sum(result.kind == "election" for result in results)
    yes, no, refused = (sum(result.answer == answer for result in results) for answer in ("yes", "no", "refused"))
    return f"total {elections} elections {yes} yes {no} no {refused} refused"


def results_of(entry: Entry, lines: Optional[List[Line]]) -> List[FileResult]:
    """A row for each line on an entry, or one that says that its workers were lost."""
    if lines is None:
        return [FileResult(entry.name, entry.name + ".pb", "election", "lost", None, None, None, LOST)]
    results = []
    for each in lines:
        kind = CERTIFICATES.get(each.ending, "election")
        found = ("read" if kind == "election" else "yes", "no", "refused")[each.status]
        results.append(FileResult(entry.name, entry.name + each.ending, kind, found, each.condition, each.voter,
                                  each.project, each.line, each.groups))
    return results
