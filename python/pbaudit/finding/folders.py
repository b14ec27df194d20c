"""Searches for all elections of a folder, on all processors or by an executor, with a table of what was found."""
import os
import queue
import threading
import time
import uuid
from collections import deque
from concurrent.futures import CancelledError, Executor, Future
from dataclasses import astuple, dataclass, fields, replace
from functools import partial
from typing import Callable, Deque, Dict, Iterator, List, Optional, Set, Tuple

from .._auditor import Mode
from ..auditing import Refusal, audit_prices
from ..files import bytes_of
from ..folders import LOG, LOST, UNREAD, Entry, entries_of
from ..groups import groups_by_cost
from ..helpers import TICK, Helper, Lost
from ..records import records
from ..shown import visible
from ..spreadsheets import table
from .results import Found, FoundRow as Row, Wanted
from .search import Seeker
from .there import NAMES, REFUTED, There, kept_and_stale, left_beside, there_at
from .writing import BY_COST, PRICES, REFUTATION, VIOLATION, files_of, write_new

TABLE = "found.csv"
NOT_FOUND, IN_THE_WAY, NOT_ASKED = "none found", "a file is in the way", ""
# How often an election is tried by helpers, where these are lost.
MOST_TRIES = 2
# Tells what is tried.
Tell = Callable[[str], None]


@dataclass(frozen=True)
class Result:
    """A row, the files that were found, each with the ending of its name, the endings of those to remove, and a status
    as that of the command."""

    row: Row
    files: Tuple[Tuple[str, bytes], ...] = ()
    removed: Tuple[str, ...] = ()
    status: int = 1


@dataclass(frozen=True)
class Asked:
    """An election of a folder, what is looked for, and the folder of its certificates, where files may be written over
    and removed or not."""

    folder: str
    name: str
    wanted: Wanted
    output: str
    is_replaced: bool = False


def entries_in(path: str) -> List[Entry]:
    """The elections of a folder. Raises OSError."""
    return entries_of(path, Mode())


def searched_by_worker(asked: Asked, call: str) -> Result:
    """What is found for an election. This is what a worker of an executor does. The call, which no other search of a
    folder has, has no part in it: Dask takes a task with the same arguments for the same task."""
    return searched(asked)


def searched(asked: Asked) -> Result:
    """What is found for an election. This is what a helper does."""
    began, path = time.monotonic(), os.path.join(asked.folder, asked.name + ".pb")
    row, found = Row(f"{asked.name}.pb"), Found()
    try:
        data = bytes_of(path)
        row = replace(row, rule=rule_of(data))
        seeker = Seeker(found, data, None, asked.wanted, None)
        found.groups = groups_by_cost(data, None)
        row = replace(row, groups="" if found.groups is None else found.groups.line)
        there = there_at(os.path.join(asked.output, asked.name), seeker.given, asked.wanted)
        if not asked.is_replaced:
            seeker.wanted = left_beside(there, asked.wanted)
        seeker.run()
    except Refusal as refusal:
        return Result(replace(row, note=refusal.printed), status=2)
    except OSError:
        return Result(replace(row, note=UNREAD.format("election")), status=2)
    except Exception as error:  # Whatever is wrong with one election, the others are looked at.
        return Result(replace(row, note=f"fault: {error!r}"), status=4)
    files = tuple((ending, file) for ending, _, file in files_of(found))
    kept, stale = kept_and_stale(there, [ending for ending, _ in files])
    removed = tuple(each.ending for each in stale if asked.is_replaced and each.was_read)
    row = _told(row, data, found, kept, asked, seeker.wanted)
    blocked = {each.ending for each in stale} - set(removed)
    row = _told_beside(row, asked.wanted, blocked)
    row = replace(row, note="; ".join(_notes(asked, kept, stale, removed)), seconds=f"{time.monotonic() - began:.1f}")
    return Result(row, files, removed, 0 if found or any(each.answers for each in kept) else 1)


def _notes(asked: Asked, kept: List[There], stale: List[There], removed: Tuple[str, ...]) -> Iterator[str]:
    """What there is to say of files that were there."""
    for each in kept:
        if each.ending == PRICES and asked.wanted.prices and not each.answers:
            yield f"{asked.name}{each.ending} is there, in another form than is looked for"
    for each in stale:
        does = "is removed" if each.ending in removed else "no longer belongs to the outcome"
        yield f"{asked.name}{each.ending} {does}: {each.line}"


def rule_of(data: bytes) -> str:
    """The rule that an election's file names, or nothing."""
    for record in records(data, b";"):
        if record[0].lower() == b"projects":
            break
        if record[0].lower() == b"rule" and len(record) > 1:
            return record[1].decode("utf-8", "replace")
    return ""


def _told(row: Row, data: bytes, found: Found, kept: List[There], asked: Asked, wanted: Wanted) -> Row:
    """The row with what was found, of what was looked for, and with what is kept of each kind of which nothing was."""
    facts = {each.ending: each.fact for each in kept}
    is_refuted = any(each.ending == REFUTATION and each.answers for each in kept)
    prices = facts.get(PRICES, NOT_FOUND if wanted.prices or asked.wanted.prices and is_refuted else NOT_ASKED)
    stable = next((each.stable for each in kept if each.ending == PRICES), NOT_ASKED)
    refuted = facts.get(REFUTATION, NOT_FOUND if wanted.refutation and not found.prices else NOT_ASKED)
    if found.prices:
        prices = "with Cover" if found.prices.cover else "without Cover"
        is_stable = found.prices.stable or audit_prices(data, found.prices.file, stable=True, cover=found.prices.cover,
                                                        exhaustive=found.prices.exhaustive)
        stable = "yes" if is_stable else "not these"
    if found.refutation:
        refuted = REFUTED[str(found.refutation.verdict.refutes)]
    violations = [f"by {NAMES[each.by]}" for each in found.violations]
    violations += [facts[ending] for ending in (VIOLATION, BY_COST) if ending in facts and facts[ending] not in violations]
    violation = " and ".join(violations) or (NOT_FOUND if wanted.violation else NOT_ASKED)
    return replace(row, prices=prices, stable=stable, refuted=refuted, violation=violation)


def _told_beside(row: Row, wanted: Wanted, blocked: Set[str]) -> Row:
    """The row where files that no longer belong are in the way of what is looked for."""
    if wanted.prices and PRICES in blocked and not row.prices:
        row = replace(row, prices=IN_THE_WAY)
    if wanted.refutation and REFUTATION in blocked and not (row.refuted or row.prices not in (NOT_FOUND, IN_THE_WAY)):
        row = replace(row, refuted=IN_THE_WAY)
    if wanted.violation and blocked & {VIOLATION, BY_COST} and not row.violation:
        row = replace(row, violation=IN_THE_WAY)
    return row


class Folder:
    """Searches for elections by an executor, or by helpers, one for each processor, and writes what they find as it
    comes. `results` has what came, by the number of the election."""

    def __init__(self, entries: List[Entry], output: str, wanted: Wanted, is_replaced: bool,
                 executor: Optional[Executor] = None, on_row: Optional[Callable[[Row], None]] = None,
                 workers: Optional[int] = None):
        self.entries, self._output, self._is_replaced, self._executor = entries, output, is_replaced, executor
        self._on_row, self._workers = on_row or (lambda _: None), workers or len(os.sched_getaffinity(0))
        self._waiting: Deque[Tuple[int, Asked]] = deque(
            (number, Asked(entry.folder, entry.name, wanted, os.path.abspath(output), is_replaced))
            for number, entry in enumerate(entries))
        self.results: Dict[int, Result] = {}
        self.fault: Optional[str] = None
        self._done: "queue.Queue[Tuple[int, Result]]" = queue.Queue()
        self._is_stopped = False

    def _path(self, name: str, ending: str) -> str:
        return os.path.join(self._output, name + ending)

    def run(self, tell: Tell) -> None:
        """Searches, and writes what is found. What raises, as the keyboard does, ends the search."""
        if self._executor is not None:
            self._run_by_executor(self._executor, tell)
        self._run_by_helpers(tell)

    def _run_by_executor(self, executor: Executor, tell: Tell) -> None:
        """Searches by an executor. What its workers don't answer waits again, for helpers."""
        tasks = self._submitted(executor)
        try:
            while not all(future.done() for future, _, _ in tasks):
                self._take(tell)
        finally:
            for future, _, _ in tasks:
                future.cancel()
            self._keep_rest()
        for future, number, asked in tasks:
            error = CancelledError() if future.cancelled() else future.exception()
            if error is not None:
                LOG.warning("the worker on %s.pb was lost: %r", visible(asked.name), error)
                self._waiting.append((number, asked))

    def _submitted(self, executor: Executor) -> "List[Tuple[Future[Result], int, Asked]]":
        """The tasks of what waits. An executor that is broken or shut down takes no more."""
        call = uuid.uuid4().hex
        tasks: "List[Tuple[Future[Result], int, Asked]]" = []
        while self._waiting:
            number, asked = self._waiting[0]
            try:
                future = executor.submit(searched_by_worker, asked, call)
            except RuntimeError as why:
                LOG.warning("the executor takes no more: %r", why)
                break
            self._waiting.popleft()
            future.add_done_callback(partial(self._put, number))
            tasks.append((future, number, asked))
        return tasks

    def _put(self, number: int, future: "Future[Result]") -> None:
        if not future.cancelled() and future.exception() is None:
            self._done.put((number, future.result()))

    def _run_by_helpers(self, tell: Tell) -> None:
        helpers = [Helper() for _ in range(min(len(self._waiting), self._workers))]
        threads = [threading.Thread(target=self._work, args=(helper,), daemon=True) for helper in helpers]
        try:
            for thread in threads:
                thread.start()
            while len(self.results) < len(self.entries):
                self._take(tell)
        finally:
            # What comes later is of helpers that were stopped.
            self._keep_rest()
            self._is_stopped = True
            for helper in helpers:
                helper.stop()
            for thread in threads:
                if thread.ident is not None:
                    thread.join()

    def _work(self, helper: Helper) -> None:
        with helper:
            while not self._is_stopped:
                try:
                    number, asked = self._waiting.popleft()
                except IndexError:
                    return
                self._done.put((number, self._searched(helper, asked)))

    def _searched(self, helper: Helper, asked: Asked) -> Result:
        for _ in range(MOST_TRIES):
            try:
                result: Result = helper.call(searched, asked)
                return result
            except Lost:
                if self._is_stopped:
                    break
                LOG.warning("the worker on %s.pb was lost", visible(asked.name))
            except Exception as error:
                return Result(Row(f"{asked.name}.pb", note=f"fault: {error!r}"), status=4)
        return Result(Row(f"{asked.name}.pb", note=LOST), status=4)

    def _take(self, tell: Tell) -> None:
        """Waits for a result, writes its files, removes others, and tells how many results there are."""
        tell(f"{len(self.results)} of {len(self.entries)} elections")
        try:
            number, result = self._done.get(timeout=TICK)
        except queue.Empty:
            return
        self._keep(number, result)

    def _keep_rest(self) -> None:
        """Writes what came by now, where the search ends before all is there."""
        while not self._done.empty():
            self._keep(*self._done.get())

    def _keep(self, number: int, result: Result) -> None:
        does: List[Tuple[str, Callable[[str], None]]] = [
            (ending, partial(write_new, data=data, replace=self._is_replaced)) for ending, data in result.files]
        does += [(ending, os.unlink) for ending in result.removed]
        faults = []
        for ending, do in does:
            path = self._path(self.entries[number].name, ending)
            try:
                do(path)
            except OSError as why:
                # What else was found is written all the same.
                faults.append(f"fault write: {visible(path)}: {why.strerror or why}")
        if faults:
            self.fault = faults[-1]
            result = Result(replace(result.row, note="; ".join(faults)), status=4)
        self.results[number] = result
        self._on_row(result.row)

    def rows(self) -> List[Row]:
        """The rows of the table, in the order of the elections."""
        return [self.results[number].row if number in self.results else Row(f"{entry.name}.pb", note="not looked at")
                for number, entry in enumerate(self.entries)]

    def status(self) -> int:
        """The status of the whole: 4, 2 or 1 where an election has that, in this order."""
        found = [result.status for result in self.results.values()] + [1] * (len(self.entries) - len(self.results))
        return next((status for status in (4, 2, 1) if status in found), 0)


def _head() -> Tuple[str, ...]:
    return tuple(each.name for each in fields(Row))


def table_file(rows: List[Row]) -> bytes:
    """The table as a CSV file."""
    return table([_head(), *map(astuple, rows)])


def is_table(path: str) -> bool:
    """Whether a file is the table of a search: it begins with the names of its columns."""
    head = table_file([])
    try:
        with open(path, "rb") as file:
            return file.read(len(head)) == head
    except OSError:
        return False


def table_lines(rows: List[Row]) -> List[str]:
    """The table as it is shown on a terminal."""
    cells = [[visible(cell) for cell in row] for row in (_head(), *map(astuple, rows))]
    widths = [max(len(row[at]) for row in cells) for at in range(len(cells[0]))]
    return ["  ".join(cell.ljust(width) for cell, width in zip(row, widths)).rstrip() for row in cells]
