"""Finds certificates for an outcome: prices that support it, or a refutation of all prices, and groups that it treats
worse than they deserve.

Nothing here is proved, and nothing of it is trusted: what is found is written as a certificate, and audited by what is
proved. That nothing is found proves nothing.
"""
import errno
import os
from concurrent.futures import Executor
from numbers import Real
from typing import Any, Callable, Iterable, Mapping, Optional, Union, overload

from .._auditor import switch
from ..certificates import PriceCertificate
from ..files import File, Path, checked_call
from ..groups import groups_by_cost
from ..values import AnyInstance, AnyProject, Profile, each_ballot
from ..writing import write_election
from .clock import Clock
from .results import SECONDS, By, Found, FoundFolder, FoundRow, OnFound, Relaxation, Stopped, Wanted


@overload
def find(election: File, outcome: Optional[File] = None, *, stable: bool = False, cover: bool = False,
         prices: bool = True, refutation: bool = True, violation: bool = True, seconds: float = SECONDS,
         on_progress: Optional[Callable[[str, float], None]] = None, on_found: Optional[OnFound] = None,
         earlier: Optional[Found] = None) -> Found: ...


@overload
def find(election: AnyInstance, outcome: Union[Profile, Mapping[Any, int]], budget_allocation: Iterable[AnyProject], *,
         stable: bool = False, cover: bool = False, prices: bool = True, refutation: bool = True, violation: bool = True,
         seconds: float = SECONDS, on_progress: Optional[Callable[[str, float], None]] = None,
         on_found: Optional[OnFound] = None, earlier: Optional[Found] = None) -> Found: ...


def find(election: Any, outcome: Any = None, budget_allocation: Optional[Iterable[AnyProject]] = None, *,
         stable: bool = False, cover: bool = False, prices: bool = True, refutation: bool = True, violation: bool = True,
         seconds: float = SECONDS, on_progress: Optional[Callable[[str, float], None]] = None,
         on_found: Optional[OnFound] = None, earlier: Optional[Found] = None) -> Found:
    """Looks for certificates of an outcome: for prices that support it, with Cover first and then without; where none
    are found, for a refutation of all prices; and for a violation by counting and one by cost. Whether a group falls
    short, by cost, is asked first, and needs no search. The files are given as for `audit_prices`. In their place an
    instance, a profile and the funded projects are taken, as for `validate_price_system`, with costs of at most six
    decimals; a profile may also be a mapping from ballots to how many voters have each, as a MultiProfile of pabutools
    is, whose voters are numbered in the order of the ballots.

    `stable` asks for the stable form of prices, and `cover` for prices with Cover alone; where there are none, for a
    refutation of all prices, or otherwise of those. Without `prices`, `refutation` or `violation` these aren't looked for.
    `seconds` is how long all may take: each part has its share of what is left, and what it leaves over is handed on;
    what is found depends on it only where time runs out. `on_progress` is called with what is tried and how many seconds
    are left for the whole search, and `on_found` with each FoundPrices, FoundRefutation or FoundViolation as soon as it is
    found; prices without Cover may be followed by others with it. Ctrl+C raises Stopped, a KeyboardInterrupt whose `found`
    has what was found. `earlier` is what an earlier search found: what the auditor accepts of it for this election and in
    the form that is asked for is kept, by the files of the certificates alone, and only the rest is looked for.

    What is found was audited. That nothing is found proves nothing. Raises Refusal, OSError, MemoryError, ValueError
    where nothing is asked for, and of values where no file can state them, TypeError, and ImportError where scipy isn't
    installed.

    >>> print(find("town.pb").sentences[0])
    There are prices that support this outcome. The voter budgets together are more than the limit.
    """
    wanted = _wanted(stable, cover, prices, refutation, violation, seconds)
    checked_call("on_progress", on_progress)
    checked_call("on_found", on_found)
    if not (earlier is None or isinstance(earlier, Found)):
        raise TypeError(f"earlier is {earlier!r}, and not what an earlier search found")
    if hasattr(election, "budget_limit"):
        election, outcome = _election_of(election, outcome, budget_allocation), None
    elif budget_allocation is not None:
        raise TypeError("a budget allocation is given, and no instance: an outcome of files is an outcome file")
    from .search import Seeker
    found = Found()
    try:
        seeker = Seeker(found, election, outcome, wanted, on_progress, on_found)
        found.groups = groups_by_cost(seeker.given.election, seeker.given.outcome)
        if earlier is not None:
            seeker.take(earlier)
        seeker.run()
    except KeyboardInterrupt:
        raise Stopped(found) from None
    return found


def find_folder(path: Path, executor: Optional[Executor] = None, *, output: Optional[Path] = None, stable: bool = False,
                cover: bool = False, prices: bool = True, refutation: bool = True, violation: bool = True,
                seconds: float = SECONDS, replace: bool = False, resume: bool = False,
                on_progress: Optional[Callable[[str], None]] = None,
                on_result: Optional[Callable[[FoundRow], None]] = None) -> FoundFolder:
    """Looks for certificates of all elections of a folder, as `find --folder`: writes them and the table `found.csv`
    beside the elections, or to the folder `output`, and nothing over a file that is there unless `replace`. A certificate
    that is there is audited, and isn't looked for again where it is of the form that is asked for. One that no longer
    belongs to the outcome is named in the row, and with `replace` removed.

    Without an executor it works in processes of its own, one for each processor. With one each election is a task of it:
    a `ProcessPoolExecutor`, or a Dask cluster by `client.get_executor()`, whose workers have to see both folders under the
    same paths and need this package and scipy. Where a worker is lost its election is looked at here. The switches and
    `seconds`, which are for each election, are as for `find`. `on_result` is called with each row as soon as it is known.

    What is found is written at once. Ctrl+C has the table written too, and raises Stopped, a KeyboardInterrupt whose
    `found` has the rows. `resume` goes on with a search: the table of an earlier one is written anew, no other file is
    written over, and only certificates that aren't there are looked for.

    Raises OSError where the folder can't be listed, nothing can be written to `output`, which is known before the search,
    or the table can't be; FileExistsError where that is there; TypeError for what is no executor; and ValueError and
    ImportError as `find`.

    >>> print(find_folder("elections", output="mine", violation=False).rows[0].prices)
    with Cover
    """
    wanted = _wanted(stable, cover, prices, refutation, violation, seconds)
    from ..folders import check_executor, folder_path
    from .folders import TABLE, Folder, entries_in, is_table, table_file
    from .writing import check_folder, write_new
    check_executor(executor)
    checked_call("on_progress", on_progress)
    checked_call("on_result", on_result)
    is_replaced, is_resumed, folder = switch("replace", replace), switch("resume", resume), folder_path(path)
    if is_replaced and is_resumed:
        raise ValueError("replace writes over what resume keeps")
    target = folder if output is None else folder_path(output)
    table = os.path.join(target, TABLE)
    if os.path.lexists(table) and not (is_replaced or is_resumed and is_table(table)):
        raise FileExistsError(errno.EEXIST, os.strerror(errno.EEXIST), table)
    check_folder(target)
    search, is_stopped = Folder(entries_in(folder), target, wanted, is_replaced, executor, on_result), False
    try:
        search.run(on_progress or (lambda _: None))
    except KeyboardInterrupt:
        is_stopped = True
    write_new(table, table_file(search.rows()), is_replaced or is_resumed)
    found = FoundFolder(tuple(search.rows()), search.status())
    if is_stopped:
        raise Stopped(found)
    return found


def smallest_relaxation(instance: AnyInstance, profile: Union[Profile, Mapping[Any, int]],
                        budget_allocation: Iterable[AnyProject], by: By = "min_mul", *, stable: bool = True,
                        cover: bool = False, seconds: float = SECONDS,
                        on_progress: Optional[Callable[[str, float], None]] = None) -> Optional[Relaxation]:
    """How far an outcome is from prices: the smallest `beta` by which there are prices if each unfunded project may cost
    `beta` times as much (`by` "min_mul"), or `beta` more ("min_add", in the currency), as with the relaxations MinMul and
    MinAdd of pabutools. It is more than 1, or than 0, where there are no prices in this form. The condition that gives way
    is S5, or without `stable` C5. `cover` asks for voter budgets that are together more than the limit. The values are
    taken as by `find`, and `seconds` is how long it may take.

    The prices are exact, and the auditor accepts them in the election with those costs, so that `beta` is enough. That no
    smaller one is, is what the solver says. The answer is None where no prices were found. Raises ValueError where nobody
    approves an unfunded project, TypeError, MemoryError, and ImportError where scipy isn't installed.

    >>> town, ballots = Instance([Project("park", 2), Project("school", 8)], 8), [["park"]] * 2 + [["school"]] * 2
    >>> relaxed = smallest_relaxation(town, ballots, ["school"], by="min_add")
    >>> round(float(relaxed.beta), 2), relaxed.price_system.status
    (6.0, 'supported stable')
    """
    if by not in ("min_mul", "min_add"):
        raise ValueError(f"by is {by!r}, not 'min_mul' or 'min_add'")
    wanted = _wanted(stable, cover, True, False, False, seconds)
    checked_call("on_progress", on_progress)
    from .relaxing import relaxed
    election = _election_of(instance, profile, budget_allocation)
    return relaxed(election, by, wanted.stable, wanted.cover, Clock(wanted.seconds, on_progress))


def largest_voter_budget(instance: AnyInstance, profile: Union[Profile, Mapping[Any, int]],
                         budget_allocation: Iterable[AnyProject], *, stable: bool = False, seconds: float = SECONDS,
                         on_progress: Optional[Callable[[str, float], None]] = None) -> Optional[PriceCertificate]:
    """Prices that support an outcome with a voter budget that is as large as can be, but for a millionth mostly: exact
    ones, which the auditor accepts, with Exhaustive where the outcome is. That no larger budget is possible is what the
    solver says. None where no prices were found, as where there are none. The values are taken as by `find`, and
    `seconds` is how long it may take. Raises ValueError where nobody approves an unfunded project, since then any budget
    will do, TypeError, MemoryError, and ImportError where scipy isn't installed.

    >>> town, ballots = Instance([Project("park", 2), Project("school", 4)], 4), [["park"]] * 2 + [["school"]] * 4
    >>> made = largest_voter_budget(town, ballots, ["school"])
    >>> round(float(made.price_system.voter_budget), 3), made.status
    (1.0, 'supported priceable')
    """
    wanted = _wanted(stable, False, True, False, False, seconds)
    checked_call("on_progress", on_progress)
    from .relaxing import with_largest_budget
    election = _election_of(instance, profile, budget_allocation)
    return with_largest_budget(election, wanted.stable, Clock(wanted.seconds, on_progress))


def _election_of(instance: AnyInstance, profile: Union[Profile, Mapping[Any, int]],
                 budget_allocation: Optional[Iterable[AnyProject]]) -> bytes:
    """Values as an election file with an outcome."""
    if budget_allocation is None:
        raise TypeError("an instance is given, and no budget allocation")
    return write_election(instance, each_ballot(profile), budget_allocation)


def _wanted(stable: bool, cover: bool, prices: bool, refutation: bool, violation: bool, seconds: float) -> Wanted:
    """What is looked for. Raises ValueError where that is nothing, and TypeError for what isn't of its kind."""
    given = {"stable": stable, "cover": cover, "prices": prices, "refutation": refutation, "violation": violation}
    switches = {name: switch(name, value) for name, value in given.items()}
    if not any(switches[name] for name in ("prices", "refutation", "violation")):
        raise ValueError("neither prices nor a refutation nor violations are looked for")
    if isinstance(seconds, bool) or not isinstance(seconds, Real):
        raise TypeError(f"seconds is {seconds!r}, not a number")
    if not seconds >= 0:
        raise ValueError(f"seconds is {seconds!r}, and a search takes at least 0")
    return Wanted(**switches, seconds=float(seconds))
