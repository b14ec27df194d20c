#!/usr/bin/env python3
"""Measures the Python package on Python values, beside a plain check by Fractions: the time, that of a processor, each
the best of three, and the greatest memory that is taken on top, beside the size of the two files.

    python3 bench/python_values.py [VOTERS PROJECTS]     100000 and 150 unless they are given

The library or the program has to be built. Every voter approves 8 projects and pays an equal part of each that is
funded, as whole numbers, as Fractions, as rational numbers of gmpy2, in matrices, and as floats with the noise of a
solver. Calls on the two files are measured beside the program, by the time of a processor, the best of nine. Then the
Method of Equal Shares on an election of that size, as a function and as the command, and a folder of 500 elections of
300 voters: in one process, by a pool, and by Dask where it is installed.
"""
import os
import random
import resource
import subprocess
import sys
import tempfile
import time
import tracemalloc
from concurrent.futures import ProcessPoolExecutor
from fractions import Fraction

TOP = os.path.dirname(os.path.dirname(os.path.abspath(__file__)))
sys.path.insert(0, os.path.join(TOP, "python"))
os.environ["PYTHONPATH"] = os.path.join(TOP, "python")
import bench  # noqa: E402
import pbaudit  # noqa: E402
from pbaudit import Instance, Project  # noqa: E402
from pbaudit._places import program  # noqa: E402

APPROVALS, PAYMENT, BUDGET = bench.APPROVALS, 100, 1000
ELECTIONS = 500


def an_election(voters, projects):
    """An instance, a profile, and the funded projects, those of even number; what is left of the budgets is as much as
    the others cost."""
    chance = random.Random(1)
    ballots = [chance.sample(range(projects), APPROVALS) for _ in range(voters)]
    supporters = [0] * projects
    for ballot in ballots:
        for project in ballot:
            supporters[project] += 1
    costs = [max(1, count * (BUDGET if at % 2 else PAYMENT)) for at, count in enumerate(supporters)]
    made = [Project(f"p{at}", cost) for at, cost in enumerate(costs)]
    return Instance(made, sum(costs[::2])), [{made[at] for at in ballot} for ballot in ballots], made[::2]


def plain_check(instance, profile, funded, budget, payments):
    """What a user would write: Feasible, Exhaustive and C1 to C5 by Fractions."""
    chosen = set(funded)
    spent = sum(Fraction(project.cost) for project in chosen)
    left = [Fraction(budget) - sum(map(Fraction, mine.values())) for mine in payments]
    paid = {project: Fraction(0) for project in instance}
    remaining = {project: Fraction(0) for project in instance}
    for ballot, mine, rest in zip(profile, payments, left):
        for project, amount in mine.items():
            paid[project] += Fraction(amount)
            if amount and (project not in ballot or project not in chosen):
                return False
        for project in ballot:
            remaining[project] += rest
    return (spent <= instance.budget_limit and min(left) >= 0
            and all(paid[project] == project.cost for project in chosen)
            and all(remaining[project] <= project.cost and spent + project.cost > instance.budget_limit
                    for project in instance if project not in chosen))


def measure(what, work, files=None):
    """The time of some work, best of three, and with the files the memory that it takes on top."""
    seconds, worked = [], []
    for _ in range(3):
        began, at_work = time.perf_counter(), time.process_time()
        work()
        seconds.append(time.perf_counter() - began)
        worked.append(time.process_time() - at_work)
    memory = ""
    if files:
        tracemalloc.start()
        work()
        peak = tracemalloc.get_traced_memory()[1]
        tracemalloc.stop()
        memory = f"  {peak / 1e6:6.1f} MB, {peak / files:.1f} times the files"
    print(f"{min(seconds):7.2f} s {min(worked):7.2f} s  {what:44}{memory}", flush=True)


def measure_values(voters, projects):
    instance, profile, funded = an_election(voters, projects)
    chosen, noise = set(funded), random.Random(2)
    whole = [{project: PAYMENT for project in ballot if project in chosen} for ballot in profile]
    exact = [{project: Fraction(amount) for project, amount in mine.items()} for mine in whole]
    floats = [{project: amount + noise.uniform(-1e-5, 1e-5) for project, amount in mine.items()} for mine in whole]
    words = instance, profile, funded, BUDGET
    made = pbaudit.price_certificate(*words, floats)
    election = pbaudit.write_election(instance, profile, funded)
    files = len(election) + len(made.file)
    sizes = f"election {len(election) / 1e6:.1f} MB, certificate {len(made.file) / 1e6:.1f} MB"
    print(f"{voters} voters, {projects} projects: {sizes}")
    measure("audit_prices of the files", lambda: pbaudit.audit_prices(election, made.file))
    measure("plain Fractions", lambda: plain_check(*words, exact))
    measure("validate_price_system, whole numbers", lambda: pbaudit.validate_price_system(*words, whole), files)
    measure("validate_price_system, Fractions", lambda: pbaudit.validate_price_system(*words, exact), files)
    measure_rationals(*words, whole, files)
    measure_matrices(*words, whole, files)
    measure("price_certificate, whole numbers", lambda: pbaudit.price_certificate(*words, whole), files)
    measure("price_certificate, floats", lambda: pbaudit.price_certificate(*words, floats), files)
    measure("price_certificate, floats, stable", lambda: pbaudit.price_certificate(*words, floats, True), files)
    measure_beside_the_program(election, made.file)


def measure_beside_the_program(election, certificate):
    """Calls on files, and the commands that answer the same."""
    found = program()
    if found is None:
        print("          the program isn't built")
        return
    with tempfile.TemporaryDirectory() as room:
        town, prices = f"{room}/town.pb", f"{room}/town.prices.csv"
        for path, data in ((town, election), (prices, certificate)):
            with open(path, "wb") as file:
                file.write(data)
        for name, call, words in (
            ("read", lambda: pbaudit.read(town), ["read", town]),
            ("audit_prices", lambda: pbaudit.audit_prices(town, prices), ["prices", town, prices]),
            ("explain", lambda: pbaudit.explain(town, prices), ["explain", town, prices]),
            ("audit_groups", lambda: pbaudit.audit_groups(town), ["groups", town]),
        ):
            both = [(worked_by(call), worked_by(lambda: subprocess.run([found, *words], capture_output=True, check=False)))
                    for _ in range(9)]
            own, other = min(mine for (mine, _), _ in both), min(its for _, (_, its) in both)
            print(f"{own:7.3f} s, the program {other:7.3f} s, {own / other:4.2f} times  {name}", flush=True)


def worked_by(work):
    """For how many seconds a processor does some work in this process, and in those that it starts."""
    def worked():
        used = map(resource.getrusage, (resource.RUSAGE_SELF, resource.RUSAGE_CHILDREN))
        return [each.ru_utime + each.ru_stime for each in used]
    before = worked()
    work()
    return tuple(after - ahead for after, ahead in zip(worked(), before))


def measure_rationals(instance, profile, funded, budget, payments, files):
    """The rational numbers of gmpy2, which pabutools uses."""
    try:
        from gmpy2 import mpq
    except ImportError:
        print("          gmpy2 isn't installed")
        return
    rational = [{project: mpq(amount) for project, amount in mine.items()} for mine in payments]
    words = instance, profile, funded, mpq(budget), rational
    measure("validate_price_system, mpq of gmpy2", lambda: pbaudit.validate_price_system(*words), files)


def measure_matrices(instance, profile, funded, budget, payments, files):
    try:
        import numpy
    except ImportError:
        print("          numpy isn't installed")
        return
    place = {project: at for at, project in enumerate(instance)}
    approvals, paid = (numpy.zeros((len(profile), len(place)), kind) for kind in ("int8", "int32"))
    for voter, (ballot, mine) in enumerate(zip(profile, payments)):
        approvals[voter, [place[project] for project in ballot]] = 1
        for project, amount in mine.items():
            paid[voter, place[project]] = amount
    words = instance, approvals, funded, budget, paid
    measure("validate_price_system, matrices", lambda: pbaudit.validate_price_system(*words), files)


def measure_shares(voters, projects):
    chance = random.Random(5)
    popular = [chance.random() ** 2 + 0.02 for _ in range(projects)]
    made = [Project(f"p{at}", chance.randint(voters // 5, 4 * voters)) for at in range(projects)]
    profile = [set(chance.choices(made, popular, k=APPROVALS)) for _ in range(voters)]
    instance = Instance(made, 50 * voters)
    for given in ({"by": "cost"}, {"by": "count"}, {"by": "cost", "completion": "add1"}):
        began, at_work = time.perf_counter(), time.process_time()
        shares = pbaudit.equal_shares(instance, profile, **given)
        told = " ".join(f"{key}={value}" for key, value in given.items())
        found = f"{len(shares.funded)} projects, {shares.runs} budgets"
        seconds = f"{time.perf_counter() - began:7.2f} s {time.process_time() - at_work:7.2f} s"
        print(f"{seconds}  equal_shares {told}: {found}", flush=True)
    measure_command(instance, profile)


def measure_command(instance, profile):
    """The command `equal-shares` in a process of its own: with reading the file, rounding and auditing."""
    with tempfile.TemporaryDirectory() as room:
        pbaudit.write_election(instance, profile, path=f"{room}/town.pb")
        began, before = time.perf_counter(), resource.getrusage(resource.RUSAGE_CHILDREN)
        words = [sys.executable, "-m", "pbaudit", "equal-shares", f"{room}/town.pb", "-o", f"{room}/town.prices.csv"]
        done = subprocess.run(words, stdout=subprocess.DEVNULL, check=False)
        after = resource.getrusage(resource.RUSAGE_CHILDREN)
        worked = after.ru_utime + after.ru_stime - before.ru_utime - before.ru_stime
        told = f"the command equal-shares, {after.ru_maxrss / 1000:.0f} MB, status {done.returncode}"
        print(f"{time.perf_counter() - began:7.2f} s {worked:7.2f} s  {told}", flush=True)


def measure_folder():
    with tempfile.TemporaryDirectory() as room:
        instance, profile, funded = an_election(300, 20)
        payments = [{project: PAYMENT for project in ballot if project in set(funded)} for ballot in profile]
        for number in range(ELECTIONS):
            pbaudit.write_election(instance, profile, funded, f"{room}/{number}.pb")
            pbaudit.write_prices(BUDGET, payments, f"{room}/{number}.prices.csv")
        print(f"a folder of {ELECTIONS} elections")
        measure("audit_folder, here", lambda: pbaudit.audit_folder(room))
        with ProcessPoolExecutor() as pool:
            measure("audit_folder, a pool of processes", lambda: pbaudit.audit_folder(room, pool))
        try:
            from dask.distributed import Client
        except ImportError:
            print("          Dask isn't installed")
            return
        with Client(n_workers=2, threads_per_worker=1, dashboard_address=None) as client:
            measure("audit_folder, two workers of Dask", lambda: pbaudit.audit_folder(room, client.get_executor()))


def main():
    words = bench.arguments(__doc__)
    words.add_argument("size", nargs="*", type=int, metavar="VOTERS PROJECTS")
    ((voters, projects),) = bench.sizes_of(words, words.parse_args().size, [(100_000, 150)])
    measure_values(voters, projects)
    measure_shares(voters, projects)
    measure_folder()


if __name__ == "__main__":
    try:
        main()
    except ImportError as why:
        sys.exit(f"the library or the program has to be built: {why}")
