#!/usr/bin/env python3
"""Measures the commands of pbaudit on elections that it makes up: the time, best of three, and the greatest memory.

    python3 bench/bench.py PROGRAM [VOTERS PROJECTS] [--peer] [--plain=PLAIN]

PROGRAM is release/pbaudit, or crates/pbaudit/out/pbaudit. Without VOTERS and PROJECTS it goes through a few sizes.

Every voter approves 8 projects and pays one amount for each of those that are funded, so that each funded project costs
what is paid for it. An unfunded project costs as much as its supporters' budgets together. So the prices support the
outcome in both forms, and every condition is gone through to its end. The group of the violation certificate is all
supporters of the first project, who demand it, and by the outcome file nothing is funded. The refutation weighs every
project, and holds for another outcome, by which every fourth of these projects is funded. Less memory than that of
Python itself, about 12 MB, is not told apart. With --peer the script bench/prices.py answers the same question beside 'prices'. With --plain the program PLAIN
answers those of 'read' and 'violation' beside them: bench/plain/build FOLDER builds it from Rust as FOLDER/release/plain.
"""
import argparse
import os
import random
import sys
import tempfile
import time

APPROVALS = 8
PAYMENT, BUDGET = 100, 1000
SIZES = [(1_000, 100), (10_000, 100), (100_000, 100), (100_000, 1_000)]


def arguments(text, *names):
    """What reads the arguments of a script, of which text tells; 'program' is one that can be run."""
    words = argparse.ArgumentParser(description=text, formatter_class=argparse.RawDescriptionHelpFormatter)
    for name in names:
        words.add_argument(name, type=a_program if name == "program" else str)
    return words


def a_program(path):
    if not (os.path.isfile(path) and os.access(path, os.X_OK)):
        raise argparse.ArgumentTypeError(f"there is no program {path}")
    return os.path.abspath(path)


def sizes_of(words, given, usual):
    """The pairs of voters and projects that were given, or else the usual ones."""
    if not given:
        return usual
    if len(given) != 2 or given[0] < 1 or given[1] < APPROVALS:
        words.error(f"VOTERS PROJECTS are two numbers, at least 1 and {APPROVALS}")
    return [tuple(given)]


def write_election(path, voters, projects):
    """Writes an election in which the projects of even number are funded, and returns the ballots."""
    chance = random.Random(1)
    ballots = [sorted(chance.sample(range(projects), APPROVALS)) for _ in range(voters)]
    supporters = [0] * projects
    for ballot in ballots:
        for project in ballot:
            supporters[project] += 1
    costs = [max(1, count * (BUDGET if j % 2 else PAYMENT)) for j, count in enumerate(supporters)]
    with open(path, "w") as out:
        limit = sum(costs[0::2])
        out.write(f"META\nkey;value\nbudget;{limit}\nvote_type;approval\nPROJECTS\nproject_id;cost;selected\n")
        out.writelines(f"p{j};{cost};{1 - j % 2}\n" for j, cost in enumerate(costs))
        out.write("VOTES\nvoter_id;vote\n")
        out.writelines(f"{i};{','.join(f'p{j}' for j in ballot)}\n" for i, ballot in enumerate(ballots))
    return ballots


# How the files of an election end, in the order of write_files.
ENDINGS = ("pb", "prices.csv", "violation.csv", "outcome.csv", "refutation.csv", "refutation.outcome.csv")


def write_files(election, prices, violation, outcome, refutation, refuted, voters, projects):
    ballots = write_election(election, voters, projects)
    with open(prices, "w") as out:
        out.write(f"pb-prices,1\ndenominator,100\nvoter_budget,{100 * BUDGET}\nvoter,project,payment\n")
        for i, ballot in enumerate(ballots, 1):
            out.writelines(f"{i},p{j},{100 * PAYMENT}\n" for j in ballot if j % 2 == 0)
    with open(violation, "w") as out:
        out.write("pb-violation,1\nproject,p0\n")
        out.writelines(f"voter,{i}\n" for i, ballot in enumerate(ballots, 1) if ballot[0] == 0)
    with open(outcome, "w") as out:
        out.write("pb-outcome,1\n")
    with open(refutation, "w") as out:
        out.write("pb-refutation,1\ncover,2000\nrole,project,weight\n")
        out.writelines(f"left,p{j},1\n" if j % 2 else f"left,p{j},1000\n" if j % 8 else f"most,p{j},3000\n" for j in range(projects))
    with open(refuted, "w") as out:
        out.write("pb-outcome,1\n")
        out.writelines(f"project,p{j}\n" for j in range(0, projects, 8))


def in_child(work, *words):
    """Works in another process, since what this one has taken counts as memory of the programs that it starts."""
    child = os.fork()
    if child == 0:
        work(*words)
        os._exit(0)
    if os.waitpid(child, 0)[1]:
        sys.exit("the files could not be made")


def run(program, words, out):
    """Runs the program once, and returns its seconds, its kilobytes and the first line that it writes."""
    with open(out, "wb") as sink:
        start = time.perf_counter()
        child = os.posix_spawn(program, [program, *words], os.environ, file_actions=[(os.POSIX_SPAWN_DUP2, sink.fileno(), 1)])
        _, _, used = os.wait4(child, 0)
        seconds = time.perf_counter() - start
    with open(out) as text:
        return seconds, used.ru_maxrss, text.readline().strip()


def measure(program, voters, projects, peer, plain):
    with tempfile.TemporaryDirectory() as room:
        files = [f"{room}/e.{ending}" for ending in ENDINGS]
        election, prices, violation, outcome, refutation, refuted = files
        out = f"{room}/out"
        in_child(write_files, *files, voters, projects)
        print(f"{voters} voters, {projects} projects, {os.path.getsize(election) / 1e6:.1f} MB, certificate {os.path.getsize(prices) / 1e6:.1f} MB")
        for words in (["read"], ["prices", prices], ["prices", prices, "--stable"], ["explain", prices], ["page", prices],
                      ["violation", violation, "--outcome", outcome], ["refutation", refutation, "--outcome", refuted],
                      ["tidy", prices]):
            command = [words[0], election, *words[1:]]
            tell(program, command, out)
        if plain:
            tell(plain, ["read", election], out)
            tell(plain, ["violation", election, violation, outcome], out)
        if peer:
            tell(sys.executable, [os.path.join(os.path.dirname(os.path.abspath(__file__)), "prices.py"), election, prices], out)


def tell(program, command, out):
    runs = [run(program, command, out) for _ in range(3)]
    shown = " ".join(os.path.basename(word) for word in command)
    print(f"  {min(it[0] for it in runs):7.2f} s {max(it[1] for it in runs) / 1000:7.1f} MB  {shown:54} {runs[0][2]}", flush=True)


def main():
    words = arguments(__doc__, "program")
    words.add_argument("size", nargs="*", type=int, metavar="VOTERS PROJECTS")
    words.add_argument("--peer", action="store_true")
    words.add_argument("--plain", type=a_program)
    given = words.parse_args()
    for voters, projects in sizes_of(words, given.size, SIZES):
        measure(given.program, voters, projects, given.peer, given.plain)


if __name__ == "__main__":
    main()
