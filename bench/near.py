#!/usr/bin/env python3
"""Measures the check of prices near a solver's, and certificates of these: the seconds of a processor.

    python3 bench/near.py [--voters N] [--projects N] [--seeds N] [--seconds S]

The prices are corners of a linear program, where as many conditions as can be hold exactly, of invented elections of
three kinds with the outcomes of five rules; and the same with an unfunded copy of a funded project, which leaves the stable
form no room. Of each form it tells how many there were, how many were answered yes, and the longest that one took, within S
seconds (60). The library or the program has to be built, and scipy installed.
"""
import argparse
import importlib.util
import os
import sys
import time

TOP = os.path.dirname(os.path.dirname(os.path.abspath(__file__)))
sys.path[:0] = [os.path.join(TOP, "python"), os.path.join(TOP, "python", "tests")]
import pbaudit  # noqa: E402


def is_yes(ask, *words, **more):
    try:
        return bool(ask(*words, **more))
    except pbaudit.CannotKeep:
        return False


def measure(name, corners, words, seconds):
    """A line for each form and each call."""
    asked = {"validate_price_system": {"near": True}, "price_certificate": {}}
    told = {}
    for case, stable, _, given in corners:
        for call, more in asked.items():
            began = time.process_time()
            found = is_yes(getattr(pbaudit, call), *words(case), *given, stable, False, seconds=seconds, **more)
            took = time.process_time() - began
            count, yes, longest = told.get((stable, call), (0, 0, 0.0))
            told[stable, call] = count + 1, yes + found, max(longest, took)
    for (stable, call), (count, yes, longest) in sorted(told.items()):
        print(f"{name}, {'stable' if stable else 'plain'}, {call}: {yes} of {count} yes, {longest:.2f} s at most", flush=True)


def given():
    words = argparse.ArgumentParser(description=__doc__, formatter_class=argparse.RawDescriptionHelpFormatter)
    words.add_argument("--voters", type=int, default=300)
    words.add_argument("--projects", type=int, default=40)
    words.add_argument("--seeds", type=int, default=6)
    words.add_argument("--seconds", type=float, default=60.0)
    asked = words.parse_args()
    if min(asked.voters, asked.projects, asked.seeds) < 1 or not asked.seconds >= 0:
        words.error("there is at least one voter, one project and one seed, and no time below 0")
    if importlib.util.find_spec("scipy") is None:
        words.error("scipy is not installed")
    return asked


def main():
    asked = given()
    from test_corners import WANTED, corners, with_clones, words
    size = ((asked.voters, asked.projects),)
    measure("corners", corners(range(asked.seeds), size), words, asked.seconds)
    measure("with a copy", corners(range(asked.seeds), size, WANTED[2:], with_clones), words, asked.seconds)


if __name__ == "__main__":
    try:
        main()
    except ImportError as why:
        sys.exit(f"the library or the program has to be built: {why}")
