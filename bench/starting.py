#!/usr/bin/env python3
"""Measures how long commands take to start: the best and the middle of 100 runs of COMMAND --version, by the clock.

    python3 bench/starting.py COMMAND..     as crates/pbaudit/out/pbaudit ~/pbaudit/bin/pbaudit
"""
import argparse
import os
import shutil
import subprocess
import time

RUNS = 100


def taken(command):
    began = time.perf_counter()
    subprocess.run([command, "--version"], stdin=subprocess.DEVNULL, stdout=subprocess.DEVNULL, check=True)
    return (time.perf_counter() - began) * 1000


def main():
    words = argparse.ArgumentParser(description=__doc__, formatter_class=argparse.RawDescriptionHelpFormatter)
    words.add_argument("commands", metavar="COMMAND", nargs="+")
    asked = words.parse_args()
    for command in asked.commands:
        if shutil.which(command) is None or os.path.isdir(command):
            words.error(f"there is no command {command}")
    for command in asked.commands:
        times = sorted(taken(command) for _ in range(RUNS))
        print(f"{times[0]:6.1f} ms at best, {times[RUNS // 2]:6.1f} ms in the middle: {command}")


if __name__ == "__main__":
    main()
