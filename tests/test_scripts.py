"""How the scripts of bench/ and docs/files.py end where they can't do their work: each tells what it is for by --help, and else says
what is wrong in a line or by its usage, and never by a traceback."""
import ast
import os
import shutil
import subprocess
import sys

import pytest

from common import TOP

SCRIPTS = [*sorted((TOP / "bench").glob("*.py")), TOP / "docs/files.py"]
# Words that each can't take, by the script's name.
WRONG = {
    "bench.py": [[], ["--unknown"], ["missing"], [sys.executable, "1"], [sys.executable, "10", "7"], [sys.executable, "x", "y"],
                 [sys.executable, "10", "10", "--plain=missing"]],
    "calls.py": [[], [sys.executable], ["missing", "/", "/"], [sys.executable, "missing", "missing"]],
    "certificates.py": [["word"], ["--voters", "0"], ["--elections", "many"]],
    "ending.py": [["word"], ["--elections", "0"], ["--processors", "many"], ["--seconds", "-1"]],
    "files.py": [["pb_none"]],
    "finding.py": [["missing"], ["/"], ["--unknown"], ["--different", sys.executable]],
    "hostile.py": [[], ["--small"], ["--program", "missing"], ["--program", "/"], ["--library", "missing"], ["--page", "missing"],
                   ["--package", "missing"], [sys.executable], ["--program", sys.executable, "--only", "none"]],
    "near.py": [["word"], ["--voters", "0"], ["--seeds", "many"], ["--seconds", "-1"]],
    "prices.py": [[], ["one"], ["--unknown"]],
    "python_values.py": [["10"], ["0", "10"], ["a", "b"], ["10", "7"], ["--unknown"]],
    "starting.py": [[], ["missing"], ["/"]],
    "web.py": [[], ["page"], ["page", "missing"], ["page", sys.executable, "3"], ["page", sys.executable, "--folder", "0"],
               ["page", sys.executable, "--folder", "many"], ["page", sys.executable, "10", "10", "--folder", "1"]],
}  # fmt: skip


def run(script, *words, **how):
    return subprocess.run([sys.executable, script, *words], capture_output=True, text=True, timeout=600, **how)


def test_there_are_wrong_words_for_each_script():
    assert sorted(WRONG) == sorted(script.name for script in SCRIPTS)


@pytest.mark.parametrize("script", SCRIPTS, ids=lambda script: script.name)
def test_help(script):
    told = run(script, "--help")
    assert (told.returncode, told.stderr) == (0, "")
    assert ast.get_docstring(ast.parse(script.read_text())).splitlines()[0] in told.stdout


@pytest.mark.parametrize("script, words", [(script, words) for script in SCRIPTS for words in WRONG.get(script.name, [])])
def test_wrong_words(script, words):
    told = run(script, *words)
    assert told.returncode and told.stderr and not told.stdout and "Traceback" not in told.stderr


@pytest.mark.parametrize("name, words", [
    ("python_values.py", ["10", "8"]), ("certificates.py", ["--elections", "1", "--voters", "1000"]),
    ("near.py", ["--voters", "5", "--projects", "4", "--seeds", "1"]), ("ending.py", ["--elections", "1"]),
])  # fmt: skip
def test_nothing_is_built(room, name, words):
    """Where neither the library nor the program is there, the scripts that need one say so."""
    for folder in ("bench", "python"):
        shutil.copytree(TOP / folder, room / folder, ignore=shutil.ignore_patterns("*.so*", "__pycache__"))
    told = run(room / "bench" / name, *words, env={**os.environ, "PATH": "/nowhere"})
    assert told.returncode and len(told.stderr.splitlines()) == 1
    assert "the library or the program has to be built" in told.stderr


def test_what_is_measured(program):
    """Each command of bench.py is timed on files to which the answer is yes."""
    told = run(TOP / "bench/bench.py", program, "60", "20")
    assert (told.returncode, told.stderr) == (0, "")
    answers = ["read 60 voters 20 projects 10 funded", "supported priceable", "supported stable", "supported priceable",
               "<!DOCTYPE html>", "violation", "unpriceable cover", "pb-prices,1"]  # fmt: skip
    lines = told.stdout.splitlines()[1:]
    assert len(lines) == len(answers)
    assert [line for line, answer in zip(lines, answers) if not line.endswith(f" {answer}")] == []


def test_javascript_is_measured(page, program):
    """On a folder beside the program, without a browser."""
    told = run(TOP / "bench/web.py", page, program, "--folder", "2")
    assert (told.returncode, told.stderr) == (0, "")
    assert told.stdout.startswith("2 elections in a folder: the program ") and told.stdout.count("\n") == 1


def test_closed_pipe():
    """Whoever reads the first line alone gets that, and no traceback beside it."""
    with subprocess.Popen([sys.executable, TOP / "docs/files.py"], stdout=subprocess.PIPE, stderr=subprocess.PIPE, text=True,
                          bufsize=1) as running:  # fmt: skip
        first = running.stdout.readline()
        running.stdout.close()
        told = running.stderr.read()
    lowest = next(it for it in (TOP / "crates.txt").read_text().splitlines() if not it.startswith("#")).split(":")[0]
    assert (first, told) == (f"crates/{lowest}\n", "")
