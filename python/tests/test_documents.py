"""The examples of docs/LIBRARY.md, which print what stands there, and the job array of docs/MANY.md."""
import contextlib
import io
import os
import pathlib
import re
import shlex
import shutil
import subprocess
import sys
import tempfile
import textwrap
import unittest
from unittest import mock

import pbaudit

REPOSITORY = pathlib.Path(__file__).resolve().parents[2]
EXAMPLES = REPOSITORY / "examples"
PROGRAM = REPOSITORY / "crates" / "pbaudit" / "out" / "pbaudit"


def blocks(page="LIBRARY.md"):
    """The indented blocks of a page."""
    told = (REPOSITORY / "docs" / page).read_text(encoding="utf-8")
    return [textwrap.dedent(block) for block in re.findall(r"(?:(?<=\n\n)|(?<=\A))(?:    .*\n|\n(?=    ))+", told)]


def block(begin, page="LIBRARY.md"):
    """The one that begins so."""
    found, = (each for each in blocks(page) if each.startswith(begin))
    return found


def put_on_the_path(case):
    """Has a program pbaudit on the PATH while a test runs."""
    room = tempfile.TemporaryDirectory()
    case.addCleanup(room.cleanup)
    program = pathlib.Path(room.name, "pbaudit")
    program.write_text(f"#!/bin/sh\nexec {shlex.quote(str(PROGRAM))} \"$@\"\n", encoding="utf-8")
    program.chmod(0o755)
    path = mock.patch.dict(os.environ, PATH=os.pathsep.join([room.name, os.environ["PATH"]]))
    path.start()
    case.addCleanup(path.stop)


def without_pbaudit():
    """The environment without the folders of the PATH that have a pbaudit."""
    folders = os.environ["PATH"].split(os.pathsep)
    path = os.pathsep.join(folder for folder in folders if not os.path.exists(os.path.join(folder, "pbaudit")))
    return {**os.environ, "PATH": path}


class Library(unittest.TestCase):
    def setUp(self):
        put_on_the_path(self)
        room = tempfile.TemporaryDirectory()
        self.addCleanup(room.cleanup)
        self.room = room.name

    def test_python_values(self):
        values, out = {}, io.StringIO()
        with contextlib.redirect_stdout(out):
            exec(block("from pbaudit import Instance"), values)
        self.assertEqual(out.getvalue(), block("supported priceable\nFalse"))
        with contextlib.redirect_stdout(io.StringIO()) as near:
            exec(block("five = "), values)
        self.assertEqual(near.getvalue(), "failed C3 project a\n")
        self.assertIn("\nprints `failed C3 project a`", (REPOSITORY / "docs" / "LIBRARY.md").read_text(encoding="utf-8"))
        rounds = block("from pbaudit import price_certificate").replace("town.prices.csv", f"{self.room}/town.prices.csv")
        exec(rounds, values)
        town = pbaudit.write_election(values["instance"], values["profile"], [values["a"], values["b"]])
        self.assertTrue(pbaudit.audit_prices(town, f"{self.room}/town.prices.csv"))

    def test_the_names_of_pabutools(self):
        values = {}
        with contextlib.redirect_stdout(io.StringIO()):
            exec(block("from pbaudit import Instance"), values)
        with contextlib.redirect_stdout(io.StringIO()) as out:
            exec(block("import pbaudit\n\nsystem = "), values)
        self.assertIn(f"\nprints `{out.getvalue().rstrip()}`. The `status` is",
                      (REPOSITORY / "docs" / "LIBRARY.md").read_text(encoding="utf-8"))

    def test_a_refutation(self):
        values, out = {"Instance": pbaudit.Instance, "Project": pbaudit.Project}, io.StringIO()
        with contextlib.redirect_stdout(out):
            exec(block("from pbaudit import audit_refutation"), values)
        self.assertIn(f"\nprints `{out.getvalue().rstrip()}`. Their share",
                      (REPOSITORY / "docs" / "LIBRARY.md").read_text(encoding="utf-8"))

    def test_groups(self):
        values = {"Instance": pbaudit.Instance, "Project": pbaudit.Project}
        with in_folder(REPOSITORY), contextlib.redirect_stdout(io.StringIO()) as out:
            exec(block("from pbaudit import audit_groups"), values)
        self.assertEqual(out.getvalue(), block("y (1, 2, 3) 9 8"))

    def test_verifying_files(self):
        """An answer, a no, and a file of another kind, with what they print."""
        with in_folder(REPOSITORY), contextlib.redirect_stdout(io.StringIO()) as out:
            exec(block("from pbaudit import Refusal, audit_prices"), {})
        self.assertEqual(out.getvalue(), block("True supported priceable"))

    def test_equal_shares(self):
        _, command, election, *words = block("~/pbaudit/bin/pbaudit equal-shares").split()
        given = {**os.environ, "PYTHONPATH": os.pathsep.join(filter(None, sys.path))}
        done = subprocess.run([sys.executable, "-m", "pbaudit", command, REPOSITORY / election, *words], cwd=self.room,
                              capture_output=True, text=True, env=given, check=False)
        printed = done.stdout.replace(f"{REPOSITORY}/", "")
        self.assertEqual((printed, done.stderr, done.returncode), (block("60 voters"), "", 0))


class C(unittest.TestCase):
    def test_the_functions(self):
        """The table has all exports of the header but the one that is shown, and some of the functions over that one: each with
        its arguments in order but for lengths, facts and the last three."""
        header = (REPOSITORY / "include" / "pbaudit.h").read_text(encoding="utf-8")
        declared = re.findall(r"uint8_t (pbaudit_\w+)\(([^)]*)\)(;?)", header)
        owed = {name: [word for word in re.findall(r"(\w+)(?:,|$)", words)
                       if not word.endswith("_length") and word not in ("facts", "out", "room", "needed")]
                for name, words, _ in declared}
        table = (REPOSITORY / "docs" / "LIBRARY.md").read_text(encoding="utf-8").split("## From C\n")[1]
        told = {name: re.findall(r"`(\w+)`", words)
                for names, words in re.findall(r"^\| (`pbaudit_.*?) \| (.*) \|$", table, re.MULTILINE)
                for name in re.findall(r"`(pbaudit_\w+)`", names)}
        self.assertEqual(told.pop("pbaudit_prices"), [])
        self.assertEqual(told, {name: owed.get(name) for name in told})
        self.assertEqual({name for name, _, end in declared if end} - {*told}, {"pbaudit_answer"})

    def test_a_call(self):
        """With the prototype that is shown, which a compiler refuses where it isn't that of the header."""
        files = {"election": "district.pb", "certificate": "district.short.prices.csv"}
        arrays = [f"static const uint8_t {name}[] = {{{','.join(map(str, (EXAMPLES / file).read_bytes()))}}};\n"
                  f"size_t {name}_length = sizeof {name};\n" for name, file in files.items()]
        with tempfile.TemporaryDirectory() as room:
            source = pathlib.Path(room, "call.c")
            source.write_text("#include <pbaudit.h>\n#include <stdio.h>\n" + block("uint8_t pbaudit_answer(uint8_t")
                              + "int main(void) {\n" + "".join(arrays) + block("uint8_t text[4096]")
                              + "return status;\n}\n", encoding="utf-8")
            words = ["-I", REPOSITORY / "include", REPOSITORY / "lib" / "libpbaudit.a", "-o", f"{room}/call"]
            subprocess.run(["cc", "-Wall", "-Werror", source, *words], check=True)
            done = subprocess.run([f"{room}/call"], capture_output=True, check=False)
        self.assertEqual((done.returncode, done.stdout), (1, b"failed C3 project 101\n"))


class JobArray(unittest.TestCase):
    """The commands for Slurm, with an `sbatch` that runs the tasks one after the other."""

    def test_the_commands(self):
        with tempfile.TemporaryDirectory() as room:
            elections = pathlib.Path(room, "elections")
            elections.mkdir()
            kinds = [("sample.pb", "sample.prices.csv"), ("sample.pb", "sample.wrong.prices.csv"),
                     ("district.pb", "sample.prices.csv"), ("sample.pb", None)]
            for number in range(250):
                election, prices = kinds[number % len(kinds)]
                shutil.copy(EXAMPLES / election, elections / f"{number} a.pb")
                if prices:
                    shutil.copy(EXAMPLES / prices, elections / f"{number} a.prices.csv")
            pathlib.Path(room, "examples").symlink_to(EXAMPLES)
            script = "\n".join([
                f"pbaudit() {{ {shlex.quote(str(PROGRAM))} \"$@\"; }}; export -f pbaudit",
                'sbatch() { for at in $(seq 0 "${2#--array=0-}"); do SLURM_ARRAY_TASK_ID=$at "$3"; done; }',
                block("tasks=", "MANY.md")])
            done = subprocess.run(["bash", "-c", script], cwd=room, capture_output=True, text=True, check=False)
            wanted = subprocess.run([PROGRAM, "folder", elections], capture_output=True, text=True, check=False)
            self.assertEqual((done.stdout, done.stderr), (wanted.stdout, ""))
            self.assertEqual(len(os.listdir(f"{room}/parts")), 9)


@contextlib.contextmanager
def in_folder(folder):
    """As contextlib.chdir, which Python has from 3.11 on."""
    before = os.getcwd()
    os.chdir(folder)
    try:
        yield
    finally:
        os.chdir(before)
