"""The command that looks for certificates: what it writes and tells, how it ends, and what stops it."""
import contextlib
import csv
import dataclasses
import importlib
import importlib.util
import io
import os
import pathlib
import pty
import re
import shlex
import shutil
import signal
import subprocess
import sys
import tempfile
import time
import unittest
from concurrent.futures import Future, ProcessPoolExecutor, ThreadPoolExecutor
from fractions import Fraction
from multiprocessing import get_context
from unittest import mock

import pbaudit
from finding_cases import Case, cases
from pbaudit import helpers, shown
from pbaudit._auditor import Mode
from pbaudit.finding import command, telling, writing
from pbaudit.finding.results import Wanted
from pbaudit.folders import entries_of
from test_documents import block, put_on_the_path, without_pbaudit
from test_folders import HAS_DASK, cluster

REPOSITORY = pathlib.Path(__file__).resolve().parents[2]
EXAMPLES = REPOSITORY / "examples"
PROGRAM = REPOSITORY / "crates" / "pbaudit" / "out" / "pbaudit"
folders = importlib.import_module("pbaudit.finding.folders") if importlib.util.find_spec("scipy") else None
HAS_SCIPY = unittest.skipUnless(folders, "scipy isn't installed")
# Half of the voters can just pay for what is funded, and the others could just pay for what isn't.
TIE = Case("tie", [5, 5], 10, [[0]] * 5 + [[1]] * 5, [1])
# The share of a group is enough for what it wants, so that there are no prices.
ENOUGH = Case("enough", [4, 5], 10, [[0]] * 5 + [[1]] * 5, [1])
# Prices by the first sight, and no violation; and too many demands to try.
ENDLESS = Case("endless", [1] * 60, 50, [[(7 * voter + at) % 60 for at in range(30)] for voter in range(60)], range(50))


searched = getattr(folders, "searched", None)


def killed_at_fair(asked):
    """What a helper does that is killed at an election."""
    if asked.name == "fair":
        os.kill(os.getpid(), signal.SIGKILL)
    return searched(asked)


class LosingExecutor(ThreadPoolExecutor):
    """Loses one election, as a cluster does, and takes no more after so many."""

    most = 10

    def submit(self, work, asked, call):
        self.most -= 1
        if self.most < 0:
            raise RuntimeError("cannot schedule new futures after shutdown")
        if asked.name != "fair":
            return super().submit(work, asked, call)
        lost = Future()
        lost.set_exception(RuntimeError("the worker died"))
        return lost


def words_of(*words):
    return [sys.executable, "-m", "pbaudit", "find", *map(str, words)]


class Commands(unittest.TestCase):
    def setUp(self):
        self.room = pathlib.Path(tempfile.mkdtemp())
        self.addCleanup(shutil.rmtree, self.room)
        put_on_the_path(self)

    def put(self, name, case):
        path = self.room / name
        path.write_bytes(case.file() if isinstance(case, Case) else case)
        return path

    def run_find(self, *words, status=0, **given):
        done = subprocess.run(words_of(*words), capture_output=True, text=True, check=False, cwd=self.room, **given)
        self.assertEqual(done.returncode, status, done.stdout + done.stderr)
        return done

    def files(self, folder="."):
        return {path.name: path.read_bytes() for path in (self.room / folder).iterdir() if path.is_file()}


@HAS_SCIPY
class Found(Commands):
    def test_all_that_is_found(self):
        """The lines are the auditor's, the commands can be copied, and the files are those of the library."""
        town = self.put("my town.pb", TIE)
        done = self.run_find(town)
        found = pbaudit.find(town)
        self.assertEqual(done.stderr, "")
        prices, by_count, by_cost = (str(self.room / f"my town{ending}") for ending in (
            ".prices.csv", ".violation.csv", ".cost.violation.csv"))
        groups, check, *lines = done.stdout.splitlines()
        self.assertEqual((groups, check), (f"{town}: {found.groups}", f"  check it with: pbaudit groups '{town}'"))
        self.assertEqual(str(found.groups), str(pbaudit.audit_groups(town)))
        self.assertEqual(lines[::2][:3], [f"{prices}: supported priceable", f"{by_count}: violation",
                                          f"{by_cost}: violation"])
        self.assertEqual(lines[6:], found.sentences)
        self.assertEqual(len(found.sentences), 5)
        files = self.files()
        self.assertEqual(files.pop("my town.pb"), TIE.file())
        self.assertEqual(files, {"my town.prices.csv": found.prices.file, "my town.violation.csv":
                                 found.violations[0].file, "my town.cost.violation.csv": found.violations[1].file})
        for line, path in zip(lines[1:6:2], (prices, by_count, by_cost)):
            words = shlex.split(line.partition("check it with: ")[2])
            self.assertEqual(words[0:1] + words[2:4], ["pbaudit", str(town), path])
            if PROGRAM.exists():
                subprocess.run([PROGRAM, *words[1:]], check=True, stdout=subprocess.DEVNULL)

    def test_same_bytes(self):
        for name, case in (("tie", TIE), ("other", next(cases(7)))):
            for folder in ("one", "two"):
                self.run_find(self.put(f"{name}.pb", case), "--output", folder)
            self.assertEqual(self.files("one"), self.files("two"))

    def test_one_violation_has_the_usual_name(self):
        """Also where it is the one by cost."""
        town = Case("by cost", [5, 1, 4], 10, [[0, 1]] * 5 + [[2]] * 5, [1, 2])
        self.run_find(self.put("town.pb", town), "--violation")
        self.assertEqual(sorted(self.files()), ["town.pb", "town.violation.csv"])
        self.assertIn(b"satisfaction,cost\n", self.files()["town.violation.csv"])

    def test_what_is_asked_for(self):
        town = self.put("town.pb", TIE)
        for words, names in ((["--prices"], ["prices"]), (["--violation"], ["cost.violation", "violation"]),
                             (["--prices", "--stable"], ["prices"]), (["--refutation", "--cover"], ["refutation"])):
            self.run_find(town, *words, "--output", "out")
            self.assertEqual(sorted(self.files("out")), [f"town.{name}.csv" for name in names])
            shutil.rmtree(self.room / "out")
        done = self.run_find(town, "--prices", "--cover", "--output", "out", status=1)
        self.assertEqual(done.stdout.splitlines()[-1], "No prices with Cover were found: the linear programme has "
                         "none. It computes in rounded numbers, so that this is no proof.")
        self.assertFalse((self.room / "out").exists())
        done = self.run_find(town, "--refutation", "--output", "out", status=1)
        self.assertEqual(len(done.stdout.splitlines()), 3)
        self.assertIn("No refutation was found: ", done.stdout)

    def test_a_refutation(self):
        """Of all prices, and where these are asked for, of those with Cover."""
        for case, words, line in ((ENOUGH, [], "unpriceable"), (ENOUGH, ["--cover"], "unpriceable"),
                                  (TIE, ["--cover"], "unpriceable cover")):
            town = self.put("town.pb", case)
            done = self.run_find(town, *words, "--output", "out")
            path = f"out{os.sep}town.refutation.csv"
            self.assertEqual(done.stdout.splitlines()[2:4], [
                f"{path}: {line}", f"  check it with: pbaudit refutation {town} {path}"])
            self.assertTrue(pbaudit.audit_refutation(town, self.room / path))
            self.assertFalse((self.room / "out" / "town.prices.csv").exists())
            if PROGRAM.exists():
                subprocess.run([PROGRAM, "refutation", town, self.room / path], check=True, stdout=subprocess.DEVNULL)
            shutil.rmtree(self.room / "out")

    def test_the_options_of_what_was_found_are_told(self):
        town = self.put("town.pb", Case("room", [4, 1, 1], 10, [[0]] * 4 + [[1]], [0]))
        done = self.run_find(town, "--prices", "--stable")
        self.assertIn("town.prices.csv --stable --no-exhaustive\n", done.stdout)
        self.assertIn("p1 could be added within the limit, so that Exhaustive is left out.\n", done.stdout)

    def test_an_outcome_file(self):
        done = self.run_find(EXAMPLES / "district.pb", "--outcome", EXAMPLES / "district.other.outcome.csv", "--output",
                             "out")
        self.assertEqual(sorted(self.files("out")), ["district.cost.violation.csv", "district.refutation.csv",
                                                     "district.violation.csv"])
        self.assertRegex(done.stdout, "^.*district.pb: failed EJR[+] by cost voters ")
        for line in re.findall("check it with: pbaudit (.*)", done.stdout):
            self.assertIn("--outcome", line)
            if PROGRAM.exists():
                words = [PROGRAM, *shlex.split(line)]
                checked = subprocess.run(words, check=False, stdout=subprocess.DEVNULL, cwd=self.room)
                self.assertEqual(checked.returncode, int(words[1] == "groups"))

    def test_where_files_lie(self):
        """Beside the election; but where that is no regular file, in the current folder."""
        os.mkdir(self.room / "towns")
        self.put("towns/town.pb", TIE)
        self.run_find("towns/town.pb", "--prices")
        self.assertEqual(sorted(self.files("towns")), ["town.pb", "town.prices.csv"])
        done = subprocess.run(words_of("/dev/stdin", "--prices"), input=TIE.file(), cwd=self.room, capture_output=True,
                              check=True)
        self.assertEqual(done.stdout.splitlines()[2], b"stdin.prices.csv: supported priceable")
        self.assertEqual(list(self.files()), ["stdin.prices.csv"])

    def test_nothing_found(self):
        done = self.run_find(self.put("town.pb", ENOUGH), "--prices", status=1)
        self.assertIn("No prices were found: ", done.stdout)
        self.assertEqual(list(self.files()), ["town.pb"])

    def test_nothing_is_overwritten(self):
        """Nor looked for in vain: that is told first."""
        town = self.put("town.pb", TIE)
        for name in ("town.prices.csv", "town.refutation.csv", "town.violation.csv", "town.cost.violation.csv"):
            self.put(name, b"mine")
            done = self.run_find(town, status=3)
            self.assertIn(f"{self.room / name} is there already", done.stderr)
            self.assertEqual(self.files(), {"town.pb": TIE.file(), name: b"mine"})
            (self.room / name).unlink()
        self.put("town.violation.csv", b"mine")
        self.run_find(town, "--prices")
        self.assertEqual(self.files()["town.violation.csv"], b"mine")
        self.run_find(town, "--replace")
        self.assertTrue(self.files()["town.violation.csv"].startswith(b"pb-violation,2\n"))
        os.symlink("elsewhere", self.room / "out.pb.prices.csv")
        self.run_find(self.put("out.pb.pb", TIE), status=3)

    def test_what_no_longer_belongs(self):
        """Beside what is found it is named, and removed where files are replaced; but not where the outcome isn't the
        election's own."""
        town = self.put("town.pb", ENOUGH)
        prices = self.put("town.prices.csv", pbaudit.find(TIE.file(), violation=False).prices.file)
        done = self.run_find(town, "--refutation")
        self.assertIn(f"{prices} doesn't belong to this outcome: failed ", done.stdout)
        outcome = self.put("outcome.csv", pbaudit.write_outcome(["p1"]))
        done = self.run_find(town, "--outcome", outcome, "--replace")
        self.assertIn(f"{prices} doesn't belong to this outcome: failed ", done.stdout)
        self.assertIn("town.prices.csv", self.files())
        done = self.run_find(town, "--replace")
        self.assertIn(f"{prices} doesn't belong to this outcome, and was removed: failed ", done.stdout)
        self.assertNotIn("town.prices.csv", self.files())
        done = self.run_find(town, "--violation", "--replace")
        self.assertIn("town.refutation.csv was there before: unpriceable", done.stdout)

    def test_a_file_that_comes_meanwhile(self):
        path = self.put("town.prices.csv", b"theirs")
        with self.assertRaises(FileExistsError):
            writing.write_new(str(path), b"mine", replace=False)
        self.assertEqual(path.read_bytes(), b"theirs")
        writing.write_new(str(path), b"mine", replace=True)
        self.assertEqual(path.read_bytes(), b"mine")

    def test_a_folder_that_takes_no_files(self):
        """It is told before anything is looked for, but behind what is wrong with a file."""
        town = self.put("town.pb", ENDLESS)
        for folder in (town, town / "within"):
            for words in (("town.pb",), ("--folder", ".")):
                done = self.run_find(*words, "--time", "100000", "--output", folder, status=4)
                self.assertEqual((done.stdout, done.stderr),
                                 ("", f"fault write: {town}: Not a directory; --output writes elsewhere\n"))
            with self.assertRaisesRegex(NotADirectoryError, "Not a directory: '.*/town.pb'$"):
                pbaudit.find_folder(self.room, output=folder, seconds=10**6)
        done = self.run_find("missing.pb", "--output", town, status=2)
        self.assertEqual(done.stdout, "refused election 18 Read record 0\n")
        with mock.patch.object(os, "access", return_value=False), self.assertRaisesRegex(OSError, "Permission denied"):
            writing.check_folder(str(self.room / "new" / "folder"))
        writing.check_folder(str(self.room / "new" / "folder"))
        writing.check_folder("")

    def test_a_time_that_is_none(self):
        for word in ("0", "-1", "x", "nan", "1e8", ""):
            done = self.run_find("town.pb", f"--time={word}", status=3)
            self.assertIn(f"--time: {word!r} isn't a number of seconds above 0 and up to 10^7\n", done.stderr)

    def test_its_own_files_arent_replaced(self):
        town, outcome = self.put("town.pb", TIE), self.put("town.violation.csv", b"pb-outcome,1\nproject,p1\n")
        done = self.run_find(town, "--outcome", outcome, "--replace", status=3)
        self.assertIn("is --outcome", done.stderr)
        self.assertEqual(self.files()["town.violation.csv"], b"pb-outcome,1\nproject,p1\n")

    def test_it_cant_be_written(self):
        """What else was found is written all the same."""
        town = self.put("town.pb", TIE)
        os.mkdir(self.room / "town.prices.csv")
        fault = "fault write: town.prices.csv: Is a directory"
        done = self.run_find("town.pb", "--replace", status=4)
        self.assertEqual(done.stderr, f"{fault}\n")
        self.assertIn("There are prices that support this outcome.", done.stdout)
        written = {"town.violation.csv", "town.cost.violation.csv"}
        self.assertEqual(self.files().keys(), {"town.pb", *written})
        for name in written:
            os.unlink(self.room / name)
        done = self.run_find("--folder", ".", "--replace", status=4)
        self.assertEqual((done.stderr, self.files().keys()), (f"{fault.replace('town', './town')}\n", {"town.pb", "found.csv", *written}))
        self.assertIn(fault.replace("town", "./town"), self.files()["found.csv"].decode())
        os.rmdir(self.room / "town.prices.csv")
        with open("/dev/full", "w") as full:
            done = subprocess.run(words_of(town, "--replace"), stdout=full, stderr=subprocess.PIPE, text=True, check=False)
        self.assertEqual(done.returncode, 4)
        self.assertIn("fault write: ", done.stderr)

    def test_what_is_refused(self):
        done = self.run_find(EXAMPLES / "sample.prices.csv", status=2)
        self.assertEqual(done.stdout, "refused election 2 NoMeta record 1\n")
        self.assertIn("sample.prices.csv", done.stderr)
        done = self.run_find("missing.pb", status=2)
        self.assertEqual(done.stdout, "refused election 18 Read record 0\n")
        sample = self.put("sample.pb", (EXAMPLES / "sample.pb").read_bytes())
        done = self.run_find(sample, "--outcome", "missing.csv", status=2)
        self.assertEqual(done.stdout, "refused outcome 18 Read record 0\n")

    def test_usage(self):
        for words in ([], ["--prices", "--violation", "x.pb"], ["--prices", "--refutation", "x.pb"],
                      ["--time", "0", "x.pb"], ["--time", "nan", "x.pb"], ["--sta", "x.pb"],
                      ["--folder", ".", "--outcome", "x"], ["--folder", ".", "x.pb"]):
            self.run_find(*words, status=3)

    def test_without_scipy(self):
        """The message names it, and how to install it; nothing else of the package needs it."""
        program = ("import sys; sys.modules['scipy'] = None; from pbaudit.__main__ import main; "
                   "sys.exit(main(sys.argv[1:]))")
        town = self.put("town.pb", TIE)
        for words, status in ((["find", town], 4), (["find", "--folder", self.room], 4),
                              (["equal-shares", town, "-o", self.room / "x.csv"], 1), (["find", "--help"], 0)):
            done = subprocess.run([sys.executable, "-c", program, *map(str, words)], capture_output=True, text=True,
                                  check=False)
            self.assertEqual(done.returncode, status, done.stderr)
            if status == 4:
                self.assertIn("fault: scipy isn't installed", done.stderr)
                self.assertIn("pip install './python[find]'", done.stderr)
        told = subprocess.run([sys.executable, "-c", "import sys; sys.modules['scipy'] = sys.modules['numpy'] = None; "
                               "import pbaudit, pydoc; print('find(' in pydoc.plain(pydoc.render_doc(pbaudit)))"],
                              capture_output=True, text=True, check=False)
        self.assertEqual(told.stdout, "True\n", told.stderr)

    def test_a_command_without_the_program(self):
        """Where no pbaudit is on the PATH, the command that is told is that of the package, and works."""
        town = self.put("my town.pb", TIE)
        done = self.run_find(town, "--prices", env=without_pbaudit())
        groups, told = re.findall("check it with: (.*)", done.stdout)
        self.assertEqual(shlex.split(groups), [sys.executable, "-m", "pbaudit", "groups", str(town)])
        self.assertEqual(shlex.split(told)[:5], [sys.executable, "-m", "pbaudit", "prices", str(town)])
        checked = subprocess.run(["sh", "-c", told], capture_output=True, cwd=self.room, env=without_pbaudit(), check=False)
        self.assertEqual((checked.returncode, checked.stdout), (0, b"supported priceable\n"), checked.stderr)

    def test_hostile_names(self):
        """What doesn't print isn't printed, and a shell takes each name for what it is."""
        name = "a\x1b[2J\n$(touch hit)'\u202e\\.pb"
        done = self.run_find(self.put(name, TIE), "--prices")
        self.assertTrue(all(line.isprintable() for line in done.stdout.splitlines()), done.stdout)
        paths = [str(self.room / name), str(self.room / name[:-3]) + ".prices.csv"]
        for command, files in zip(re.findall("check it with: pbaudit (.*)", done.stdout), (paths[:1], paths)):
            told = subprocess.run(["bash", "-c", f"printf '%s\\0' {command}"], capture_output=True, text=True, check=True)
            self.assertEqual(told.stdout.split("\0")[1:len(files) + 1], files)
        self.assertFalse((self.room / "hit").exists())


@HAS_SCIPY
class Stopped(Commands):
    def stopped(self, words, at):
        """Interrupts a command, as the keyboard does, once its progress tells this: the output, the status, and what it told."""
        master, slave = pty.openpty()
        # A shell has what it begins in the background ignore the keyboard.
        given = {"stdout": subprocess.PIPE, "stderr": slave, "cwd": self.room, "start_new_session": True,
                 "preexec_fn": lambda: signal.signal(signal.SIGINT, signal.SIG_DFL)}
        with subprocess.Popen(words, **given) as command:
            os.close(slave)
            seen = b""
            while at not in seen:
                part = os.read(master, 1000)
                self.assertTrue(part, seen)
                seen += part
            os.killpg(command.pid, signal.SIGINT)
            while part:
                part = self.more_of(master)
                seen += part
            out = command.stdout.read().decode()
        os.close(master)
        return out, command.returncode, seen

    @staticmethod
    def more_of(terminal):
        try:
            return os.read(terminal, 1000)
        except OSError:
            return b""

    def test_what_was_found_is_kept(self):
        town = self.put("town.pb", ENDLESS)
        out, status, _ = self.stopped(words_of(town, "--time", "100000"), b"violation by")
        self.assertEqual(status, 0)
        self.assertIn("town.prices.csv: supported priceable\n", out)
        self.assertRegex(out, "\nThis was stopped while a violation by count(ing)? was looked for.\n$")
        self.assertEqual(sorted(self.files()), ["town.pb", "town.prices.csv"])
        self.assertTrue(pbaudit.audit_prices(town, self.room / "town.prices.csv", cover=True))

    def test_where_nothing_was_found(self):
        words = words_of(self.put("town.pb", ENDLESS), "--violation", "--time", "100000")
        out, status, _ = self.stopped(words, b" s left")
        self.assertEqual(len(out.splitlines()), 3)
        self.assertEqual((status, out.splitlines()[2]), (1, "This was stopped while a violation by counting was looked for."))
        self.assertEqual(list(self.files()), ["town.pb"])

    def test_a_folder(self):
        os.mkdir(self.room / "towns")
        self.put("towns/a.pb", TIE)
        self.put("towns/endless.pb", ENDLESS)
        out, status, told = self.stopped(words_of("--folder", "towns", "--time", "100000"), b"1 of 2 elections")
        self.assertEqual(status, 1)
        # That its workers end isn't that they are lost.
        self.assertNotIn(b"lost", told)
        self.assertIn("This was stopped before all elections were looked at.\n", out)
        self.assertLessEqual({"a.prices.csv", "found.csv"}, set(self.files("towns")))
        rows = list(csv.DictReader(self.files("towns")["found.csv"].decode().splitlines()))
        notes = {row["election"]: row["note"] for row in rows}
        self.assertEqual(notes, {"a.pb": "", "endless.pb": "not looked at"})

    def test_progress_is_for_terminals(self):
        done = self.run_find(self.put("town.pb", ENDLESS), "--time", "2")
        self.assertEqual(done.stderr, "")
        self.assertRegex(done.stdout, "No violation by counting was found: .*all demands of .* were tried. That "
                         "is no proof")


class Helpers(unittest.TestCase):
    def test_what_a_helper_answers(self):
        with helpers.Helper() as helper:
            self.assertEqual(helper.call(os.path.join, "a", "b"), "a/b")
            with self.assertRaises(FileNotFoundError):
                helper.call(os.listdir, "/missing")
            with self.assertRaises(helpers.Lost):
                helper.call(os.abort)
            self.assertEqual(helper.call(os.path.join, "c", "d"), "c/d")

    def test_a_helper_that_is_late(self):
        with helpers.Helper() as helper:
            helper.call(os.path.join, "a")
            process = helper._process
            with self.assertRaises(helpers.Late):
                helper.call(time.sleep, 10**6, seconds=0.0)
            self.assertEqual(process.wait(), -signal.SIGKILL)

    def test_a_helper_is_stopped_with_its_caller(self):
        def tick():
            raise KeyboardInterrupt
        with helpers.Helper() as helper:
            helper.call(os.path.join, "a")
            process = helper._process
            with self.assertRaises(KeyboardInterrupt):
                helper.call(time.sleep, 10**6, tick=tick)
            self.assertEqual(process.wait(), -signal.SIGKILL)

    def test_one_that_is_stopped_does_nothing_more(self):
        with helpers.Helper() as helper:
            helper.call(os.path.join, "a")
            helper.stop()
            for _ in range(2):
                with self.assertRaises(helpers.Lost):
                    helper.call(os.path.join, "a")
            self.assertIsNone(helper._process)

    def test_what_it_prints_isnt_an_answer(self):
        with helpers.Helper() as helper:
            self.assertEqual(helper.call(os.system, "echo hello"), 0)
            self.assertEqual(helper.call(os.path.join, "a", "b"), "a/b")


class Telling(unittest.TestCase):
    def test_words_for_a_shell(self):
        """bash takes each for what it is, and no letter is hidden."""
        for word in ("Za\u017c\u00f3\u0142\u0107 'x'", "a\x1b[31m\n\x9b", "\u202e\u2028'", "\u3164\ufe0f", "\udcff", "$(x) `y`"):
            told = telling.quoted([word])
            self.assertFalse([letter for letter in told if shown.is_hidden(letter)], told)
            done = subprocess.run(["bash", "-c", f"printf %s {told}"], capture_output=True, check=True)
            self.assertEqual(os.fsdecode(done.stdout), word)


@HAS_SCIPY
class Folders(Commands):
    def setUp(self):
        super().setUp()
        self.put("a tie.pb", TIE.file().replace(b"META\nkey;value\n", b"META\nkey;value\nrule;greedy, \"quoted\"\n"))
        self.put("none.pb", Case("none", [1, 3], 3, [[0]] * 5 + [[1]], [1]))
        self.put("fair.pb", Case("fair", [5, 6], 10, [[0]] * 5 + [[1]] * 5, [0]))

    def rows(self, folder="."):
        """The rows without what they say of groups."""
        return [row[:2] + row[3:] for row in csv.reader(self.files(folder)["found.csv"].decode().splitlines())]

    def test_a_table(self):
        done = self.run_find("--folder", self.room)
        head, *rows = self.rows()
        self.assertEqual(head, ["election", "rule", "prices", "stable", "refuted", "violation", "seconds", "note"])
        self.assertEqual([row[:6] + row[7:] for row in rows], [
            ["a tie.pb", 'greedy, "quoted"', "without Cover", "yes", "", "by counting and by cost", ""],
            ["fair.pb", "", "with Cover", "yes", "", "none found", ""],
            ["none.pb", "", "none found", "", "yes", "by counting and by cost", ""]])
        shown = [re.split("  +", line) for line in done.stdout.splitlines()]
        self.assertEqual(shown[0], [*head[:2], "groups", *head[2:]])
        self.assertEqual([line[0] for line in shown[1:]], [row[0] for row in rows])
        groups = {row["election"]: row["groups"] for row in csv.DictReader(self.files()["found.csv"].decode().splitlines())}
        self.assertEqual(groups, {row[0]: str(pbaudit.audit_groups(self.room / row[0])) for row in rows})
        # Of p0, which costs 1, five of six voters have got nothing, with a share of 2.5; of p1, which costs 6, five of ten
        # have, with a share of 5.
        self.assertEqual((groups["none.pb"], groups["fair.pb"]), (
            "failed EJR+ by cost voters 5 project p0", "satisfied ejr+ by cost"))
        self.assertEqual(self.files()["a tie.prices.csv"], pbaudit.find(self.room / "a tie.pb").prices.file)
        self.assertEqual({name for name in self.files() if not name.endswith(".pb")}, {
            "a tie.prices.csv", "a tie.violation.csv", "a tie.cost.violation.csv", "fair.prices.csv", "found.csv",
            "none.refutation.csv", "none.violation.csv", "none.cost.violation.csv"})

    def test_one_bad_file_ends_nothing(self):
        self.put("bad.pb", b"no election")
        self.put("empty.pb", b"")
        done = self.run_find("--folder", self.room, "--output", self.room / "out", status=2)
        notes = {row[0]: row[7] for row in self.rows("out")[1:]}
        self.assertEqual({name for name, note in notes.items() if note}, {"bad.pb", "empty.pb"})
        for name in ("bad.pb", "empty.pb"):
            with self.assertRaises(pbaudit.Refusal) as caught:
                pbaudit.read(self.room / name)
            self.assertEqual(notes[name], caught.exception.printed)
            self.assertIn(caught.exception.printed, done.stdout)
        self.assertIn("fair.prices.csv", self.files("out"))

    def test_nothing_is_overwritten(self):
        """A file that is no certificate of the outcome is no answer either: it is named, and stays."""
        mine = {"fair.prices.csv": b"mine", "none.violation.csv": b"mine", "a tie.cost.violation.csv": b"mine"}
        for name, data in mine.items():
            self.put(name, data)
        self.run_find("--folder", self.room, "--output", "elsewhere")
        self.assertEqual(len(self.files("elsewhere")), 8)
        self.run_find("--folder", self.room, status=1)
        rows = {row[0]: row[2:6] + row[7:] for row in self.rows()[1:]}
        told = "no longer belongs to the outcome: refused certificate"
        self.assertEqual(rows["fair.pb"], ["a file is in the way", "", "none found", "none found",
                                           f"fair.prices.csv {told} 21 BadHead record 1"])
        self.assertEqual([rows[name][3] for name in ("a tie.pb", "none.pb")], ["a file is in the way"] * 2)
        self.assertIn(f"none.violation.csv {told} 21 BadHead record 1", rows["none.pb"][4])
        self.assertEqual({name: self.files()[name] for name in mine}, mine)
        self.assertNotIn("a tie.violation.csv", self.files())
        done = self.run_find("--folder", self.room, status=3)
        self.assertIn("found.csv is there already", done.stderr)
        self.run_find("--folder", self.room, "--replace")
        self.assertFalse([name for name in mine if self.files()[name] == b"mine"])

    def test_a_second_run_finds_what_is_there(self):
        """The table has the same facts again, and each file is as it was."""
        self.run_find("--folder", self.room)
        files, rows = self.files(), [row[:6] + row[7:] for row in self.rows()]
        (self.room / "found.csv").unlink()
        with mock.patch.object(folders.Seeker, "_look_for_prices_or_a_refutation", side_effect=AssertionError), \
                mock.patch.object(folders.Seeker, "_look_for_violation") as looked:
            for name in ("a tie", "none"):
                result = folders.searched(folders.Asked(str(self.room), name, Wanted(), str(self.room)))
                self.assertEqual((result.files, result.removed, result.status), ((), (), 0))
        self.assertEqual(looked.call_count, 0)
        self.run_find("--folder", self.room)
        self.assertEqual([row[:6] + row[7:] for row in self.rows()], rows)
        again = self.files()
        self.assertEqual({name: again[name] for name in files if name != "found.csv"},
                         {name: files[name] for name in files if name != "found.csv"})

    def test_what_no_longer_belongs(self):
        """Certificates of another outcome beside what is found now: named, and removed where files are replaced."""
        stale = {"none.prices.csv": pbaudit.find(TIE.file(), violation=False).prices.file,
                 "fair.refutation.csv": pbaudit.write_refutation(least={"p0": 1}, left={"p1": 1}),
                 "fair.cost.violation.csv": pbaudit.write_violation([6], ["p1"], "cost")}
        for name, data in stale.items():
            self.put(name, data)
        done = self.run_find("--folder", self.room)
        self.assertEqual({name: self.files()[name] for name in stale}, stale)
        for name, data in stale.items():
            self.assertRegex(done.stdout, f"{name} no longer belongs to the outcome: (failed|refused certificate) ")
        rows = {row[0]: row for row in self.rows()[1:]}
        self.assertEqual((rows["none.pb"][2], rows["none.pb"][4]), ("a file is in the way", "yes"))
        self.assertEqual((rows["fair.pb"][2], rows["fair.pb"][5]), ("with Cover", "a file is in the way"))
        self.assertTrue(pbaudit.audit_refutation(self.room / "none.pb", self.room / "none.refutation.csv"))
        self.put("fair.violation.csv", b"")
        self.run_find("--folder", self.room, "--replace")
        rows = {row[0]: row for row in self.rows()[1:]}
        for name in (*stale, "fair.violation.csv"):
            self.assertNotIn(name, self.files())
            self.assertIn(f"{name} is removed: ", rows[name.partition(".")[0] + ".pb"][7])
        self.assertEqual([rows[name][2:6] for name in ("fair.pb", "none.pb")], [
            ["with Cover", "yes", "", "none found"], ["none found", "", "yes", "by counting and by cost"]])

    def test_what_belongs_stays(self):
        """Though files are replaced, and nothing was found this time."""
        self.run_find("--folder", self.room)
        files = self.files()
        self.run_find("--folder", self.room, "--replace", "--time", "1e-9")
        again = self.files()
        self.assertEqual({name for name in files if again.get(name, b"") == b""}, set())
        rows = {row[0]: row for row in self.rows()[1:]}
        self.assertEqual([rows[name][4] for name in ("none.pb", "fair.pb")], ["yes", ""])

    def test_what_cant_be_read_stays(self):
        os.mkdir(self.room / "fair.prices.csv")
        self.run_find("--folder", self.room, "--replace", status=4)
        self.assertTrue((self.room / "fair.prices.csv").is_dir())

    def test_prices_of_another_form(self):
        """They are no answer where stable ones are looked for, and stay."""
        town = pbaudit.Instance([pbaudit.Project("a", 6), pbaudit.Project("z", Fraction("5.999999"))], 10)
        self.put("fair.pb", pbaudit.write_election(town, [["a", "z"]], ["a"]))
        prices = pbaudit.write_prices(6, [{"a": 6}])
        self.put("fair.prices.csv", prices)
        self.run_find("--folder", self.room, "--prices", "--stable", status=1)
        row, = [row for row in self.rows() if row[0] == "fair.pb"]
        self.assertEqual(row[2:4] + row[7:], ["without Cover", "not these", "fair.prices.csv is there, in another form "
                                              "than is looked for"])
        self.assertEqual(self.files()["fair.prices.csv"], prices)
        for wanted in (Wanted(prices=False, refutation=False), Wanted(stable=True, prices=False, refutation=False), Wanted()):
            result = folders.searched(folders.Asked(str(self.room), "fair", wanted, str(self.room)))
            self.assertEqual((result.row.prices, result.row.note), ("without Cover", ""))

    def test_no_prices_are_looked_for_beside_a_refutation(self):
        """Nor a refutation beside prices, unless it is asked for alone."""
        self.put("none.refutation.csv", pbaudit.find(self.room / "none.pb", violation=False).refutation.file)
        self.put("fair.prices.csv", pbaudit.find(self.room / "fair.pb", violation=False).prices.file)
        self.run_find("--folder", self.room)
        rows = {row[0]: row[2:5] for row in self.rows()[1:]}
        self.assertEqual(rows["none.pb"], ["none found", "", "yes"])
        self.assertEqual(rows["fair.pb"], ["with Cover", "yes", ""])
        (self.room / "found.csv").unlink()
        self.run_find("--folder", self.room, "--refutation", status=1)
        self.assertEqual([row[4] for row in self.rows()[1:]], ["none found", "none found", "yes"])

    def test_no_cell_is_a_formula(self):
        """What a spreadsheet might run has an apostrophe ahead, which is taken away again."""
        names = ["=1+1.pb", "+1.pb", "-x.pb", "@a.pb", "'q.pb", "a;=1.pb", "  =1.pb"]
        for name in names:
            self.put(name, TIE.file().replace(b"META\nkey;value\n", b"META\nkey;value\nrule;=cmd|' /C calc'!A0\n"))
        done = self.run_find("--folder", self.room, "--prices", "--output", "out", status=1)
        rows = self.rows("out")[1:]
        for cell in (cell for row in rows for part in row for cell in re.split("[;,|\t\"]", part)):
            self.assertNotRegex(cell, "^\\s*[=+@-]")
        plain = {re.sub("(^|[;,|\t\"])'", r"\1", row[0]): re.sub("(^|[;,|\t\"])'", r"\1", row[1]) for row in rows}
        self.assertLessEqual(set(names), set(plain))
        self.assertEqual(plain["=1+1.pb"], "=cmd|' /C calc'!A0")
        self.assertRegex(done.stdout, "\n=1\\+1.pb +=cmd[|]")

    def test_no_folder(self):
        done = self.run_find("--folder", self.room / "missing", status=2)
        self.assertEqual(done.stdout, "refused folder 18 Read record 0\n")
        os.mkdir(self.room / "empty")
        self.run_find("--folder", self.room / "empty")
        self.assertEqual(len(self.rows("empty")), 1)

    def test_a_worker_that_is_lost(self):
        """Its election is told, and the others are looked at."""
        entries = entries_of(self.room, Mode())
        with mock.patch.object(folders, "searched", killed_at_fair):
            folder = folders.Folder(entries, str(self.room), Wanted(), False)
            folder.run(lambda *_: None)
        self.assertEqual([(row.election, row.note) for row in folder.rows()],
                         [("a tie.pb", ""), ("fair.pb", "fault worker"), ("none.pb", "")])
        self.assertEqual(folder.status(), 4)

    def test_by_executors(self):
        """The same files and, but for the time, the same rows as by processes of its own."""
        wanted = pbaudit.find_folder(self.room, output=self.room / "wanted")
        self.assertEqual((len(wanted.rows), wanted.status), (3, 0))
        with ProcessPoolExecutor(2, mp_context=get_context("spawn")) as executor:
            self.check_executor(executor, "processes", wanted)

    def check_executor(self, executor, name, wanted):
        told = []
        found = pbaudit.find_folder(self.room, executor, output=self.room / name, on_progress=told.append)
        self.assertEqual(self.rows_but_times(found), self.rows_but_times(wanted))
        self.assertEqual(found.status, wanted.status)
        files, others = self.files(name), self.files("wanted")
        self.assertEqual(files.pop("found.csv").count(b"\n"), others.pop("found.csv").count(b"\n"))
        self.assertEqual(files, others)
        self.assertIn("0 of 3 elections", told)

    @staticmethod
    def rows_but_times(found):
        return [dataclasses.replace(row, seconds="") for row in found.rows]

    @HAS_DASK
    def test_by_a_dask_cluster(self):
        wanted = pbaudit.find_folder(self.room, output=self.room / "wanted")
        with cluster() as client:
            self.check_executor(client.get_executor(), "dask", wanted)

    def test_an_executor_that_loses_workers(self):
        """What it loses, and what it takes no more, is looked at here."""
        wanted = pbaudit.find_folder(self.room, output=self.room / "wanted")
        for most in (10, 1, 0):
            with LosingExecutor(1) as executor, mock.patch.object(folders.LOG, "warning") as warning:
                executor.most = most
                self.check_executor(executor, f"lost{most}", wanted)
            self.assertEqual(warning.call_count, 1)

    def test_the_function_writes_over_nothing(self):
        self.put("found.csv", b"mine")
        with self.assertRaises(FileExistsError) as caught:
            pbaudit.find_folder(self.room)
        self.assertEqual(caught.exception.filename, str(self.room / "found.csv"))
        self.assertEqual(self.files()["found.csv"], b"mine")
        with self.assertRaises(FileNotFoundError):
            pbaudit.find_folder(self.room / "missing")
        with self.assertRaises(ValueError):
            pbaudit.find_folder(self.room, prices=False, refutation=False, violation=False)
        with self.assertRaisesRegex(TypeError, "the executor is 4"):
            pbaudit.find_folder(self.room, 4, replace=True)
        pbaudit.find_folder(self.room, prices=False, refutation=False, replace=True)
        self.assertNotEqual(self.files()["found.csv"], b"mine")

    def test_an_election_that_fails(self):
        with mock.patch.object(folders, "Seeker", mock.Mock(side_effect=ZeroDivisionError("x"))):
            result = folders.searched(folders.Asked(str(self.room), "fair", Wanted(), str(self.room)))
        self.assertEqual((result.row.note, result.status), ("fault: ZeroDivisionError('x')", 4))


@HAS_SCIPY
class Documents(unittest.TestCase):
    def setUp(self):
        put_on_the_path(self)

    def test_the_command(self):
        words = block("~/pbaudit/bin/pip install './python[find]'").splitlines()[1].split()[1:]
        with tempfile.TemporaryDirectory() as room:
            shutil.copytree(EXAMPLES, f"{room}/examples", ignore=shutil.ignore_patterns("*.prices.csv"))
            done = subprocess.run([sys.executable, "-m", "pbaudit", *words], cwd=room, capture_output=True, text=True,
                                  check=False)
        self.assertEqual((done.stdout, done.stderr), (block("examples/district.pb: failed EJR+"), ""))

    def test_the_function(self):
        values, out = {}, io.StringIO()
        with contextlib.redirect_stdout(io.StringIO()):
            exec(block("from pbaudit import Instance"), values)
        with contextlib.redirect_stdout(out):
            exec(block("from pbaudit import find"), values)
        told = (REPOSITORY / "docs" / "LIBRARY.md").read_text(encoding="utf-8")
        self.assertIn(f"\nprints `{out.getvalue().rstrip()}`:", told)

    def test_the_statuses(self):
        """The help says each, as the table does."""
        for status in range(5):
            self.assertRegex(command.HOW_IT_ENDS, f"[:;] {status} if ")


class Wheel(unittest.TestCase):
    def test_the_wheel_has_it(self):
        sys.path.append(str(REPOSITORY / "python" / "backend"))
        import wheel_writer
        files = wheel_writer.files_of(b"", b"", ["py3-none-any"])
        here = pathlib.Path(command.__file__).parent
        self.assertEqual({name for name in files if name.startswith("pbaudit/finding/")},
                         {f"pbaudit/finding/{path.name}" for path in here.glob("*.py")})
        self.assertIn("Provides-Extra: find\nRequires-Dist: scipy>=1.7; extra == 'find'\n", wheel_writer.metadata())
