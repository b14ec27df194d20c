"""Folders over executors, with workers that are killed."""
import contextlib
import errno
import importlib
import importlib.util
import logging
import multiprocessing
import os
import pathlib
import re
import shutil
import signal
import subprocess
import sys
import tempfile
import textwrap
import unittest
from concurrent.futures import Executor, Future, ProcessPoolExecutor, ThreadPoolExecutor
from unittest import mock

import pbaudit
from pbaudit import folders, helpers

REPOSITORY = pathlib.Path(__file__).resolve().parents[2]
EXAMPLES = REPOSITORY / "examples"
PROGRAM = REPOSITORY / "crates" / "pbaudit" / "out" / "pbaudit"
HAS_DASK = unittest.skipUnless(importlib.util.find_spec("distributed"), "Dask isn't installed")
audit_entries = folders.audit_entries
# The folder of marks by which workers are killed. A worker is killed once for each mark of an election, before or after it
# has audited the task, and always for one that stays.
MARKS = "PBAUDIT_TEST_MARKS"


def killed_by_marks(entries, attempt):
    """What a worker does that may be killed."""
    made = None
    for when in ("before", "after"):
        for entry in entries:
            if os.path.exists(os.path.join(os.environ[MARKS], f"{entry.name} always")):
                os.kill(os.getpid(), signal.SIGKILL)
            for number in range(9):
                try:
                    os.unlink(os.path.join(os.environ[MARKS], f"{entry.name} {when} {number}"))
                except FileNotFoundError:
                    continue
                os.kill(os.getpid(), signal.SIGKILL)
        made = made or audit_entries(entries, attempt)
    return made


class LosingExecutor(ThreadPoolExecutor):
    """Loses the election b so often, as a cluster does: the executor goes on."""

    losses, submitted = 0, 0

    def submit(self, work, entries, attempt):
        self.submitted += 1
        if self.losses == 0 or "b" not in [entry.name for entry in entries]:
            return super().submit(work, entries, attempt)
        self.losses -= 1
        lost = Future()
        lost.set_exception(RuntimeError("the worker died"))
        return lost


@contextlib.contextmanager
def cluster(**settings):
    """A Dask cluster of two workers on this machine. What workers write when they end is of Dask, and no failure."""
    dask, distributed = (importlib.import_module(name) for name in ("dask", "dask.distributed"))
    settings = {"distributed.logging": {"distributed": "critical"}, **settings}
    with dask.config.set(settings), distributed.Client(
            n_workers=2, threads_per_worker=1, dashboard_address=None, silence_logs=logging.CRITICAL) as client:
        yield client


class KillingExecutor(Executor):
    """Hands tasks to a Dask cluster, and kills one of its workers after the third."""

    def __init__(self, client):
        self.executor, self.tasks, self.has_killed = client.get_executor(), 0, False
        self.worker = min(client.run(os.getpid).values())

    def submit(self, work, entries, attempt):
        future = self.executor.submit(work, entries, attempt)
        self.tasks += 1
        if self.tasks == 3:
            os.kill(self.worker, signal.SIGKILL)
            self.has_killed = True
        return future


def killed_once_at_b(mark, work, entries, attempt):
    """What a worker does whose process is killed at the election b, where no other was killed at it before."""
    if "b" in [entry.name for entry in entries]:
        try:
            os.mkdir(mark)
        except FileExistsError:
            pass
        else:
            os.kill(os.getpid(), signal.SIGKILL)
    return work(entries, attempt)


class OnceKillingExecutor(Executor):
    """Hands tasks to a Dask cluster, where the first worker that begins the election b is killed."""

    def __init__(self, client, mark):
        self.executor, self.mark = client.get_executor(), mark

    def submit(self, work, entries, attempt):
        return self.executor.submit(killed_once_at_b, self.mark, work, entries, attempt)


class Folders(unittest.TestCase):
    def setUp(self):
        self.room = tempfile.mkdtemp()
        self.addCleanup(shutil.rmtree, self.room)
        sample, prices = (EXAMPLES / "sample.pb").read_bytes(), (EXAMPLES / "sample.prices.csv").read_bytes()
        for name in ("a", "b", "c d", "\u00fcber", "-x", "B"):
            self.write(f"{name}.pb", sample)
            self.write(f"{name}.prices.csv", prices)
        self.write("no.pb", sample.replace(b"selected", b"chosen"))
        self.write("no.prices.csv", prices)
        self.write("no.violation.csv", b"pb-violation,1\nproject,a\nvoter,1\n")
        self.write("torn.pb", sample[:40])
        self.write("torn.prices.csv", prices)
        self.write("worse.pb", sample)
        self.write("worse.prices.csv", prices.replace(b"1,a,2", b"1,a,1"))
        self.write("worse.violation.csv", b"")
        self.write("lone.prices.csv", prices)
        self.write(".pb", sample)
        self.write("ctrl\x01.pb", sample)
        os.mkdir(os.path.join(self.room, "folder.pb"))
        os.symlink(os.path.join(self.room, "a.pb"), os.path.join(self.room, "link.pb"))

    def write(self, name, data):
        pathlib.Path(self.room, name).write_bytes(data)

    def test_groups(self):
        """A column of them where they are asked for, and nothing else is another: an outcome decides it, and an election
        without one is read all the same."""
        self.write("short.pb", (EXAMPLES / "hall.pb").read_bytes())
        without = pbaudit.audit_folder(self.room)
        for by, line in (("cost", "satisfied ejr+ by cost"), ("count", "failed EJR+ by count voters 2 project dance")):
            asked = []
            report = pbaudit.audit_folder(self.room, groups=by, on_result=asked.append)
            self.assertEqual((report.text, report.status), (without.text, without.status))
            told = {each.file: each.groups for each in report.results}
            self.assertEqual((told["short.pb"], told["a.pb"]), (line, f"satisfied ejr+ by {by}"))
            self.assertEqual({name for name in told if told[name]}, {
                name for name in told if name.endswith(".pb")} - {"no.pb", "torn.pb"})
            self.assertEqual(tuple(asked), report.results)
            self.assertEqual([each._replace(groups=None) for each in report.results], list(without.results))
            self.assertIn("<th><bdi>Groups</bdi></th></tr><tr><td><bdi>-x.pb</bdi>", report._repr_html_())
        self.assertNotIn("Groups", without._repr_html_())
        for by in ("Cost", True, ""):
            with self.assertRaisesRegex(ValueError, "not 'count' or 'cost'"):
                pbaudit.audit_folder(self.room, groups=by)

    def wanted(self, *switches):
        done = subprocess.run([PROGRAM, "folder", self.room, *switches], capture_output=True, check=False)
        return pbaudit.FolderReport(done.stdout.decode(), done.returncode)

    def test_here(self):
        self.assertEqual(pbaudit.audit_folder(self.room), self.wanted())
        self.assertEqual(pbaudit.audit_folder(self.room).status, 2)
        self.assertFalse(pbaudit.audit_folder(self.room))
        os.mkdir(os.path.join(self.room, "yes"))
        for name in ("a.pb", "a.prices.csv"):
            shutil.copy(os.path.join(self.room, name), os.path.join(self.room, "yes"))
        self.assertTrue(pbaudit.audit_folder(os.path.join(self.room, "yes")))
        modes = {"stable": ("--stable", True), "exhaustive": ("--no-exhaustive", False), "cover": ("--cover", True)}
        for name, (switch, value) in modes.items():
            self.assertEqual(pbaudit.audit_folder(self.room, **{name: value}), self.wanted(switch))
        self.assertEqual(pbaudit.audit_folder(EXAMPLES).status, 1)

    def test_results_are_the_lines(self):
        """A row for each line but the total, with what it says; each is told once, by whatever does the work."""
        name = 'p <b>"\u202e&'
        town = pbaudit.Instance([pbaudit.Project(name, 1)], 5)
        self.write("z.pb", pbaudit.write_election(town, [[name]], []))
        self.write("z.prices.csv", pbaudit.write_prices(1, [{}]))
        self.write("z.violation.csv", pbaudit.write_violation([1], [name]))
        told = []
        report = pbaudit.audit_folder(self.room, on_result=told.append)
        self.assertEqual(report, self.wanted())
        self.assertEqual([f"{result.file}: {result.line}" for result in report.results],
                         report.text.rstrip("\n").split("\n")[:-1])
        self.assertEqual(report.results, tuple(told))
        found = {result.file: result for result in report.results}
        self.assertEqual(found["worse.prices.csv"][:7], ("worse", "worse.prices.csv", "prices", "no", "C3", None, "a"))
        self.assertEqual(found["worse.violation.csv"][2:7], ("violation", "refused", None, None, None))
        self.assertEqual(found["torn.pb"][2:7], ("election", "refused", None, None, None))
        self.assertEqual(found["no.pb"][2:7], ("election", "read", None, None, None))
        self.assertEqual(found["z.prices.csv"][2:7], ("prices", "no", "Exhaustive", None, name))
        self.assertEqual(found["z.violation.csv"][2:7], ("violation", "yes", None, None, None))
        totals = [sum(result.answer == answer for result in report.results) for answer in ("yes", "no", "refused")]
        self.assertTrue(report.text.endswith("elections {} yes {} no {} refused\n".format(*totals)))
        with ThreadPoolExecutor(3) as executor:
            told.clear()
            self.assertEqual(pbaudit.audit_folder(self.room, executor, on_result=told.append).results, report.results)
            self.assertEqual(sorted(told, key=repr), sorted(report.results, key=repr))
        page = report._repr_html_()
        self.assertEqual(page.count("<tr>"), len(report.results) + 1)
        self.assertIn("failed Exhaustive project p &lt;b&gt;&quot;\\u{202e}&amp;", page)
        self.assertNotIn("<b>", page)
        if importlib.util.find_spec("pandas"):
            table = importlib.import_module("pandas").DataFrame(report.results)
            self.assertEqual(list(table.columns), list(folders.FileResult._fields))
            self.assertEqual(list(table[table.answer == "no"].file), ["worse.prices.csv", "z.prices.csv"])

    def test_a_folder_that_is_refused(self):
        self.assert_refused(os.path.join(self.room, "missing"), errno.ENOENT)
        self.assert_refused(os.path.join(self.room, "a.pb"), errno.ENOTDIR)
        self.write(os.fsdecode(b"\xff.txt"), b"")
        self.assert_refused(self.room, errno.EILSEQ)

    def test_a_path_of_bytes(self):
        with self.assertRaisesRegex(TypeError, "^the path of the folder is b'folder', not a str$"):
            pbaudit.audit_folder(b"folder")

    def test_no_executor(self):
        with self.assertRaisesRegex(TypeError, "^the executor is 4, which has no submit: give one of concurrent.futures"):
            pbaudit.audit_folder(self.room, 4)

    def assert_refused(self, folder, number):
        done = subprocess.run([PROGRAM, "folder", folder], capture_output=True, check=False)
        self.assertEqual((done.stdout, done.returncode), (b"refused folder 18 Read record 0\n", 2))
        with self.assertRaises(OSError) as caught:
            pbaudit.audit_folder(folder)
        self.assertEqual((caught.exception.errno, caught.exception.filename), (number, folder))

    def test_by_executors(self):
        for executor in (ThreadPoolExecutor(3), ProcessPoolExecutor(3)):
            with executor:
                self.assertEqual(pbaudit.audit_folder(self.room, executor), self.wanted())

    def test_the_example_of_the_documents(self):
        """It runs also where the processes are started anew, which import the script."""
        told = (REPOSITORY / "docs" / "MANY.md").read_text(encoding="utf-8").split("## From Python\n")[1]
        example = re.match(r"\n((?:    .*\n|\n)+)", told)[1]
        script = pathlib.Path(self.room, "script.py")
        begin = "import multiprocessing\nmultiprocessing.set_start_method('spawn', force=True)\n"
        script.write_text(begin + textwrap.dedent(example).replace('"elections"', repr(self.room)), encoding="utf-8")
        given = {**os.environ, "PYTHONPATH": os.pathsep.join(filter(None, sys.path))}
        done = subprocess.run([sys.executable, script], stdout=subprocess.PIPE, stderr=subprocess.PIPE, env=given,
                              timeout=300, check=False)
        self.assertEqual((done.stdout.decode(), done.stderr.decode()), (self.wanted().text, ""))

    @contextlib.contextmanager
    def killing(self, *marks, in_a_task=3):
        """Workers that are killed by these marks, and small tasks. Gives how many processes were started here."""
        with tempfile.TemporaryDirectory() as room, mock.patch.dict(os.environ, {MARKS: room}), \
                mock.patch.multiple(folders, audit_entries=killed_by_marks, MOST_OF_A_TASK=in_a_task), \
                mock.patch.object(helpers.subprocess, "Popen", side_effect=subprocess.Popen) as started, \
                mock.patch.object(folders.LOG, "warning"):
            for mark in marks:
                pathlib.Path(room, mark).touch()
            yield started
            left = set(os.listdir(room))
            self.assertEqual(left, {mark for mark in marks if mark.endswith("always")})

    def by_processes(self, workers=2):
        """The report by processes of an executor, and what was told of it."""
        told = []
        with ProcessPoolExecutor(workers, multiprocessing.get_context("fork")) as executor:
            report = pbaudit.audit_folder(self.room, executor, on_result=told.append)
        self.assertEqual(sorted(told, key=repr), sorted(report.results, key=repr))
        return report

    def test_a_worker_that_is_killed(self):
        """At the first, a middle or the last election, before or after it has answered, once or more often."""
        wanted = self.wanted()
        names = [name[:-3] for name in sorted(os.listdir(self.room), key=os.fsencode) if name.endswith(".pb")]
        for name in ("-x", "b", "c d", "\u00fcber"):
            self.assertIn(name, names)
            for kills in (1, 2, 3):
                marks = [f"{name} {('before', 'after')[kill % 2]} {kill}" for kill in range(kills)]
                with self.subTest(name=name, kills=kills), self.killing(*marks) as started:
                    self.assertEqual(self.by_processes(), wanted)
                    self.assertLessEqual(started.call_count, 2 + kills)

    def test_workers_that_are_killed_together(self):
        with self.killing("-x before 0", "b before 0", "torn after 0", "\u00fcber before 1", in_a_task=2):
            self.assertEqual(self.by_processes(3), self.wanted())

    def test_a_lost_worker_starts_few_processes(self):
        """Whole tasks are tried again, by as many processes as the executor had."""
        for at in range(60):
            shutil.copy(os.path.join(self.room, "a.pb"), os.path.join(self.room, f"more{at}.pb"))
        wanted = self.wanted()
        with self.killing("-x before 0", in_a_task=2) as started:
            self.assertEqual(self.by_processes(), wanted)
            self.assertEqual(started.call_count, 2)

    def test_an_election_that_is_lost(self):
        """Its task is tried twice, and then it alone; all others are found."""
        for name in ("b", "\u00fcber", "-x"):
            with self.subTest(name=name), self.killing(f"{name} always") as started:
                report = self.by_processes()
                self.assertLessEqual(started.call_count, 2 + 4)
                warnings = [call.args[1] for call in folders.LOG.warning.call_args_list]
            self.assertEqual((report.status, report.lost), (4, (name,)))
            self.assertEqual(warnings.count(f"{name}.pb"), 2)
            lost = [result for result in report.results if result.answer == "lost"]
            self.assertEqual([(*result[:2], result.line) for result in lost], [(name, f"{name}.pb", "fault worker")])
            lines = self.wanted().text.splitlines(keepends=True)
            kept = [line for line in lines if not line.startswith((f"{name}.pb", f"{name}.prices", "total"))]
            self.assertEqual([line for line in report.text.splitlines(keepends=True) if line in kept], kept)
            self.assertIn(f"{name}.pb: fault worker\n", report.text)
            self.assertIn("total 9 elections 5 yes 1 no 4 refused\n", report.text)

    def test_an_executor_that_goes_on(self):
        """It gets a task again whole. What it loses twice is audited here."""
        for losses, submitted in ((1, 3 + 1), (2, 3 + 1), (9, 3 + 1)):
            with LosingExecutor(2) as executor, self.assertLogs("pbaudit", "WARNING"), \
                    mock.patch.object(folders, "MOST_OF_A_TASK", 3):
                executor.losses = losses
                self.assertEqual(pbaudit.audit_folder(self.room, executor), self.wanted())
            self.assertEqual(executor.submitted, submitted)

    def test_an_executor_that_takes_no_more(self):
        executor = ThreadPoolExecutor(2)
        executor.shutdown()
        with self.assertLogs("pbaudit", "WARNING"):
            self.assertEqual(pbaudit.audit_folder(self.room, executor), self.wanted())

    def test_what_the_keyboard_stops_is_not_begun(self):
        class First(Executor):
            """Does the first task at once, and the others never."""

            tasks = []

            def submit(self, work, *given):
                future = Future()
                if not self.tasks:
                    future.set_result(work(*given))
                self.tasks.append(future)
                return future
        with mock.patch.object(folders, "MOST_OF_A_TASK", 1), self.assertRaises(KeyboardInterrupt):
            pbaudit.audit_folder(EXAMPLES, First(), on_result=mock.Mock(side_effect=KeyboardInterrupt))
        self.assertGreater(len(First.tasks), 2)
        self.assertTrue(all(task.cancelled() for task in First.tasks[1:]))

    def test_what_is_called_later(self):
        for wrong in (1, "print"):
            with self.assertRaisesRegex(TypeError, f"^on_result is {wrong!r}, which can't be called$"):
                pbaudit.audit_folder(self.room, on_result=wrong)

    @HAS_DASK
    def test_by_a_dask_cluster(self):
        with cluster() as client:
            self.assertEqual(pbaudit.audit_folder(self.room, client.get_executor()), self.wanted())

    @HAS_DASK
    def test_a_file_that_is_changed_between_two_calls(self):
        """To one of the same length, while the cluster still has the answer of the first call."""
        class Keeping(Executor):
            def __init__(self, executor):
                self.executor, self.futures = executor, []

            def submit(self, *words):
                self.futures.append(self.executor.submit(*words))
                return self.futures[-1]

        prices = (EXAMPLES / "sample.prices.csv").read_bytes()
        with cluster() as client:
            executor = Keeping(client.get_executor())
            for changed, line in ((prices, "supported priceable"),
                                  (prices.replace(b"1,a,2", b"1,a,1"), "failed C3 project a")):
                self.write("a.prices.csv", changed)
                report = pbaudit.audit_folder(self.room, executor)
                self.assertIn(f"\na.prices.csv: {line}\n", report.text)
                self.assertEqual(report, self.wanted())

    @HAS_DASK
    def test_by_a_dask_cluster_whose_workers_are_killed(self):
        """One while it works. Dask gives its tasks to another where it may, and else they are lost."""
        for failures in (0, 3):
            settings = {"distributed.scheduler.allowed-failures": failures}
            with mock.patch.object(folders, "MOST_OF_A_TASK", 1), cluster(**settings) as client:
                executor = KillingExecutor(client)
                self.assertEqual(pbaudit.audit_folder(self.room, executor), self.wanted())
            self.assertTrue(executor.has_killed)

    @HAS_DASK
    def test_by_a_dask_cluster_that_loses_workers_at_any_moment(self):
        """Which also take tasks along that they weren't killed at. What is lost twice is audited here."""
        with self.killing("-x before 0", "b after 0", "b before 1", "b after 2", "\u00fcber before 0", "\u00fcber after 1"), \
                cluster(**{"distributed.scheduler.allowed-failures": 0}) as client:
            self.assertEqual(pbaudit.audit_folder(self.room, client.get_executor()), self.wanted())

    @HAS_DASK
    def test_by_a_dask_cluster_whose_worker_is_killed_at_a_task(self):
        """However fast it is, it has begun the task and not answered. Only where Dask gives it to no other is it
        lost."""
        for failures, losses in ((0, 1), (3, 0)):
            settings = {"distributed.scheduler.allowed-failures": failures}
            with self.subTest(failures=failures), tempfile.TemporaryDirectory() as room:
                mark = os.path.join(room, "killed")
                with mock.patch.object(folders, "MOST_OF_A_TASK", 1), cluster(**settings) as client, \
                        mock.patch.object(folders.LOG, "warning") as warning:
                    report = pbaudit.audit_folder(self.room, OnceKillingExecutor(client, mark))
                self.assertEqual(report, self.wanted())
                self.assertTrue(os.path.isdir(mark))
                self.assertEqual([call.args[1] for call in warning.call_args_list].count("b.pb"), losses)

    def test_a_name_forges_no_line_of_a_log(self):
        entry = folders.Entry("", "a\u2028WARNING\u009bb", (), 1, folders.Mode())
        self.assertEqual(folders._named(folders.Task((entry, entry))), "a\\u{2028}WARNING\\u{9b}b.pb and 1 elections after it")

    def test_small_elections_share_a_task(self):
        """In their order, and a large one has a task to itself."""
        sizes = [1, 2, 2**23, 3, 2**23 - 3, 4]
        entries = [folders.Entry("", str(at), (), size, folders.Mode()) for at, size in enumerate(sizes)]
        self.assertEqual([[entry.size for entry in task] for task in folders._tasks(entries)],
                         [[1, 2], [2**23], [3, 2**23 - 3], [4]])
        entries = [folders.Entry("", str(at), (), 1, folders.Mode()) for at in range(120)]
        self.assertEqual([len(task) for task in folders._tasks(entries)], [50, 50, 20])
        self.assertEqual([entry for task in folders._tasks(entries) for entry in task], entries)
