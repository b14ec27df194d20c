"""The command that pip installs: what it hands over to the program, what the package answers, and what it loads first."""
import argparse
import importlib.util
import io
import os
import pathlib
import shlex
import shutil
import signal
import subprocess
import sys
import tempfile
import unittest
from unittest import mock

import pbaudit
from pbaudit import __main__ as command_line, _places, audit_commands, folders

REPOSITORY = pathlib.Path(__file__).resolve().parents[2]
ENTRY = REPOSITORY / "python" / "backend" / "entry.py"
EXAMPLES = REPOSITORY / "examples"
PROGRAM = _places.program()
specification = importlib.util.spec_from_file_location("entry", ENTRY)
entry = importlib.util.module_from_spec(specification)
specification.loader.exec_module(entry)
# What is the program's, and what is the package's.
OF_PROGRAM = (
    "", "--version", "-V", "read town.pb", "prices town.pb find", "prices --workers", "folder towns", "folder find --stable",
    "page a b", "page a b --language pl", "help prices", "help folder", "groups town.pb --output", "nonsense",
)
OF_PACKAGE = (
    "find town.pb", "find", "equal-shares town.pb -o x", "readers-page town.pb -o x", "folder towns --workers 3",
    "folder --workers=3 towns", "page a b -o x", "page a b --output=x", "page --folder towns -o out", "page --folder=towns",
    "--help", "-h", "help", "help find", "help equal-shares",
)


class Entry(unittest.TestCase):
    def setUp(self):
        self.room = pathlib.Path(tempfile.mkdtemp(prefix="a room "))
        self.addCleanup(shutil.rmtree, self.room)
        self.command = self.room / "bin" / "pbaudit"
        for folder in ("bin", "pbaudit/bin"):
            (self.room / folder).mkdir(parents=True)
        shutil.copy(ENTRY, self.command)
        # A package and a program that tell what they are given.
        self.put("pbaudit/__main__.py", "def main(words):\n    print('package', *words, sep='|')\n    return 7\n")
        self.program = self.put("pbaudit/bin/pbaudit", "#!/bin/sh\necho program \"$@\"\nexit 5\n")
        self.program.chmod(0o755)

    def put(self, name, text):
        path = self.room / name
        path.write_text(text, encoding="utf-8")
        return path

    def run_it(self, *words, options=(), **given):
        return subprocess.run([sys.executable, *options, self.command, *words], capture_output=True, text=True, check=False,
                              cwd="/", env={"PATH": os.defpath}, **given)

    def test_whose_command_it_is(self):
        for line in OF_PROGRAM:
            self.assertFalse(entry.is_own(line.split()), line)
        for line in OF_PACKAGE:
            self.assertTrue(entry.is_own(line.split()), line)

    def test_each_command_is_one(self):
        """Those of the package alone are what it has and the program lacks."""
        with mock.patch.object(command_line._Parser, "error", side_effect=SystemExit) as told, self.assertRaises(SystemExit):
            command_line._parser(False).parse_args(["none"])
        listed = told.call_args[0][0].partition("(choose from ")[2]
        names = {each.strip("' )") for each in listed.split(",")}
        self.assertEqual(names - {*audit_commands.COMMANDS, "page"}, {*entry.OWN})

    def test_it_hands_over(self):
        """With the words as they are, from a folder that pip filled."""
        for words in (["read", "a b", "$(x)"], ["--version"], []):
            done = self.run_it(*words, stdin=subprocess.DEVNULL)
            self.assertEqual((done.returncode, done.stdout, done.stderr), (5, " ".join(["program", *words]) + "\n", ""))
        done = self.run_it("find", "a b")
        self.assertEqual((done.returncode, done.stdout, done.stderr), (7, "package|find|a b\n", ""))

    def test_the_keyboard_while_it_is_loaded(self):
        """It ends by the signal, as the program does, and no status tells that something was answered."""
        self.put("pbaudit/__main__.py", "import signal\nsignal.raise_signal(signal.SIGINT)\n")
        done = self.run_it("find", preexec_fn=lambda: signal.signal(signal.SIGINT, signal.SIG_DFL))
        self.assertEqual((done.returncode, done.stdout, done.stderr), (-signal.SIGINT, "", ""))

    def test_without_the_program_the_package_answers(self):
        """As on ARM, or where whoever unpacked it left it as no program."""
        for change in (lambda: self.program.chmod(0o644), self.program.unlink):
            change()
            done = self.run_it("read", "a b")
            self.assertEqual((done.returncode, done.stdout, done.stderr), (7, "package|read|a b\n", ""))

    def test_nothing_else_is_loaded_first(self):
        """Ahead of the program: what takes most of the time of a short command."""
        done = self.run_it("--version", options=("-I", "-S", "-X", "importtime"))
        self.assertEqual((done.returncode, done.stdout), (5, "program --version\n"))
        loaded = {line.rpartition("|")[2].strip() for line in done.stderr.splitlines()}
        self.assertIn("os", loaded)
        self.assertEqual(loaded & {"pbaudit", "argparse", "typing", "re", "subprocess", "pathlib", "ctypes", "json"}, set())


def run_package(*words):
    return subprocess.run([sys.executable, "-m", "pbaudit", *words], capture_output=True, text=True, check=False, cwd=EXAMPLES)


class Help(unittest.TestCase):

    def test_it_names_all_commands(self):
        for words in (["--help"], ["-h"], ["help"]):
            done = run_package(*words)
            self.assertEqual((done.returncode, done.stderr), (0, ""))
            for name in (*audit_commands.COMMANDS, "page", *entry.OWN):
                self.assertRegex(done.stdout, rf"(?m)^ +{name} ", words)

    def test_that_of_a_command(self):
        for name in entry.OWN:
            self.assertEqual(run_package("help", name).stdout, run_package(name, "--help").stdout)
        self.assertIn("python -m pbaudit find ELECTION", run_package("find", "--help").stdout)


class Ends(unittest.TestCase):
    """How a command ends that can't tell what it answers: 1 would tell that nothing was found."""

    def test_help_that_cant_be_written(self):
        for words in (["find", "--help"], ["equal-shares", "--help"], ["--version"]):
            with open("/dev/full", "w", encoding="utf-8") as full:
                done = subprocess.run([sys.executable, "-m", "pbaudit", *words], stdout=full, stderr=subprocess.PIPE, text=True,
                                      check=False)
            self.assertEqual((done.returncode, done.stderr), (4, "fault write: [Errno 28] No space left on device\n"), words)

    def test_streams_that_are_closed(self):
        command = f"{shlex.quote(sys.executable)} -m pbaudit equal-shares school.pb"
        def run(streams):
            return subprocess.run(["sh", "-c", f"{command} {streams}"], capture_output=True, text=True, check=False, cwd=EXAMPLES)
        plain = run("")
        self.assertEqual(plain.stderr, "")
        done = run(">&-")
        self.assertEqual((done.returncode, done.stderr), (4, "fault write: standard output is closed\n"))
        done = run("2>&-")
        self.assertEqual((done.returncode, done.stdout), (plain.returncode, plain.stdout))
        self.assertEqual(run(">&- 2>&-").returncode, 4)
        done = subprocess.run(["sh", "-c", f"{command} --bogus 2>&-"], capture_output=True, text=True, check=False, cwd=EXAMPLES)
        self.assertEqual((done.returncode, done.stdout), (3, ""))

    def test_what_nobody_thought_of(self):
        with mock.patch.object(command_line, "answer", side_effect=KeyError("a\x1bb")), \
                mock.patch("sys.stderr", new_callable=io.StringIO) as told:
            self.assertEqual(command_line.main(["find", "town.pb"]), 4)
        self.assertEqual(told.getvalue(), "fault: KeyError('a\\x1bb')\n")

    def test_the_keyboard(self):
        with tempfile.TemporaryDirectory() as room:
            pipe = os.path.join(room, "town.pb")
            os.mkfifo(pipe)
            given = {"stdout": subprocess.PIPE, "stderr": subprocess.PIPE,
                     "preexec_fn": lambda: signal.signal(signal.SIGINT, signal.SIG_DFL)}
            with subprocess.Popen([sys.executable, "-m", "pbaudit", "equal-shares", pipe], **given) as command:
                # It is opened once the command reads it.
                with open(pipe, "wb"):
                    command.send_signal(signal.SIGINT)
                    out, told = command.communicate(timeout=60)
        self.assertEqual((command.returncode, out, told), (-signal.SIGINT, b"", b""))


class Workers(unittest.TestCase):
    def test_a_folder(self):
        """The lines and the status of the program, by so many processes."""
        for more in ((), ("--stable", "--cover")):
            wanted = pbaudit.audit_folder(EXAMPLES, **dict.fromkeys((word[2:] for word in more), True))
            done = run_package("folder", ".", "--workers", "2", *more)
            self.assertEqual((done.stdout, done.returncode), (wanted.text, wanted.status))

    def test_the_keyboard_is_not_for_them(self):
        """It stops the command, which stops them: they tell nothing."""
        handlers = []

        def audited(_, executor, **mode):
            handlers.append(executor.submit(signal.getsignal, signal.SIGINT).result())
            return mock.Mock(text="", status=0)
        with mock.patch.object(folders, "audit_folder", audited), mock.patch("builtins.print"):
            self.assertEqual(command_line.main(["folder", str(EXAMPLES), "--workers", "1"]), 0)
        self.assertEqual(handlers, [signal.SIG_IGN])

    def test_each_object_is_told_before_the_next_is_asked_for(self):
        asked = []

        def object_of(entry):
            asked.append(entry.name)
            return {"name": entry.name}
        with mock.patch.object(folders, "entry_object", object_of):
            told = audit_commands.audited_folder(argparse.Namespace(folder=EXAMPLES, json=True, workers=None))
            self.assertEqual((next(told), asked), (('{"name":"district"}', 0), ["district"]))

    def test_no_more_is_told_where_the_output_is_not_taken(self):
        """Nor is more asked for: a fault ends it."""
        with mock.patch.object(command_line, "_told", return_value=4) as told:
            self.assertEqual(command_line.main(["folder", str(EXAMPLES), "--workers", "2", "--json"]), 4)
        self.assertEqual(told.call_count, 1)

    def test_what_is_left_out_is_told(self):
        """As the program tells it, of elections."""
        with tempfile.TemporaryDirectory() as room:
            for name in ("Town.PB", "a\x1b[31m.pb", "b\nc.pb", *(f"{number}.PB" for number in range(6))):
                shutil.copy(EXAMPLES / "sample.pb", os.path.join(room, name))
            os.mkdir(os.path.join(room, "folder.pb"))
            os.symlink(EXAMPLES / "sample.pb", os.path.join(room, "link.pb"))
            lines = [
                "pbaudit: no election was found: the folder has no file named NAME.pb",
                "pbaudit: not audited: 0.PB, 1.PB, 2.PB, 3.PB, 4.PB and 2 more; an election is NAME.pb, with the ending in lower case",
                "pbaudit: not audited: folder.pb, link.pb; only regular files are, and no links, folders or pipes",
                "pbaudit: not audited: a\\u{1b}[31m.pb, b\\nc.pb; their names have control characters",
            ]
            total = "total 0 elections 0 yes 0 no 0 refused\n"
            for words in (("folder", room, "--workers", "2"), ("page", "--folder", room, "-o", os.path.join(room, "pages"))):
                done = run_package(*words)
                self.assertEqual((done.returncode, done.stdout, done.stderr.splitlines()), (0, total, lines))
            found = run_package("find", "--folder", room)
            self.assertEqual(found.stderr.splitlines(), [line.replace("not audited", "not looked at") for line in lines])
            if PROGRAM is not None:
                told = subprocess.run([PROGRAM, "folder", room], capture_output=True, text=True, check=True).stderr.splitlines()
                self.assertEqual([told[0], *told[2:]], [lines[0], *lines[2:]])
            shutil.copy(EXAMPLES / "sample.pb", room)
            self.assertEqual(run_package(*words).stderr.splitlines(), lines[1:])

    def test_what_is_no_number_of_them(self):
        for word in ("0", "-1", "x", "1.5", "5000", "²"):
            for words in (("folder", "."), ("find", "--folder", ".")):
                done = run_package(*words, f"--workers={word}")
                self.assertEqual((done.returncode, done.stdout), (3, ""), word)
                self.assertIn(f"--workers: {word!r} isn't a whole number from 1 to 4096\n", done.stderr)
        done = run_package("find", "sample.pb", "--workers", "2")
        self.assertEqual((done.returncode, done.stdout), (3, ""))
        self.assertIn("--workers is for --folder", done.stderr)


if __name__ == "__main__":
    unittest.main()
