"""The commands of the program in `python -m pbaudit`, run by the program and answered by the library alone."""
import os
import pathlib
import re
import shlex
import shutil
import subprocess
import sys
import tempfile
import unittest
from unittest import mock

import pbaudit
from pbaudit import __main__ as command_line, _auditor, _places, audit_commands

REPOSITORY = pathlib.Path(__file__).resolve().parents[2]
EXAMPLES = REPOSITORY / "examples"
PROGRAM = REPOSITORY / "crates" / "pbaudit" / "out" / "pbaudit"
# What examples/answers.txt lacks: files that can't be read, ahead of others and behind them, and a yes that says little.
MORE = (
    "read missing", "tidy missing missing", "tidy district.pb missing", "prices missing x", "prices district.pb missing",
    "prices school.pb missing --outcome school.prices.csv", "margins school.pb school.prices.csv --outcome missing",
    "both missing district.prices.csv x", "both district.pb missing missing", "both district.pb district.prices.csv missing",
    "both district.pb district.voter-id.violation.csv missing", "prices school.pb school.prices.csv --no-exhaustive",
    "both school.pb school.prices.csv school.violation.csv --no-exhaustive",
    "explain school.pb school.prices.csv --no-exhaustive", "explain sample.pb --stable sample.prices.csv",
    "margins sample.pb --outcome sample.outcome.csv sample.prices.csv", "explain sample.pb --groups",
    "explain school.pb --groups --satisfaction count", "explain sample.pb --outcome sample.outcome.csv --groups --json",
    "margins sample.pb --groups", "margins --groups school.pb --satisfaction count", "margins missing --groups",
    "margins sample.pb sample.prices.csv --json", "margins school.pb --groups --json", "margins school.pb missing --json",
    "explain sample.pb --groups --outcome missing", "folder .", "folder . --stable", "folder missing", "folder . --json",
    "folder . --json --stable --cover", "folder missing --json", "folder . --json --workers 2", "both sample.pb x x --json",
)


def lines():
    """The words of each command line."""
    text = (EXAMPLES / "answers.txt").read_text(encoding="utf-8")
    found = [shlex.split(line) for line in (*re.findall(r"^pbaudit (.*)$", text, re.MULTILINE), *MORE)]
    return [words for words in found if words[0] in audit_commands.COMMANDS]


class GoneOn(BaseException):
    """That this process has become another program."""


class Commands(unittest.TestCase):
    def test_each_command_of_the_program_is_one(self):
        told = subprocess.run([PROGRAM, "help"], capture_output=True, text=True, check=True).stdout
        listed = re.search(r"^Commands:\n((?:  .*\n)+)", told, re.MULTILINE)[1]
        names = {line.split()[0] for line in listed.splitlines()}
        self.assertEqual(names - {"page", "help"}, {*audit_commands.COMMANDS})

    def test_the_library_alone_answers_as_the_program(self):
        """The text, the status, and what stands beside it for people."""
        with tempfile.TemporaryDirectory() as room:
            shutil.copytree(pathlib.Path(pbaudit.__file__).parent, f"{room}/pbaudit", ignore=shutil.ignore_patterns("bin"))
            shutil.copy(_places.library(), f"{room}/pbaudit/{_places.LIBRARY}")
            given = {"PATH": "/usr/bin:/bin", "PYTHONPATH": room, "PYTHONDONTWRITEBYTECODE": "1"}
            for words in lines():
                with self.subTest(words=words):
                    # The program has no --workers.
                    plain = words[:words.index("--workers")] if "--workers" in words else words
                    wanted, done = (
                        subprocess.run([*command], cwd=EXAMPLES, stdin=subprocess.DEVNULL, capture_output=True,
                                       check=False, env=given)
                        for command in ([PROGRAM, *plain], [sys.executable, "-m", "pbaudit", *words]))
                    self.assertEqual((done.returncode, done.stdout), (wanted.returncode, wanted.stdout), done.stderr)
                    if words[0] != "folder":
                        self.assertEqual(done.stderr, wanted.stderr)
        self.assertGreater(len(lines()), 40)

    def test_what_does_not_go_with_groups_is_refused_as_by_the_program(self):
        """Its reason may be told in other words."""
        asked = ("explain sample.pb", "margins sample.pb", "explain sample.pb sample.prices.csv --groups",
                 "margins sample.pb sample.prices.csv --groups", "explain sample.pb --groups --stable",
                 "explain sample.pb --groups --no-exhaustive", "explain sample.pb --groups --cover",
                 "margins sample.pb --groups --cover", "explain sample.pb sample.prices.csv --satisfaction cost",
                 "margins sample.pb sample.prices.csv --satisfaction count", "explain sample.pb --groups --satisfaction Cost",
                 "explain --groups")
        with mock.patch.object(command_line, "run_program"), mock.patch.object(sys, "stderr"):
            for words in map(shlex.split, asked):
                with self.subTest(words=words):
                    done = subprocess.run([PROGRAM, *words], cwd=EXAMPLES, capture_output=True, check=False)
                    with self.assertRaises(SystemExit) as ended:
                        command_line.main(words)
                    self.assertEqual((done.returncode, done.stdout, ended.exception.code), (3, b"", 3))
            for words in (["page", "sample.pb", "-o", "x"], ["page", "sample.pb", "x.csv", "--groups", "-o", "x"],
                          ["page", "sample.pb", "--groups", "--stable", "-o", "x"],
                          ["page", "sample.pb", "x.csv", "--satisfaction", "cost", "-o", "x"]):
                with self.subTest(words=words), self.assertRaises(SystemExit) as ended:
                    command_line.main(words)
                self.assertEqual(ended.exception.code, 3)

    def test_names_are_shown_as_by_the_program(self):
        """What can't be seen, or moves what stands beside it, is told by its number, by commands of the package too."""
        name = "a\x1b[31m\u202e\nb\u3164"
        shown_name = "a\\u{1b}[31m\\u{202e}\\nb\\u{3164}"
        with tempfile.TemporaryDirectory() as room:
            shutil.copytree(pathlib.Path(pbaudit.__file__).parent, f"{room}/pbaudit", ignore=shutil.ignore_patterns("bin"))
            shutil.copy(_places.library(), f"{room}/pbaudit/{_places.LIBRARY}")
            given = {"PATH": "/usr/bin:/bin", "PYTHONPATH": room, "PYTHONDONTWRITEBYTECODE": "1"}
            shutil.copy(EXAMPLES / "sample.prices.csv", f"{room}/{name}")
            shutil.copy(EXAMPLES / "sample.pb", f"{room}/good{name}")
            for words in (["read", name], ["prices", name, name], ["read", f"no {name}"], ["folder", f"no {name}"],
                          ["page", name, name, "-o", "x"], ["equal-shares", name], ["equal-shares", f"no {name}"],
                          ["equal-shares", f"good{name}", "-o", f"good{name}"], ["find", name], ["read", name, name],
                          ["find", f"good{name}", "--prices", "--output", f"no/{name}/x"],
                          ["equal-shares", f"good{name}", "-o", f"no/{name}"]):
                with self.subTest(words=words):
                    done = subprocess.run([sys.executable, "-m", "pbaudit", *words], cwd=room, capture_output=True,
                                          check=False, env=given)
                    told = (done.stdout + done.stderr).decode()
                    self.assertIn(shown_name, told)
                    self.assertFalse(set("\x1b\u202e\u3164") & set(told), told)
                    self.assertNotIn("\nb", told)
                    if words[0] in ("read", "prices", "folder") and len(words) < 4 and words != ["read", name, name]:
                        wanted = subprocess.run([PROGRAM, *words], cwd=room, capture_output=True, check=False)
                        self.assertEqual((done.stdout, done.stderr), (wanted.stdout, wanted.stderr))

    def test_the_program_runs_them(self):
        with mock.patch.object(audit_commands, "program", lambda: pathlib.Path("/a/pbaudit")), \
                mock.patch.object(os, "execv", side_effect=GoneOn) as called:
            for command in audit_commands.COMMANDS:
                with self.assertRaises(GoneOn):
                    command_line.main([command, "--help"])
                called.assert_called_with("/a/pbaudit", ["/a/pbaudit", command, "--help"])

    def test_a_program_that_can_not_be_run(self):
        with mock.patch.object(audit_commands, "program", lambda: pathlib.Path("/missing/pbaudit")), \
                mock.patch.object(command_line, "_tell") as told:
            self.assertEqual(command_line.main(["read", "town.pb"]), 4)
        self.assertRegex(told.call_args[0][0], "^fault: /missing/pbaudit can't be run: ")


class Places(unittest.TestCase):
    """An installed package, in a folder with the commands of an installation beside it."""

    def setUp(self):
        self.room = pathlib.Path(tempfile.mkdtemp())
        self.addCleanup(shutil.rmtree, self.room)
        self.own = self.room / "pbaudit" / "libpbaudit.so.2"
        self.module = self.room / "pbaudit" / "node" / "command.js"
        for folder in ("pbaudit", "pbaudit/bin", "path"):
            (self.room / folder).mkdir()
        places = {"_OWN": self.own, "_OWN_PROGRAM": self.room / "pbaudit/bin/pbaudit", "_MODULE": self.module,
                  "_CHECKOUT": self.room / "none"}
        for patch in (mock.patch.multiple(_places, **places),
                      mock.patch.dict(os.environ, {"PATH": str(self.room / "path")})):
            patch.start()
            self.addCleanup(patch.stop)

    def put(self, folder, data=b"\x7fELF"):
        path = self.room / folder / "pbaudit"
        path.write_bytes(data)
        path.chmod(0o755)
        return path

    def test_an_installed_package_takes_its_own(self):
        self.put("path")
        self.assertEqual((_places.library(), _places.program()), (None, self.room / "path" / "pbaudit"))
        self.own.write_bytes(b"library")
        self.assertEqual((_places.library(), _places.program()), (self.own, None))
        path = self.put("pbaudit/bin")
        self.assertEqual(_places.program(), path)
        # Whoever unpacked it left it as no program.
        path.chmod(0o644)
        self.assertIsNone(_places.program())

    def test_the_command_that_pip_installs_is_not_the_program(self):
        """It would call the package again; another script of that name may well be one."""
        self.put("path", (REPOSITORY / "python/backend/entry.py").read_bytes())
        self.assertIsNone(_places.program())
        path = self.put("path", b"#!/bin/sh\nexec /opt/pbaudit\n")
        self.assertEqual(_places.program(), path)

    def put_node(self, version):
        self.module.parent.mkdir(exist_ok=True)
        self.module.write_bytes(b"")
        node = self.room / "path" / "node"
        node.write_text(f"#!/bin/sh\necho {version}\n")
        node.chmod(0o755)
        return str(node)

    def test_the_wheel_for_any_platform_takes_node(self):
        """And no command of its name, which would run itself, nor what is built beside it."""
        self.assertIsNone(_places.module())
        self.put("path", b"#!/usr/bin/python3\n")
        for name in ("lib/libpbaudit.so.2", "crates/pbaudit/out/pbaudit"):
            (self.room / "none" / name).parent.mkdir(parents=True)
            (self.room / "none" / name).write_bytes(b"")
        for version in ("v18.0.0", "v20.19.2", "v100.1.0"):
            node = self.put_node(version)
            self.assertEqual((_places.library(), _places.program(), _places.module()), (None, None, [node, str(self.module)]))

    def test_without_node_it_says_what_is_missing(self):
        self.module.parent.mkdir()
        self.module.write_bytes(b"")
        with self.assertRaisesRegex(ImportError, "^this is the wheel of pbaudit for any platform, .* no command node on the PATH; "):
            _places.module()
        for version, told in (("v16.20.2", "node is v16.20.2; "), ("v9.0.0", "node is v9.0.0; "), ("", "node is none; ")):
            self.put_node(version)
            with self.assertRaisesRegex(ImportError, f"{told}install Node, or open pbaudit.html in a browser"):
                _places.module()

    def test_a_checkout(self):
        built = {"lib/libpbaudit.so.2": _places.library, "crates/pbaudit/out/pbaudit": _places.program}
        for name, find in built.items():
            path = self.room / "none" / name
            path.parent.mkdir(parents=True)
            path.write_bytes(b"")
            self.assertEqual(find(), path)

    def test_a_library_of_another_number_is_not_found(self):
        """Neither where it is built nor in the package; the number is told that is looked for."""
        for name in ("libpbaudit.so.1", "libpbaudit.so.3", "libpbaudit.so"):
            for folder in (self.room / "none/lib", self.own.parent):
                folder.mkdir(parents=True, exist_ok=True)
                (folder / name).write_bytes(b"")
        self.assertIsNone(_places.library())
        with self.assertRaisesRegex(ImportError, "^neither libpbaudit.so.2 nor the program pbaudit was found; "):
            _auditor._find()
        path = self.put("path")
        self.assertEqual((_places.library(), _places.program()), (None, path))
