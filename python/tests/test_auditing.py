"""The audits of files, by the library and by the program."""
import ctypes
import errno
import inspect
import json
import os
import pathlib
import pickle
import subprocess
import sys
import tempfile
import unittest
from fractions import Fraction
from unittest import mock

import pbaudit
from pbaudit import Refusal, _auditor, _places, objects

REPOSITORY = pathlib.Path(__file__).resolve().parents[2]
EXAMPLES = REPOSITORY / "examples"
PROGRAM = REPOSITORY / "crates" / "pbaudit" / "out" / "pbaudit"
AUDITS = ("read", "prices", "violation", "refutation", "both", "explain", "margins", "tidy")
OBJECT = {"answer": "yes", "kind": "prices", "version": 1}


def wanted_answers():
    """The commands of answers.txt that this package has: words, the text, and the status."""
    command, lines = None, []
    for line in (EXAMPLES / "answers.txt").read_text(encoding="utf-8").splitlines()[1:]:
        if line.startswith("pbaudit "):
            command, lines = line.split(" ")[1:], []
        elif line.startswith("status ") and command[0] in AUDITS and "18 Read" not in lines[0]:
            yield command, "".join(each + "\n" for each in lines), int(line.split(" ")[1])
        else:
            lines.append(line)


def question_of(words):
    """The question that some words of the command line ask."""
    command, election, *rest = words
    outcome = None
    if "--outcome" in rest:
        at = rest.index("--outcome")
        outcome = (EXAMPLES / rest[at + 1]).read_bytes()
        del rest[at:at + 2]
    mode = _auditor.Mode("--stable" in rest, "--no-exhaustive" not in rest, "--cover" in rest)
    certificates = [(EXAMPLES / word).read_bytes() for word in rest if not word.startswith("--")]
    return _auditor.Question(command, (EXAMPLES / election).read_bytes(), *certificates, outcome=outcome, mode=mode)


def program_of(room, script):
    """A program in a folder, which is a script of the shell."""
    path = pathlib.Path(room, "pbaudit")
    path.write_text(f"#!/bin/sh\n{script}\n")
    path.chmod(0o755)
    return path


class Answers(unittest.TestCase):
    def test_both_answer_as_the_examples_say(self):
        """The library and the program, by the same objects."""
        library, program, told = _auditor._find(), _auditor._Program(str(PROGRAM)), set()
        self.assertIsInstance(library, _auditor._Library)
        for words, text, status in wanted_answers():
            with self.subTest(words=words):
                answer, other = library.ask(question_of(words)), program.ask(question_of(words))
                self.assertEqual((answer.status, answer.text), (status, text.encode()))
                self.assertEqual((other.status, other.found), (status, answer.found))
                self.assertEqual((other.text, other.hint is None), (answer.text, status < 2))
                self.assertEqual(answer.found == {}, words[0] == "tidy" and status == 0)
                told.add((answer.found.get("kind"), (answer.found.get("failed") or {}).get("name")))
        self.assertLess({("prices", "S5"), ("violation", "V4"), ("refusal", None), ("both", None)}, told)

    def test_both_answer_on_an_entry_as_a_folder(self):
        """The library and the program, with the object that the program prints on the folder."""
        options = {(): {}, ("--stable",): {"stable": True}, ("--no-exhaustive", "--cover"): {"exhaustive": False, "cover": True}}
        for words, mode in options.items():
            lines = subprocess.run([PROGRAM, "folder", EXAMPLES, "--json", *words], capture_output=True, check=False).stdout.split(b"\n")
            wanted = [json.loads(line) for line in lines if b'"kind":"entry"' in line]
            self.assertEqual([each["name"] for each in wanted], ["district", "hall", "sample", "school"])
            for entry in wanted:
                paths = {kind: EXAMPLES / f"{entry['name']}{ending}" for kind, ending in _auditor.ENDINGS.items()}
                files = {kind: path.read_bytes() for kind, path in paths.items() if path.exists()}
                for auditor in (_auditor._find(), _auditor._Program(str(PROGRAM))):
                    with self.subTest(words=words, entry=entry["name"], auditor=auditor):
                        asked = _auditor.EntryFiles(entry["name"], files, _auditor.Mode(**mode))
                        self.assertEqual(auditor.ask_entry(asked), entry)

    def test_both_answer_on_an_entry_with_files_that_cant_be_read(self):
        """What stands first is told first: that the election can't be read, is refused or states no outcome. The name may be any."""
        sample, prices = (EXAMPLES / f"sample.{end}" for end in ("pb", "prices.csv"))
        without_outcome, refused = sample.read_bytes().replace(b";selected", b";funded"), prices.read_bytes()
        unread = {"prices": None, "violation": None}
        numbers = {"election": [18, None, None], "certificate": [None, 18, 18], "refused": [2, None, None], "without": [None, 17, 17]}
        for what, files in {"election": {"election": None, **unread}, "certificate": {"election": sample.read_bytes(), **unread},
                            "refused": {"election": refused, **unread}, "without": {"election": without_outcome, **unread}}.items():
            told = []
            for auditor in (_auditor._find(), _auditor._Program(str(PROGRAM))):
                with self.subTest(what=what, auditor=auditor):
                    found = auditor.ask_entry(_auditor.EntryFiles('"x"<b>' + "y" * 300, files))
                    self.assertEqual([(found[kind] or {}).get("number") for kind in _auditor.ENDINGS], numbers[what])
                    self.assertEqual((found["name"], found["kind"]), ('"x"<b>' + "y" * 300, "entry"))
                    told.append(found)
            self.assertEqual(*told)

    def test_what_a_yes_says_of_groups(self):
        """The budgets of the school come to less than the limit, and those of the district to more."""
        school = [EXAMPLES / f"school.{end}" for end in ("pb", "prices.csv", "violation.csv")]
        district = [EXAMPLES / f"district.{end}" for end in ("pb", "prices.csv")]
        for auditor in (_auditor._find(), _auditor._Program(str(PROGRAM))):
            with self.subTest(auditor=auditor), mock.patch.object(_auditor, "_found", auditor):
                self.assertEqual(self.of_groups(*school[:2], exhaustive=False), (True, "little", True))
                self.assertEqual(self.of_groups(*district, exhaustive=False), (True, "strict", False))
                self.assertEqual(self.of_groups(*district), (True, "strict", False))
                self.assertEqual(self.of_groups(*school[:2]), (False, None, False))
                of_group = pbaudit.audit_violation(school[0], school[2])
                self.assertEqual((bool(of_group), of_group.says_of_groups, of_group.says_little), (True, None, False))
                both = pbaudit.audit_both(*school, exhaustive=False)
                self.assertEqual([each.says_of_groups for each in both], ["little", None])
                self.assertEqual(pbaudit.explain(*school[:2], exhaustive=False).verdict.says_of_groups, "little")

    def test_what_a_yes_says_of_groups_at_the_limit(self):
        """Three voters with budgets of 1 each, and limits beside 3; the bench that they pay for is all there is."""
        bench, voters = pbaudit.Project("bench", 3), [{"bench"}] * 3
        millionth = Fraction(1, 10**6)
        for auditor in (_auditor._find(), _auditor._Program(str(PROGRAM))):
            for limit, exhaustive, wanted in (
                (3, False, "weak"), (3, True, "strict"), (3 + millionth, False, "little"), (3 + millionth, True, "little"),
            ):
                with self.subTest(limit=limit, exhaustive=exhaustive), mock.patch.object(_auditor, "_found", auditor):
                    verdict = pbaudit.validate_price_system(
                        pbaudit.Instance([bench], limit), voters, ["bench"], 1, [{"bench": 1}] * 3, exhaustive=exhaustive)
                    self.assertEqual((bool(verdict), verdict.says_of_groups), (True, wanted))
            for exhaustive in (False, True):
                with self.subTest(exhaustive=exhaustive), mock.patch.object(_auditor, "_found", auditor):
                    verdict = pbaudit.validate_price_system(
                        pbaudit.Instance([bench], 3), voters, ["bench"], 1 + millionth, [{"bench": 1}] * 3,
                        exhaustive=exhaustive)
                    self.assertEqual((bool(verdict), verdict.says_of_groups), (True, "strict"))

    @staticmethod
    def of_groups(*files, **switches):
        verdict = pbaudit.audit_prices(*files, **switches)
        return bool(verdict), verdict.says_of_groups, verdict.says_little

    def test_an_older_program(self):
        """It doesn't know --json: that of 0.2.0 for no command, and that of 0.3.0 not for margins, of which it gives the table."""
        usage = "echo \"error: unexpected argument '--json' found\" >&2; exit 3"
        of_margins = f'case "$*" in margins*--json) {usage};; margins*) echo pb-margins,1;; *) echo \'{json.dumps(OBJECT)}\';; esac'
        told = "status 3 .it may be older than this package.: .*--json"
        for script, older_for, newer_for in ((usage, ("prices", "margins", "group_margins"), ()),
                                             (of_margins, ("margins", "group_margins"), ("prices",))):
            with tempfile.TemporaryDirectory() as room:
                program = _auditor._Program(str(program_of(room, script)))
                for command in older_for:
                    with self.subTest(script=script, command=command), self.assertRaisesRegex(RuntimeError, told):
                        program.ask(_auditor.Question(command, b"", b""))
                for command in newer_for:
                    self.assertEqual(program.ask(_auditor.Question(command, b"", b"")).found, OBJECT)

    def test_what_is_read_from_what_is_printed(self):
        """Nothing of what the program prints; and notes and hints of what it tells on standard error, but an election's notes,
        which are those of its object."""
        refusal = objects.refusal_of("certificate", 24, "UnknownVoter", 5)
        told = ("election: note: x", "certificate:6: there is no voter '7'")
        for found, status, notes, sentences in ((OBJECT, 0, ("note: x",), None), (refusal, 2, ("note: x",), told[1:])):
            for printed in ("failed C3", "election: note: y", json.dumps(dict(OBJECT, answer="no")), ""):
                script = (f"case \"$*\" in *--json) echo '{json.dumps(found)}';; *) echo '{printed}';; esac\n"
                          + "".join(f'echo "{each}" >&2\n' for each in told[:1 + status // 2]) + f"exit {status}")
                with self.subTest(found=found, printed=printed), tempfile.TemporaryDirectory() as room:
                    report = _auditor._Program(str(program_of(room, script))).ask(_auditor.Question("prices", b"", b"\n" * 9))
                    self.assertEqual((report.status, report.found, report.notes), (status, found, notes))
                    self.assertEqual(report.hint and report.hint.sentences, sentences)
                    self.assertEqual(report.text, f"{printed}\n".encode())

    def test_what_is_no_object_of_an_entry(self):
        for answer in ("", "no", "[]", '{"kind":"entry"}', '{"kind":"total","version":1}'):
            with self.subTest(answer=answer), tempfile.TemporaryDirectory() as room:
                program = _auditor._Program(str(program_of(room, f"echo '{answer}'")))
                with self.assertRaisesRegex(RuntimeError, "which this package can't read"):
                    program.ask_entry(_auditor.EntryFiles("town", {"election": b""}))

    def test_a_library_that_runs_out_of_memory_or_is_older(self):
        library = object.__new__(_auditor._Library)
        for number, error in ((4, MemoryError), (3, RuntimeError)):
            library._report = lambda *words, number=number: number
            with self.assertRaises(error):
                library.ask(_auditor.Question("prices", b"", b""))

    def test_a_library_of_another_version(self):
        """Whose object isn't one of this version, or says another thing than the status: no answer, and no fault of a file."""
        beside = b'{"hint":null,"notes":[],"refusal":null}\n'
        other, wrong = dict(OBJECT, version=2), dict(OBJECT, answer="no")
        # That of 0.3.0 has no object of margins, but the table, which begins so.
        tables = [(command, beside + table) for command, table in (
            ("margins", b"pb-margins,1\ngrains_per_unit,1000000\n"), ("group_margins", b"pb-groups,1\ngrains_per_unit,1000000\n"))]
        for command, data in (("read", beside + json.dumps(other).encode() + b"\n"), ("read", beside + json.dumps(wrong).encode() + b"\n"),
                              ("read", b"{}\n{}\n"), ("read", b"supported priceable\n"), ("read", b"[]\n"), ("read", b""), *tables):
            def answered(*words, data=data):
                *_, out, room, needed = words
                needed._obj.value, out.raw = len(data), data.ljust(room, b"\0")
                return 0
            library = object.__new__(_auditor._Library)
            library._report = answered
            with self.subTest(data=data), self.assertRaisesRegex(RuntimeError, "^the library is of another version than "):
                library.ask(_auditor.Question(command, b""))

    def test_library_is_asked_once(self):
        """Answers of tidy and margins are about as long as the files."""
        asked, text = [], b"x" * 90_000
        beside = b'{"hint":null,"notes":["note: x"],"refusal":null}\n'

        def answered(question, *words):
            *_, out, room, needed = words
            asked.append(room)
            answer = beside + (b"" if question == 7 else json.dumps(OBJECT).encode() + b"\n") + text
            needed._obj.value = len(answer)
            if room >= len(answer):
                out.raw = answer.ljust(room, b"\0")
            return 0
        library = object.__new__(_auditor._Library)
        library._report = answered
        long, short = bytes(100_000), b""
        for times, *files in ((1, "tidy", short, long), (2, "tidy", long, short), (1, "margins", long, short),
                              (1, "group_margins", long), (2, "explain_groups", long), (2, "read", long)):
            asked.clear()
            with self.subTest(command=files[0]):
                report = library.ask(_auditor.Question(*files))
                self.assertEqual((report.status, report.text, report.notes), (0, text, ("note: x",)))
                self.assertEqual((report.found, report.hint), ({} if files[0] == "tidy" else OBJECT, None))
                self.assertEqual(len(asked), times)

    def test_program_that_ends_otherwise_is_an_error(self):
        with self.assertRaises(RuntimeError):
            _auditor._Program(str(PROGRAM)).ask(_auditor.Question("unknown", b"", b""))

    def test_program_that_cannot_be_run_is_no_unread_file(self):
        question = _auditor.Question("read", b"")
        with self.assertRaisesRegex(RuntimeError, "/missing/pbaudit"):
            _auditor._Program("/missing/pbaudit").ask(question)
        with mock.patch.object(tempfile, "tempdir", "/missing"), self.assertRaisesRegex(RuntimeError, "/missing"):
            _auditor._Program(str(PROGRAM)).ask(question)

    def test_library_that_cannot_be_used(self):
        with tempfile.TemporaryDirectory() as room:
            junk = pathlib.Path(room, "libpbaudit.so")
            junk.write_bytes(b"junk")
            with mock.patch.object(_places, "library", lambda: junk):
                with self.assertRaisesRegex(ImportError, "libpbaudit.so can't be used: .*pbaudit-library"):
                    _auditor._find()
                with mock.patch.object(ctypes, "CDLL", lambda path: object()):
                    with self.assertRaisesRegex(ImportError, "no attribute 'pbaudit_report'.*pbaudit-library"):
                        _auditor._find()

    def test_without_either_it_says_how_to_build(self):
        with tempfile.TemporaryDirectory() as room:
            package = pathlib.Path(room, "pbaudit")
            package.mkdir()
            for file in pathlib.Path(pbaudit.__file__).parent.glob("*.py"):
                (package / file.name).write_bytes(file.read_bytes())
            words = [sys.executable, "-c", "import pbaudit; pbaudit.read(b'')"]
            given = {"PATH": room, "PYTHONPATH": room}
            done = subprocess.run(words, cwd=room, capture_output=True, env=given, check=False)
        self.assertIn(b"pip install ./python", done.stderr)


class Audits(unittest.TestCase):
    def test_read(self):
        summary = pbaudit.read(EXAMPLES / "district.pb")
        self.assertEqual((summary.voters, summary.projects, summary.funded, summary.notes), (60, 12, 6, ()))
        self.assertEqual(str(summary), "read 60 voters 12 projects 6 funded")
        sample = (EXAMPLES / "sample.pb").read_bytes().replace(b"selected", b"chosen")
        summary = pbaudit.read(sample.replace(b"num_votes;3", b"num_votes;4"))
        self.assertEqual((summary.funded, summary.notes), (None, ("num_votes says 4, counted 3",)))
        summary = pbaudit.read((EXAMPLES / "sample.pb").read_bytes().replace(b"voter_id;vote", b"SIGN;vote;weight"))
        self.assertEqual(summary.notes, ("column weight of VOTES is not used", "column sign of VOTES is not used"))

    def test_paths_and_bytes(self):
        for file in (str(EXAMPLES / "sample.pb"), EXAMPLES / "sample.pb", (EXAMPLES / "sample.pb").read_bytes(),
                     bytearray((EXAMPLES / "sample.pb").read_bytes())):
            self.assertEqual(pbaudit.read(file).voters, 3)
        with self.assertRaises(FileNotFoundError):
            pbaudit.read(EXAMPLES / "missing.pb")

    def test_a_file_whose_read_fails(self):
        path = "/proc/self/mem"
        if not os.path.exists(path):
            self.skipTest(f"{path} isn't there")
        with self.assertRaises(OSError) as caught:
            pbaudit.read(path)
        self.assertEqual(caught.exception.filename, path)

    def test_a_path_that_no_file_has(self):
        for path in ("a\0b", pathlib.Path("a\0b")):
            for ask in (pbaudit.read, lambda file: pbaudit.write_page(EXAMPLES / "sample.pb", file)):
                with self.assertRaises(OSError) as caught:
                    ask(path)
                self.assertEqual((caught.exception.errno, caught.exception.filename), (errno.EINVAL, "a\0b"))

    def test_prices(self):
        files = EXAMPLES / "district.pb", EXAMPLES / "district.prices.csv"
        verdict = pbaudit.audit_prices(*files)
        self.assertTrue(verdict)
        self.assertEqual((str(verdict), verdict.condition), ("supported priceable", None))
        verdict = pbaudit.audit_prices(*files, stable=True)
        self.assertFalse(verdict)
        self.assertEqual((verdict.condition, verdict.voter, verdict.project), ("S5", None, "102"))
        other = pbaudit.audit_prices(*files, EXAMPLES / "district.other.outcome.csv", exhaustive=False)
        self.assertEqual((other.condition, other.project), ("C3", "102"))
        stable = EXAMPLES / "district.stable.prices.csv", EXAMPLES / "district.stable.outcome.csv"
        self.assertTrue(pbaudit.audit_prices(EXAMPLES / "district.pb", *stable, stable=True, cover=True))

    def test_violation(self):
        files = EXAMPLES / "district.pb", EXAMPLES / "district.violation.csv"
        verdict = pbaudit.audit_violation(*files)
        self.assertEqual((bool(verdict), verdict.condition, verdict.voter, verdict.project), (False, "V4", 9, None))
        self.assertTrue(pbaudit.audit_violation(*files, EXAMPLES / "district.other.outcome.csv"))

    def test_both(self):
        files = EXAMPLES / "district.pb", EXAMPLES / "district.stable.prices.csv", EXAMPLES / "district.violation.csv"
        outcome = EXAMPLES / "district.stable.outcome.csv"
        prices, violation = pbaudit.audit_both(*files, outcome, stable=True, cover=True)
        self.assertTrue(prices)
        self.assertEqual((bool(violation), violation.condition, violation.voter), (False, "V4", 9))
        with self.assertRaises(Refusal) as caught:
            pbaudit.audit_both(EXAMPLES / "sample.pb", EXAMPLES / "sample.prices.csv", EXAMPLES / "sample.prices.csv")
        self.assertEqual((caught.exception.input, caught.exception.number), ("violation", 21))

    def test_margins(self):
        files = EXAMPLES / "sample.pb", EXAMPLES / "sample.prices.csv"
        first, second, third = pbaudit.margins(*files)
        self.assertEqual(first, pbaudit.ProjectMargins("a", True, 2, 6, 6, 0, 6))
        self.assertEqual(second, pbaudit.ProjectMargins("b", True, 2, 4, 4, 2, 4))
        self.assertEqual(third, pbaudit.ProjectMargins("c", False, 1, 9, 0, 2, 2))
        thirds = files[1].read_bytes().replace(b"denominator,1", b"denominator,3")
        first, _, third = pbaudit.margins(files[0], thirds, b"pb-outcome,1\nproject,c\n")
        self.assertEqual((first.funded, first.paid), (False, 2))
        self.assertEqual((third.funded, third.left), (True, Fraction(2, 3)))
        with self.assertRaises(Refusal):
            pbaudit.margins(*reversed(files))
        odd = ["i" * 200_000, 'x,"y"', '"', "\u2028\u00a0"]
        town = pbaudit.write_election(pbaudit.Instance([pbaudit.Project(name, 1) for name in odd], 9), [[]], odd[:1])
        told = pbaudit.margins(town, pbaudit.write_prices(1, [{}]))
        self.assertEqual([(each.project, each.funded) for each in told], [(name, name == odd[0]) for name in odd])

    def test_explain(self):
        files = EXAMPLES / "district.pb", EXAMPLES / "district.short.prices.csv"
        told = pbaudit.explain(*files)
        self.assertEqual(told.verdict, pbaudit.audit_prices(*files))
        self.assertEqual([found.name for found in told.findings],
                         ["Feasible", "Exhaustive", "Cover", "C1", "C2", "C3", "C4", "C5", "S5"])
        self.assertEqual([found.name for found in told.findings if found.state == "fails"], ["C3"])
        self.assertEqual([found.name for found in told.findings if found.state == "not asked"], ["Cover", "S5"])
        self.assertIn("39599.99", told.findings[5].sentence)
        self.assertIs(bool(told), False)
        self.assertIs(bool(pbaudit.explain(files[0], EXAMPLES / "district.prices.csv")), True)
        told = pbaudit.explain(*files, stable=True, exhaustive=False, cover=True)
        self.assertEqual([found.name for found in told.findings if found.state == "not asked"], ["Exhaustive", "C5"])
        files = files[0], EXAMPLES / "district.violation.csv", EXAMPLES / "district.other.outcome.csv"
        told = pbaudit.explain(*files)
        self.assertEqual(told.verdict, pbaudit.audit_violation(*files))
        self.assertEqual([found.name for found in told.findings if found.state == "holds"], ["V1", "V2", "V3", "V4"])
        with self.assertRaises(Refusal):
            pbaudit.explain(*reversed(files[:2]))

    def test_what_is_explained_of_groups(self):
        """By the object alone, whatever is printed."""
        text = b"supported priceable\n\nany line\n\nany other\n"
        sums = {"amount": "2500000", "bound": "3000000", "project": None, "voter": None}
        condition = {"asked": False, "culprits": 1, "first": None, "holds": False, "name": "Cover", "shown": sums}
        nearest = {"cost": "9000000", "funded_for": "4500000", "number": 3, "project": "z",
                   "share": {"denominator": 3, "numerator": "10000000"}, "supporters": 1}
        found = {**OBJECT, "conditions": [condition], "failed": None, "grains_per_unit": 10**6, "groups": "weak",
                 "mode": {"stable": False}, "nearest": nearest}
        report = _auditor.Report(0, found, lambda: text)
        with mock.patch.object(_auditor, "_found", mock.Mock(ask=lambda question: report)):
            told = pbaudit.explain(b"", b"")
        sentence = "with --cover it fails: all voter budgets come to 2.50 together; the limit is 3.00"
        self.assertEqual(told.findings, (pbaudit.Finding("Cover", "not asked", sentence),))
        self.assertEqual(told.groups, (
            "take any voters who all approve an unfunded project: their equal part of the limit is no more than that "
            "project's cost plus the cost of all funded projects that at least one of them approves",
            "nearest to that comes project z: the share of its 1 supporters is 3 1/3, it costs 9.00, and 4.50 was funded for "
            "them"))
        self.assertEqual(told.nearest, pbaudit.NearestGroup("z", 1, Fraction(10, 3), Fraction(9), Fraction(9, 2)))
        self.assertEqual(told.verdict.says_of_groups, "weak")
        self.assertEqual(str(told), text.decode())

    def test_sentences_are_those_of_the_table(self):
        """Of all kinds of certificates, in the plain form and in another."""
        for names in (("district", "prices"), ("district", "short.prices"), ("school", "prices"), ("school", "refutation"),
                      ("district", "violation"), ("hall", "violation")):
            files = [EXAMPLES / f"{names[0]}.{end}" for end in ("pb", f"{names[1]}.csv")]
            for mode in ({}, {"stable": True, "exhaustive": False, "cover": True}):
                with self.subTest(names=names, mode=mode):
                    told = pbaudit.explain(*files, **mode)
                    self.check_sentences(told)
                    self.assertEqual(bool(told.groups), bool(told) and names[1].endswith("prices"))

    def test_sentences_on_groups_are_those_behind_the_table(self):
        """Each voter pays all of its budget of 10/3. With the limit at the budgets, and just above; and without a project
        that isn't funded."""
        a, b, c = (pbaudit.Project(name, cost) for name, cost in (("a", 6), ("b", 4), ("c", 9)))
        paid = [{a: Fraction(8, 3), b: Fraction(2, 3)}, {a: Fraction(10, 3)}, {b: Fraction(10, 3)}]
        prices, above = pbaudit.write_prices(Fraction(10, 3), paid), Fraction("10.000001")
        for projects, limit, exhaustive, said in (
            ([a, b, c], 10, True, "strict"), ([a, b, c], 10, False, "weak"), ([a, b, c], above, True, "little"),
            ([a, b], 10, True, "strict"), ([a, b], 10, False, "weak"), ([a, b], above, True, "little"),
        ):
            with self.subTest(projects=len(projects), limit=limit, exhaustive=exhaustive):
                town = pbaudit.write_election(pbaudit.Instance(projects, limit), [[a, b], [a], [b, *projects[2:]]], [a, b])
                told = pbaudit.explain(town, prices, exhaustive=exhaustive)
                self.check_sentences(told)
                self.assertEqual(told.verdict.says_of_groups, said)
                has_nearest = said != "little" and c in projects
                self.assertEqual((len(told.groups), told.nearest is not None), (1 + has_nearest, has_nearest))

    def check_sentences(self, told):
        """They are those of the text. The program pads names and states to columns."""
        rows = [f"{each.name:12}{each.state:11}{each.sentence}" for each in told.findings]
        parts = [str(told.verdict), "\n".join(rows), *(["\n".join(told.groups)] if told.groups else [])]
        self.assertEqual(str(told), "\n\n".join(parts) + "\n")

    def test_tidy(self):
        untidy = EXAMPLES / "sample.untidy.prices.csv"
        self.assertEqual(pbaudit.tidy(EXAMPLES / "sample.pb", untidy), (EXAMPLES / "sample.prices.csv").read_bytes())

    def test_refusals(self):
        with self.assertRaises(Refusal) as caught:
            pbaudit.audit_violation(EXAMPLES / "district.pb", EXAMPLES / "district.voter-id.violation.csv")
        for refusal in (caught.exception, pickle.loads(pickle.dumps(caught.exception))):
            self.assertEqual((refusal.number, refusal.name), (24, "UnknownVoter"))
            self.assertEqual((refusal.input, refusal.record), ("certificate", 4))
            self.assertEqual((refusal.printed, refusal.line), ("refused certificate 24 UnknownVoter record 4", 4))
            self.assertEqual(refusal.file, str(EXAMPLES / "district.voter-id.violation.csv"))
            told = [f"{refusal.file}:4: there is no voter '20582'; the election has 60 voters",
                    f"{refusal.file}: voters are numbered by their rows in VOTES, from 1, and not by voter_id; the "
                    "one with voter_id '20582' is voter 9"]
            self.assertEqual(str(refusal).split("\n"), [refusal.printed, *told])
            self.assertEqual(refusal.reason.split("\n"), [each.split(": ", 1)[1] for each in told])
            self.assertIn("\n".join(told), self.told_by_the_program())

    @staticmethod
    def told_by_the_program():
        words = [PROGRAM, "violation", EXAMPLES / "district.pb", EXAMPLES / "district.voter-id.violation.csv"]
        return subprocess.run(words, capture_output=True, text=True, check=False).stderr

    def test_a_refusal_names_its_argument(self):
        """By the library and by the program; where hints are wanting there is no reason."""
        sample, prices = (EXAMPLES / "sample.pb").read_bytes(), (EXAMPLES / "sample.prices.csv").read_bytes()
        for auditor in (_auditor._find(), _auditor._Program(str(PROGRAM))):
            with mock.patch.object(_auditor, "_found", auditor):
                for name, line, word, ask in (
                    ("outcome", 2, "'none'", lambda: pbaudit.explain(sample, prices, b"pb-outcome,1\nproject,none\n")),
                    ("violation", 1, "price certificate", lambda: pbaudit.audit_both(sample, prices, prices)),
                    ("prices", 5, "'none'", lambda: pbaudit.audit_both(sample, prices.replace(b"1,a,2", b"1,none,2"), b"")),
                    ("certificate", 5, "voter", lambda: pbaudit.tidy(sample, prices.replace(b"1,a,2", b"9,a,2"))),
                    ("election", 1, "META", lambda: pbaudit.read(b"MET")),
                ):
                    with self.subTest(name=name, auditor=type(auditor)), self.assertRaises(Refusal) as caught:
                        ask()
                    refusal = caught.exception
                    self.assertEqual((refusal.file, refusal.line), (name, line))
                    self.assertIn(word, refusal.reason)
                    self.assertIn(f"\n{name}:{line}: ", str(refusal))
        found = objects.refusal_of("election", 2, "NoMeta", 1)
        with mock.patch.object(_auditor, "_found", mock.Mock(ask=lambda _: _auditor.Report(2, found, lambda: b""))):
            with self.assertRaises(Refusal) as caught:
                pbaudit.read(b"MET")
            self.assertEqual((caught.exception.line, caught.exception.reason), (None, None))
            self.assertEqual(str(caught.exception), "refused election 2 NoMeta record 1")

    def test_a_sentence_ends_at_a_line_feed_alone(self):
        """So that an id in it forges no line."""
        odd = "'x\u2028a.pb:9: y\u2029\u0085z\r\x1c\x0b\x0c'"
        found, sentences = objects.refusal_of("election", 9, "DuplicateProject", 5), (f"one {odd}", f"line 7: other {odd}")
        refusal = Refusal(found, "a.pb", _auditor.Hint(5, sentences))
        self.assertEqual(refusal.sentences(), [f"a.pb:5: one {odd}", f"a.pb: line 7: other {odd}"])
        self.assertEqual(refusal.reason, "\n".join(sentences))
        program = _auditor._Program("pbaudit")
        sentences = f"election:5: one {odd}", f"election:7: other {odd}"
        answer = 2, objects.text_of_object(found).encode(), "".join(f"{each}\n" for each in sentences).encode()
        with mock.patch.object(program, "_answer", lambda *_: answer):
            hint = program.ask(_auditor.Question("read", b"META\n\n;\r1\r\n\n2\n3")).hint
        self.assertEqual(hint, _auditor.Hint(7, sentences, names_file=True))
        self.assertEqual(Refusal(found, "a.pb", hint).sentences(), [*sentences])

    def test_an_answer_that_is_none(self):
        """A line that isn't an object, one of another version of these, one that doesn't go with its status, and one that lacks
        what each has, or has another thing there."""
        yes, no = json.dumps(OBJECT), json.dumps({**OBJECT, "answer": "no"})
        refusal, election = objects.refusal_of("certificate", 24, "UnknownVoter", 5), {**OBJECT, "kind": "election"}
        lacking = [(0, {"answer": "yes", "version": 1}), (0, election), *((0, {**election, "election": each}) for each in ({}, None)),
                   *((2, {key: each for key, each in refusal.items() if key != name}) for name in ("kind", "input", "record")),
                   (2, {**refusal, "input": "violation"}), (2, {**refusal, "input": []})]
        for status, line in ((1, yes), (2, yes), (0, no), (0, ""), (0, "supported priceable"), (0, f"x {yes}"), (0, "{}"),
                             (0, "[]"), (0, yes + yes), (0, json.dumps({**OBJECT, "version": 2})), (1, "failed C3 project b"),
                             *((status, json.dumps(found)) for status, found in lacking)):
            program = _auditor._Program("pbaudit")
            with self.subTest(line=line), mock.patch.object(program, "_answer", lambda *_: (status, f"{line}\n".encode(), b"")):
                with self.assertRaisesRegex(RuntimeError, "^pbaudit answers "):
                    program.ask(_auditor.Question("prices", b"", b""))

    def test_a_text_that_is_refused_alone(self):
        """A program that refuses a file for one question and not for another."""
        program = _auditor._Program("pbaudit")
        answers = {"tidy": (2, b"refused\n", b""), "prices": (0, json.dumps(OBJECT).encode(), b"")}
        with mock.patch.object(program, "_answer", lambda question, *_: answers[question.command]):
            with self.assertRaisesRegex(RuntimeError, "^pbaudit refuses a file for tidy, and none for prices$"):
                program.ask(_auditor.Question("tidy", b"", b""))

    def test_bytes_that_look_like_a_path(self):
        prices = EXAMPLES / "sample.prices.csv"
        for name, ask in (("election", lambda: pbaudit.audit_prices(b"e.pb", prices)),
                          ("certificate", lambda: pbaudit.audit_prices(EXAMPLES / "sample.pb", b"/some/where.csv"))):
            with self.assertRaises(Refusal) as caught:
                ask()
            self.assertIn("give a path as a str", caught.exception.reason)
            self.assertEqual(caught.exception.input, name)
        with self.assertRaises(Refusal) as caught:
            pbaudit.read(b"META\n")
        self.assertNotIn("path", str(caught.exception))

    def test_open_files(self):
        with open(EXAMPLES / "sample.pb", "rb") as file:
            self.assertEqual(pbaudit.read(file).voters, 3)
        with open(EXAMPLES / "sample.pb", encoding="utf-8") as file, self.assertRaisesRegex(TypeError, "opened as text"):
            pbaudit.read(file)
        for given in (7, ["e.pb"], range(10**6), None):
            with self.assertRaisesRegex(TypeError, "isn't a file: give its path"):
                pbaudit.read(given)

    def test_files_that_give_less_than_is_asked_for(self):
        """As pipes and sockets without a buffer do: what comes first isn't the file."""
        class Slow:
            def __init__(self, path):
                self.parts = [path.read_bytes()[at:at + 700] for at in range(0, path.stat().st_size, 700)]

            def read(self, size=-1):
                return self.parts.pop(0) if self.parts else b""

        files = EXAMPLES / "district.pb", EXAMPLES / "district.prices.csv"
        self.assertEqual(pbaudit.read(Slow(files[0])), pbaudit.read(files[0]))
        self.assertTrue(pbaudit.audit_prices(*map(Slow, files)))
        waiting = mock.Mock(read=mock.Mock(side_effect=[b"META\n", None]))
        with self.assertRaises(BlockingIOError):
            pbaudit.read(waiting)

    def test_contents_in_the_place_of_a_path(self):
        text = (EXAMPLES / "district.pb").read_text(encoding="utf-8")
        for given in (text, "META\n" + text * 100):
            with self.assertRaises(OSError) as caught:
                pbaudit.read(given)
            self.assertIn("give a file's contents as bytes", str(caught.exception))
            self.assertLess(len(str(caught.exception)), 250)

    def test_switches_are_true_or_false(self):
        """In each function that has some: another value would be guessed."""
        files = EXAMPLES / "sample.pb", EXAMPLES / "sample.prices.csv"
        town = pbaudit.Instance([pbaudit.Project("a", 1)], 1)
        values = town, [["a"]], ["a"], 1, [{"a": 1}]
        with tempfile.TemporaryDirectory() as room:
            given = {
                pbaudit.audit_prices: files, pbaudit.explain: files, pbaudit.page: files, pbaudit.write_page: files,
                pbaudit.audit_both: (*files, files[1]), pbaudit.audit_refutation: files, pbaudit.audit_folder: (room,),
                pbaudit.write_folder_pages: (room, room), pbaudit.validate_price_system: values,
                pbaudit.price_certificate: values, pbaudit.equal_shares: values[:2], pbaudit.find: files[:1],
                pbaudit.find_folder: (room,), pbaudit.smallest_relaxation: values[:3],
                pbaudit.largest_voter_budget: values[:3],
            }
            told = set()
            for function, words in given.items():
                for name, parameter in inspect.signature(function).parameters.items():
                    if isinstance(parameter.default, bool):
                        told.add(name)
                        for value in ("no", "true", 0, 1, 1.0, None, [], {}):
                            with self.subTest(function=function.__name__, name=name, value=value):
                                with self.assertRaises(TypeError) as caught:
                                    function(*words, **{name: value})
                                self.assertEqual(str(caught.exception), f"{name} is {value!r}, not True or False")
            self.assertEqual(os.listdir(room), [])
        self.assertEqual(told, {"stable", "exhaustive", "cover", "near", "verbose", "prices", "refutation", "violation",
                                "replace", "resume"})
        others = {name for name in pbaudit.__all__ if inspect.isfunction(getattr(pbaudit, name))} - {
            function.__name__ for function in given}
        for name in others:
            defaults = [each.default for each in inspect.signature(getattr(pbaudit, name)).parameters.values()]
            self.assertFalse([value for value in defaults if isinstance(value, bool)], name)

    def test_a_language_that_there_is_not(self):
        for language in ("DE", "de-AT", "xx", "", None, True, 1, ["de"]):
            for function in (pbaudit.page, pbaudit.write_page):
                with self.assertRaisesRegex(ValueError, "^the language is .*, not one of en, pl, de, fr$"):
                    function(EXAMPLES / "sample.pb", EXAMPLES / "sample.prices.csv", language=language)

    def test_too_long(self):
        with tempfile.TemporaryDirectory() as room:
            path = os.path.join(room, "long.pb")
            with open(path, "wb") as file:
                file.truncate(2**28 + 1)
            with self.assertRaises(Refusal) as caught:
                pbaudit.read(path)
        self.assertEqual(caught.exception.name, "TooLong")
