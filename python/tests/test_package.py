"""The package as its users have it: types, help, the time of an import, and notebooks."""
import ast
import collections
import dataclasses
import doctest
import html
import io
import os
import pathlib
import pickle
import pydoc
import re
import shutil
import subprocess
import sys
import tempfile
import unittest
from fractions import Fraction

import pbaudit

PACKAGE = pathlib.Path(pbaudit.__file__).parent
EXAMPLES = pathlib.Path(__file__).resolve().parents[2] / "examples"
CALLER = pathlib.Path(__file__).with_name("typed_caller.py")


class Types(unittest.TestCase):
    def run_mypy(self, *words):
        checker = shutil.which("mypy")
        if not checker:
            self.skipTest("mypy isn't installed")
        with tempfile.TemporaryDirectory() as room:
            command = [checker, "--strict", "--config-file", os.devnull, "--cache-dir", room, *words]
            given = {**os.environ, "MYPYPATH": str(PACKAGE.parent)}
            return subprocess.run(command, capture_output=True, text=True, env=given, cwd=room, check=False)

    def test_a_caller(self):
        done = self.run_mypy(CALLER)
        self.assertEqual((done.returncode, done.stdout), (0, "Success: no issues found in 1 source file\n"))

    def test_a_caller_that_is_wrong(self):
        with tempfile.TemporaryDirectory() as room:
            wrong = pathlib.Path(room, "wrong.py")
            wrong.write_text("from pbaudit import audit_prices, read\nread(7)\naudit_prices('a', 'b', stable='no')\n"
                             "number: int = read('a').funded\n"
                             "from pbaudit import equal_shares, page, write_folder_pages, write_page, write_violation\n"
                             "equal_shares([], [], by='votes')\nequal_shares([], [], completion='add2')\n"
                             "page('a', 'b', language='xx')\nwrite_page('a', 'b', language='xx')\n"
                             "write_folder_pages('a', 'b', language='xx')\nwrite_violation([], [], 'share')\n")
            done = self.run_mypy(wrong)
        found = [int(line) for line in re.findall(r"wrong.py:(\d+): error", done.stdout)]
        self.assertEqual(sorted(set(found)), [2, 3, 4, *range(6, 12)])

    def test_the_package(self):
        done = self.run_mypy("-p", "pbaudit")
        self.assertEqual((done.returncode, done.stdout[:8]), (0, "Success:"), done.stdout)

    def test_the_caller_runs(self):
        with tempfile.TemporaryDirectory() as room:
            given = {**os.environ, "PYTHONPATH": str(PACKAGE.parent)}
            done = subprocess.run([sys.executable, CALLER, room], capture_output=True, text=True, env=given, check=False)
        self.assertEqual(done.stderr, "")
        lines = done.stdout.split("\n")
        self.assertEqual(lines[:3], ["town.pb: read 3 voters 3 projects 2 funded", "town.prices.csv: supported priceable",
                                     "total 1 elections 1 yes 0 no 0 refused"])
        self.assertRegex(lines[4], r"^refused election 2 NoMeta record 1 election 1 ")


class TakenApart:
    """Where a text is split, searched, cut or gone through: one that is called as texts that are printed are, or in a module that
    has their bytes one of any name."""

    # What texts are called, and streams, also as words of a name; and what one is called that is gone through letter by letter.
    TEXTS = "text|printed|line|told|data|stdout|stderr|output|page|html|answer|reply|note|sentence|message"
    NAMES = re.compile(rf"(?<![^\W_])(?:{TEXTS}|lines|notes|sentences|first|rest)(?![^\W_])")
    GONE_THROUGH = re.compile(rf"(?<![^\W_])(?:{TEXTS})(?:\(\))?$")
    # Methods that take one apart, of a text or with it; and other calls that do, of which some are functions.
    METHODS = {"split", "rsplit", "partition", "rpartition", "splitlines", "find", "rfind", "index", "rindex", "startswith", "endswith",
               "removeprefix", "removesuffix", "strip", "lstrip", "rstrip", "replace", "translate"}  # fmt: skip
    READERS = {"records", "reader", "DictReader", "StringIO", "BytesIO", "match", "fullmatch", "search", "findall", "finditer", "split",
               "sub", "subn"}  # fmt: skip

    def __init__(self, source, of_any_name=False):
        self.of_any_name = of_any_name
        self.found = [ast.unparse(each) for node in ast.walk(ast.parse(source)) for each in self.parts(node)]

    def is_text(self, node, of_any_name=False):
        return not isinstance(node, ast.Constant) and (of_any_name or bool(self.NAMES.search(ast.unparse(node))))

    def parts(self, node):
        """What of a node takes a text apart."""
        if isinstance(node, ast.Call):
            yield from self.calls(node)
        if isinstance(node, ast.Subscript) and self.is_cut(node):
            yield node
        if isinstance(node, (ast.For, ast.comprehension)) and self.GONE_THROUGH.search(ast.unparse(node.iter)):
            yield node.iter
        if isinstance(node, ast.Compare) and isinstance(node.ops[-1], (ast.In, ast.NotIn)) and self.is_text(node.comparators[-1]):
            yield node

    def calls(self, node):
        is_method = isinstance(node.func, ast.Attribute)
        name = node.func.attr if is_method else getattr(node.func, "id", "")
        if is_method and name in self.METHODS and self.is_text(node.func.value, self.of_any_name):
            yield node.func
        elif name in self.READERS or is_method and name in self.METHODS:
            if any(self.is_text(each, self.of_any_name) for each in node.args):
                yield node

    def is_cut(self, node):
        """Whether a part is taken by its place. A name as an index may be that of a key."""
        if isinstance(node.slice, ast.Slice):
            return self.is_text(node.value, self.of_any_name)
        return bool(re.fullmatch(r"-?\d+", ast.unparse(node.slice))) and self.is_text(node.value)


class Answers(unittest.TestCase):
    """What the auditor answers is read as an object, and nothing is taken out of what it prints."""

    # Modules whose texts are those of files, of cells and of amounts: they are given no answer.
    OF_FILES = {"records.py", "election_files.py", "writing.py", "rounding.py"}
    # Modules that have the bytes which the library and the program give.
    OF_BYTES = {"_auditor.py"}
    # What is taken apart nevertheless, once each, and why.
    ALLOWED = {
        "_auditor.py: data.partition": "the parts of a report of the library, whose first line is read as JSON",
        "_auditor.py: rest.partition": "the same, whose second line is read as JSON too",
        "_auditor.py: text.partition": "the first line of an answer on an entry of a folder, which is read as JSON",
        "_auditor.py: told.decode('utf-8', 'replace').split": "notes and a hint: the program has them on standard error alone",
        "_auditor.py: line.startswith": "which of these are notes",
        "_auditor.py: note[len(name):]": "a note, without the name that the program puts in front of what it tells there",
        "_auditor.py: line not in notes": "which of these are sentences of a hint",
        "_auditor.py: self._answer(question)[1]": "what is printed, which is handed on",
        "_auditor.py: os.sep in first": "whether the program is named by a path",
        "_auditor.py: _QUESTIONS.index": "the number of a question",
        "_auditor.py: done.stderr.decode('utf-8', 'replace').strip": "why the program failed, which is handed on",
        "groups.py: asked.text().decode('utf-8').rstrip": "the end of the last line, which a string of it has not",
        "__main__.py: report.text.rstrip": "the end of the last line, which is printed again",
        "__main__.py: text.decode('utf-8', 'surrogateescape').removesuffix": "the end of the last line, which is printed again",
        "audit_commands.py: report.text.rstrip": "the end of the last line, which is printed again",
        "__main__.py: lines.split": "lines of this package's own, each of which is shown",
        "_places.py: re.match('v(\\\\d+)\\\\.', told)": "Node's version",
        "_places.py: told.strip": "Node's version",
        "_places.py: done.stdout.decode().rstrip": "the path that a script of the repository prints",
        "auditing.py: b'\\n' in data": "whether bytes are meant as a path",
        "auditing.py: b'\\x00' in data": "whether bytes are meant as a path",
        "auditing.py: data.lower().endswith": "whether bytes are meant as a path",
        "auditing.py: 'election' not in data": "which files are given",
        "auditing.py: refusal.input in data": "which files are given",
        "auditing.py: (*(data[name] for name in certificates), None, None)[:2]": "which files are given",
        "auditing.py: hint.sentences[:1]": "sentences of a hint, of which the first has its line",
        "auditing.py: hint.sentences[1:]": "sentences of a hint, of which the first has its line",
        "amounts.py: f'{int(rest):06}'.rstrip": "digits of an amount",
        "sentences.py: f'{int(rest * MILLION):06}'.rstrip": "digits of an amount",
        "__main__.py: message.rstrip": "the end of the last line of help, which is printed again",
        "finding/folders.py: records(data, b';')": "an election's file",
        "finding/refutations.py: answer.sums[groups:groups + len(problem.funded)]": "numbers by which a linear programme is solved",
        "finding/refutations.py: answer.rows[:len(seen)]": "numbers by which a linear programme is solved",
        "kept.py: data": "the names of a dictionary",
        "readers_page.py: BROUGHT.sub(b'', page)": "the page for browsers, into which files are put",
        "shown.py: text": "letters of a name, which get a visible form",
        "spreadsheets.py: _AHEAD.sub(\"\\\\1'\", text)": "a cell of a table",
    }  # fmt: skip
    # Each of these would take an answer apart.
    PLANTED = ("text.split('\\n')", "report.text.partition(b'\\n')[0]", "asked.text().decode('utf-8').splitlines()[0]", "printed[:12]",
               "[row for row in records(text, b',')]", "list(csv.reader(io.StringIO(text)))", "done.stdout.find(b'note')", "line[len('failed '):]",
               "re.match('read', line)", "'note: ' in told", "page.index('<title>')", "pattern.findall(self.page(question))",
               "line.removeprefix('refused ')", "_auditor.ask(question).text.startswith(b'failed')",
               "note[len(name):]", "rest.partition(b'\\n')", "re.split('\\n', text)", "re.sub('^failed ', '', text)", "pattern.split(text)",
               "text[0]", "printed[-1]", "str.splitlines(text)", "answer.split()", "reply.split()", "first.startswith('failed')",
               "for line in text: pass", "[line for line in report.text]", "first_line.split()", "asked.text()[0]")  # fmt: skip
    # So would these in a module that has the bytes.
    PLANTED_THERE = ("found.split(b'\\n')", "some[len(b'note: '):]", "bytes.splitlines(some)", "re.sub(b'^failed ', b'', some)", "split(some)")

    # What patterns are for, by the modules that have some.
    PATTERNS = {"records.py": "the records of files", "__main__.py": "a word of a command", "_places.py": "Node's version",
                "readers_page.py": "the page for browsers, into which files are put", "spreadsheets.py": "cells of a table"}
    # How answers were taken out of lines, tables and pages before there were objects.
    GONE = ("facts_in", "project_in", "_GROUP_LINES", "_FAILED", "_culprit_in", "_counts_in", "_fault_in", "refusal_object",
            r"split\(b?['\"]\\n\\n", r"\btext\b.*\.split(lines)?\(", r"\[:?12[:\]]", r"\[:?23[:\]]", r"b['\"]</?title",
            r"['\"]note: ['\"]",
            r"\.(text|printed|line|stdout|stderr)\b.*\.(split|partition|startswith|removeprefix|splitlines|find|index)\(",
            r"(match|search|split|startswith|partition|removeprefix)\(r?b?f?['\"](read|refused|failed|supported|satisfied)")

    def test_patterns_are_for_files_and_words(self):
        found = {path.name for path in PACKAGE.rglob("*.py")
                 if re.search(r"^\s*(import|from) re\b", path.read_text(encoding="utf-8"), re.MULTILINE)}
        self.assertEqual(found, {*self.PATTERNS})

    def test_no_text_of_an_answer_is_taken_apart(self):
        """But what is listed, each of it once."""
        places = [(path.relative_to(PACKAGE).as_posix(), path) for path in PACKAGE.rglob("*.py")]
        found = [f"{name}: {part}" for name, path in places if name not in self.OF_FILES
                 for part in TakenApart(path.read_text(encoding="utf-8"), name in self.OF_BYTES).found]
        self.assertEqual(collections.Counter(found), collections.Counter([*self.ALLOWED]))

    def test_what_would_take_an_answer_apart_is_seen(self):
        for planted in self.PLANTED:
            with self.subTest(planted=planted):
                self.assertNotEqual(TakenApart(planted).found, [])
        for planted in self.PLANTED_THERE:
            with self.subTest(planted=planted):
                self.assertNotEqual(TakenApart(planted, of_any_name=True).found, [])

    def test_modules_of_files_are_given_no_answer(self):
        for name in self.OF_FILES:
            asks = re.search(r"\b(ask|answered|Report|auditor\(|auditing)\b", (PACKAGE / name).read_text(encoding="utf-8"))
            self.assertIsNone(asks, name)

    def test_what_is_read_is_told(self):
        """Of what is printed, as what is listed has it."""
        for file in (PACKAGE / "_auditor.py", *(EXAMPLES.parent / "docs" / name for name in ("DESIGN.md", "DECISIONS.md"))):
            text = " ".join(file.read_text(encoding="utf-8").split())
            self.assertIn("but notes and hints, which the program tells on standard error alone", text, file)

    def test_nothing_is_taken_out_of_what_is_printed(self):
        gone = re.compile("|".join(self.GONE))
        for path in sorted(PACKAGE.rglob("*.py")):
            for number, line in enumerate(path.read_text(encoding="utf-8").split("\n"), 1):
                self.assertIsNone(gone.search(line), f"{path.name}:{number}: {line.strip()}")


class Loading(unittest.TestCase):
    def test_an_import_is_quick(self):
        """The best of five: 0.05 s of a processor."""
        program = ("import sys, time; began = time.process_time(); import pbaudit; "
                   "print(time.process_time() - began, 'ctypes' in sys.modules)")
        given = {**os.environ, "PYTHONPATH": str(PACKAGE.parent)}
        told = [subprocess.run([sys.executable, "-c", program], capture_output=True, text=True, env=given,
                               check=True).stdout.split() for _ in range(5)]
        self.assertLess(min(float(seconds) for seconds, _ in told), 0.05)
        self.assertEqual({is_loaded for _, is_loaded in told}, {"False"})

    def test_what_there_is(self):
        for name in pbaudit.__all__:
            self.assertIs(getattr(pbaudit, name), getattr(pbaudit, name))
            self.assertIn(name, dir(pbaudit))
        with self.assertRaisesRegex(AttributeError, "has no attribute 'audit'"):
            pbaudit.audit

    def test_help_has_all(self):
        text = pydoc.render_doc(pbaudit, renderer=pydoc.plaintext)
        for name in pbaudit.__all__:
            value = getattr(pbaudit, name)
            with self.subTest(name=name):
                self.assertRegex(text, rf"\n    (class )?{name}\(")
                self.assertIn(value.__doc__.split("\n")[0], text)
                if not isinstance(value, type):
                    self.assertRegex(value.__doc__, r"Raises|is a\s+ValueError|is a\s+TypeError")


class Examples(unittest.TestCase):
    def test_each_docstring_has_one_that_is_so(self):
        """After `from pbaudit import *`, with the files that the package's own docstring names."""
        given = {name: getattr(pbaudit, name) for name in pbaudit.__all__}
        given.update(Fraction=Fraction)
        finder, runner = doctest.DocTestFinder(recurse=False), doctest.DocTestRunner(verbose=False)
        before = os.getcwd()
        for name in pbaudit.__all__:
            with self.subTest(name=name), tempfile.TemporaryDirectory() as room:
                example, = finder.find(getattr(pbaudit, name), name, globs=dict(given))
                self.assertGreater(len(example.examples), 0)
                for folder in (room, f"{room}/elections", f"{room}/mine"):
                    os.makedirs(folder, exist_ok=True)
                for folder in (room, f"{room}/elections"):
                    for file in ("pb", "prices.csv"):
                        shutil.copy(EXAMPLES / f"sample.{file}", f"{folder}/town.{file}")
                told = io.StringIO()
                os.chdir(room)
                try:
                    failed, _ = runner.run(example, out=told.write)
                finally:
                    os.chdir(before)
                self.assertEqual(failed, 0, told.getvalue())


class Notebooks(unittest.TestCase):
    def test_a_verdict_is_shown_as_the_page(self):
        files = [(EXAMPLES / name).read_bytes() for name in ("district.pb", "district.stable.prices.csv",
                                                             "district.stable.outcome.csv")]
        modes = {"stable": True, "cover": True}
        wanted = pbaudit.write_page(files[0], files[1], outcome=files[2], **modes).decode()
        for shown in (pbaudit.audit_prices(*files, **modes), pbaudit.explain(*files, **modes)):
            framed = re.fullmatch(r'<iframe sandbox="" style="[^"]*" srcdoc="([^"]*)"></iframe>', shown._repr_html_())
            self.assertEqual(html.unescape(framed[1]), wanted)
        both = pbaudit.audit_both(files[0], files[1], EXAMPLES / "district.violation.csv", files[2], **modes)
        alone = pbaudit.audit_violation(files[0], EXAMPLES / "district.violation.csv", files[2])
        self.assertEqual([each._repr_html_() for each in both], [shown._repr_html_(), alone._repr_html_()])
        self.assertNotEqual(both[0]._repr_html_(), both[1]._repr_html_())
        verdict = pbaudit.audit_violation(EXAMPLES / "district.pb", EXAMPLES / "district.violation.csv")
        self.assertIn("V4", verdict._repr_html_())
        again = pickle.loads(pickle.dumps(verdict))
        self.assertEqual((again, again._repr_html_()), (verdict, verdict._repr_html_()))
        with self.assertRaisesRegex(ValueError, "pbaudit.explain"):
            again.explain()


class Kept(unittest.TestCase):
    """What a verdict keeps of its files."""

    FILES = EXAMPLES / "district.pb", EXAMPLES / "district.stable.prices.csv", EXAMPLES / "district.stable.outcome.csv"

    def test_a_verdict_is_explained(self):
        """Of paths, bytes and open files, in the mode in which it was asked."""
        for modes in ({}, {"stable": True, "cover": True}, {"exhaustive": False}):
            wanted = pbaudit.explain(*self.FILES, **modes)
            opened = [open(file, "rb") for file in self.FILES]
            for files in (self.FILES, [file.read_bytes() for file in self.FILES], opened):
                verdict = pbaudit.audit_prices(*files, **modes)
                self.assertEqual(verdict.explain(), wanted)
                self.assertEqual(verdict.explain().verdict._repr_html_(), verdict._repr_html_())
            for file in opened:
                file.close()
        claim = EXAMPLES / "district.violation.csv"
        prices, violation = pbaudit.audit_both(self.FILES[0], self.FILES[1], claim, self.FILES[2], stable=True)
        self.assertEqual(prices.explain(), pbaudit.explain(*self.FILES, stable=True))
        self.assertEqual(violation.explain(), pbaudit.explain(self.FILES[0], claim, self.FILES[2]))

    def test_of_values(self):
        a, b = pbaudit.Project("a", 6), pbaudit.Project("b", 4)
        verdict = pbaudit.validate_price_system(pbaudit.Instance([a, b], 10), [[a, b]], [a, b], 9, [{a: 5, b: 4}])
        self.assertEqual([each.name for each in verdict.explain().findings if each.state == "fails"], ["C3"])
        self.assertIn("5", verdict.explain().findings[5].sentence)

    def test_files_are_no_part_of_it(self):
        verdict = pbaudit.audit_prices(*(file.read_bytes() for file in self.FILES))
        self.assertEqual(dataclasses.asdict(verdict), {
            "holds": True, "line": "supported priceable", "condition": None, "voter": None, "project": None, "moved": None,
            "raised": None, "says_of_groups": "strict", "refutes": None})
        self.assertNotIn("META", repr(vars(pickle.loads(pickle.dumps(verdict)))).replace("&lt;META", ""))

    def test_files_that_have_changed(self):
        with tempfile.TemporaryDirectory() as room:
            files = [shutil.copy(file, room) for file in self.FILES]
            verdict = pbaudit.audit_prices(*files)
            for change in (lambda path: path.write_bytes(path.read_bytes().replace(b",1", b",2")), pathlib.Path.unlink):
                change(pathlib.Path(files[1]))
                self.assertIsNone(verdict._repr_html_())
                with self.assertRaisesRegex(ValueError, "aren't kept, or have changed: ask pbaudit.explain"):
                    verdict.explain()

    def test_large_files_are_not_kept(self):
        """Those that were given as bytes; and those of values are pressed."""
        projects = [pbaudit.Project(f"project {at}", 1) for at in range(40)]
        instance, profile = pbaudit.Instance(projects, 1), [projects] * 4000
        verdict = pbaudit.validate_price_system(instance, profile, [], 0, [{}] * 4000, exhaustive=False)
        data = pbaudit.write_election(instance, profile, [])
        self.assertGreater(len(data), 2**20)
        self.assertLess(sum(map(len, kept_bytes(verdict))), len(data) / 5)
        self.assertEqual(verdict.explain(), pbaudit.explain(data, pbaudit.write_prices(0, []), exhaustive=False))
        verdict = pbaudit.audit_prices(data, pbaudit.write_prices(0, []), exhaustive=False)
        self.assertLess(sum(map(len, kept_bytes(verdict))), 1000)
        with self.assertRaisesRegex(ValueError, "pbaudit.explain"):
            verdict.explain()


def kept_bytes(value):
    """All bytes that can be reached from a value."""
    found, seen, line = [], set(), [value]
    for each in line:
        if id(each) not in seen and not isinstance(each, (type, str, int)):
            seen.add(id(each))
            found += [each] if isinstance(each, bytes) else []
            line += each.values() if isinstance(each, dict) else each if isinstance(each, (tuple, list)) else [
                getattr(each, "__dict__", {})]
    return found
