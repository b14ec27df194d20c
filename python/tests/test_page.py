"""The page about a certificate: what it is asked for, what stands on it, and the command that writes it."""
import hashlib
import html.parser
import io
import os
import pathlib
import re
import shutil
import subprocess
import sys
import tempfile
import time
import unittest

import pbaudit
from pbaudit import __main__ as command_line, _places

REPOSITORY = pathlib.Path(__file__).resolve().parents[2]
EXAMPLES = REPOSITORY / "examples"
PROGRAM = REPOSITORY / "crates" / "pbaudit" / "out" / "pbaudit"
DISTRICT = EXAMPLES / "district.pb"
PRICES = EXAMPLES / "district.prices.csv"
VIOLATION = EXAMPLES / "district.violation.csv"
OTHER = EXAMPLES / "district.other.outcome.csv"


def write_page(election, certificate, outcome=None, **given):
    """The page on files in the order in which they are audited."""
    return pbaudit.write_page(election, certificate, outcome=outcome, **given)


class Tags(html.parser.HTMLParser):
    """The tags and attributes of a page, its text, and its rows of projects as cells."""

    def __init__(self, text):
        super().__init__()
        self.tags, self.attributes, self.rows, self.text, self.cell = [], [], [], "", None
        self.feed(text)

    def handle_starttag(self, tag, attrs):
        self.tags.append(tag)
        self.attributes += [(tag, *pair) for pair in attrs]
        if tag == "tr":
            self.rows.append([])
        elif tag in ("td", "th"):
            self.rows[-1].append("")
            self.cell = True

    def handle_endtag(self, tag):
        self.cell = self.cell and tag not in ("td", "th")

    def handle_data(self, data):
        self.text += data
        if self.cell:
            self.rows[-1][-1] += data


class Pages(unittest.TestCase):
    def test_it_says_what_was_found(self):
        """The headline and the sentence are those of the documents, in each language."""
        for files, switches, headline, sentence in (
            ((DISTRICT, PRICES), {}, "The prices support this outcome", "for 3 projects the supporters could offer more"),
            ((DISTRICT, PRICES), {"stable": True}, "The prices don\u2019t support this outcome", "This is so for 3 projects."),
            ((DISTRICT, VIOLATION, OTHER), {}, "This group was treated worse than it deserves", "9 of 60"),
            ((DISTRICT, PRICES), {"language": "pl"}, "Ceny wspieraj\u0105 ten wynik", "dla 3 projekt\u00f3w zwolennicy"),
            ((DISTRICT, PRICES), {"language": "de"}, "Die Preise st\u00fctzen dieses Ergebnis", "F\u00fcr 3 Projekte"),
            ((DISTRICT, PRICES), {"language": "fr"}, "Les prix soutiennent ce r\u00e9sultat", "pour 3 projets"),
        ):
            with self.subTest(files=files, switches=switches):
                made = write_page(*files, **switches)
                asked = {key: value for key, value in switches.items() if key != "language"}
                tags = Tags(made.decode())
                self.assertIn(headline, tags.text)
                self.assertIn(sentence, tags.text)
                self.assertIn(str(pbaudit.explain(*files, **asked).verdict), tags.text)
                self.assertEqual(dict(each[1:] for each in tags.attributes if each[0] == "html")["lang"],
                                 switches.get("language", "en"))
                for file in files:
                    self.assertIn(hashlib.sha256(file.read_bytes()).hexdigest(), tags.text)
                    self.assertIn(file.name, tags.text)

    def test_the_text_and_the_bytes_are_one(self):
        self.assertEqual(pbaudit.page(DISTRICT, PRICES, stable=True).encode(), write_page(DISTRICT, PRICES, stable=True))
        self.assertEqual(pbaudit.page(DISTRICT, VIOLATION, outcome=OTHER).encode(), write_page(DISTRICT, VIOLATION, OTHER))

    def test_files_by_their_names(self):
        """Without folders; of bytes it says what they are."""
        text = Tags(write_page(DISTRICT, PRICES.read_bytes()).decode()).text
        self.assertIn("pbaudit explain district.pb certificate", text)
        self.assertNotIn(str(EXAMPLES), text)
        with open(DISTRICT, "rb") as opened:
            self.assertIn("pbaudit explain district.pb", Tags(write_page(opened, PRICES).decode()).text)
        self.assertIn("explain election certificate", Tags(write_page(io.BytesIO(DISTRICT.read_bytes()), PRICES.read_bytes())
                                                           .decode()).text)

    def test_an_open_file_is_not_replaced(self):
        with tempfile.TemporaryDirectory() as room:
            path = pathlib.Path(shutil.copy(DISTRICT, room))
            with open(path, "rb") as opened, self.assertRaisesRegex(ValueError, "that of the election"):
                pbaudit.write_page(opened, PRICES, path=path)
            self.assertEqual(path.read_bytes(), DISTRICT.read_bytes())
        with self.assertRaisesRegex(TypeError, "isn't the path of a file to write"):
            pbaudit.write_page(DISTRICT, PRICES, path=io.BytesIO())

    def test_a_language_that_is_not_there(self):
        for language in ("xx", "EN", ""):
            with self.assertRaisesRegex(ValueError, "not one of en, pl, de, fr"):
                pbaudit.page(DISTRICT, PRICES, language=language)

    def test_a_refusal(self):
        with self.assertRaises(pbaudit.Refusal) as raised:
            pbaudit.page(DISTRICT, EXAMPLES / "district.voter-id.violation.csv")
        self.assertEqual(raised.exception.printed, "refused certificate 24 UnknownVoter record 4")

    def test_projects_by_their_margins(self):
        rows = Tags(write_page(DISTRICT, PRICES, stable=True).decode()).rows
        by_id = {found[1]: row for row in rows for found in [re.search(r"project (\d+)$", row[0])] if found}
        projects = pbaudit.margins(DISTRICT, PRICES)
        self.assertEqual(set(by_id), {project.project for project in projects})
        for project in projects:
            row = by_id[project.project]
            self.assertTrue(row[1].endswith(shown(project.cost)), row)
            self.assertTrue(row[2].endswith(str(project.supporters)), row)
            if not project.funded:
                self.assertTrue(row[3].endswith(shown(project.offer)), row)
                self.assertIn(shown(abs(project.cost - project.offer)), row[4])

    def test_elections_with_little(self):
        """Without voters, projects, payments, a demand or a group there is a page all the same."""
        empty = pbaudit.write_election(pbaudit.Instance([], 0), [], [])
        small = pbaudit.write_election(pbaudit.Instance([pbaudit.Project("a", 0)], 1), [["a"], []], ["a"])
        for files in ((empty, pbaudit.write_prices(0, [])), (empty, pbaudit.write_violation([], [])),
                      (small, pbaudit.write_prices(0, [{}, {"a": 1}])), (small, pbaudit.write_violation([1], [])),
                      (small, pbaudit.write_violation([], ["a"], "cost")),
                      (small, pbaudit.write_prices(0, []), b"pb-outcome,1")):
            self.assertIn(str(pbaudit.explain(*files).verdict), Tags(write_page(*files).decode()).text)

    def test_nothing_runs_or_is_fetched(self):
        for files in ((DISTRICT, PRICES), (DISTRICT, VIOLATION)):
            tags = Tags(write_page(*files).decode())
            strange = {"script", "img", "iframe", "object", "embed", "form", "a", "base", "svg", "link"}
            self.assertFalse(strange & set(tags.tags))
            linked = [each for each in tags.attributes if each[1] in ("src", "href", "srcset", "action", "data")]
            self.assertEqual(linked, [])
            self.assertFalse(any(name.startswith("on") for _, name, _ in tags.attributes))

    def test_tidy_finds_nothing(self):
        if not shutil.which("tidy"):
            self.skipTest("tidy isn't installed")
        if told_by_tidy(GROUPED):
            self.skipTest("this tidy doesn't know what HTML allows since 5.2, as groups in a list of terms")
        for files in ((DISTRICT, PRICES), (DISTRICT, VIOLATION, OTHER)):
            self.assertEqual(told_by_tidy(write_page(*files)), b"")


# Valid HTML, of which tidy 5.6 says that it isn't.
GROUPED = (b"<!DOCTYPE html><html lang=en><meta charset=utf-8><title>a</title><body>"
           b"<dl><div><dt>b</dt><dd>c<span class=d></span></dd></div></dl></body></html>")


def told_by_tidy(page):
    done = subprocess.run(["tidy", "-q", "-e", "-utf8"], input=page, capture_output=True, check=False)
    return done.stderr


def shown(amount):
    """An amount as the pages of the district have it: cut behind two decimals, with narrow spaces."""
    hundredths = 100 * amount.numerator // amount.denominator
    cut = "\u2026" if 100 * amount != hundredths else ""
    return f"{hundredths // 100:,}.{hundredths % 100:02}".replace(",", "\u202f") + cut


class Large(unittest.TestCase):
    def test_a_city(self):
        """50,000 voters and 120 projects: under 1 MB, and made in under 5 seconds of a processor."""
        ids = [f"p{at}" for at in range(120)]
        town = pbaudit.Instance([pbaudit.Project(name, 10**6) for name in ids], 40 * 10**6)
        ballots = [ids[at % 100:at % 100 + 8] for at in range(50_000)]
        election = pbaudit.write_election(town, ballots, ids[:40])
        prices = pbaudit.write_prices(200, [{name: at % 90 + 1} for at, (name, *_) in enumerate(ballots)])
        began = time.process_time()
        made = write_page(election, prices)
        self.assertLess(time.process_time() - began, 5)
        self.assertLess(len(made), 10**6)
        self.assertEqual(made.count(b'class="bar'), 122)

    def test_more_projects_than_a_table_shows(self):
        ids = [f"p{at}" for at in range(2500)]
        town = pbaudit.Instance([pbaudit.Project(name, 1) for name in ids], 2000)
        election = pbaudit.write_election(town, [[]], ids[:1100])
        made = write_page(election, pbaudit.write_prices(0, [{}])).decode()
        self.assertEqual(re.findall(r"(\d+) more projects are left out", made), ["400", "100"])
        self.assertEqual(made.count('class="bar'), 2002)


class Strangers(unittest.TestCase):
    """Names that try to break the page."""

    NAMES = ["\"><script>document.title='x'</script>", "</bdi></table></style></title><!--",
             "\u202e]]>&lt;\0\ufeff", "\u00fc" * 5000, "' onclick='x"]

    def page(self):
        rows = "".join(f'"{name.replace(chr(34), chr(34) * 2)}";1;0;p{at}\n' for at, name in enumerate(self.NAMES))
        election = ("META\nkey;value\nbudget;9\nvote_type;approval\ndescription;<h1>&\ncurrency;<script>\nPROJECTS\n"
                    f"name;cost;selected;project_id\n{rows}VOTES\nvote\np1\n").encode()
        return write_page(election, pbaudit.write_prices(0, [{}]), exhaustive=False)

    def test_they_are_text(self):
        parsed = Tags(self.page().decode())
        plain = Tags(write_page(DISTRICT, PRICES).decode())
        self.assertLessEqual(set(parsed.tags), set(plain.tags))
        self.assertLessEqual({name for _, name, _ in parsed.attributes}, {name for _, name, _ in plain.attributes} | {"title"})
        heads = [row[0] for row in parsed.rows if "project p" in row[0]]
        self.assertEqual(len(heads), len(self.NAMES))
        for wanted in (self.NAMES[0] + "project p0", self.NAMES[1] + "project p1", "\\u{202e}]]>&lt;\\u{0}\\u{feff}project p2",
                       "\u00fc" * 80 + "\u2026project p3", self.NAMES[4] + "project p4"):
            self.assertIn(wanted, heads)


class Commands(unittest.TestCase):
    def run_page(self, *words, **given):
        command = [sys.executable, "-m", "pbaudit", "page", *map(str, words)]
        return subprocess.run(command, check=False, **{"stdout": subprocess.PIPE, "stderr": subprocess.PIPE, **given})

    def test_it_writes_a_page(self):
        with tempfile.TemporaryDirectory() as room:
            out = pathlib.Path(room, "page.html")
            switches = ["--stable", "--outcome", OTHER, "--no-exhaustive", "--cover"]
            done = self.run_page(DISTRICT, PRICES, *switches, "-o", out)
            self.assertEqual((done.returncode, done.stdout, done.stderr), (0, b"", b""))
            wanted = write_page(DISTRICT, PRICES, OTHER, stable=True, exhaustive=False, cover=True)
            self.assertEqual(out.read_bytes(), wanted)
            self.assertIn("pbaudit explain district.pb district.prices.csv --outcome district.other.outcome.csv --stable "
                          "--no-exhaustive --cover", Tags(wanted.decode()).text)

    def test_options_stand_anywhere(self):
        with tempfile.TemporaryDirectory() as room:
            wanted = write_page(DISTRICT, PRICES, stable=True, cover=True)
            for at, words in enumerate((
                [DISTRICT, "--stable", PRICES, "--cover"], ["--stable", DISTRICT, PRICES, "--cover"],
                ["--stable", "--cover", DISTRICT, PRICES], [DISTRICT, PRICES, "--stable", "--cover"],
            )):
                out = pathlib.Path(room, f"{at}.html")
                self.assertEqual(self.run_page("-o", out, *words).returncode, 0)
                self.assertEqual(out.read_bytes(), wanted)

    def test_it_writes_in_a_language(self):
        with tempfile.TemporaryDirectory() as room:
            out = pathlib.Path(room, "page.html")
            self.assertEqual(self.run_page(DISTRICT, PRICES, "--language", "pl", "-o", out).returncode, 0)
            self.assertEqual(out.read_bytes(), write_page(DISTRICT, PRICES, language="pl"))
            self.assertEqual(self.run_page(DISTRICT, PRICES, "--language", "xx", "-o", out).returncode, 3)

    def test_it_writes_none(self):
        with tempfile.TemporaryDirectory() as room:
            out = pathlib.Path(room, "page.html")
            refused = self.run_page(DISTRICT, EXAMPLES / "district.voter-id.violation.csv", "-o", out)
            line = b"refused certificate 24 UnknownVoter record 4\n"
            self.assertEqual((refused.returncode, refused.stdout), (2, line))
            self.assertEqual(self.run_page(DISTRICT, PRICES).returncode, 3)
            self.assertEqual(self.run_page(DISTRICT, PRICES, "-o", out, "--stabel").returncode, 3)
            missing = self.run_page(DISTRICT, EXAMPLES / "missing.csv", "-o", out)
            self.assertEqual((missing.returncode, missing.stdout), (2, b"refused certificate 18 Read record 0\n"))
            self.assertEqual(self.run_page(DISTRICT, PRICES, "-o", pathlib.Path(room, "no", "page.html")).returncode, 4)
            self.assertFalse(out.exists())

    def test_a_refusal_says_what_is_wrong(self):
        with tempfile.TemporaryDirectory() as room:
            shutil.copy(DISTRICT, f"{room}/-my town.pb")
            pathlib.Path(room, "b.csv").write_bytes(b"pb-outcome,1\nproject,none\n")
            for words in (["--", "-my town.pb", PRICES], ["--stable", "--cover", "--no-exhaustive", DISTRICT, VIOLATION]):
                done = self.run_page("--outcome", "b.csv", "-o", "page.html", *words, cwd=room)
                self.assertEqual((done.returncode, done.stdout), (2, b"refused outcome 25 UnknownProject record 2\n"))
                self.assertEqual(done.stderr, b"b.csv:2: no project has the id 'none'\n")

    def test_a_file_that_is_not_there(self):
        missing = str(EXAMPLES / "missing.csv")
        done = self.run_page(DISTRICT, missing, "-o", "unwritten.html")
        self.assertEqual(done.stderr.decode(), f"{missing}: No such file or directory\n")

    def test_a_file_whose_read_fails(self):
        path = "/proc/self/mem"
        if not pathlib.Path(path).exists():
            self.skipTest(f"{path} isn't there")
        for role, words in {"election": [path, PRICES], "certificate": [DISTRICT, path],
                            "outcome": [DISTRICT, PRICES, "--outcome", path]}.items():
            done = self.run_page(*words, "-o", "unwritten.html")
            self.assertEqual((done.returncode, done.stdout), (2, f"refused {role} 18 Read record 0\n".encode()))

    def test_an_auditor_that_cannot_be_used_is_a_fault(self):
        """None, a library that can't be loaded, and a program that doesn't know the command."""
        for name, data, told in (("bin/none", b"", b"install this package again"), ("bin/pbaudit", b"#!/bin/sh\nexit 3\n", b"3"),
                                 (f"pbaudit/{_places.LIBRARY}", b"junk", b"can't be used")):
            with self.subTest(name=name), tempfile.TemporaryDirectory() as room:
                out, package = pathlib.Path(room, "page.html"), pathlib.Path(pbaudit.__file__).parent
                shutil.copytree(package, f"{room}/pbaudit", ignore=shutil.ignore_patterns("*.so*", "__pycache__"))
                os.mkdir(f"{room}/bin")
                pathlib.Path(room, name).write_bytes(data)
                os.chmod(f"{room}/{name}", 0o755)
                given = {"PATH": f"{room}/bin", "PYTHONPATH": room}
                done = self.run_page(DISTRICT, PRICES, "-o", out, cwd=room, env=given)
                self.assertEqual((done.returncode, done.stdout, out.exists()), (4, b"", False))
                self.assertRegex(done.stderr, b"^fault: .*%b.*\n$" % told)

    def test_what_cannot_be_told(self):
        if not pathlib.Path("/dev/full").exists():
            self.skipTest("/dev/full isn't there")
        with open("/dev/full", "wb") as full:
            refused = self.run_page(PRICES, PRICES, "-o", "unwritten.html", stdout=full)
            self.assertEqual(refused.returncode, 4)
            self.assertRegex(refused.stderr, b"^fault write: .*\n$")
            for words in ([PRICES, PRICES, "-o", "unwritten.html"], [DISTRICT, PRICES, "-o", "/dev/full"]):
                self.assertEqual(self.run_page(*words, stdout=full, stderr=full).returncode, 4)

    def test_files_are_judged_in_their_order(self):
        """As `pbaudit explain` does: an election that is refused stands before a file that can't be read."""
        sample, missing = EXAMPLES / "sample.pb", EXAMPLES / "missing.csv"
        with tempfile.TemporaryDirectory() as room:
            plain = pathlib.Path(room, "plain.pb")
            plain.write_bytes(sample.read_bytes().replace(b"selected", b"chosen"))
            for files, line in (
                ((PRICES, missing, None), "election 2 NoMeta record 1"),
                ((PRICES, missing, missing), "election 2 NoMeta record 1"),
                ((PRICES, PRICES, missing), "election 2 NoMeta record 1"),
                ((plain, missing, None), "election 17 NoOutcome record 0"),
                ((sample, missing, PRICES), "outcome 21 BadHead record 1"),
                ((sample, PRICES, missing), "outcome 18 Read record 0"),
                ((sample, missing, None), "certificate 18 Read record 0"),
                ((sample, missing, EXAMPLES / "sample.outcome.csv"), "certificate 18 Read record 0"),
            ):
                election, certificate, outcome = files
                with self.subTest(files=files):
                    words = [election, certificate, *([] if outcome is None else ["--outcome", outcome])]
                    told = subprocess.run([PROGRAM, "explain", *words], capture_output=True, check=False)
                    self.assertEqual(told.stdout.decode(), f"refused {line}\n")
                    done = self.run_page(*words, "-o", pathlib.Path(room, "page.html"))
                    self.assertEqual((done.returncode, done.stdout), (2, told.stdout))

    def test_it_replaces_no_file_of_its_own(self):
        with tempfile.TemporaryDirectory() as room:
            files = {"ELECTION": DISTRICT, "CERTIFICATE": PRICES, "--outcome": OTHER}
            copies = {word: shutil.copy(file, room) for word, file in files.items()}
            linked = pathlib.Path(room, "linked.html")
            linked.symlink_to(copies["ELECTION"])
            words = [copies["ELECTION"], copies["CERTIFICATE"], "--outcome", copies["--outcome"]]
            for word, out in [*copies.items(), ("ELECTION", linked)]:
                done = self.run_page(*words, "-o", out)
                self.assertEqual((done.returncode, done.stdout), (3, b""))
                self.assertIn(f"the same file as {word},".encode(), done.stderr)
                with self.assertRaisesRegex(ValueError, "would replace"):
                    write_page(*(copies[it] for it in files), path=out)
            for word, file in files.items():
                self.assertEqual(pathlib.Path(copies[word]).read_bytes(), file.read_bytes())

    def test_help_says_what_it_does_and_how_it_ends(self):
        done = self.run_page("--help")
        self.assertEqual(done.returncode, 0)
        told = b" ".join(done.stdout.split())
        for words in (b"Writes a page", b"Exit statuses: 0 ", b" 2 ", b" 3 ", b" 4 "):
            self.assertIn(words, told)

    def test_the_version_is_that_of_the_program(self):
        told = subprocess.run([PROGRAM, "--version"], capture_output=True, check=True).stdout.decode()
        self.assertIn(command_line.VERSION.partition("+")[0], told.split())
