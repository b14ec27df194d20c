"""The pages about the certificates of a folder, and their index."""
import html.parser
import os
import pathlib
import shutil
import subprocess
import sys
import tempfile
import unittest
from unittest import mock
from urllib.parse import unquote

import pbaudit
from pbaudit import folder_pages, folders

REPOSITORY = pathlib.Path(__file__).resolve().parents[2]
EXAMPLES = REPOSITORY / "examples"
PROGRAM = REPOSITORY / "crates" / "pbaudit" / "out" / "pbaudit"
STRANGE = "<b>&\"'x:y%20 \u202e"


class Index(html.parser.HTMLParser):
    """The tags of an index, its text, and its links with what stands in them."""

    def __init__(self, data):
        super().__init__()
        self.tags, self.text, self.links, self.is_link, self.language = [], "", {}, False, None
        self.feed(data.decode("utf-8"))

    def handle_starttag(self, tag, attrs):
        self.tags.append(tag)
        given = dict(attrs)
        if tag == "html":
            self.language = given["lang"]
        if tag == "a":
            self.is_link, self.place = True, given["href"]
            self.links[self.place] = ""

    def handle_endtag(self, tag):
        self.is_link = self.is_link and tag != "a"

    def handle_data(self, data):
        self.text += data
        if self.is_link:
            self.links[self.place] += data


class Title(html.parser.HTMLParser):
    """The title of a page."""

    def __init__(self, page):
        super().__init__()
        self.title, self.is_title = "", False
        self.feed(page)

    def handle_starttag(self, tag, attrs):
        self.is_title = tag == "title"

    def handle_endtag(self, tag):
        self.is_title = False

    def handle_data(self, data):
        self.title += data if self.is_title else ""


class FolderPages(unittest.TestCase):
    def setUp(self):
        room = tempfile.TemporaryDirectory()
        self.addCleanup(room.cleanup)
        self.folder, self.out = pathlib.Path(room.name, "in"), pathlib.Path(room.name, "out")
        self.folder.mkdir()
        for name in ("district", STRANGE):
            shutil.copy(EXAMPLES / "district.pb", self.folder / f"{name}.pb")
            shutil.copy(EXAMPLES / "district.prices.csv", self.folder / f"{name}.prices.csv")
        shutil.copy(EXAMPLES / "district.violation.csv", self.folder)
        (self.folder / "zz.pb").write_bytes(b"nothing\n")
        shutil.copy(EXAMPLES / "district.prices.csv", self.folder / "zz.prices.csv")

    def write(self, **asked):
        report = pbaudit.write_folder_pages(self.folder, self.out, **asked)
        return report, Index((self.out / "index.html").read_bytes())

    def test_its_answers_are_those_of_folder(self):
        for switches in ({}, {"stable": True}, {"exhaustive": False, "cover": True}):
            with self.subTest(switches=switches):
                report, index = self.write(**switches)
                self.assertEqual(report, pbaudit.audit_folder(self.folder, **switches))
                self.assertEqual(len(report.text.splitlines()), 7)
                for line in report.text.splitlines():
                    self.assertIn(line, index.text)

    def test_each_link_leads_to_a_page(self):
        _, index = self.write(stable=True, language="de")
        self.assertEqual(index.language, "de")
        places = {unquote(place): words for place, words in index.links.items()}
        self.assertEqual(set(places), {"district.prices.html", "district.violation.html", STRANGE + ".prices.html"})
        self.assertEqual({file.name for file in self.out.iterdir()}, {"index.html", *places})
        for name in ("district", STRANGE):
            self.assertIn("Die Preise st\u00fctzen dieses Ergebnis nicht", places[name + ".prices.html"])
            self.assertIn("Altenbr\u00fcck", places[name + ".prices.html"])
            wanted = pbaudit.write_page(self.folder / f"{name}.pb", self.folder / f"{name}.prices.csv", stable=True,
                                        language="de")
            self.assertEqual((self.out / f"{name}.prices.html").read_bytes(), wanted)
        self.assertIn("Eine ungerechte Behandlung ist damit nicht bewiesen", places["district.violation.html"])

    def test_titles_are_those_of_the_pages(self):
        """In each language, of each answer, and where the election has no description."""
        for name in ("hall.violation.csv", "sample.pb", "sample.prices.csv"):
            shutil.copy(EXAMPLES / name, self.folder)
        (self.folder / "hall.pb").write_bytes((EXAMPLES / "hall.pb").read_bytes().replace(b"description;", b"other;"))
        told = set()
        for language in pbaudit.pages.LANGUAGES:
            for stable in (False, True):
                for place, words in self.write(stable=stable, language=language)[1].links.items():
                    title = Title((self.out / unquote(place)).read_text(encoding="utf-8")).title
                    self.assertEqual(words, title)
                    told.add(title.partition(" \u2013 ")[2])
        self.assertEqual(len(told), 5 * len(pbaudit.pages.LANGUAGES))
        self.assertIn("Les prix ne soutiennent pas ce r\u00e9sultat", told)
        self.assertTrue(Index((self.out / "index.html").read_bytes()).links["hall.violation.html"].startswith("hall.pb \u2013 "))

    def test_names_are_text(self):
        _, index = self.write()
        self.assertNotIn("b", index.tags)
        self.assertIn(STRANGE, index.text)
        # Only letters, digits and these may stand in a place: a colon would begin a scheme.
        for place in index.links:
            self.assertRegex(place, r"\A[A-Za-z0-9._~%-]+\Z")

    def test_it_replaces_what_it_made_and_nothing_else(self):
        self.write()
        before = (self.out / "index.html").read_bytes()
        self.write(stable=True)
        self.assertNotEqual((self.out / "index.html").read_bytes(), before)
        for name in ("index.html", "district.violation.html"):
            for stands in ("file", "link", "folder"):
                with self.subTest(name=name, stands=stands):
                    shutil.rmtree(self.out)
                    self.out.mkdir()
                    place, other = self.out / name, self.folder / "page.html"
                    if stands == "file":
                        place.write_bytes(b"<!DOCTYPE html>my own")
                    elif stands == "link":
                        other.write_bytes(before)
                        place.symlink_to(other)
                    else:
                        place.mkdir()
                    with self.assertRaisesRegex(pbaudit.NotReplaced, name):
                        self.write()
                    self.assertEqual(os.listdir(self.out), [name])
                    self.assertEqual(stands == "link", other.exists() and other.read_bytes() == before)
                    other.unlink(missing_ok=True)

    def test_a_language_that_is_not_there(self):
        with self.assertRaises(ValueError):
            self.write(language="xx")
        self.assertFalse(self.out.exists())

    def test_paths_of_bytes(self):
        for words in ((b"folder", "out"), (EXAMPLES, b"out")):
            with self.assertRaisesRegex(TypeError, "^the path of the folder is b'.*', not a str$"):
                pbaudit.write_folder_pages(*words)

    def test_each_file_is_read_once(self):
        with mock.patch.object(folder_pages, "bytes_of_entry", side_effect=folders.bytes_of_entry) as read:
            self.write()
        asked = [(call.args[0].name, call.args[1]) for call in read.call_args_list]
        self.assertEqual(len(asked), len(set(asked)))
        self.assertIn(("district", ".violation.csv"), asked)

    def test_the_loop_of_the_documents(self):
        """It makes the same pages."""
        told = (REPOSITORY / "docs" / "PAGE.md").read_text(encoding="utf-8")
        loop = told[told.index("    for certificate in elections/"):]
        loop = loop[:loop.index("done\n") + len("done\n")]
        self.folder.rename(self.folder.parent / "elections")
        self.folder = self.folder.parent / "elections"
        (self.folder / "zz.prices.csv").unlink()
        subprocess.run(["sh", "-c", loop], cwd=self.folder.parent, check=True,
                       env={**os.environ, "PATH": f"{PROGRAM.parent}:{os.environ['PATH']}"})
        self.write()
        for name in ("district", STRANGE):
            page = f"{name}.prices.html"
            self.assertEqual((self.folder / page).read_bytes(), (self.out / page).read_bytes())

    def test_lines_end_at_line_feeds_alone(self):
        """Other ends of lines in an id, and an output of another encoding: what is printed is what the program
        prints."""
        for at, end in enumerate(("\u2028", "\u2029", "\u0085", "\u00fc\U0001f600")):
            name = f"x{end}total 9 elections 9 yes 0 no 0 refused"
            town = pbaudit.Instance([pbaudit.Project(name, 1)], 5)
            (self.folder / f"t{at}.pb").write_bytes(pbaudit.write_election(town, [[name]], []))
            (self.folder / f"t{at}.prices.csv").write_bytes(pbaudit.write_prices(1, [{}]))
        told = subprocess.run([PROGRAM, "folder", self.folder], capture_output=True, check=False)
        self.assertEqual(told.stdout.count(b"failed Exhaustive project x"), 4)
        command = [sys.executable, "-m", "pbaudit", "page", "--folder", self.folder, "-o", self.out]
        for encoding in ("utf-8", "ascii", "latin-1", "utf-16"):
            given = {**os.environ, "PYTHONIOENCODING": encoding}
            done = subprocess.run(command, capture_output=True, env=given, check=False)
            self.assertEqual((done.returncode, done.stdout, done.stderr), (told.returncode, told.stdout, b""))
        index = (self.out / "index.html").read_text(encoding="utf-8")
        *_, last = told.stdout.decode().rstrip("\n").split("\n")
        self.assertIn(f'<footer><code lang="en">{last}</code></footer>', index)

    def test_the_command(self):
        def run(*words):
            command = [sys.executable, "-m", "pbaudit", "page", *map(str, words)]
            return subprocess.run(command, capture_output=True, check=False)

        told = subprocess.run([PROGRAM, "folder", self.folder, "--stable"], capture_output=True, check=False)
        done = run("--folder", self.folder, "--stable", "--language", "pl", "-o", self.out)
        self.assertEqual((done.returncode, done.stdout, done.stderr), (2, told.stdout, b""))
        self.assertEqual(done.returncode, told.returncode)
        self.assertEqual(Index((self.out / "index.html").read_bytes()).language, "pl")
        (self.folder / "zz.pb").unlink()
        self.assertEqual(run("--folder", self.folder, "--stable", "-o", self.out).returncode, 1)
        for words in (["--folder", self.folder, EXAMPLES / "district.pb"], [EXAMPLES / "district.pb"], [],
                      ["--folder", self.folder, "--outcome", EXAMPLES / "district.other.outcome.csv"]):
            self.assertEqual(run(*words, "-o", self.out).returncode, 3, words)
        (self.out / "index.html").write_bytes(b"mine")
        refused = run("--folder", self.folder, "-o", self.out)
        self.assertEqual((refused.returncode, refused.stdout), (3, b""))
        self.assertIn(b"isn't a page that pbaudit made", refused.stderr)
        missing = run("--folder", self.folder / "none", "-o", self.out)
        self.assertEqual((missing.returncode, missing.stdout), (2, b"refused folder 18 Read record 0\n"))
        (self.folder / "file").write_bytes(b"")
        self.assertEqual(run("--folder", self.folder, "-o", self.folder / "file" / "out").returncode, 4)
