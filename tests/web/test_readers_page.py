"""The released page with a council's files in it, made without the kit."""
import os
import pathlib
import re
import subprocess
import sys

import pytest

TOP = pathlib.Path(__file__).resolve().parent.parent.parent
EXAMPLES = TOP / "examples"
FILES = [EXAMPLES / "sample.pb", EXAMPLES / "sample.prices.csv"]


def made(page, out, *files):
    paths = {**os.environ, "PYTHONPATH": str(TOP / "python")}
    words = [sys.executable, "-m", "pbaudit", "readers-page", *files, "--page", page, "-o", out]
    return subprocess.run(words, env=paths, capture_output=True, text=True, check=False)


def test_readers_see_the_answer_at_once(opened, page, tmp_path):
    ran = made(page, tmp_path / "town.html", *FILES)
    assert (ran.returncode, ran.stdout, ran.stderr) == (0, "", "")
    opened.open((tmp_path / "town.html").as_uri())
    assert opened.answers(1) == [("sample.prices.csv", "Yes", None)]
    assert opened.shown() == opened.says("page", "sample.pb", "sample.prices.csv")


def test_nothing_else_of_the_page_changes(page, tmp_path):
    """What is allowed to run is what the released page allows, and the page's own bytes are all there."""
    made(page, tmp_path / "town.html", *FILES)
    text = (tmp_path / "town.html").read_text(encoding="utf-8")
    assert len(re.findall('class="brought"', text)) == 2
    without = re.sub('\n<script type="text/plain" class="brought" data-name="[^"]*">[A-Za-z0-9+/=]*</script>', "", text)
    assert without == page.read_text(encoding="utf-8")


def test_the_page_of_the_kit_has_the_same_bytes(page, tmp_path):
    """./pbaudit-web puts files into the page by the same code."""
    made(page, tmp_path / "town.html", *FILES)
    words = [sys.executable, TOP / "web" / "assemble.py", page, tmp_path / "other.html", *FILES]
    subprocess.run(words, check=True)
    assert (tmp_path / "town.html").read_bytes() == (tmp_path / "other.html").read_bytes()


def test_files_take_the_place_of_others(page, tmp_path):
    made(page, tmp_path / "one.html", *FILES)
    made(tmp_path / "one.html", tmp_path / "two.html", EXAMPLES / "district.pb")
    assert re.findall('class="brought" data-name="([^"]*)"', (tmp_path / "two.html").read_text()) == ["district.pb"]


def test_hostile_names(opened, page, tmp_path):
    name = "\"><img src=x onerror=document.title='taken'>&.pb"
    (tmp_path / name).write_bytes(FILES[0].read_bytes())
    assert made(page, tmp_path / "town.html", tmp_path / name).returncode == 0
    opened.open((tmp_path / "town.html").as_uri())
    assert opened.answers(1) == [(name, "Proved", None)]
    assert opened.browser.ask("return document.querySelectorAll('img').length") == 0
    assert "taken" not in opened.browser.ask("return document.title")


@pytest.mark.parametrize("page_name, files, status, told", [
    ("sample.pb", ["sample.pb"], 3, "isn't the page for browsers of pbaudit"),
    ("missing.html", ["sample.pb"], 4, "missing.html: No such file or directory"),
    (None, ["missing.pb"], 4, "missing.pb: No such file or directory"),
    (None, ["sample.pb", "../examples/sample.pb"], 3, "two files have the name sample.pb"),
])  # fmt: skip
def test_what_cannot_be_made(page, tmp_path, page_name, files, status, told):
    ran = made(EXAMPLES / page_name if page_name else page, tmp_path / "town.html", *[EXAMPLES / name for name in files])
    assert (ran.returncode, told in ran.stderr, (tmp_path / "town.html").exists()) == (status, True, False)


def test_no_file_is_replaced(page, tmp_path):
    election = tmp_path / "sample.pb"
    election.write_bytes(FILES[0].read_bytes())
    assert made(page, election, election).returncode == 3
    assert election.read_bytes() == FILES[0].read_bytes()
