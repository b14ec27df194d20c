"""Runs the commands that pages tell their readers to run, for files of many names.

In a folder lie the examples under names with quotes, blanks, `$( )`, line ends, a dash in front, 200 letters and more. Of each page
the text is taken as a browser gives it, and a command in it is run there by a shell, once by a stand-in that keeps its arguments,
and once by the program. The arguments have to be those names, whole, the answer that of the page, and no other file may come into
being. Where a page gives no command, it may have none: for names that a text can't show, that are too long, or that two files have.
"""
import os
import subprocess

import pytest

from common import needs, script
from reference.page.nodes import Reader, text_of
from tables import EXAMPLES

SHELLS = ("sh", "dash", "bash", "busybox", "zsh", "ksh", "mksh", "fish", "tcsh")
STAND_IN = "#!/bin/sh\nprintf '%s\\0' \"$@\" > \"$KEPT\"\n"
# Names that a command has to have, and such that none may.
WORDS = [
    "prices.csv", "two words.csv", "; touch PWNED #.csv", "$(touch PWNED).csv", "`touch PWNED`.csv", "it's.csv",
    "'; touch PWNED; '", "\"double\" $HOME ${HOME} \"", "a&b|c>d<e.csv", "-n", "--stable", "-", "~", "*", "[a-z]?{1,2}",
    "=ls", "#", "%s%n", "two  blanks ", " front", "'" * 60, "; touch PWNED #" + "x" * 75, "n" * 200, "ż" * 120,
    "日本語.csv", "e" * 90 + "' ; touch PWNED ; '", "; touch PWNED #" * 17,
]  # fmt: skip
NO_WORDS = ["a\nb", "a\n; touch PWNED", "a\tb", "a\u202eb", "a\u2028touch PWNED", "a\u00a0b", "a\u2003b", "a\\", "a\\'; touch PWNED #",
            "a\x1b[2J", "town.pb"]  # fmt: skip


def codes_of(element):
    """The texts of the elements `code` of a page, in their order."""
    if element.tag == "code":
        return [text_of(element)]
    return [text for child in element.children if not isinstance(child, str) for text in codes_of(child)]


class Files:
    """A folder with the files, and two folders for the search path: one with a stand-in, one with the program."""

    def __init__(self, top, program):
        self.files, self.kept = top / "files", top / "kept"
        for name in ("files", "elsewhere", "stand-in", "program"):
            (top / name).mkdir()
        script(top / "stand-in" / "pbaudit", STAND_IN)
        (top / "program" / "pbaudit").symlink_to(program)
        self.top, self.program = top, program

    def put(self, name, source, folder="files"):
        (self.top / folder / name).write_bytes((EXAMPLES / source).read_bytes())

    def page(self, *words):
        made = subprocess.run([self.program, "page", *words], cwd=self.files, capture_output=True, check=False)
        return made.stdout.decode()

    def run(self, shell, command, which):
        path = f"{self.top / which}:{os.environ['PATH']}"
        words = ["busybox", "sh"] if shell == "busybox" else [shell]
        environment = {"PATH": path, "HOME": str(self.top), "KEPT": str(self.kept), "LANG": "C.UTF-8"}
        return subprocess.run([*words, "-c", command], cwd=self.files, env=environment, capture_output=True, check=False)


def command_of(page):
    """The command that a page gives, where it gives one, and the line that it says is the answer."""
    *before, line = codes_of(Reader(page).root)
    command = next((text for text in before if text.startswith("pbaudit")), None)
    return command, line


@pytest.fixture(scope="module", params=SHELLS)
def shell(request):
    needs(request.param)
    return request.param


@pytest.fixture
def files(room, program):
    return Files(room, program)


def as_word(name):
    """A name as the program has to be given it, which takes a dash in front for an option."""
    return f"./{name}" if name.startswith("-") else name


def look_at_command(files, shell, page, wanted):
    command, line = command_of(page)
    assert command is not None and "\n" not in command
    before = sorted(os.listdir(files.files))
    files.run(shell, command, "stand-in")
    assert files.kept.read_bytes().decode().split("\0")[:-1] == wanted
    assert files.run(shell, command, "program").stdout.decode().split("\n")[0] == line
    assert sorted(os.listdir(files.files)) == before


@pytest.mark.parametrize("name", WORDS)
def test_certificate(files, shell, name):
    files.put("town.pb", "sample.pb")
    files.put(name, "sample.prices.csv")
    page = files.page("./town.pb", f"./{name}", "--stable", "--no-exhaustive")
    look_at_command(files, shell, page, ["explain", "town.pb", as_word(name), "--stable", "--no-exhaustive"])


@pytest.mark.parametrize("name", WORDS)
def test_election(files, shell, name):
    files.put(name, "sample.pb")
    files.put("p.csv", "sample.prices.csv")
    files.put("-o.csv", "sample.outcome.csv")
    page = files.page(f"./{name}", "p.csv", "--outcome", "./-o.csv")
    look_at_command(files, shell, page, ["explain", as_word(name), "p.csv", "--outcome", "./-o.csv"])


@pytest.mark.parametrize("name", WORDS)
def test_groups(files, shell, name):
    files.put(name, "sample.pb")
    files.put("-o.csv", "sample.outcome.csv")
    page = files.page("--groups", f"./{name}", "--satisfaction", "count")
    look_at_command(files, shell, page, ["explain", as_word(name), "--groups", "--satisfaction", "count"])
    page = files.page("--groups", f"./{name}", "--outcome", "./-o.csv")
    look_at_command(files, shell, page, ["explain", as_word(name), "--outcome", "./-o.csv", "--groups"])


@pytest.mark.parametrize("name", [name for name in NO_WORDS if name != "town.pb"])
def test_no_command_on_groups(files, name):
    files.put(name, "sample.pb", "elsewhere")
    files.put("o.csv", "sample.outcome.csv")
    page = files.page("--groups", f"../elsewhere/{name}", "--satisfaction", "count", "--outcome", "o.csv")
    assert "pbaudit explain" not in page
    assert " Its options: --outcome --groups --satisfaction count.<br>It answers: <code>" in page


@pytest.mark.parametrize("name", NO_WORDS)
def test_no_command(files, name):
    files.put("town.pb", "sample.pb")
    files.put(name, "sample.prices.csv", "elsewhere")
    options = ["--stable", "--no-exhaustive", "--cover"]
    for asked, told in ([], "<br>It answers: <code>"), (options, " Its options: --stable --no-exhaustive --cover.<br>It answers: <code>"):
        page = files.page("town.pb", f"../elsewhere/{name}", *asked)
        assert "pbaudit explain" not in page
        assert "give these files to its command explain" in page
        assert told in page and ("Its options" in page) == bool(asked)
