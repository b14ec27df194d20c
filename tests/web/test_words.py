"""What the page says: a text that is missing in a language, or a slot that is missing or left open, doesn't compile."""
import pathlib
import re
import shutil
import subprocess

import pytest

from common import needs
from visiting import headline, sentence, sentence_on_groups

WEB = pathlib.Path(__file__).resolve().parent.parent.parent / "web"
DE, EN, FR, PL, LISTS = "src/words/de.ts", "src/words/en.ts", "src/words/fr.ts", "src/words/pl.ts", "src/page/lists.ts"
FILLED = r"fill\(words\.kindOf, \{[^}]*\}\)"
# What somebody might write by mistake, and what is wrong with it; those of a row in one copy, by their files, in which the errors
# are told; of English in those of the other languages.
MISTAKES = [
    {DE: ("a text is missing", r"^  kindOf: .*\n", ""),
     PL: ("a text more", r"^  name: ", '  other: "x",\n  name: '),
     FR: ("a slot is missing", r"^(  kindOf: .*)\{file\}", r"\1"),
     LISTS: ("a slot isn't filled", FILLED, "fill(words.kindOf, {})")},
    {DE: ("a slot of another name", r"^(  kindOf: .*)\{file\}", r"\1{datei}"),
     PL: ("a slot more", r'^  choose: "', '  choose: "{file} '),
     LISTS: ("a text with slots is used as it is", FILLED, "words.kindOf")},
    {LISTS: ("a slot that the text hasn't", r"fill\(words\.kindOf, \{", "fill(words.kindOf, { line: 1,")},
    {EN: ("a slot that is none", r"^(  kindOf: .*)\{file\}", r"\1{filename}")},
]  # fmt: skip


# What the page says as the page about a certificate or about groups does, by that one's name for the sentence.
SHARED = {"groupsBelowReach": "GroupsBelowReach", "groupsWithinReach": "GroupsWithinReach", "notSaidDeserved": "NotSaidDeserved"}
ON_GROUPS = {"noneByCost": "NoneByCost", "noneByCount": "NoneByCount"}
HEADLINES = {
    "saysSupported": "Supported", "saysStable": "SupportedStable", "saysNotSupported": "NotSupported", "saysViolation": "Violation",
    "saysNoViolation": "NoViolation", "saysRefuted": "Unpriceable", "saysRefutedCover": "UnpriceableUnderCover",
    "saysRefutedStable": "UnpriceableStable", "saysRefutedStableCover": "UnpriceableStableUnderCover",
    "saysNotRefuted": "NotRefuted", "saysNotRefutedStable": "NotRefutedStable", "someShort": "GroupFallsShort", "noneShort": "NoGroupFallsShort",
}  # fmt: skip


def said_here(code, names):
    """What the page in a browser says."""
    text = (WEB / f"src/words/{code}.ts").read_text(encoding="utf-8")
    return {name: re.search(rf'^  {name}: "(.*)",$', text, re.MULTILINE)[1] for name in names}


def headlines_here(code):
    """The sentences on answers that the page in a browser has."""
    text = (WEB / "src/words/headlines.ts").read_text(encoding="utf-8").split(f"\n  {code}: {{\n")[1].split("\n  },\n")[0]
    return dict(re.findall(r'^    (\w+): "(.*)",$', text, re.MULTILINE))


@pytest.mark.parametrize("code", ["en", "pl", "de", "fr"])
def test_what_a_yes_says_is_said_in_the_same_words(code):
    wanted = {name: sentence(code, theirs) for name, theirs in SHARED.items()}
    # What isn't said begins with what it would be, which stands in a list there.
    assert said_here(code, SHARED) == {**wanted, "notSaidDeserved": wanted["notSaidDeserved"].split(". ", 1)[1]}


@pytest.mark.parametrize("code", ["en", "pl", "de", "fr"])
def test_what_is_said_of_groups_is_said_in_the_same_words(code):
    assert said_here(code, ON_GROUPS) == {name: sentence_on_groups(code, theirs) for name, theirs in ON_GROUPS.items()}


@pytest.mark.parametrize("code, language", [("en", "english"), ("pl", "polish"), ("de", "german"), ("fr", "french")])
def test_answers_are_said_in_the_same_words(code, language):
    assert headlines_here(code) == {name: headline(language, theirs) for name, theirs in HEADLINES.items()}


@pytest.mark.parametrize("mistakes", MISTAKES, ids=lambda mistakes: ", ".join(what for what, *_ in mistakes.values()))
def test_mistakes_do_not_compile(tmp_path, mistakes):
    needs("tsc")
    copy = pathlib.Path(shutil.copytree(WEB, tmp_path / "web", ignore=shutil.ignore_patterns("out", "__pycache__")))
    for name, (_, pattern, written) in mistakes.items():
        wrong, count = re.subn(pattern, written, (copy / name).read_text(encoding="utf-8"), flags=re.MULTILINE)
        assert count == 1
        (copy / name).write_text(wrong, encoding="utf-8")
    told = subprocess.run(["tsc", "--skipLibCheck", "--project", copy], cwd=copy, capture_output=True, text=True, check=False).stdout
    assert {*re.findall(r"^(\S+)\(\d+,\d+\): error TS", told, re.MULTILINE)} == ({DE, FR, PL} if EN in mistakes else {*mistakes})
