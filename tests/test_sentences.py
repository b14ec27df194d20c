"""The sentences of the page in its languages: each has the placeholders of the English one, is used, and has what fills them. That
each language has each sentence is seen by the compiler too. They are read from crates/pb_words/src/wording and its folders, and the
placeholders, in braces, are those that the parts of the page, in crates/pb_page and the crates below it, fill."""
import re

import pytest

from common import TOP

CRATES = TOP / "crates"
WORDS = CRATES / "pb_words" / "src"
PAGE = [CRATES / f"pb_{name}" / "src" for name in ("case", "tables", "price_parts", "group_parts", "parts", "page")]
LANGUAGES = ("en", "pl", "de", "fr")
ARM = re.compile(r'((?:Sentence|StableWeights|ShortGroups)::\w+)(\([^)]*\))? =>\s*"((?:[^"\\]|\\.)*)"', re.DOTALL)
PLACEHOLDER = re.compile(r"(?<!\\u)\{(\w+)\}")


def sentences(language):
    """The sentences of a language, each with its name and the form for a number of things."""
    files = sorted((WORDS / "wording").rglob(f"{language}.rt"))
    text = "".join(file.read_text(encoding="utf-8") for file in files)
    return [(name, form or "", words) for name, form, words in ARM.findall(text)]


def slots(words):
    return sorted(PLACEHOLDER.findall(words))


WANTED = {name: slots(words) for name, _, words in sentences("en")}
PARTS = "".join(path.read_text(encoding="utf-8") for folder in PAGE for path in folder.rglob("*.rt"))


@pytest.mark.parametrize("language", LANGUAGES)
def test_language(language):
    found = sentences(language)
    assert {name for name, _, _ in found} == set(WANTED)
    for name, form, words in found:
        assert (name, form, slots(words)) == (name, form, WANTED[name])
        assert words.strip() and "  " not in re.sub(r"\\\n\s*", "", words)
        braces = PLACEHOLDER.sub("", re.sub(r"\\u\{\w+\}", "", words))
        assert "{" not in braces and "}" not in braces


@pytest.mark.parametrize("name", WANTED)
def test_sentence_is_used_and_filled(name):
    assert re.search(rf"\b{name}\b", PARTS)
    assert set(WANTED[name]) <= set(re.findall(r'"(\w+)"', PARTS))
