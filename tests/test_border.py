"""Compares each place that has the border of the C library by hand with what tables/border.txt has for it, both ways, and without a
build: the header, the sources of the crates, the Python package, the scripts of the page, the addon for Node, c_library.py, and
FORMATS. And it turns each place by the changes of tables/wrong_borders.txt, which have to be seen; so has a change of the table itself,
in those places alone that are compared with what is changed. The number of the interface, which stands in the name of the library, is
one wherever a file has it."""
import functools
import os
import pathlib
import re

import pytest

import border_calls
import border_places
from border import Border
from border_places import texts_of
from common import HERE, INTERFACE, TOP
from tables import changes

# However its columns are laid out.
TABLE = re.sub(" {2,}", "  ", (HERE / "tables/border.txt").read_text(encoding="utf-8"))
SAID = {
    "header": border_places.in_header, "crates": border_places.in_crates, "FORMATS.md": border_places.in_formats,
    "python": border_calls.in_python, "web/src": border_calls.in_web, "tests": border_calls.in_tests,
    "web/addon.c": lambda texts: {*border_places.in_addon(texts)},
}  # fmt: skip


@functools.lru_cache(maxsize=None)
def said(place):
    return SAID[place](texts_of(place))


def differences(place, wanted, has):
    """What stands in the table alone, and in the place alone."""
    return [*(f"the table alone: {line}" for line in sorted(wanted - has)), *(f"{place} alone: {line}" for line in sorted(has - wanted))]


@pytest.mark.parametrize("place", SAID)
def test_place(place):
    wanted = Border(TABLE).wanted(place)
    found = differences(place, wanted, said(place))
    assert wanted and not found, "\n".join(found)


@pytest.mark.parametrize("path, old, new", changes("wrong_borders.txt"))
def test_change_of_a_place_is_seen(path, old, new):
    [place] = [place for place in SAID if path in texts_of(place)]
    texts = texts_of(place)
    assert texts[path].count(old) == 1
    assert differences(place, Border(TABLE).wanted(place), SAID[place]({**texts, path: texts[path].replace(old, new)}))


EVERYWHERE = {"header", "crates", "python", "web/src", "tests"}


@pytest.mark.parametrize("old, new, places", [
    ("uint8_t input, uint32_t number", "uint32_t number, uint8_t input", {"header", "crates", "tests"}),
    ("pbaudit_groups  -  -", "pbaudit_groups  calls  -", {"python"}), ("pbaudit_groups  -  -", "pbaudit_groups  -  calls", {"web/src", "web/addon.c"}),
    ("uint32_t number, uint32_t voter", "uint32_t voter, uint32_t number", {"header", "crates", "tests"}),
    ("record, pbaudit_culprit condition", "record, uint32_t more, pbaudit_culprit condition", EVERYWHERE),
    ("\n3  refutation", "\n14  refutation", EVERYWHERE - {"tests"}), ("\n4  out of memory", "\n5  out of memory", EVERYWHERE - {"tests"}),
    ("\n7  tidy  election, prices", "\n7  tidy  election, outcome, prices", {"header"}),
    ("\n6  margins  election, outcome, prices", "\n6  margins  election, outcome, refutation", {"header", "web/src", "tests"}),
    ("outcome, certificate, switches  object", "outcome, certificate, stable  object", {"header", "crates", "python"}),
    ("election, prices  text", "election, prices  object", {"python", "web/src"}),
    ("\n6  margins  election, outcome, prices  object  0, 2, 4", "\n6  margins  election, outcome, prices  object  0, 1, 2, 4", {"header"}),
    ("pbaudit_kind  -  calls  calls  0, 4", "pbaudit_kind  -  calls  calls  0, 2, 4", {"header"}),
    ("uint8_t *kind", "uint8_t *kind, bool more", EVERYWHERE - {"python"} | {"web/addon.c"}), ("\n23  U3", "\n24  U3", {"header", "crates", "tests"}),
    ("\n17  NoOutcome", "\n30  NoOutcome", {"crates", "web/src", "FORMATS.md"}),
])  # fmt: skip
def test_change_of_the_table_is_seen(old, new, places):
    assert TABLE.count(old) == 1
    changed = Border(TABLE.replace(old, new))
    assert {place for place in SAID if differences(place, changed.wanted(place), said(place))} == places


# The number of the interface, however it is written: in the name of the library, whole or as `.so.1`, or in the version of its symbols.
NUMBER = re.compile(r"libpbaudit(?:\.so\.)?(\d+)|(?<![\w-])\.so\.(\d+)|\bPBAUDIT_(?:INTERFACE )?(\d+)\b")
# What was released is as it was, and what is built or kept by tools isn't written by hand.
LEFT_OUT = re.compile(r"release|versions|lib|out|__pycache__|\.(?!ci$).*")
# Where another number stands, and why.
OTHERS = {
    ("CHANGELOG.md", 1): "what 0.3.0 had", ("docs/LIBRARY.md", 1): "what programs made with 0.3.0 ask for",
    ("python/tests/test_audit_commands.py", 1): "a library that isn't found", ("python/tests/test_audit_commands.py", 3): "likewise",
    ("tests/tables/wrong_borders.txt", 3): "a change that has to be seen",
    ("tests/test_linking.py", 7): "a header of a few lines", ("tests/test_linking.py", 8): "likewise",
}  # fmt: skip


def numbers_in(text):
    return {int(number) for found in NUMBER.findall(text) for number in found if number}


def texts_by_hand():
    """The text of each file of the repository, by its path."""
    for folder, folders, names in os.walk(TOP):
        folders[:] = [name for name in folders if not LEFT_OUT.fullmatch(name)]
        for file in (pathlib.Path(folder, name) for name in names):
            if file.suffix not in (".png", ".whl", ".tgz"):
                yield file.relative_to(TOP).as_posix(), file.read_text(encoding="utf-8", errors="replace")


def test_number_of_the_interface_is_one_everywhere():
    texts = {path: text for path, text in texts_by_hand() if path != "tests/test_border.py"}
    found = {path: numbers_in(text) for path, text in texts.items()}
    assert {path for path, numbers in found.items() if INTERFACE in numbers} >= {
        "CHANGELOG.md", "docs/LIBRARY.md", "docs/BYTES.md", "include/pbaudit.h", "python/pbaudit/_places.py"}  # fmt: skip
    assert {(path, number) for path, numbers in found.items() for number in numbers - {INTERFACE}} == {*OTHERS}


@pytest.mark.parametrize("text, numbers", [
    ("cp lib/libpbaudit.so.1 .", {1}), ("C library (`.so.12` and its link)", {12}), ("libpbaudit{.so.1,.a}", {1}), ("versions, PBAUDIT_3.", {3}),
    ("#define PBAUDIT_INTERFACE 4", {4}), ("apt install libpbaudit2", {2}), ("libpbaudit.so.1 => /usr/lib/libpbaudit.so.2", {1, 2}),
    ("linux-vdso.so.1 libc.so.6 PBAUDIT_C1 PBAUDIT_S5 = 9 libpbaudit.so libpbaudit-aarch64.tar.xz", set()),
])  # fmt: skip
def test_number_of_the_interface_is_seen(text, numbers):
    assert numbers_in(text) == numbers
