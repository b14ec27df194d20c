"""The documents and the examples as packages bring them: `packaging/documents` puts all of them into a folder, changes nothing but
links, and each link that is left leads to a file there, or to one of its headings."""
import re

import pytest

from common import TOP, ran
from test_documents import anchors, prose

LINK = re.compile(r"\[((?:[^][]|\[[^]]*\])*)\]\(([^)\s]+)\)")
OF_THE_TOP = {"README.md", "CONTRIBUTING.md", "SECURITY.md", "CITATION.cff"}


@pytest.fixture(scope="module")
def packed(tmp_path_factory):
    folder = tmp_path_factory.mktemp("packed")
    done = ran(TOP / "packaging/documents", folder / "one")
    assert (done.returncode, done.stderr) == (0, "")
    return folder / "one"


def source_of(packed, file):
    """The file of the repository that was packed."""
    return TOP / file.name if file.name in OF_THE_TOP and file.parent.name == "docs" else TOP / file.relative_to(packed)


def test_all_are_there(packed):
    names = {path.name for path in (TOP / "docs").glob("*.*") if path.suffix != ".py"}
    assert {path.name for path in (packed / "docs").iterdir()} == names | OF_THE_TOP
    assert {"sheets.py", "many.sh", "README.md", "hall.pb", "district.short.prices.csv"} <= {path.name for path in (packed / "examples").iterdir()}


def test_nothing_but_links_is_changed(packed):
    for file in (path for path in packed.rglob("*") if path.is_file()):
        source = source_of(packed, file)
        if file.suffix != ".md":
            assert file.read_bytes() == source.read_bytes(), file
            continue
        texts = [re.sub(r'src="[^"]*"', "", LINK.sub(r"\1", path.read_text(encoding="utf-8"))) for path in (file, source)]
        assert texts[0] == texts[1], file


def leads_nowhere(packed):
    """What documents link, or show as a picture, that isn't there."""
    for file in packed.rglob("*.md"):
        text = prose(file.read_text(encoding="utf-8"))
        for target in [found[2] for found in LINK.finditer(text)] + re.findall(r'<img\s+src="([^"]+)"', text):
            path, _, anchor = target.partition("#")
            page = file.parent / path if path else file
            if not re.match(r"\w+:", target) and (not page.is_file() or packed not in page.resolve().parents
                                                  or anchor and anchor not in anchors(page)):  # fmt: skip
                yield f"{file.relative_to(packed)}: {target}"


def test_links_lead_somewhere(packed):
    assert list(leads_nowhere(packed)) == []
    text = (packed / "docs/README.md").read_text(encoding="utf-8")
    assert "](FAQ.md)" in text and "](../examples/answers.txt)" in text and '<img src="idea.svg"' in text
    # The definitions of the proof aren't there.
    assert "| `ballot_of` |" in (packed / "docs/GLOSSARY.md").read_text(encoding="utf-8")


def test_links_that_lead_nowhere_are_seen(packed, tmp_path):
    for name, text in {"a.md": "[b](b.md) [c](#x) [d](a.md#y)\n# X\n", "b.md": "[e](../../etc)"}.items():
        (tmp_path / name).write_text(text)
    assert sorted(leads_nowhere(tmp_path)) == ["a.md: a.md#y", "b.md: ../../etc"]


def test_same_sources_give_the_same_bytes(packed, tmp_path):
    assert ran(TOP / "packaging/documents", tmp_path / "two").returncode == 0
    assert {path.relative_to(packed): path.read_bytes() for path in packed.rglob("*.*")} == {
        path.relative_to(tmp_path / "two"): path.read_bytes() for path in (tmp_path / "two").rglob("*.*")}
    assert ran(TOP / "packaging/documents").returncode == 1
