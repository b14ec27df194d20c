"""Tries packaging/link-library on a header and an object file of a few lines: which name, which version and which symbols the
libraries have, and what is refused."""
import re
import shutil

import pytest

from common import TOP, needs, ran

HEADER = "#define PBAUDIT_INTERFACE 7\nuint8_t pbaudit_one(void);\nuint8_t pbaudit_two(uint8_t given,\n                    uint8_t more);\n"
# More than the header declares: a function by a name of its kind, one by another, and what only this file sees.
SOURCE = """typedef unsigned char uint8_t;
static uint8_t own(uint8_t given) { return given; }
uint8_t shared_by_objects(uint8_t given) { return own(given); }
uint8_t pbaudit_one(void) { return shared_by_objects(1); }
uint8_t pbaudit_two(uint8_t given, uint8_t more) { return given + more; }
uint8_t pbaudit_three(void) { return 3; }
"""
FUNCTIONS = ["pbaudit_one", "pbaudit_two"]


@pytest.fixture
def link(room):
    """Links a library in a copy of the script with a header and a source: how that ended, and the folder."""
    needs("cc", "ld", "objcopy", "ar", "nm", "readelf")
    for folder in ("packaging", "include", "made"):
        (room / folder).mkdir()
    for name in ("link-library", "library-name"):
        shutil.copy(TOP / "packaging" / name, room / "packaging")

    def linked(header=HEADER, source=SOURCE):
        (room / "include/pbaudit.h").write_text(header)
        (room / "source.c").write_text(source)
        (room / "nothing.c").write_text("")
        for name in ("source", "nothing"):
            assert ran("cc", "-fPIC", "-c", "-o", room / f"{name}.o", room / f"{name}.c").returncode == 0
        assert ran("ar", "rcs", room / "proved.a", room / "source.o").returncode == 0
        return ran(room / "packaging/link-library", "", room / "proved.a", room / "nothing.o", room / "made"), room / "made"
    return linked


def symbols(*words):
    return sorted(re.findall(r"(?m)^[0-9a-f]+ [A-Z] (\S+)$", ran("nm", "--defined-only", *words).stdout))


def test_symbols_are_what_the_header_declares(link):
    done, made = link()
    assert done.returncode == 0, done.stderr
    assert sorted(file.name for file in made.iterdir()) == ["libpbaudit.a", "libpbaudit.so.7"]
    assert symbols("-D", made / "libpbaudit.so.7") == sorted(["PBAUDIT_7", *(f"{name}@@PBAUDIT_7" for name in FUNCTIONS)])
    assert symbols("-g", made / "libpbaudit.a") == FUNCTIONS
    assert re.findall(r"\(SONAME\) .*\[(.*)\]", ran("readelf", "-d", made / "libpbaudit.so.7").stdout) == ["libpbaudit.so.7"]


@pytest.mark.parametrize("header, source, told", [
    (HEADER.replace("7", "seven"), SOURCE, "has no PBAUDIT_INTERFACE"), (HEADER.replace("7", "7\n#define PBAUDIT_INTERFACE 8"), SOURCE, "has no"),
    (HEADER.splitlines()[0] + "\n", SOURCE, "declares no functions"),
    (HEADER, SOURCE.replace("pbaudit_two", "pbaudit_deux"), "pbaudit_two"),
    (HEADER, SOURCE + "uint8_t elsewhere(void); uint8_t pbaudit_four(void) { return elsewhere(); }", "elsewhere"),
], ids=["no number", "two numbers", "no function", "a function isn't there", "something is wanted of others"])  # fmt: skip
def test_refusal(link, header, source, told):
    done, made = link(header, source)
    assert done.returncode != 0 and told in done.stderr
    assert not (made / "libpbaudit.a").exists()
