"""Which characters can't be seen as themselves, by the data of Unicode that Python has; and that the program shows these by their
numbers and no others, the Python package too, and that Node's data says the same. A character without a name in Python's
version of Unicode may have got one since: these aren't compared."""
import subprocess
import unicodedata

import pytest

from common import needs
from pbaudit import shown as package
from reference.hidden import BLANK, is_hidden, number

IN_WORDS = {"\t": "\\t", "\n": "\\n", "\r": "\\r"}
# How many characters a name has, so that it is short enough for an argument.
IN_ONE_NAME = 20_000
BY_NODE = r"""
const hidden = [];
for (let code = 0; code < 0x110000; code += 1) {
  if (/[\p{C}\p{Z}\p{Default_Ignorable_Code_Point}]/u.test(String.fromCodePoint(code))) hidden.push(code);
}
process.stdout.write(hidden.join(" "));
"""


def is_known(c):
    """Whether Python knows the character, or that there will never be one."""
    code = ord(c)
    return unicodedata.category(c) != "Cn" or code & 0xFFFE == 0xFFFE or 0xFDD0 <= code <= 0xFDEF


def known(plane=None):
    """All characters that can stand in an argument, or those of a plane."""
    codes = range(1, 0x110000) if plane is None else range(max(plane << 16, 1), plane + 1 << 16)
    return [c for c in map(chr, codes) if unicodedata.category(c) != "Cs" and is_known(c)]


def codes(characters):
    return [f"U+{ord(c):04X}" for c in sorted(characters)]


@pytest.mark.parametrize("plane", range(17))
def test_program(run, plane):
    """Names of files that aren't there have many of them, and are read in what is said of each."""
    characters = known(plane)
    for start in range(0, len(characters), IN_ONE_NAME):
        front = characters[start:start + IN_ONE_NAME]
        wanted = [IN_WORDS.get(c, number(c)) if is_hidden(c) else c for c in front]
        told = run("read", "|".join(front)).stderr.decode()
        if not told.startswith("|".join(wanted) + ": "):
            alone = {c: run("read", f"/{c}|/x").stderr.decode() for c in front}
            assert codes(c for c, form in zip(front, wanted) if not alone[c].startswith(f"/{form}|/x: ")) == []
            pytest.fail(told[:1000])


def test_package():
    assert codes(c for c in known() if package.is_hidden(c) != is_hidden(c)) == []


def test_node():
    """The blanks aside, which aren't hidden by Unicode's properties."""
    needs("node")
    said = subprocess.run(["node", "-e", BY_NODE], capture_output=True, check=True, timeout=60).stdout
    by_node = {chr(int(code)) for code in said.split()} - {" "}
    by_python = {c for c in map(chr, range(0x110000)) if is_hidden(c) and unicodedata.name(c, "") not in BLANK}
    assert codes(c for c in by_node ^ by_python if is_known(c)) == []
