"""Puts wrong rules into the reference, one after the other (tables/wrong_rules.txt): each has to answer some case otherwise than the
right one does, which test_compare.py compares with the program. What is replaced has to stand once in the reference. A changed
reference that ends by an error of its own answers nothing, and isn't caught by that."""
import importlib
import itertools
import os
import shutil
import sys
import tempfile

import pytest

import cases
import saying
from common import HERE
from tables import changes

MOST_CASES = 2000


def changed(room, file, right, wrong):
    """How a copy of the reference answers that has one change, in a folder of its own."""
    shutil.copytree(HERE / "reference", room / "reference", ignore=shutil.ignore_patterns("__pycache__"))
    text = (room / "reference" / file).read_text()
    assert text.count(right) == 1
    (room / "reference" / file).write_text(text.replace(right, wrong))
    ours = {name: sys.modules.pop(name) for name in [*sys.modules] if name.split(".")[0] == "reference"}
    sys.path.insert(0, str(room))
    importlib.invalidate_caches()
    try:
        return importlib.import_module("reference.answers").answer
    finally:
        sys.path.remove(str(room))
        for name in [name for name in sys.modules if name.split(".")[0] == "reference"]:
            del sys.modules[name]
        sys.modules.update(ours)


class Right:
    """What the reference answers on the cases, one after the other, as far as they are asked for."""

    def __init__(self, top, seed):
        self.top, self.said = top, []
        fixed = [case for case in cases.fixed_cases() if not case.known]
        large = [case for case in fixed if any(isinstance(data, cases.Sparse) for data in case.files.values())]
        by_chance = (cases.numbered(seed, number) for number in range(MOST_CASES))
        self.made = itertools.chain((case for case in fixed if case not in large), by_chance, large)

    def __iter__(self):
        yield from self.said
        for case in self.made:
            room = os.path.join(self.top, str(len(self.said)))
            os.mkdir(room)
            cases.write_files(room, case.files)
            self.said.append((case, room, said_by(case, room)))
            yield self.said[-1]


def said_by(case, room, answer=saying.answer):
    said = saying.reference_says(case, room, answer)
    return said.text, said.status, said.errors


@pytest.fixture(scope="module")
def right(seed):
    with tempfile.TemporaryDirectory(prefix="pbaudit ") as top:
        yield Right(top, seed)


def differs(answer, case, room, wanted):
    try:
        return said_by(case, room, answer) != wanted
    except Exception:
        return False


@pytest.mark.parametrize("file, rule, wrong_rule", changes("wrong_rules.txt"))
def test_wrong_rule_is_caught(right, room, file, rule, wrong_rule):
    answer = changed(room, file, rule, wrong_rule)
    assert any(differs(answer, *each) for each in right)
