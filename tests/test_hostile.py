"""The files of bench/hostile.py: each shape is answered as it has to be, and as the plain file of its size; and the ids that it
makes collide in the hash table of the kit, whose hasher is written again here."""
import re
import subprocess
import sys

import pytest

from common import TOP, script

sys.path.append(str(TOP / "bench"))
import hostile  # noqa: E402

SEED, MULTIPLIER = 0x243F6A8885A308D3, 0x9E3779B97F4A7C15
# The shapes that are tried with a stand-in for the program.
TRIED = ["blank-records", "many-voters"]


def run(*words):
    words = [sys.executable, TOP / "bench/hostile.py", *words]
    return subprocess.run(words, capture_output=True, text=True, timeout=1200, check=False)


def number(data):
    return int.from_bytes(data, "little")


def folded(one, other):
    return (one * other & 2**64 - 1) ^ (one * other >> 64)


def written(state, data):
    """The state of FoldHasher after it was given one byte, five to eight, or a multiple of 16."""
    if len(data) <= 8:
        few = number(data[:4] + data[-4:]) if len(data) > 1 else data[0] * 0x10101
        return folded(state ^ few, MULTIPLIER ^ 2 * len(data))
    state = state + len(data) & 2**64 - 1
    for at in range(0, len(data), 16):
        state = folded(number(data[at:at + 8]) ^ state, number(data[at + 8:at + 16]) ^ MULTIPLIER)
    return state


def hash_of(text):
    """The hash of a text, behind which stands the byte FF: 32 bits, of which the lowest choose a group and the highest 8 are
    the tag."""
    state = written(written(SEED, text), b"\xff")
    return (state ^ state >> 32) & 2**32 - 1


def test_hasher():
    """By the hasher as it is written here, the ids collide that collide in the tests of the crates."""
    source = (TOP / "crates/pb_samples/src/colliding.rt").read_text()
    hashes = [hash_of(text.encode()) for text in re.findall(r'"([a-z]{5})"', source)]
    assert len(hashes) == 60
    assert {(hash_ >> 24, hash_ & 3) for hash_ in hashes} == {(hashes[0] >> 24, hashes[0] & 3)}


def test_colliding_ids():
    """They have one hash, are of one length, and may stand in an election. Those that merely count have many."""
    ids = hostile.colliding(20_000)
    assert len({*ids}) == 20_000 and {hash_of(text) for text in ids} == {hash_of(ids[0])}
    assert all(len(text) == 32 and re.fullmatch(rb"[-0-9A-Za-z]+", text) for text in ids)
    assert len({hash_of(b"project-%024d" % number) for number in range(20_000)}) > 19_990


def test_guesses():
    """pb_election guesses one place for all of them, by the first eight bytes and the last eight."""
    slots = {(number(text[:8]) * MULTIPLIER ^ number(text[-8:])) * MULTIPLIER % 2**64 >> 49 for text in hostile.colliding(20_000)}
    assert slots == {0}


@pytest.mark.parametrize("tells, wrong", [
    (hostile.READ, ["many-voters, violation, Program: ['read 0"]),
    ("violation", ["blank-records, read, Program: ['violation"]),
    ("", ["blank-records, read, Program: ['']", "many-voters, violation, Program: ['']"]),
])  # fmt: skip
def test_wrong_answers(room, tells, wrong):
    """A program that answers wrongly is noticed, whatever the shape."""
    script(room / "program", f"#!/bin/sh\necho '{tells}'\n")
    told = run("--small", "--program", room / "program", *(word for name in TRIED for word in ("--only", name)))
    assert told.returncode == 1 and len(told.stdout.splitlines()) == 4
    first, *lines = told.stderr.splitlines()
    assert first == "answered wrongly:" and [line.startswith(each) for line, each in zip(lines, wrong, strict=True)] == [True] * len(wrong)


def test_wrong_answer_on_the_plain_file(room):
    script(room / "program", f"#!/bin/sh\ngrep -q 'words of a note' \"$2\" && echo other || echo '{hostile.READ}'\n")
    told = run("--small", "--program", room / "program", "--only", "blank-records")
    assert told.returncode == 1 and told.stderr.endswith(f"{[hostile.READ]}, plain ['other']\n")


def test_each_shape(program, library):
    """By the program and by the Python package: a row for each command of each shape, and no wrong answer."""
    told = run("--small", "--program", program, "--library", library)
    assert told.returncode == 0, told.stderr
    head, rule, *rows = told.stdout.splitlines()
    assert (head, rule) == ("| Shape, size | Command | Program | Python |", "|---|---|---|---|")
    wanted = [(name, f"`{command}`") for name, shape in hostile.SHAPES.items() for command in shape.answers]
    cells = [row.split(" | ") for row in rows]
    assert [(first.split(",")[0].removeprefix("| "), command) for first, command, *_ in cells] == wanted
    cell = r"\d+\.\d\d s, \d+ MB \(\d+\.\d\d s, \d+ MB\)"
    assert all(re.fullmatch(cell, each.removesuffix(" |")) for _, _, *measured in cells for each in measured)
