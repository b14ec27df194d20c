"""The C library's calls, tried by libFuzzer for a while (`--seconds`), with AddressSanitizer and UBSan in what calls it. The seeds are
the rows of tables/, and what was once found, in fuzz/found. `-rP` prints how many inputs were tried."""
import re
import shutil
import subprocess

import pytest

import calls
import tables
from common import HERE, needs

LETTERS = {"read": "r", "prices": "p", "violation": "v", "refutation": "u", "both": "b", "explain": "e", "margins": "m",
           "tidy": "t", "page": "g"}  # fmt: skip
TABLES = ("answers.txt", "hints.txt", "refutations.txt")
# What else is asked of the files of a command.
MORE = {"explain": ["page"], "refutation": ["explain", "page"]}


def seed_of(words, files):
    """The input that makes the call of a command."""
    command, names, named, switches = calls.parts(words)
    mode = ("--stable" in switches) + 2 * ("--no-exhaustive" not in switches) + 4 * ("--cover" in switches)
    given = [files.get(name, b"") for name in names] + [b""] * (3 - len(names))
    parts = [b"%s%c0" % (LETTERS[command].encode(), 0x60 | mode), *given, *(files[name] for name in named.values())]
    return b"\x1e".join(parts)


@pytest.fixture(scope="module")
def fuzzer(library, tmp_path_factory):
    needs("clang")
    path = tmp_path_factory.mktemp("fuzzer") / "fuzzer"
    words = ["clang", "-O1", "-g", "-Wall", "-Wextra", "-Werror", "-fsanitize=fuzzer,address,undefined", "-fno-sanitize-recover=all",
             "-I", library, "-o", path, HERE / "fuzz/harness.c", library / "libpbaudit.a", "-Wl,--wrap=malloc,--wrap=realloc"]
    told = subprocess.run(words, capture_output=True, text=True, check=False)
    assert told.returncode == 0, told.stderr
    return path


@pytest.fixture
def seeds(room):
    folder = room / "seeds"
    folder.mkdir()
    for path in (HERE / "fuzz/found").glob("*"):
        shutil.copy(path, folder)
    for number, (row, words, files) in enumerate(asked for name in TABLES for asked in tables.asked(name)):
        for command in {words[0], *MORE.get(words[0], ())}:
            (folder / f"{tables.slug(row.group)}-{command}-{number}").write_bytes(seed_of([command, *words[1:]], files))
    return folder


def test_by_chance(fuzzer, seeds, option, seed):
    words = [fuzzer, f"-max_total_time={option('seconds')}", f"-seed={abs(hash(seed)) % 2**31 if not seed.isdigit() else seed}",
             "-timeout=20", "-max_len=4096", "-len_control=0", f"-dict={HERE / 'fuzz/words.txt'}", "-print_final_stats=1", seeds]
    told = subprocess.run(words, cwd=seeds.parent, capture_output=True, text=True, errors="replace", check=False)
    print(*re.findall(r"^(?:stat::number_of_executed_units|stat::new_units_added).*$", told.stderr, re.MULTILINE), sep="\n")
    kept = {path.name: path.read_bytes() for path in seeds.parent.glob("*-*") if path.is_file()}
    wrong = re.findall(r"^the library is wrong.*$|^SUMMARY.*$", told.stderr, re.MULTILINE)
    assert (told.returncode, wrong, kept) == (0, [], {}), told.stderr[-3000:]
