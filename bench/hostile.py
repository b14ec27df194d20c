#!/usr/bin/env python3
"""Measures what hostile files cost, each beside a plain file of the same size: the time, best of three, and the memory.

    python3 bench/hostile.py [--program PROGRAM] [--library FOLDER] [--page PAGE] [--package TGZ] [--small] [--only SHAPE]

Each that is given is measured: PROGRAM, as release/pbaudit; the Python package by libpbaudit.so.2 in FOLDER; the worker of
PAGE, the pbaudit.html that ./pbaudit-web made, in Chromium, from its start on; and TGZ, the package for JavaScript, by
Node. The memory of the page is that of its process; less than that of Python itself, about 12 MB, isn't told apart.

It prints a table in Markdown, in which what the plain file takes stands in brackets. The files have up to 2^28 bytes and
are written one at a time into the folder for temporary files (TMPDIR). What takes longer than five seconds is run once.
--small makes small files, by which all is tried. --only may be given more than once. It ends with status 1 and lines on
standard error if a file isn't answered as it has to be.
"""
import bisect
import collections
import importlib.util
import itertools
import os
import pathlib
import shutil
import sys
import tarfile
import tempfile

from bench import a_program, arguments, in_child, run

MOST_BYTES = 2**28
LIBRARY = "libpbaudit.so.2"
SECONDS_TO_REPEAT = 5
HEAD = b"META\nkey;value\nbudget;1\nvote_type;approval\nPROJECTS\nproject_id;cost;selected\n"
VOTES = b"VOTES\nvoter_id;vote\n"
PRICES = b"pb-prices,1\ndenominator,1\nvoter_budget,%d\nvoter,project,payment\n"
PAGE = "<!DOCTYPE html>"
# The files of each command. A third one is an outcome.
FILES = {
    "read": ["e.pb"], "prices": ["e.pb", "p.csv"], "violation": ["e.pb", "v.csv", "o.csv"], "page": ["e.pb", "p.csv"],
    "tidy": ["e.pb", "p.csv"], "groups": ["e.pb"],
}  # fmt: skip

Shape = collections.namedtuple("Shape", "work large small answers")
SHAPES = {}


def shape(large, small, **answers):
    """Keeps what writes the files of a shape: its sizes, and by commands the first line of each answer, in which {size}
    stands for the size. The answers are the same for the plain files."""
    def keep(work):
        SHAPES[work.__name__.replace("_", "-")] = Shape(work, large, small, answers)
        return work
    return keep


def write(path, *parts):
    with open(path, "wb") as out:
        for part in parts:
            out.write(part)


def projects(ids, row=b";0;0\n"):
    return b"".join(project_id + row for project_id in ids)


def rest_of_election(ids=(b"a", b"b")):
    return b"vote_type;approval\nPROJECTS\nproject_id;cost;selected\n" + projects(ids) + VOTES


BUDGET = b"META\nkey;value\nbudget;1\n"
PLAIN_ROW = b"comment;some words of a note\n"
REST = rest_of_election()
READ = "read 0 voters 2 projects 0 funded"


def plain_rows(size, row=PLAIN_ROW):
    """So many bytes of rows of META, a piece at a time. The last ones are empty lines."""
    piece = row * (2**20 // len(row))
    yield from itertools.repeat(piece, size // len(piece))
    rest = size % len(piece)
    yield row * (rest // len(row)) + b"\n" * (rest % len(row))


def write_meta(room, hostile, *parts):
    """An election with these parts in META, or with as many bytes of plain rows."""
    write(f"{room}/e.pb", BUDGET, *(parts if hostile else plain_rows(sum(map(len, parts)))), REST)


# By what FoldHasher of the kit begins, and by what it and the guesses of pb_election multiply.
SEED, MULTIPLIER = 0x243F_6A88_85A3_08D3, 0x9E37_79B9_7F4A_7C15
DIGITS = b"0123456789"
LETTERS = DIGITS + b"abcdefghijklmnopqrstuvwxyz"
# The letters in which the ends of colliding ids are looked for.
HALF = 4


def word(data):
    return int.from_bytes(data, "little")


def halves(letters):
    return map(bytes, itertools.product(letters, repeat=HALF))


def ends_guessed_alike(first):
    """Texts of eight bytes such that pb_election guesses one place for all ids that begin with these eight and end with
    such a text: the highest 15 bits of a product are 0, to which each half of the text adds its part."""
    low, high = divmod(word(first) * MULTIPLIER % 2**64, 2**32)[::-1]
    parts = sorted((((word(half) ^ high) * MULTIPLIER) % 2**32, half) for half in halves(DIGITS))
    for half in halves(LETTERS):
        wanted = -((word(half) ^ low) * MULTIPLIER >> 32) % 2**32
        found = parts[bisect.bisect_left(parts, (wanted,)):bisect.bisect_left(parts, (wanted + 2**17,))]
        yield from (half + other for _, other in found)


def colliding(count):
    """Ids of 32 bytes that have one hash. The hasher multiplies what it has made of the first 16, changed by the eight
    behind them, by the last eight. Where both are the same, the one changed by the other is 0, and so is any product."""
    for number in itertools.count():
        front = b"project-%08d" % number
        product = (word(front[:8]) ^ SEED + 32) * (word(front[8:]) ^ MULTIPLIER)
        middle = (product % 2**64 ^ product >> 64).to_bytes(8, "little")
        if middle.isalnum():
            return [front + middle + end for end in itertools.islice(ends_guessed_alike(front[:8]), count)]


VOTERS = 50


@shape(20_000, 300, read="read 50 voters {size} projects {size} funded", prices="supported priceable",
       violation="violation", page=PAGE)
def colliding_ids(room, size, hostile):
    """Ids of 32 bytes with one hash, in 50 ballots, prices and a violation; plain: other ids.

    All projects are funded, all voters approve them, and each pays for some. By the outcome file none is funded."""
    ids = colliding(size) if hostile else [b"project-%024d" % number for number in range(size)]
    voters = range(1, VOTERS + 1)
    write(f"{room}/e.pb", HEAD.replace(b"budget;1", b"budget;%d" % size), projects(ids, b";1;1\n"), VOTES,
          *(b"v;" + b",".join(ids) + b"\n" for _ in voters))
    paid = (b"%d,%s,1\n" % (voter, project_id) for voter in voters for project_id in ids[voter - 1::VOTERS])
    write(f"{room}/p.csv", PRICES % size, *paid)
    write(f"{room}/v.csv", b"pb-violation,1\n", *(b"project,%s\n" % project_id for project_id in ids),
          *(b"voter,%d\n" % voter for voter in voters))
    write(f"{room}/o.csv", b"pb-outcome,1\n")


@shape(20_000, 100, read="read {size} voters {size} projects 0 funded")
def long_ids(room, size, hostile):
    """Ids of 1,008 bytes that differ in their last eight, and a ballot of each; plain: in their first eight."""
    pad = b"x" * 1000
    ids = [pad + b"%08d" % number if hostile else b"%08d" % number + pad for number in range(size)]
    write(f"{room}/e.pb", HEAD, projects(ids), VOTES, *(b"v;" + project_id + b"\n" for project_id in ids))


@shape(10**6, 1000, read="read 0 voters 200 projects 0 funded", page=PAGE)
def huge_ids(room, size, hostile):
    """200 ids of 1 MB; plain: as many bytes in a column that isn't read."""
    long = b"x" * size
    rows = (b"%03d%s;2;0;%s\n" % ((number, long, b"") if hostile else (number, b"", long)) for number in range(200))
    write(f"{room}/e.pb", HEAD.replace(b"selected", b"selected;note"), *rows, VOTES)
    write(f"{room}/p.csv", PRICES % 1)


@shape(10_000, 100, page=PAGE)
def hidden_names(room, size, hostile):
    """10,000 names of 1,000 characters that can't be seen; plain: names of as many bytes."""
    row = b";2;0;" + ("\u202e".encode() if hostile else b"xxx") * 1000 + b"\n"
    ids = [b"%05d" % number for number in range(size)]
    write(f"{room}/e.pb", HEAD.replace(b"selected", b"selected;name"), projects(ids, row), VOTES)
    write(f"{room}/p.csv", PRICES % 1)


@shape(10_000_000, 1000, read=READ, page=PAGE)
def repeated_keys(room, size, hostile):
    """10 million rows of META of one key; plain: each of its own."""
    rows = (b"%08d;\n" % (0 if hostile else number) for number in range(size))
    write(f"{room}/e.pb", BUDGET, *rows, REST)
    write(f"{room}/p.csv", PRICES % 1)


@shape(20_000_000, 10_000, read=READ, page=PAGE)
def short_rows(room, size, hostile):
    """10 million rows of META of one byte; plain: as many bytes in longer ones."""
    write_meta(room, hostile, *plain_rows(size - len(BUDGET + REST), b"k\n"))
    write(f"{room}/p.csv", PRICES % 1)


@shape(100_000_000, 1000, read="read 1 voters 2 projects 0 funded")
def many_columns(room, size, hostile):
    """100 MB of columns that aren't read, in the header of VOTES; plain: as many bytes in rows of META."""
    columns = b"weight;" * (size // 7) if hostile else b""
    notes = [] if hostile else plain_rows(size // 7 * 8)
    write(f"{room}/e.pb", BUDGET, *notes, REST.replace(b"voter_id;", columns), b";" * columns.count(b";"), b"a\n")


@shape(MOST_BYTES, 10_000, read=READ)
def one_field(room, size, hostile):
    """One field of 2^28 bytes; plain: as many bytes in rows."""
    write_meta(room, hostile, b"comment;", b"x" * (size - len(BUDGET + b"comment;\n" + REST)), b"\n")


@shape(MOST_BYTES, 10_000, read=READ)
def quoted_field(room, size, hostile):
    """One field of 2^28 bytes of doubled quotes; plain: as many bytes in rows."""
    write_meta(room, hostile, b'comment;"', b'""' * ((size - len(BUDGET + b'comment;""\n' + REST)) // 2), b'"\n')


@shape(MOST_BYTES, 10_000, read=READ)
def short_fields(room, size, hostile):
    """2^28 bytes of fields of quotes that open and close; plain: as many bytes in rows."""
    write_meta(room, hostile, *plain_rows(size - len(BUDGET + REST), b'"";' * 300 + b'"x"\n'))


@shape(200_000_000, 1000, read=READ)
def separators(room, size, hostile):
    """One record of 200 MB of separators; plain: as many bytes in rows."""
    write_meta(room, hostile, b"comment", b";" * size, b"\n")


@shape(100_000_000, 1000, read=READ)
def blank_records(room, size, hostile):
    """100 million blank records; plain: as many bytes in rows."""
    write_meta(room, hostile, b";\n" * size)


@shape(200_000_000, 1000, read=READ)
def zeros_in_front(room, size, hostile):
    """200 MB of zeros in front of a 1; plain: as many bytes in rows."""
    write_meta(room, hostile, b"num_votes;", b"0" * size, b"\n")


@shape(1_000_000, 1000, violation="violation")
def many_voters(room, size, hostile):
    """A million voters of a violation, the last first; plain: the first first."""
    voters = range(size, 0, -1) if hostile else range(1, size + 1)
    write(f"{room}/e.pb", HEAD, b"a;1;0\n", VOTES, b"v;a\n" * size)
    write(f"{room}/v.csv", b"pb-violation,1\nproject,a\n", *(b"voter,%d\n" % voter for voter in voters))
    write(f"{room}/o.csv", b"pb-outcome,1\n")


BITS = 20


@shape(1_000_000, 1000, groups="failed EJR+ by cost voters {size} project c")
def falling_gets(room, size, hostile):
    """A million voters, each of whom got less than the one before; plain: more. They all want a project that isn't funded."""
    costs = b"".join(b"b%d;%d;1\n" % (bit, 1 << bit) for bit in range(BITS))
    gets = range(size - 1, -1, -1) if hostile else range(size)
    voters = (b"v;" + b",".join([b"c", *(b"b%d" % bit for bit in range(BITS) if get >> bit & 1)]) + b"\n" for get in gets)
    write(f"{room}/e.pb", HEAD.replace(b"budget;1", b"budget;%d" % (1 << BITS)), costs, b"c;1;0\n", VOTES, *voters)


def names(size):
    return [b"p%05d" % number for number in range(size)]


@shape(20_000, 300, read="read 50 voters {size} projects 0 funded")
def long_ballot(room, size, hostile):
    """A ballot of a million names, of each project 50 times; plain: 50 ballots of all projects."""
    each = b",".join(names(size))
    ballots = [b"v;", (each + b",") * 50, b"\n", b"v;\n" * 49] if hostile else [b"v;" + each + b"\n"] * 50
    write(f"{room}/e.pb", HEAD, projects(names(size)), VOTES, *ballots)


@shape(20_000, 50, read="read 500 voters {size} projects 0 funded")
def falling_ballots(room, size, hostile):
    """500 ballots of 20,000 projects, the last first; plain: the first first."""
    ballot = b"v;" + b",".join(sorted(names(size), reverse=hostile)) + b"\n"
    write(f"{room}/e.pb", HEAD, projects(names(size)), VOTES, ballot * 500)


@shape(20_000, 50, tidy="pb-prices,1")
def falling_rows(room, size, hostile):
    """50 voters who pay for 20,000 projects, the last first; plain: the first first."""
    write(f"{room}/e.pb", HEAD, projects(names(size)), VOTES, b"v;\n" * 50)
    rows = (b"%d,%s,1\n" % (voter, name) for voter in range(1, 51) for name in sorted(names(size), reverse=hostile))
    write(f"{room}/p.csv", PRICES % 0, *rows)


# Each way to ask takes a command and the paths of its files, and gives the seconds, the kilobytes, and the first line.


def by_command(words, room):
    def ask(command, *files):
        outcome = ["--outcome", files[2]] if files[2:] else []
        first, *others = [*words, command, *files[:2], *outcome]
        return run(first, others, f"{room}/out")
    return ask


CALLS = """
import sys
sys.path.insert(0, sys.argv[1])
import pbaudit
calls = {"read": pbaudit.read, "prices": pbaudit.audit_prices, "violation": pbaudit.audit_violation,
         "page": pbaudit.page, "groups": pbaudit.audit_groups, "tidy": lambda *files: pbaudit.tidy(*files).decode()}
print(calls[sys.argv[2]](*sys.argv[3:]))
"""


def by_python(library, room):
    """The package of this repository with that library, as a wheel would install it."""
    package = pathlib.Path(__file__).resolve().parent.parent / "python/pbaudit"
    shutil.copytree(package, f"{room}/python/pbaudit", ignore=shutil.ignore_patterns("__pycache__"))
    shutil.copy(pathlib.Path(library) / LIBRARY, f"{room}/python/pbaudit")
    return lambda *words: run(sys.executable, ["-c", CALLS, f"{room}/python", *words], f"{room}/out")


def by_node(package, room):
    with tarfile.open(package) as packed:
        packed.extractall(room)
    return by_command([shutil.which("node"), f"{room}/package/command.js"], room)


def by_page(page, room):
    """A browser for each question, since its memory is the most that it has had."""
    import web

    def ask(command, *files):
        with tempfile.TemporaryDirectory(dir=room) as folder:
            return web.ask_once(page, pathlib.Path(folder), command, files)
    return ask


def best_of(most, ask, words):
    """The seconds, the megabytes, and the first lines that aren't alike, of at most so many runs."""
    tries = [ask(*words)]
    while len(tries) < most and tries[0][0] < SECONDS_TO_REPEAT:
        tries.append(ask(*words))
    seconds, memory, lines = zip(*tries)
    return min(seconds), max(memory) / 1000, set(lines)


def measure(name, is_small, ways, hostile):
    """The bytes of the files of a shape, and of each command and way what `best_of` gives."""
    work, large, small, answers = SHAPES[name]
    with tempfile.TemporaryDirectory() as room:
        # What is written in another process isn't counted as memory of the program.
        in_child(work, room, small if is_small else large, hostile)
        paths = {command: [f"{room}/{file}" for file in FILES[command]] for command in answers}
        bytes_of = {command: sum(map(os.path.getsize, files)) for command, files in paths.items()}
        told = {(command, way): best_of(1 if is_small else 3, ask, [command, *files])
                for command, files in paths.items() for way, ask in ways.items()}  # fmt: skip
    return bytes_of, told


def tell(name, is_small, ways):
    """Prints the rows of a shape, and returns what was answered wrongly."""
    wrong, wanted = [], SHAPES[name]
    bytes_of, hostile = measure(name, is_small, ways, True)
    _, plain = measure(name, is_small, ways, False)
    for command, answer in wanted.answers.items():
        cells = []
        for way in ways:
            (seconds, memory, lines), (others, less, plain_lines) = (told[command, way] for told in (hostile, plain))
            cells.append(f"{seconds:.2f} s, {memory:.0f} MB ({others:.2f} s, {less:.0f} MB)")
            if lines | plain_lines != {answer.format(size=wanted.small if is_small else wanted.large)}:
                wrong.append(f"{name}, {command}, {way}: {sorted(lines)}, plain {sorted(plain_lines)}")
        print(f"| {name}, {bytes_of[command] / 1e6:.1f} MB | `{command}` | {' | '.join(cells)} |", flush=True)
    return wrong


WAYS = {"program": by_command, "library": by_python, "page": by_page, "package": by_node}
TITLES = {"program": "Program", "library": "Python", "page": "Page", "package": "JavaScript"}


def words_given():
    """What the words of the command ask for. Ends with a line on what is wrong."""
    words = arguments(__doc__)
    for way in WAYS:
        words.add_argument(f"--{way}", type=a_program if way == "program" else str)
    words.add_argument("--small", action="store_true")
    words.add_argument("--only", action="append", choices=[*SHAPES], metavar="SHAPE", help=", ".join(SHAPES))
    given = words.parse_args()
    library = given.library and f"{given.library}/{LIBRARY}"
    for path in filter(None, (library, given.page, given.package)):
        if not os.path.isfile(path):
            words.error(f"there is no file {path}")
    if not any(getattr(given, way) for way in WAYS):
        words.error("nothing is given to measure")
    if given.package and not shutil.which("node"):
        words.error("node is not installed")
    if given.page and not importlib.util.find_spec("pytest"):
        words.error("pytest is not installed for this Python")
    return given


def main():
    given, wrong = words_given(), []
    with tempfile.TemporaryDirectory() as room:
        ways = {}
        for way, begin in WAYS.items():
            path = getattr(given, way)
            if path:
                os.mkdir(f"{room}/{way}")
                ways[TITLES[way]] = begin([path] if way == "program" else path, f"{room}/{way}")
        print(f"| Shape, size | Command | {' | '.join(ways)} |\n|---|---|{'---|' * len(ways)}")
        for name in given.only or SHAPES:
            wrong += tell(name, given.small, ways)
    if wrong:
        sys.exit("\n".join(["answered wrongly:", *wrong]))


if __name__ == "__main__":
    main()
