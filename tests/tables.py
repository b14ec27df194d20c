"""The tables of cases in tables/: text files that say what the program answers, and what it tells, as answers.txt.

    file NAME                the lines of a small file, up to a blank line
    files of TABLE           those of another table
    == NAME                  a group of cases
    from SAMPLE as FILE      they change this sample, or example, and call the changed file so
    $ WORD ..                a command; several in a row answer the same
    @ KEPT REMOVED [LINE]    a change: KEPT lines are kept, and this line stands in the place of the next REMOVED ones
    + LINE                   one more such line
    * BYTES                  bytes, as Python writes them, without the end of a line
    > LINE                   what is printed, line by line; a single line stands behind ` => ` in one of the lines above
    - TEXT                   in pages.txt, what isn't printed
    :NUMBER: TEXT            what is told on standard error, of the changed file, whose name stands in front
    | LINE                   what is told there of another file

Beside a refusal something has to be told; where a table has no such line, what it is isn't compared.
"""
import ast
import dataclasses
import pathlib
import re

import pytest

HERE = pathlib.Path(__file__).resolve().parent
EXAMPLES = HERE.parent / "examples"


@dataclasses.dataclass
class Row:
    """A command, the file that was changed for it, and what has to come."""

    group: str
    commands: list = dataclasses.field(default_factory=list)
    name: str = ""
    changed: bytes = b""
    printed: list = dataclasses.field(default_factory=list)
    missing: list = dataclasses.field(default_factory=list)
    told: list = dataclasses.field(default_factory=list)

    def write(self, room, files):
        """Writes the files that its commands name, and those that others name, into a folder."""
        for name, data in {**files, self.name or "unnamed": self.changed}.items():
            (room / name).write_bytes(data)

    @property
    def text(self):
        return "".join(line + "\n" for line in self.printed)

    @property
    def status(self):
        return status_of(self.printed)


def status_of(lines):
    """The exit status that goes with an answer."""
    if lines[0].startswith("refused "):
        return 2
    return int(any(line.startswith("failed ") for line in lines[:2]))


def with_answers_apart(lines):
    """The lines of a group, in which each answer has a line of its own."""
    for line in lines:
        does, arrow, printed = line.rpartition(" => ")
        yield from (does, f"> {printed}") if arrow else (line,)


def changed(sample, kept, removed, new):
    """A file of which some lines are kept, and others replaced."""
    lines = sample.splitlines(keepends=True)
    return b"".join(lines[:kept]) + new + b"".join(lines[kept + removed:])


class Table:
    """The small files of a table, and its rows."""

    def __init__(self, name):
        self.files = {path.name: path.read_bytes() for path in EXAMPLES.iterdir() if path.suffix in (".pb", ".csv")}
        self.rows = []
        text = (HERE / "tables" / name).read_text("utf-8")
        for other in re.findall(r"^files of (\S+)$", text, re.MULTILINE):
            self.files |= Table(other).files
        for block in re.split(r"\n(?=file |== )", text)[1:]:
            lines = [line for line in block.rstrip("\n").split("\n") if not line.startswith("# ")]
            if lines[0].startswith("file "):
                self.files[lines[0][5:]] = "".join(line + "\n" for line in lines[1:] if line).encode()
        for block in re.split(r"\n(?=file |== )", text)[1:]:
            if block.startswith("== "):
                self.read_group(block.rstrip("\n").split("\n"))

    def read_group(self, lines):
        sample, name, commands = b"", "", []
        row = Row(lines[0][3:])
        for line in with_answers_apart(lines[1:]):
            mark, rest = line[:1], line[2:]
            if line.startswith("from "):
                _, sample, _, name = line.split(" ")
            elif mark == "$":
                if row.printed:
                    row, commands = Row(row.group), []
                commands.append(rest)
                row.commands = commands
            elif mark == "@":
                kept, removed, *first = rest.split(" ", 2)
                row = Row(lines[0][3:], commands, name)
                place = self.files[sample], int(kept), int(removed)
                new = "".join(text + "\n" for text in first).encode()
            elif mark == "+":
                new += rest.encode() + b"\n"
            elif mark == "*":
                new += ast.literal_eval(f'b"{rest}"')
            elif mark == ">":
                if not row.printed:
                    self.rows.append(row)
                    if row.name:
                        row.changed = changed(*place, new)
                row.printed.append(rest)
            elif mark == "-":
                row.missing.append(rest)
            elif mark == ":":
                row.told.append(row.name + line)
            elif mark == "|":
                row.told.append(rest)


def slug(text):
    """A text as a part of a test's name, which words on a command line can hold."""
    return re.sub(r"[^A-Za-z0-9.]+", "_", text).strip("_")


def cases(table):
    """Each row with each of its commands, named by its group, the command and what is printed first."""
    for row in table.rows:
        for command in row.commands:
            words = command.split(" ")
            name = f"{slug(row.group)}-{words[0]}-{slug(row.printed[0].removeprefix('refused '))}"
            yield pytest.param(row, words, id=name)


def asked(name):
    """What a table asks: each row with each of its commands, and the files that this names."""
    table = Table(name)
    for row, words in (case.values for case in cases(table)):
        files = {**table.files, row.name or "unnamed": row.changed}
        yield row, words, {word: files[word] for word in words if word in files}


@dataclasses.dataclass
class SheetCase:
    """Two sheets of tables/sheets.txt, and what is made of them or told."""

    name: str
    limit: str = ""
    sheets: dict = dataclasses.field(default_factory=lambda: {"p": b"", "b": b""})
    election: bytes = b""
    told: list = dataclasses.field(default_factory=list)

    def write(self, room):
        for mark, name in (("p", "projects.csv"), ("b", "ballots.csv")):
            (room / name).write_bytes(self.sheets[mark])


def unescaped(text):
    r"""The bytes of a text in which \t, \r and \x with two digits stand for others."""
    marks = {b"\\t": b"\t", b"\\r": b"\r"}
    return re.sub(rb"\\(?:t|r|x[0-9a-f]{2})", lambda found: marks.get(found[0]) or bytes([int(found[0][2:], 16)]), text.encode())


def sheet_cases():
    """The cases of tables/sheets.txt, whose first lines say how they are written."""
    cases = []
    for line in (HERE / "tables/sheets.txt").read_text("utf-8").split("\n"):
        mark, rest = line[:1], line[2:]
        if line.startswith("== "):
            cases.append(SheetCase(line[3:]))
        elif line.startswith("limit "):
            cases[-1].limit = line[6:]
        elif mark and mark in "pPbB":
            cases[-1].sheets[mark.lower()] += unescaped(rest) + (b"\n" if mark.islower() else b"")
        elif mark == ">":
            cases[-1].election += unescaped(rest) + b"\n"
        elif mark == "!":
            cases[-1].told.append(rest)
        else:
            assert not line or mark == "#", line
    return cases


def changes(name):
    """The rows of a table of changes, with names: a file behind `==`, what stands in it behind `-`, and behind `+` what is put in its place."""
    for part in ("\n" + (HERE / "tables" / name).read_text("utf-8")).split("\n== ")[1:]:
        file, _, rows = part.partition("\n")
        for change, lines in re.findall(r"^(?![-+] )(.*)\n((?:[-+] .*\n?)+)", rows, re.MULTILINE):
            old, new = ("\n".join(re.findall(rf"^\{sign} (.*)$", lines, re.MULTILINE)) for sign in "-+")
            yield pytest.param(file, old, new, id=slug(f"{pathlib.PurePath(file).name} {change}"))
