"""Tries that what docs/COMMANDS.md calls stable is there, line by line of tables/interface.txt: the declarations and numbers of the
header, the functions of the Python package with their parameters, what the types for JavaScript export, and the commands and
options of the program."""
import inspect
import re

import pytest

import header
import pbaudit
from common import HERE, TOP

LINES = [line for line in (HERE / "tables/interface.txt").read_text(encoding="utf-8").splitlines() if not line.startswith("#")]
HEADER = (TOP / "include/pbaudit.h").read_text(encoding="utf-8")
TYPES = (TOP / "web/src/package/index.ts").read_text(encoding="utf-8")


def of(language):
    return [line.partition(" ")[2] for line in LINES if line.split(" ")[0] == language]


def in_header(text):
    """What a header declares, in the form of the table."""
    exported, inline = header.functions(text)
    found = {f"{name}({takes})" for name, takes in (exported | inline).items()}
    found |= {f"{name} {{{fields}}}" for name, fields in header.structs(text).items()}
    return found | {f"{name} = {number}" for name, number in header.numbers(text).items()}


def takes(function, wanted):
    """Whether a function can be called as it could: by the places and names that are wanted, and without more."""
    has = inspect.signature(function).parameters
    placed = [name for name, it in has.items() if it.kind is not it.KEYWORD_ONLY]
    by_place = [name for name in wanted if not name.startswith("*")]
    by_name = {name[1:] for name in wanted if name.startswith("*")}
    more = has.keys() - by_name - {*by_place}
    return placed[:len(by_place)] == by_place and by_name <= has.keys() and all(has[name].default is not inspect.Parameter.empty for name in more)


def in_types(text):
    """What the types for JavaScript export, and the calls of an auditor."""
    found = set(re.findall(r"^export (?:interface|type|const) (\w+)", text, re.MULTILINE))
    for names in re.findall(r"^export (?:type )?\{([^}]*)\}", text, re.MULTILINE):
        found |= {name.strip() for name in names.split(",") if name.strip()}
    calls = text.split("export interface Auditor {")[1].split("\n}")[0]
    return found | {f"auditor.{name}" for name in re.findall(r"^  (\w+)\(", calls, re.MULTILINE)}


def test_header():
    assert of("c") and {*of("c")} - in_header(HEADER) == set()


@pytest.mark.parametrize("old, new", [
    ("bool stable, bool exhaustive, bool cover,\n                       pbaudit_facts", "bool exhaustive, bool stable, bool cover,\n                       pbaudit_facts"),
    ("PBAUDIT_S5,", "PBAUDIT_S6, PBAUDIT_S5,"), ("PBAUDIT_READ = 0", "PBAUDIT_READ = 1"), ("uint32_t input, fault;", "uint32_t fault, input;"),
])  # fmt: skip
def test_change_of_the_header_is_seen(old, new):
    assert HEADER.count(old) == 1 and {*of("c")} - in_header(HEADER.replace(old, new))


@pytest.mark.parametrize("line", of("python"))
def test_python(line):
    name, _, parameters = line.rstrip(")").partition("(")
    assert name in pbaudit.__all__
    assert "(" not in line or takes(getattr(pbaudit, name), [it for it in parameters.split(", ") if it])


@pytest.mark.parametrize("function, is_seen", [
    (lambda a, b, *, c=1: 0, False), (lambda a, b, c=1, *, d=2: 0, False), (lambda b, a, *, c=1: 0, True), (lambda a, *, b, c=1: 0, True),
    (lambda a, b, *, d=1: 0, True), (lambda a, b, d, *, c=1: 0, True), (lambda a, b, *, c, d: 0, True),
])  # fmt: skip
def test_change_of_parameters_is_seen(function, is_seen):
    assert takes(function, ["a", "b", "*c"]) != is_seen


def test_javascript():
    assert of("javascript") and {*of("javascript")} - in_types(TYPES) == set()


@pytest.mark.parametrize("old", ["  tidy(election", "export { OutOfMemory };", "export interface ForPrices "])
def test_change_of_the_types_is_seen(old):
    assert TYPES.count(old) == 1 and {*of("javascript")} - in_types(TYPES.replace(old, "  other("))


def test_program(commands):
    has = {f"{name} {option} {value}" for name, options in commands.options.items() for option, value in options.items()}
    has = {header.on_one_line(each) for each in has} | {*commands.names}
    assert of("program") and {*of("program")} - has == set()
