"""Tries the C library beside the program: its symbols and its header, the callers on the examples, cases with a damaged file, also
with just enough room and with a byte less, and with hints. On the examples each of its allocations fails, and it runs on a small
stack, and under valgrind and sanitizers."""
import ctypes
import dataclasses
import os
import re
import subprocess

import pytest

import calls
import cases
import file_kinds
import tables
from c_library import Answer, Facts, FactsOfC
from common import HERE, needs
from pbaudit import _auditor, _places
from test_answers import ON_EXAMPLES

BY_CHANCE = 2000
SMALL_STACK = 128 * 1024
FACTS = ctypes.sizeof(FactsOfC)
EXAMPLES = tables.EXAMPLES


def commands():
    """The commands of examples/answers.txt that the library has: words, the text and the status."""
    for command, text, status, _ in ON_EXAMPLES:
        words = command.split(" ")
        if words[0] in (*_auditor._QUESTIONS, "groups") and all((EXAMPLES / word).exists() for word in words[1:] if "." in word):
            yield pytest.param(words, text.encode(), int(status), id=command)


COMMANDS = list(commands())
# What is said of groups, by the number of the header: school.prices.csv has budgets of 1000 for a limit of 100000,
# district.shares.prices.csv of 111000 for one of 111000, and district.prices.csv of 156000.
SAID_OF_GROUPS = {
    "groups - school.pb school.prices.csv": 1,
    "groups e school.pb school.prices.csv": 1,
    "groups - district.pb district.shares.prices.csv": 2,
    "groups e district.pb district.shares.prices.csv": 3,
    "groups - district.pb district.prices.csv": 3,
    "groups e district.pb district.prices.csv": 3,
    "groups - school.pb school.violation.csv": 0,
    "groups e school.prices.csv school.prices.csv": 0,
}  # fmt: skip
# Calls of library.c for notes and hints, each with its text, as the header says: of small voter budgets, of larger ones, and of
# refused files; no refusal has the number 99, no kind of file the number 6, and a fault of elections no certificate.
CALLS = {
    "note - school.pb school.prices.csv": "note: the voter budgets together are less than the limit, so this yes says little\n",
    "note - district.pb district.prices.csv": "",
    "note - school.pb school.violation.csv": "",
    "note - school.prices.csv school.prices.csv": "",
    "hint 3:24:4 district.voter-id.violation.csv district.pb": (
        "there is no voter '20582'; the election has 60 voters\nvoters are numbered by their rows in VOTES, from 1, and not by "
        "voter_id; the one with voter_id '20582' is voter 9\n"),
    "hint 2:21:1 sample.outcome.csv": (
        "expected the record pb-prices,1, but found 'pb-outcome,1'\nthis is an outcome file, not a price certificate\n"),
    "hint 2:99:1 sample.outcome.csv": "",
    "hint 6:21:1 sample.outcome.csv": "",
    "hint 2:14:3 sample.outcome.csv": "record 3: the vote names something that is no project's id\n",
}  # fmt: skip
# Calls of library.c for the parts of a report on a folder, each with its status and its text but for the object in the first line.
ENTRIES = {
    "entry e sample.pb": (0, "town.pb: read 3 voters 3 projects 2 funded\n"),
    "entry e sample.pb sample.prices.csv": (0, "town.pb: read 3 voters 3 projects 2 funded\ntown.prices.csv: supported priceable\n"),
    "entry e hall.pb hall.prices.csv hall.violation.csv": (
        0, "town.pb: read 3 voters 3 projects 1 funded\ntown.prices.csv: supported priceable\ntown.violation.csv: violation\n"),
    "entry se hall.pb hall.prices.csv hall.violation.csv": (
        1, "town.pb: read 3 voters 3 projects 1 funded\ntown.prices.csv: failed S5 project dance\ntown.violation.csv: violation\n"),
    "entry e sample.prices.csv sample.prices.csv": (2, "town.pb: refused election 2 NoMeta record 1\n"),
    "total 3:1:0:0 sample.pb": (0, "total 3 elections 1 yes 0 no 0 refused\n"),
    "total 2:1:4:0 sample.pb": (1, "total 2 elections 1 yes 4 no 0 refused\n"),
    "total 12:10:4:1 sample.pb": (2, "total 12 elections 10 yes 4 no 1 refused\n"),
}  # fmt: skip
# What the table of groups asks of the examples with --groups.
ON_GROUP_FIGURES = [
    pytest.param(words, row.text.encode(), row.status, id=" ".join(words)) for row, words, files in tables.asked("groups.txt")
    if "--groups" in words and all((EXAMPLES / name).exists() for name in files)
]
COMMANDS += ON_GROUP_FIGURES
EACH_CALL = [pytest.param(calls.caller_words(each.values[0]), *each.values[1:], id=each.id) for each in COMMANDS]
EACH_CALL += [pytest.param(call.split(" "), text.encode(), 0, id=call) for call, text in CALLS.items()]
EACH_CALL += [pytest.param(call.split(" "), b"", number, id=call) for call, number in SAID_OF_GROUPS.items()]
# The numbers are those of the header.
KINDS = {"district.pb": 1, "sample.outcome.csv": 2, "sample.untidy.prices.csv": 3, "hall.violation.csv": 4,
         "school.refutation.csv": 5, "sheet.ballots.csv": 0}  # fmt: skip
EACH_CALL += [pytest.param(["kind", "-", name], b"%d" % number, 0, id=f"kind {name}") for name, number in KINDS.items()]
each_call = pytest.mark.parametrize("words, text, status", EACH_CALL)
on_examples = pytest.mark.parametrize("words, text, status", COMMANDS)


def told_by(words, folder=EXAMPLES):
    return subprocess.run(words, cwd=folder, stdin=subprocess.DEVNULL, capture_output=True, timeout=120, check=False)


def files_of(words):
    return {word: (EXAMPLES / word).read_bytes() for word in words if "." in word}


def interface_of(header):
    """What a header says that a library of it has: the version of its interface, and functions."""
    text = header.read_text()
    (interface,) = re.findall(r"^#define PBAUDIT_INTERFACE (\d+)$", text, re.MULTILINE)
    return interface, re.findall(r"^uint8_t (pbaudit_\w+)\(", text, re.MULTILINE)


@pytest.mark.parametrize("name", ["libpbaudit.so", "libpbaudit.a"])
def test_symbols_are_the_functions_of_the_header(library, name):
    """Those that are shared have the version of the interface, which is a symbol itself."""
    is_shared = name.endswith("so")
    told = told_by(["nm", "-D" if is_shared else "-g", "--defined-only", name], library).stdout.decode()
    symbols = re.findall(r"^[0-9a-f]+ \w (\S+)$", told, re.MULTILINE)
    interface, functions = interface_of(library / "pbaudit.h")
    version = f"PBAUDIT_{interface}"
    assert sorted(symbols) == sorted([version, *(f"{each}@@{version}" for each in functions)] if is_shared else functions)
    assert len(functions) == 11


def test_shared_library_has_the_name_of_its_interface(library):
    """A program asks for that name, and the package of Python as well."""
    name = f"libpbaudit.so.{interface_of(library / 'pbaudit.h')[0]}"
    told = told_by(["readelf", "-d", name], library).stdout.decode()
    assert re.findall(r"\(SONAME\) .*\[(.*)\]", told) == [name] == [_places.LIBRARY]
    assert os.readlink(library / "libpbaudit.so") == name and not (library / name).is_symlink()


def asked_of_libraries(program):
    """The libraries that a program asks for, and the versions that it asks of that of pbaudit."""
    told = told_by(["readelf", "-dVW", program]).stdout.decode()
    versions = re.search(r"File: libpbaudit\S*  Cnt: .*\n((?:.*Name: .*\n)*)", told)
    return re.findall(r"\(NEEDED\) .*\[(.*)\]", told), re.findall(r"Name: (\S+)", versions[1] if versions else "")


def test_program_asks_for_the_interface(built, library):
    interface = interface_of(library / "pbaudit.h")[0]
    program = built("asks", EXAMPLES / "audit.c", "-L", library, "-lpbaudit")
    needed, versions = asked_of_libraries(program)
    assert f"libpbaudit.so.{interface}" in needed and versions == [f"PBAUDIT_{interface}"]


def test_program_that_was_linked_before_the_library_had_a_number(built, library, room):
    """It asks for libpbaudit.so and for no version, and finds the link."""
    whole = ["-Wl,--whole-archive", library / "libpbaudit.a", "-Wl,--no-whole-archive"]
    subprocess.run(["cc", "-shared", "-o", room / "libpbaudit.so", "-Wl,-soname,libpbaudit.so", *whole], check=True)
    program = built("before", EXAMPLES / "audit.c", "-L", room, "-lpbaudit", f"-Wl,-rpath,{library}")
    assert "libpbaudit.so" in asked_of_libraries(program)[0]
    told = told_by([program, "district.pb", "district.short.prices.csv"])
    assert (told.returncode, told.stdout) == (1, b"failed C3 project 101\n")


@pytest.mark.parametrize("language, standard, compiler", [("c", "c99", "cc"), ("c++", "c++11", "c++")])
def test_header(library, language, standard, compiler):
    needs(compiler)
    words = ["cc", "-fsyntax-only", f"-std={standard}", "-Wall", "-Wextra", "-Wpedantic", "-Werror"]
    told = told_by([*words, "-include", "pbaudit.h", "-x", language, "/dev/null"], library)
    assert (told.returncode, told.stderr) == (0, b"")


def test_it_needs_the_c_library_alone(library):
    needs = re.findall(r"NEEDED.*\[(.*)\]", told_by(["readelf", "-d", "libpbaudit.so"], library).stdout.decode())
    assert needs == ["libc.so.6"]
    assert re.search(r"GNU_STACK.* RW ", told_by(["readelf", "-lW", "libpbaudit.so"], library).stdout.decode())


@on_examples
def test_example(run, c_library, words, text, status):
    files = files_of(words)
    question, answer = calls.question(words, files), calls.answer(words, files, text, status)
    assert c_library.ask(question) == answer
    errors = run(*words).stderr
    if status == 2:
        assert c_library.hint(question, answer.facts) == hint_of(errors)
    if words[0] == "prices" and status == 0:
        assert (c_library.says_of_groups(question) == "little") == (b"note: the voter budgets" in errors)
    if words[0] == "explain":
        page = "groups_page" if "--groups" in words else "page"
        assert c_library.ask(dataclasses.replace(question, command=page)).facts == answer.facts


def hint_of(errors):
    """The line and the text of the hint that the program gives."""
    line, sentences = calls.hint_in(errors)
    return line or 0, "".join(sentence + "\n" for sentence in sentences)


def reported(run, words, **given):
    """What the program prints, and what pbaudit_report has to say."""
    ran = run(*words, **given)
    command, *_ = calls.parts(words)
    is_object = command != "tidy"
    object_line = run(*words, "--json", **given).stdout if is_object else b""
    return ran, calls.report(command, ran.stdout, ran.stderr, object_line)


@on_examples
def test_report(run, caller, words, text, status):
    """All in one call, also where each allocation fails, and on a small stack."""
    command, *rest = calls.caller_words(words)
    call = [f"report-{command}", *rest]
    _, whole = reported(run, words)
    told = told_by([caller, "once", *call])
    assert (told.returncode, told.stdout.split(b"\n"), told.stderr) == (status, whole.split(b"\n"), b"")
    assert whole.endswith(text)
    assert sum(numbers_of([caller, "memory", *call])) > 0
    assert 0 < numbers_of([caller, "stack", *call])[0] < SMALL_STACK


def test_figures_of_the_table_are_asked():
    """Of both measures, explained and as margins."""
    assert len({calls.caller_words(each.values[0])[0] for each in ON_GROUP_FIGURES}) == 4


@pytest.mark.parametrize("language", ["en", "de"])
@pytest.mark.parametrize("measure", ["cost", "count"])
@pytest.mark.parametrize("files", [["school.pb"], ["sample.pb", "sample.outcome.csv"]], ids="-".join)
def test_page_of_groups(run, c_library, files, measure, language):
    """It is the program's, with the names of the files."""
    election, *outcome = files
    words = ["page", election, "--groups", "--satisfaction", measure, *[f"--outcome={name}" for name in outcome]]
    ran = run(*words, "--language", language)
    page = _auditor.PageWords(election, outcome=outcome[0] if outcome else "outcome", language=language)
    data = [(EXAMPLES / name).read_bytes() for name in files]
    question = _auditor.Question("groups_page", data[0], outcome=data[1] if outcome else None, page=page, satisfaction=measure)
    answer = c_library.ask(question)
    assert (answer.status, answer.text) == (ran.returncode, ran.stdout) and b"<html" in answer.text
    words, size = c_library.words(question), len(answer.text)
    out, needed = ctypes.create_string_buffer(b"\xaa" * size, size), ctypes.c_size_t(99)
    facts = FactsOfC()
    assert c_library.groups_page(*words, ctypes.byref(facts), out, size - 1, ctypes.byref(needed)) == answer.status
    assert (out.raw, needed.value, facts.value()) == (b"\xaa" * size, size, answer.facts)


def test_page_of_groups_in_no_language(c_library):
    page = _auditor.PageWords(language="xx")
    words = c_library.words(_auditor.Question("groups_page", (EXAMPLES / "school.pb").read_bytes(), page=page))
    out, needed = ctypes.create_string_buffer(b"\xaa" * 9, 9), ctypes.c_size_t(99)
    facts = FactsOfC.from_buffer_copy(b"\xaa" * FACTS)
    assert c_library.groups_page(*words, ctypes.byref(facts), out, 9, ctypes.byref(needed)) == 3
    assert (out.raw, needed.value, facts.value()) == (b"\xaa" * 9, 0, Facts())


@pytest.mark.parametrize("file, kind", file_kinds.EACH)
def test_kind(c_library, file, kind):
    assert c_library.kind(file) == kind


@pytest.fixture(scope="module", params=["shared", "static"])
def example(request, built, library):
    """examples/audit.c with a library."""
    shared = ["-L", library, "-lpbaudit", f"-Wl,-rpath,{library}"]
    flags = shared if request.param == "shared" else [library / "libpbaudit.a"]
    return built(request.param, EXAMPLES / "audit.c", *flags)


OF_PRICES = [each for each in COMMANDS if each.values[0][0] == "prices" and not {"--no-exhaustive", "--cover"} & {*each.values[0]}]


@pytest.mark.parametrize("words, text, status", OF_PRICES)
def test_example_in_c(example, words, text, status):
    ran = told_by([example, *words[1:]])
    assert (ran.returncode, ran.stdout) == (status, text)


def called(c_library, words, room, size):
    """What a call gives that is told of so much room, of so many bytes that are to stay where nothing is written."""
    out, needed = ctypes.create_string_buffer(b"\xaa" * size, size), ctypes.c_size_t(99)
    facts = FactsOfC.from_buffer_copy(b"\xaa" * FACTS)
    status = c_library.answer(*words, ctypes.byref(facts), out, room, ctypes.byref(needed))
    return status, needed.value, out.raw, facts.value()


def test_by_chance(run, c_library, seed, by_chance, room):
    """A case of which a file is damaged, also with a room that is just enough and with one that isn't."""
    case = cases.without_folders(seed, by_chance, damaged=1.0)
    cases.write_files(room, case.files)
    ran = run(*case.words, cwd=room)
    question = calls.question(case.words, case.files)
    answer = calls.answer(case.words, case.files, ran.stdout, ran.returncode)
    assert c_library.ask(question) == answer
    words, size = c_library.words(question), len(answer.text)
    assert called(c_library, words, size, size + 1) == (answer.status, size, answer.text + b"\xaa", answer.facts)
    assert called(c_library, words, size - 1, size) == (answer.status, size, b"\xaa" * size, answer.facts)
    if ran.returncode == 2:
        assert c_library.hint(question, answer.facts) == hint_of(ran.stderr)


@pytest.mark.parametrize("number", [14, 255])
def test_no_such_question(c_library, number):
    _, *words = c_library.words(_auditor.Question("read", b""))
    assert called(c_library, [number, *words], 9, 9) == (3, 0, b"\xaa" * 9, Facts())


def numbers_of(words):
    """The numbers that a caller prints, where it ends well."""
    told = told_by(words)
    assert told.returncode == 0, told
    return [int(number) for number in told.stdout.split()]


@pytest.fixture(scope="session", params=["alone", "valgrind", "sanitizers"])
def calling(request, built, caller, library):
    """The words that run library.c: by itself, under valgrind, or with sanitizers."""
    if request.param == "valgrind":
        needs("valgrind")
        return ["valgrind", "-q", "--error-exitcode=99", "--leak-check=full", caller]
    flags = "-fsanitize=address,undefined", library / "libpbaudit.a", "-pthread", "-Wl,--wrap=malloc,--wrap=realloc,--wrap=free"
    return [caller if request.param == "alone" else built("sanitized", HERE / "library.c", *flags)]


@each_call
def test_call(calling, words, text, status):
    told = told_by([*calling, "once", *words])
    assert (told.returncode, told.stdout, told.stderr) == (status, text, b"")


@pytest.mark.parametrize("call", ENTRIES)
def test_part_of_a_report_on_a_folder(calling, caller, call):
    """Also where each allocation fails, and on a small stack."""
    status, lines = ENTRIES[call]
    told = told_by([*calling, "once", *call.split(" ")])
    assert (told.returncode, told.stdout.split(b"\n", 1)[1].decode(), told.stderr) == (status, lines, b"")
    assert sum(numbers_of([caller, "memory", *call.split(" ")])) > 0
    assert 0 < numbers_of([caller, "stack", *call.split(" ")])[0] < SMALL_STACK


@on_examples
def test_facts(calling, words, text, status):
    told = told_by([*calling, "facts", *calls.caller_words(words)])
    facts = FactsOfC.from_buffer_copy(told.stdout).value()
    assert Answer(told.returncode, told.stdout[FACTS:], facts) == calls.answer(words, files_of(words), text, status)
    assert told.stderr == b""


@each_call
def test_each_allocation_fails(caller, words, text, status):
    """Where there is text, something is allocated."""
    assert sum(numbers_of([caller, "memory", *words])) > 0 or not text


@each_call
def test_stack(caller, words, text, status):
    """The thread's own part of it included."""
    (used,) = numbers_of([caller, "stack", *words])
    assert 0 < used < SMALL_STACK
