"""Where the border between the proved C library and what calls it stands by hand, and what the header, the sources of the crates and
FORMATS say of it: sets of lines, as border.py has them of the table, from the texts of files by their paths. border_calls.py has what
the callers say."""
import re

import header
from border import checks, ends, hands, lines_in_c, list_of, numbered, parts_of, takes
from common import HERE, TOP

CRATE, PACKAGE = TOP / "crates/pb_c/src", TOP / "python/pbaudit"
FILES = {
    "header": [TOP / "include/pbaudit.h"],
    "crates": [*CRATE.glob("*.rt"), *(TOP / "crates" / path for path in (
        "pb_audit/src/total.rt", "pb_cohesion/src/failed.rt", "pb_price/src/telling.rt", "pb_reply/src/loaded.rt"))],
    "python": [PACKAGE / name for name in ("_auditor.py", "_places.py", "files.py")],
    "web/src": [*(TOP / "web/src").rglob("*.ts")],
    "web/addon.c": [TOP / "web/addon.c"],
    "tests": [HERE / "c_library.py"],
    "FORMATS.md": [TOP / "docs/FORMATS.md"],
}


def texts_of(place):
    """The texts of a place, by their paths."""
    return {file.relative_to(TOP).as_posix(): file.read_text(encoding="utf-8") for file in FILES[place]}


def text_at(texts, end):
    [text] = [text for path, text in texts.items() if path.endswith(f"/{end}")]
    return text


# What the header calls what a question takes.
TAKEN = {"the election": "election", "price certificate": "prices", "violation certificate": "violation", "any certificate": "certificate"}


def in_header(texts):
    [text] = texts.values()
    calls, _ = header.functions(text)
    numbers = header.numbers(text) | {"PBAUDIT_INTERFACE": re.search(r"#define PBAUDIT_INTERFACE (\d+)", text)[1]}
    return (lines_in_c({name: parts_of(parameters) for name, parameters in calls.items()})
            | lines_in_c({name: fields_of(fields) for name, fields in header.structs(text).items()})
            | {f"{name.removeprefix('PBAUDIT_')} = {number}" for name, number in numbers.items()}
            | {*listed_by_comment(text), *ends_by_comments(text), *told_by_comments(text)})  # fmt: skip


def fields_of(text):
    """The fields of a struct, of which several may have one type."""
    return [(kind, name) for kind, names in re.findall(r"(\w+) ([^;]*);", text) for name in list_of(names)]


def listed_by_comment(text):
    """What each question takes and how it may end, by the comment that lists them, in which one may go on in the next line."""
    listed = re.findall(r"^ \*   PBAUDIT_(\w+) +(\S.*?)  +([\d, ]+)\n(?: \* {20,}(\S.*)\n)?", text, re.MULTILINE)
    for name, first, result, more in listed:
        words = list_of(re.sub(r"^and ", "the election, ", f"{first} {more}"))
        yield takes(name.lower(), [TAKEN.get(each, each) for each in words])
        yield ends(name.lower(), result)


# A comment, and the function behind it; numbers that it may answer stand between them.
COMMENTED = re.compile(r"/\*((?:(?!\*/).)*)\*/\n(?:enum \{[^}]*\};\n)?(?:static inline )?\w+ (pbaudit_\w+)\([^)]*\)(;| \{.*?\n\})", re.DOTALL)


def ends_by_comments(text):
    """How each function may end, by the last sentence of its comment where that begins with a number. One that is inline ends as what
    it asks, a question or another function."""
    for comment, name, body in COMMENTED.findall(text):
        asked = re.findall(r"\bPBAUDIT_(\w+)", body) or re.findall(r"\b(pbaudit_\w+)\(", body) or [name]
        told = re.search(r"(?:^|\. )(\d[^.]*)\.$", header.on_one_line(comment.replace("\n * ", " ")))
        result = ", ".join(sorted({*re.findall(r"\d", told[1])})) if told else "-"
        yield from (ends(each.lower(), result) for each in asked)


def told_by_comments(text):
    """The numbers that stand in comments alone."""
    for number, name in re.findall(r"^ \*   (\d)  ([\w ]+)", text.partition("*/")[0], re.MULTILINE):
        yield numbered("statuses", number, name)
    kinds = re.search(r"input is what the file has to be: (.*?)\. ", header.on_one_line(text.replace("\n * ", " ")))
    for number, name in re.findall(r"(\d) ([\w ]+)", kinds[1]):
        yield numbered("kinds", number, name)
    power = re.search(r"A file of more than (2\^(\d+)) bytes is refused", text)
    yield numbered("other numbers", 2 ** int(power[2]), power[1])


# Types of the crates. The allocator is no parameter of C, and `record` is a word of Rattle's own.
OF_RATTLE = {"u8": "uint8_t", "u32": "uint32_t", "u64": "uint64_t", "usize": "size_t", "bool": "bool", "Culprit": "pbaudit_culprit",
             "&mut usize": "size_t *", "&mut u8": "uint8_t *", "&mut u64": "uint64_t *", "&mut Facts": "pbaudit_facts *",
             "&mut Total": "pbaudit_total *", "&Total": "const pbaudit_total *"}  # fmt: skip
RENAMED = {"record_number": "record"}
EXPORT = re.compile(r'^(#\[unsafe\(no_mangle\)\]\n)?pub extern "C" fn (\w+)\((.*?)\) -> (\w+)$', re.DOTALL | re.MULTILINE)
STRUCT = re.compile(r"^#\[repr\(C\)\]\n(?:#\[derive[^\n]*\n)?pub struct (\w+) \{(.*?)\n\}", re.DOTALL | re.MULTILINE)


def in_crates(texts):
    text = "\n".join(texts.values())
    calls = {name if has_name and answer == "u8" else f"{name} -> {answer}": of_rattle(parameters)
             for has_name, name, parameters, answer in EXPORT.findall(text)}  # fmt: skip
    structs = {f"pbaudit_{name.lower()}": of_rattle(re.sub(r"///.*|pub ", "", fields)) for name, fields in STRUCT.findall(text)}
    return lines_in_c(calls) | lines_in_c(structs) | {*asked_in_crates(texts), *numbers_in_crates(texts)}


def of_rattle(text):
    """Parameters, or fields, as C has them: a slice is an address and a length."""
    found = []
    for name, kind in (each.split(": ") for each in list_of(text)):
        name = RENAMED.get(name, name)
        if kind == "&[u8]":
            found += [("const uint8_t *", name), ("size_t", f"{name}_length")]
        elif kind == "&mut [u8]":
            found += [("uint8_t *", name), ("size_t", "room")]
        elif kind != "Global":
            found.append((OF_RATTLE.get(kind, kind), name))
    return found


def asked_in_crates(texts):
    """The questions, of which one takes the whole mode, or of it whether prices are stable."""
    for number, question, given in re.findall(r"(\d+) => Question::(\w+)(?:\((.*)\))?,", text_at(texts, "answers.rt")):
        measure = f"_{snake(given.removeprefix('Measure::'))}" if given.startswith("Measure::") else ""
        yield numbered("questions", number, snake(question) + measure)
        yield takes(snake(question) + measure, {"mode": ["switches"], "mode.stable": ["stable"]}.get(given, []))


def snake(name):
    return re.sub(r"(?<=[a-z])(?=[A-Z])", "_", name).lower()


def numbers_in_crates(texts):
    names = ("facts", "faults", "folders", "groups", "kinds", "report")
    facts, faults, folders, groups, kinds, report = (text_at(texts, f"pb_c/src/{name}.rt") for name in names)
    failing = "\n".join(text_at(texts, path) for path in ("pb_cohesion/src/failed.rt", "pb_price/src/telling.rt"))
    [short] = re.findall(r"fn short_for\(.*?FailedAt::new\((\d+),", failing, re.DOTALL)
    constants = re.findall(r"^(?:pub\(crate\) )?const (\w+): \w+ = ([\d_]+);", "\n".join(texts.values()), re.MULTILINE)
    # The names ahead of their numbers, and behind them.
    ahead = {"conditions and tests": [*re.findall(r"(\w+::\w+).* => FailedAt::new\((\d+),", failing), ("FailedAt::short_for", short)],
             "inputs": re.findall(r"InputName::(\w+) => (\d+),", facts),
             "groups": re.findall(r"(?:OnGroups::)?(\w+)\)? => (\d+),", groups),
             "file kinds": re.findall(r"(?:FileKind::)?(\w+)\)? => (\d+),", kinds),
             "statuses": re.findall(r"Status::(\w+)(?:\(_\))? => (\d+),", report),
             "other numbers": [(name, int(number.replace("_", ""))) for name, number in constants]}  # fmt: skip
    behind = {"files of an entry": re.findall(r"(\d+) => Some\((?:Some\(File::)?(\w+)", folders),
              "kinds": re.findall(r"(\d+) => Some\(FileKind::(\w+)\)", faults),
              "faults": re.findall(r"(\d+) => (?:Some\()?(\w+Fault::\w+)\)?,", faults)}  # fmt: skip
    yield from (numbered(group, number, name) for group, rows in ahead.items() for name, number in rows)
    yield from (numbered(group, number, name) for group, rows in behind.items() for number, name in rows)


def in_addon(texts):
    """What the addon for Node checks of the words of each call, and how it hands them over."""
    [text] = texts.values()
    calls = dict(re.findall(r"^static uint8_t (\w+)\(const struct word \*w\) \{\s+return (.*?);\s+\}", text, re.MULTILINE | re.DOTALL))
    for name, call, kinds in re.findall(r'\{"(\w+)", (\w+),\s+\{([A-Z_, ]+)\}\}', text):
        called, words = re.fullmatch(r"(\w+)\((.*)\)", calls.pop(call), re.DOTALL).groups()
        yield checks(name, list_of(kinds))
        if called != name:
            yield f"{name} calls {called}"
        yield hands(called, re.findall(r"w\[(\d+)\]\.(\w+)", words))
    yield from (f"{call} isn't in the table" for call in calls)


def faults_of_formats(text):
    """The faults in the tables of FORMATS, and two that only the library has."""
    yield from re.findall(r"^\| (\d+) \| (\w+) \|", text, re.MULTILINE)
    yield from re.findall(r"Number (\d+), (\w+), is only the library's", header.on_one_line(text))


def in_formats(texts):
    [text] = texts.values()
    return {numbered("faults", number, name) for number, name in faults_of_formats(text)}
