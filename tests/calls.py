"""The calls of the library that a command of the program makes, and what the library says as the program says it."""
import json
import re

import c_library
from pbaudit import _auditor
from reference.election import read_election

SWITCHES = {"--stable": "s", "--cover": "c", "--no-exhaustive": "e"}
FAILED = re.compile(rb"failed (?P<name>\w+|EJR\+(?= by))(?: by \w+ voters \d+)?(?: voter (?P<voter>\d+))?(?: project (?P<project>.*))?")
# What a command asks with --groups.
ON_GROUPS = {"explain": "explain_groups", "margins": "group_margins", "page": "groups_page"}


def parts(words):
    """The command, its files, what stands behind its options, and its switches."""
    command, *rest = words
    named = {}
    for option in ("--outcome", "--language", "--satisfaction"):
        if option in rest:
            at = rest.index(option)
            named[option[2:]] = rest[at + 1]
            del rest[at:at + 2]
    if "--groups" in rest:
        command = ON_GROUPS[command]
    return command, [word for word in rest if not word.startswith("--")], named, {word for word in rest if word in SWITCHES}


def mode_of(switches):
    return _auditor.Mode("--stable" in switches, "--no-exhaustive" not in switches, "--cover" in switches)


def question(words, files):
    """The question that a command asks of files by their names."""
    command, names, named, switches = parts(words)
    outcome = files[named["outcome"]] if "outcome" in named else None
    certificates = [files[name] for name in names]
    satisfaction = named.get("satisfaction", "cost")
    return _auditor.Question(command, *certificates, outcome=outcome, mode=mode_of(switches), satisfaction=satisfaction)


def caller_words(words):
    """The words by which library.c makes the call that a command makes."""
    command, names, named, switches = parts(words)
    letters = "".join(SWITCHES[word] for word in sorted(switches ^ {"--no-exhaustive"}))
    by = named.pop("satisfaction", "cost")
    name = f"{command}_by_{by}" if command in _auditor._BY_MEASURE else command
    return [name, letters or "-", *names, *named.values()]


def facts_of(text, election=b""):
    """How an answer ends, by its lines and by the rows of the projects in the election."""
    refused = re.fullmatch(rb"refused (\w+) (\d+) \w+ record (\d+)\n", text)
    if refused:
        return c_library.Facts(refused[1].decode(), int(refused[2]), int(refused[3]))
    culprits = {}
    for line in text.split(b"\n")[:2]:
        failed = FAILED.fullmatch(line)
        if failed:
            project = read_election(election).number_of[failed["project"]] if failed["project"] else None
            culprit = c_library.Culprit(failed["name"].decode(), int(failed["voter"]) if failed["voter"] else None, project)
            culprits["test" if culprit.name[0] in "VU" or culprit.name == "EJR+" else "condition"] = culprit
    return c_library.Facts(**culprits)


def answer(words, files, text, status):
    """What the library has to tell of a command that prints this text."""
    return c_library.Answer(status, text, facts_of(text, files[words[1]]))


NOTE = re.compile(r"[^:]+: (note: .*)")
REFUSED = re.compile(rb"refused (?P<input>\w+) (?P<number>\d+) (?P<name>\w+) record (?P<record>\d+)\n")


def beside(command, text, errors):
    """The object of what stands beside an answer, by the lines of the program and by what it tells."""
    told = errors.decode().splitlines()
    notes = [note[1] for note in map(NOTE.fullmatch, told) if note] if command != "read" else text.decode().splitlines()[1:]
    refused = REFUSED.fullmatch(text)
    if not refused:
        return {"hint": None, "notes": notes, "refusal": None}
    refusal = {"answer": "refused", "input": refused["input"].decode(), "kind": "refusal", "name": refused["name"].decode(),
               "number": int(refused["number"]), "record": int(refused["record"]), "version": 1}
    line, sentences = hint_in(errors)
    return {"hint": {"line": line, "sentences": sentences}, "notes": notes, "refusal": refusal}


def report(command, text, errors, object_line):
    """The text of pbaudit_report: what stands beside the answer, the answer as an object, if it is one, and as it is printed."""
    told = json.dumps(beside(command, text, errors), ensure_ascii=False, separators=(",", ":"), sort_keys=True)
    return f"{told}\n".encode() + object_line + text


def hint_in(errors):
    """The line and the sentences of the hint that the program gives on a file, behind notes on the election, as the library has
    them: those behind the first say themselves on which line they are."""
    lines = [line for line in errors.decode().split("\n")[:-1] if not re.match(r"[^:]+: note: ", line)]
    remarks = [re.fullmatch(r"[^:]+(?::(\d+))?: (.*)", line).groups() for line in lines]
    first = remarks[0][0]
    sentences = [f"line {line}: {told}" if line and at else told for at, (line, told) in enumerate(remarks)]
    return int(first) if first else None, tuple(sentences)
