"""The module of the page, run by Node: its answers to the calls that commands of the program make."""
import base64
import json
import os
import re
import subprocess

import calls
from common import HERE


class Node:
    """The module of the page in a process of Node."""

    def __init__(self, page):
        words = ["node", HERE / "module.js", page]
        self.process = subprocess.Popen(words, stdin=subprocess.PIPE, stdout=subprocess.PIPE, text=True)

    def ask(self, call):
        print(json.dumps(call), file=self.process.stdin, flush=True)
        told = json.loads(self.process.stdout.readline() or '{"error": "node ended"}')
        if "text" in told:
            told["text"] = base64.b64decode(told["text"])
        return told

    def close(self):
        self.process.stdin.close()
        self.process.wait()


# What the calls with --groups are called in JavaScript.
ON_GROUPS = {"explain_groups": "explainGroups", "group_margins": "groupMargins", "groups_page": "groupsPage"}


def call_of(words, room):
    """The call of the module that a command makes, with the paths of its files."""
    command, files, named, switches = calls.parts(words)
    names = dict(zip(("election", "certificate", "violation"), files))
    names |= {"outcome": named["outcome"]} if "outcome" in named else {}
    return {"command": ON_GROUPS.get(command, command), "files": {role: os.path.join(room, name) for role, name in names.items()}, "names": names,
            "mode": vars(calls.mode_of(switches)), "measure": named.get("satisfaction", "cost"),
            "language": named.get("language", "en")}  # fmt: skip


PROVED = {"unpriceable": (False, False), "unpriceable cover": (False, True), "unpriceable stable": (True, False),
          "unpriceable stable cover": (True, True)}  # fmt: skip


def said(line):
    """What a printed line says, by its form in docs/FORMATS.md."""
    word, *rest = line.split(" ")
    if word == "read":
        counts = {"voters": int(rest[0]), "projects": int(rest[2])}
        return {"says": "read", **counts, **({} if rest[4] == "no" else {"funded": int(rest[4])})}
    if word == "refused":
        return {"says": "refused", "input": rest[0], "number": int(rest[1]), "name": rest[2], "record": int(rest[4])}
    if word == "unpriceable":
        return {"says": "unpriceable", **dict(zip(("stable", "cover"), PROVED[line]))}
    if word == "supported":
        return {"says": "supported", "form": rest[0]}
    if word == "satisfied":
        return {"says": "satisfied", "measure": rest[2]}
    return {"says": "violation"} if word == "violation" else said_of_no(line)


def said_of_no(line):
    """That of a line of a no."""
    failed = calls.FAILED.fullmatch(line.encode())
    short = re.match(r"failed EJR\+ by (\w+) voters (\d+)", line)
    told = {"says": "failed", "condition": failed["name"].decode()}
    told |= {"measure": short[1], "voters": int(short[2])} if short else {}
    told |= {"voter": int(failed["voter"])} if failed["voter"] else {}
    return told | ({"project": failed["project"].decode()} if failed["project"] else {})


def told_notes(stderr):
    """The notes on standard error, without the paths before them."""
    return re.findall(r"^[^:]+: (note: .*)$", stderr.decode(), re.MULTILINE)


def told_hints(stderr):
    """What standard error tells of a refusal, as the module does: the line of the first sentence, and the sentences."""
    line, sentences = calls.hint_in(stderr)
    return line, [*sentences]
