"""Answers as objects, whose keys are those of docs/JSON.md; and the lines that the program prints of them."""
import json
import reprlib
from fractions import Fraction
from typing import Any, Dict, List

from .amounts import MILLION

Found = Dict[str, Any]
VERSION = 1
STATUSES = {"yes": 0, "no": 1, "refused": 2}
ABOVE_THE_LIMIT = "the funded projects cost more than the limit"


def object_of(line: bytes, status: int) -> Found:
    """The object of a line, with which an answer of this status comes. Raises ValueError for another line."""
    found: Found = json.loads(line)
    if not isinstance(found, dict) or found.get("version") != VERSION or STATUSES.get(str(found.get("answer"))) != status:
        raise ValueError(f"{reprlib.repr(line)} with status {status}")
    return found


def entry_in(line: bytes) -> Found:
    """The object of a line on an election of a folder. Raises ValueError for another line."""
    found: Found = json.loads(line)
    if not isinstance(found, dict) or found.get("version") != VERSION or found.get("kind") != "entry":
        raise ValueError(reprlib.repr(line))
    return found


def amount_of(figure: Any) -> Fraction:
    """An amount of an object, in the currency: its millionths, or these over the number of voters."""
    whole, part = (figure["numerator"], figure["denominator"]) if isinstance(figure, dict) else (figure, 1)
    return Fraction(int(whole), part * MILLION)


def text_of_object(found: Found) -> str:
    """The line that the program prints of an object with --json."""
    return json.dumps(found, ensure_ascii=False, separators=(",", ":"), sort_keys=True)


def refusal_of(role: str, number: int, name: str, record: int) -> Found:
    """The object of a refusal: what is refused, the number and the name of its fault, and the record at which that stands."""
    return {"answer": "refused", "input": role, "kind": "refusal", "name": name, "number": number, "record": record,
            "version": VERSION}


def unread_of(role: str) -> Found:
    """The object of the refusal of a file that can't be read."""
    return refusal_of(role, 18, "Read", 0)


def unread_entry(name: str) -> Found:
    """The object of the files of a name of which the election can't be read."""
    return {"kind": "entry", "name": name, "version": VERSION, "election": unread_of("election"), "prices": None, "violation": None}


def line_of(found: Found) -> str:
    """The first line of an answer; "both" has one for each of its objects."""
    kind = found["kind"]
    if kind == "refusal":
        return f"refused {found['input']} {found['number']} {found['name']} record {found['record']}"
    if kind == "election":
        return read_line(found["election"])
    if found["failed"] is not None:
        return _failed(found)
    if kind == "groups":
        return f"satisfied ejr+ by {found['measure']}"
    if kind == "refutation":
        return str(found["proves"])
    return "violation" if kind == "violation" else f"supported {'stable' if found['mode']['stable'] else 'priceable'}"


def read_line(election: Found) -> str:
    """The line of an election that was read."""
    funded = "no outcome" if election["funded"] is None else f"{election['funded']} funded"
    return f"read {election['voters']} voters {election['projects']} projects {funded}"


def _failed(found: Found) -> str:
    failed = found["failed"]
    group = f" by {found['measure']} voters {found['group']['voters']}" if found["kind"] == "groups" else ""
    voter = "" if failed["voter"] is None else f" voter {failed['voter']}"
    project = "" if failed["project"] is None else f" project {failed['project']}"
    return f"failed {failed['name']}{group}{voter}{project}"


def election_notes(election: Found) -> List[str]:
    """What else a reader of an election has to know, as notes without their `note: `."""
    counts = (("num_projects", election["declared_projects"], election["projects"]),
              ("num_votes", election["declared_voters"], election["voters"]))
    notes = [f"{key} says {said}, counted {counted}" for key, said, counted in counts if said not in (None, counted)]
    if election["other_selected"]:
        notes.append(f"selected is neither 0 nor 1 in {election['other_selected']} projects")
    return notes + [f"column {name} of VOTES is not used" for name in election["unused_columns"]]


def limit_notes(found: Found) -> List[str]:
    """What else a reader of an answer on groups has to know."""
    return [ABOVE_THE_LIMIT] if int(found["outcome"]["cost"]) > int(found["election"]["limit"]) else []
