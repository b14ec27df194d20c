"""Election files."""
from dataclasses import dataclass, field

from . import numbers
from .records import clean, lower, records, refuse_lowest

SECTIONS = [b"meta", b"projects", b"votes"]
KEYS = [b"budget", b"vote_type", b"num_projects", b"num_votes"]
NEEDED_KEYS = [b"budget", b"vote_type"]
COLUMNS = {b"projects": [b"project_id", b"cost", b"selected"], b"votes": [b"vote"]}
# Columns of VOTES that weigh votes in elections of other kinds, in the order of their notes.
WEIGHING = [b"weight", b"points", b"sign"]
NEEDED_COLUMNS = {b"projects": [b"project_id", b"cost"], b"votes": [b"vote"]}
MOST_PROJECTS = 20_000
MOST_VOTERS = 1_000_000
MOST_APPROVALS = 20_000_000
MOST_DECLARED = 10**18

NOT_UTF8, NO_META, NO_HEADER, MISSING_SECTION, UNEXPECTED_SECTION = 1, 2, 3, 4, 5
MISSING_KEY, REPEATED_KEY, NOT_APPROVAL, BAD_MONEY = 6, 7, 8, 9
MISSING_COLUMN, REPEATED_COLUMN, BAD_ID, REPEATED_PROJECT, UNKNOWN_PROJECT, TOO_MANY = 10, 11, 12, 13, 14, 15


@dataclass
class Election:
    """Voters and projects are numbered from 1; amounts are in millionths."""

    limit: int = 0
    ids: list = field(default_factory=list)
    costs: dict = field(default_factory=dict)
    selected: dict = field(default_factory=dict)
    has_selected: bool = False
    ballots: list = field(default_factory=list)
    declared: dict = field(default_factory=dict)
    number_of: dict = field(default_factory=dict)
    approvals: int = 0
    weighing: list = field(default_factory=list)

    @property
    def projects(self):
        return range(1, len(self.ids) + 1)

    @property
    def voters(self):
        return range(1, len(self.ballots) + 1)

    def ballot(self, voter):
        return self.ballots[voter - 1]

    def id(self, project):
        return self.ids[project - 1]

    def supporters(self, project):
        return [voter for voter in self.voters if project in self.ballot(voter)]

    def funded(self):
        """The funded projects by the column 'selected'."""
        return {project for project in self.projects if self.selected[project] == b"1"}

    def other_selected(self):
        """How many projects have another field than 0 and 1 in the column 'selected'."""
        return sum(1 for project in self.projects if self.has_selected and self.selected[project] not in (b"0", b"1"))


def marker(fields):
    """The section that a record marks, or None."""
    name = lower(fields[0])
    return name if name in SECTIONS and not any(fields[1:]) else None


def read_election(data):
    """The election that the bytes state; else they are refused."""
    election = Election()
    section, header, keys = None, None, {}
    for place, fields in records(data, b";", NOT_UTF8):
        if fields is None:
            refuse_lowest(faults_at_end(section, header), place)
            break
        marked = marker(fields)
        if section is None:
            refuse_lowest([NO_META] if marked != b"meta" else [], place)
            section = marked
        elif header is None:
            header = [lower(name) for name in fields]
            refuse_lowest(faults_of_header(section, marked, header), place)
            if section == b"projects":
                election.has_selected = b"selected" in header
            elif section == b"votes":
                election.weighing = [name for name in WEIGHING if name in header]
        elif marked:
            refuse_lowest(faults_of_marker(section, marked, keys), place)
            section, header = marked, None
        elif section == b"meta":
            take_key(election, keys, fields, place)
        elif section == b"projects":
            take_project(election, header, fields, place)
        else:
            take_voter(election, header, fields, place)
    return election


def faults_at_end(section, header):
    if section is None:
        return [NO_META]
    if header is None:
        return [NO_HEADER]
    return [MISSING_SECTION] if section != b"votes" else []


def faults_of_header(section, marked, header):
    faults = []
    if marked:
        faults.append(NO_HEADER)
    if any(name not in header for name in NEEDED_COLUMNS.get(section, [])):
        faults.append(MISSING_COLUMN)
    if any(header.count(name) > 1 for name in COLUMNS.get(section, [])):
        faults.append(REPEATED_COLUMN)
    return faults


def faults_of_marker(section, marked, keys):
    if [section, marked] not in (SECTIONS[0:2], SECTIONS[1:3]):
        return [UNEXPECTED_SECTION]
    if marked == b"projects" and any(key not in keys for key in NEEDED_KEYS):
        return [MISSING_KEY]
    return []


def take_key(election, keys, fields, place):
    """Takes a row of META."""
    key, value = lower(fields[0]), fields[1] if len(fields) > 1 else b""
    if key not in KEYS:
        return
    faults = []
    if key in keys:
        faults.append(REPEATED_KEY)
    if key == b"vote_type" and lower(value) != b"approval":
        faults.append(NOT_APPROVAL)
    if key == b"budget" and numbers.amount(value) is None:
        faults.append(BAD_MONEY)
    refuse_lowest(faults, place)
    keys[key] = value
    if key == b"budget":
        election.limit = numbers.amount(value)
    elif key in (b"num_projects", b"num_votes"):
        election.declared[key] = numbers.whole(value, MOST_DECLARED)


def cell(header, name, fields):
    """The field of a row in a column; empty where the row is too short."""
    column = header.index(name)
    return fields[column] if column < len(fields) else b""


def take_project(election, header, fields, place):
    """Takes a row of PROJECTS."""
    project_id = cell(header, b"project_id", fields)
    cost = numbers.amount(cell(header, b"cost", fields))
    faults = []
    if cost is None:
        faults.append(BAD_MONEY)
    if project_id == b"" or any(byte < 32 or byte == 127 for byte in project_id):
        faults.append(BAD_ID)
    if project_id in election.number_of:
        faults.append(REPEATED_PROJECT)
    if len(election.ids) + 1 > MOST_PROJECTS:
        faults.append(TOO_MANY)
    refuse_lowest(faults, place)
    election.ids.append(project_id)
    project = len(election.ids)
    election.number_of[project_id] = project
    election.costs[project] = cost
    if election.has_selected:
        election.selected[project] = cell(header, b"selected", fields)


def take_voter(election, header, fields, place):
    """Takes a row of VOTES."""
    pieces = [clean(piece) for piece in cell(header, b"vote", fields).split(b",")]
    named = [piece for piece in pieces if piece]
    ballot = {election.number_of.get(piece) for piece in named}
    faults = []
    if None in ballot:
        faults.append(UNKNOWN_PROJECT)
    if len(election.ballots) + 1 > MOST_VOTERS or election.approvals + len(ballot) > MOST_APPROVALS:
        faults.append(TOO_MANY)
    refuse_lowest(faults, place)
    election.ballots.append(ballot)
    election.approvals += len(ballot)
