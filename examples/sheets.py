#!/usr/bin/env python3
"""Makes an election file of two sheets, one of projects and one of ballots:

    python3 sheets.py projects.csv ballots.csv 10000 > town.pb

10000 is the budget limit. The sheet of projects has the columns project_id, name and cost, and perhaps selected, where
1 stands for a funded project and 0 for another one. That of ballots has a row for each voter: in a column `projects`
the ids that the voter approves, or a column for each project, with an x where the voter approves it.

Each row that is wrong is told, and then nothing is written.
"""
import collections
import csv
import io
import re
import sys

BLANKS = " \t\n\v\f\r"
SEPARATORS = ";\t,"
LONGEST_SHOWN, MOST_TOLD = 120, 20
YES, NO = ("x", "X", "1"), ("", "0")
WEIGHTS = ("weight", "points", "sign")
MARKS = "Write x or 1 for yes, and nothing or 0 for no."
EMPTY_ROW = "it is empty. Delete it, or if this voter approved nothing, write something in another column."
csv.field_size_limit(2**28)


def shown(text):
    """A text as it is told: what can't be seen by its number, and of a long text both ends."""
    text = "".join(each if each.isprintable() else f"\\u{{{ord(each):x}}}" for each in text)
    return text if len(text) <= LONGEST_SHOWN else f"{text[:60]}…{text[-60:]}"


def amount_fault(text):
    """Why a text is no amount, or None."""
    found = re.fullmatch(r"0*([0-9]{1,13}?)(?:[.,]([0-9]{1,6})0*)?", text)
    if not found or int(found[1] + (found[2] or "").ljust(6, "0")) > 10**18:
        return f"“{shown(text)}” isn't an amount, such as 1200 or 1200.50."
    if not re.fullmatch(r"[1-9][0-9]{0,2}[.,][0-9]{3}", text):
        return None
    whole, sign, decimals = re.split("([.,])", text)
    exact = decimals.rstrip("0")
    either = f"{whole}{sign}{exact if len(exact) < 3 else exact + '0'}" if exact else whole
    return f"“{text}” could be {whole}{decimals} or {either}: write one of these."


def rows_of(text, separator):
    """The rows of a sheet, whose cells are cleaned; None in the place of one in which a quotation mark is wrong."""
    try:
        for row in csv.reader(io.StringIO(text, newline=""), delimiter=separator, strict=True):
            yield [cell.strip(BLANKS) for cell in row]
    except csv.Error:
        yield None


class Sheet:
    """A sheet, cut where its first row has one of the columns that are looked for."""

    def __init__(self, name, faults, is_wanted):
        self.name, self.faults, self.is_whole = name, faults, False
        try:
            with open(name, "rb") as file:
                data = file.read()
        except OSError as error:
            sys.exit(f"{shown(name)}: {error.strerror}")
        try:
            text, self.is_utf8 = data.decode("utf-8"), True
        except UnicodeDecodeError:
            text, self.is_utf8 = data.decode("utf-8", "replace"), False
        text = text.lstrip("\ufeff")
        heads = [(next(rows_of(text, each), None) or [], each) for each in SEPARATORS]
        self.head, separator = next((head for head in heads if any(map(is_wanted, head[0]))), heads[-1])
        self.rows = enumerate(rows_of(text, separator), 1)

    def tell(self, row, why):
        self.faults.append(f"{shown(self.name)}, row {row}: {why}")

    def cell_fault(self, cells):
        """What is wrong with a row, whatever it is about."""
        if cells is None:
            return "a quotation mark isn't closed, or text follows the closing one."
        if not self.is_utf8 and any("\ufffd" in cell for cell in cells):
            return "it isn't in UTF-8. Save the sheet as “CSV UTF-8”."
        return "it has more cells than the first row." if any(cells[len(self.head):]) else None

    def has_columns(self, columns, needed):
        """Whether the first row is right: these columns are there once, and those that are needed are among them."""
        counts = collections.Counter(columns)
        missing = next((column for column in needed if not counts[column]), None)
        twice = next((column for column in columns if counts[column] > 1), None)
        why = self.cell_fault(next(self.rows, (1, []))[1])
        if not why and missing is not None:
            why = f"there is no column “{shown(missing)}”."
        elif not why and twice is not None:
            why = f"the column “{shown(twice)}” is there twice."
        if why:
            self.tell(1, why)
        return not why

    def read(self, take):
        """Has each row taken, with a cell for each column, and tells what is wrong with it."""
        count = 0
        for row, cells in self.rows:
            why = self.cell_fault(cells)
            if cells is None:
                self.tell(row, why)
                return
            other = take(row, cells + [""] * (len(self.head) - len(cells)))
            if why or other:
                self.tell(row, why or other)
            count += any(cells)
        if not count:
            self.tell(1, "there is nothing below it.")
        self.is_whole = True


class Projects:
    """What the sheet of projects says: the row of each id, and of each project the fields of the election file."""

    def __init__(self, name, faults):
        sheet = Sheet(name, faults, lambda cell: cell.lower() == "project_id")
        self.columns = [cell.lower() for cell in sheet.head]
        self.places, self.lines = {}, []
        self.head = ["project_id", "cost", "name", *(["selected"] if "selected" in self.columns else [])]
        if sheet.has_columns([each for each in self.columns if each in self.head], ["project_id", "name", "cost"]):
            sheet.read(self.take)
        self.is_whole = sheet.is_whole

    def take(self, row, cells):
        if not any(cells):
            return None
        self.lines.append([cells[self.columns.index(each)] for each in self.head])
        project, cost, _, *selected = self.lines[-1]
        first = self.places.setdefault(project, row) if project else row
        if not project:
            return "the id is missing."
        if re.search("[\x00-\x1f\x7f,]", project):
            return f"the id “{shown(project)}” has a comma or a control character."
        if first != row:
            return f"row {first} has the id “{shown(project)}” already."
        why = amount_fault(cost)
        if not why and selected and selected[0] not in ("0", "1"):
            why = f"“{shown(selected[0])}” in the column “selected” is neither 1 nor 0."
        return why


class Ballots:
    """What the sheet of ballots says: of each voter the ids, with commas between them."""

    def __init__(self, name, faults, ids):
        sheet = Sheet(name, faults, lambda cell: cell.lower() == "projects" or cell in ids)
        self.head, self.ids, self.votes = sheet.head, ids, []
        lists = [cell.lower() for cell in sheet.head if cell.lower() == "projects"]
        marked = [cell for cell in sheet.head if cell in ids]
        weight = next((cell for cell in sheet.head if cell.lower() in WEIGHTS and cell not in ids), None)
        self.between = "," if any(" " in each for each in ids) else f",{BLANKS}"
        if not sheet.has_columns(lists or marked, ids if marked and not lists else ["projects"]):
            return
        if weight is not None:
            sheet.tell(1, f"each ballot counts once, so the column “{shown(weight)}” can't be used. "
                          "Remove it if that is right.")
        elif lists:
            self.place = [cell.lower() for cell in sheet.head].index("projects")
            sheet.read(self.take_list)
        else:
            sheet.read(self.take_marks)

    def take_list(self, _, cells):
        if not any(cells):
            return EMPTY_ROW
        pieces = [piece.strip(BLANKS) for piece in re.split(f"[{self.between}]", cells[self.place])]
        self.votes.append(",".join(filter(None, pieces)))
        unknown = next((piece for piece in pieces if piece and piece not in self.ids), None)
        return unknown and f"“{shown(unknown)}” isn't the id of a project."

    def take_marks(self, _, cells):
        if not any(cells):
            return EMPTY_ROW
        for column, mark in zip(self.head, cells):
            if column in self.ids and mark not in YES + NO:
                return f"“{shown(mark)}” in the column “{shown(column)}” is no mark. {MARKS}"
            if column not in self.ids and mark in ("x", "X"):
                return f"there is an x in the column “{shown(column)}”, and no project has that id."
        marked = (column for column, mark in zip(self.head, cells) if column in self.ids and mark in YES)
        self.votes.append(",".join(marked))
        return None


def field(text):
    """A text as a field of an election file."""
    return '"' + text.replace('"', '""') + '"' if re.search('[;"\r\n]', text) else text


def main(projects_name, ballots_name, limit):
    why, faults = amount_fault(limit.strip(BLANKS)), []
    if why:
        faults.append(f"Budget limit: {why}")
    projects = Projects(projects_name, faults)
    ballots = Ballots(ballots_name, faults, projects.places) if projects.is_whole else None
    if faults:
        rest = len(faults) - MOST_TOLD
        sys.exit("\n".join(faults[:MOST_TOLD] + ([f"and {rest} more"] if rest > 0 else [])))
    lines = [["META"], ["key", "value"], ["budget", limit.strip(BLANKS)], ["vote_type", "approval"],
             ["num_projects", str(len(projects.lines))], ["num_votes", str(len(ballots.votes))],
             ["PROJECTS"], projects.head, *projects.lines,
             ["VOTES"], ["voter_id", "vote"], *([str(at), vote] for at, vote in enumerate(ballots.votes, 1))]
    sys.stdout.reconfigure(encoding="utf-8", newline="\n")
    sys.stdout.writelines(";".join(map(field, line)) + "\n" for line in lines)


if len(sys.argv) != 4:
    sys.exit(__doc__)
main(*sys.argv[1:])
