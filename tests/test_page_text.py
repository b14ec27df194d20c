"""Compares the whole text of the program's page, about a certificate or about groups that fall short, with the page of the reference,
in four languages.

The elections are made by chance, and some of their files damaged (page_cases.py). Each text, label, class that tells something and
number of a style is a piece of a page, and all pieces have to be those of the reference (reference/page), in their order; where a
file is refused, the line and the status. Each sentence of each language has to come. Then the reference is turned, each time by one
change (page_turns.py), and a page has to differ from it.
"""
import itertools
import os
import tempfile

import pytest

import page_cases
import saying
import tables
from cases import Case, write_files
from page_turns import TURNS
from reference.answers import GROUPS, REFUSED, RefusedInput, answer
from reference.page import wording
from reference.page.nodes import Reader, pieces_of
from reference.page.whole import Audit

BY_CHANCE = 520
SAID = tables.Table("pages.txt")
FIXED = list(page_cases.fixed_cases())
LANGUAGES = ("en", "pl", "de", "fr")
# Of those that turned references answer, so many are made.
TURNED_CASES = 150
# What is shown of a difference: so many pieces before it.
AROUND = 3


def audit_of(case, room):
    """What the reference finds of a case."""
    # Of groups the election is the last word, and there is no certificate.
    count = 1 if GROUPS in case.words else 2
    paths, options = [os.path.join(room, word) for word in case.words[-count:]], case.words[1:-count]
    outcome = os.path.join(room, behind(options, "--outcome")) if "--outcome" in options else None
    if count == 1:
        return Audit(*paths, outcome=outcome, measure=behind(options, "--satisfaction") or "cost")
    return Audit(*paths, mode=[word for word in options if word.startswith("--")], outcome=outcome)


def behind(options, name):
    """The word behind an option; None where it isn't given."""
    return options[options.index(name) + 1] if name in options else None


def with_language(case, language):
    """The words of a case that ask for a language. English needn't be asked for."""
    asked = [] if language == "en" and len(case.name) % 2 else ["--language", language]
    return [case.words[0], *asked, *case.words[1:]]


class Wanted:
    """What has to come for a case: a page in each language, or the line of a refusal."""

    def __init__(self, case, room):
        try:
            self.audit, self.line = audit_of(case, room), None
            self.status = self.audit.status
        except RefusedInput as refusal:
            self.audit, self.line, self.status = None, refusal.line, REFUSED

    def pieces(self, language):
        return pieces_of(self.audit.page(language)) if self.audit else [("", self.line)]


def pieces_said(said):
    """The pieces of what the program wrote, and what is wrong with its markup."""
    if said.status == REFUSED:
        return [("", said.text)], [] if said.errors else ["nothing is told beside the refusal"]
    read = Reader(said.text.decode("utf-8"))
    told = [f"{line!r} on standard error" for line in said.errors.splitlines()]
    return pieces_of(read.root), read.faults + told


def difference(wanted, found):
    """The first place where two lists of pieces differ, with what stands before it; None where they are alike."""
    texts = [[piece for _, piece in pieces] for pieces in (wanted, found)]
    if texts[0] == texts[1]:
        return None
    shortest = min(map(len, texts))
    at = next((at for at in range(shortest) if texts[0][at] != texts[1][at]), shortest)
    before = "  ".join(map(str, texts[0][max(0, at - AROUND):at]))
    return f"piece {at}, behind {before}\n  wanted: {piece_at(wanted, at)}\n  found:  {piece_at(found, at)}"


def piece_at(pieces, at):
    """A piece with its place, or that there is none."""
    if at == len(pieces):
        return "the end"
    place, piece = pieces[at]
    return f"{piece}, at {place.strip()}"


def languages_of(case):
    return [page_cases.IN_ONE_LANGUAGE[case.name]] if case.name in page_cases.IN_ONE_LANGUAGE else LANGUAGES


def compare(program, case, room):
    write_files(room, case.files)
    wanted = Wanted(case, room)
    for language in languages_of(case):
        said = saying.run(program, Case(with_language(case, language)), room)
        found, faults = pieces_said(said)
        assert (language, said.status, faults) == (language, wanted.status, [])
        assert difference(wanted.pieces(language), found) is None, language


def test_by_chance(program, seed, by_chance, room):
    compare(program, page_cases.page_case(seed, by_chance), room)


@pytest.mark.parametrize("case", FIXED, ids=[case.name for case in FIXED])
def test_fixed(program, case, room):
    compare(program, case, room)


@pytest.mark.parametrize("row, words", tables.cases(SAID))
def test_what_was_worked_out(run, room, row, words):
    row.write(room, SAID.files)
    page = run(*words, cwd=room).stdout.decode()
    assert ([text for text in row.printed if text not in page], [text for text in row.missing if text in page]) == ([], [])


def test_each_sentence_comes(seed, option):
    """The reference says which come, since the program says the same."""
    if option("cases") is not None and option("cases") < BY_CHANCE:
        pytest.skip("fewer cases than usual")
    silent = {(language, meaning) for language in LANGUAGES for meaning in wording.meanings(language)
              if not wording.is_never_needed(meaning)}  # fmt: skip
    for case in itertools.chain(FIXED, (page_cases.page_case(seed, number) for number in range(BY_CHANCE))):
        if silent:
            with tempfile.TemporaryDirectory() as room:
                write_files(room, case.files)
                wanted = Wanted(case, room)
                for language in languages_of(case) if wanted.audit else ():
                    wanted.pieces(language)
                    silent -= wanted.audit.said
    assert silent == set()


def test_reference_answers_by_itself(run):
    words = ["page", "district.pb", "district.short.prices.csv", "--stable", "--language", "de"]
    text, status, _ = answer([str(tables.EXAMPLES / word) if "." in word else word for word in words])
    said = run(*words)
    pieces, _ = pieces_said(saying.Said(said.stdout, said.returncode))
    assert (text.decode().splitlines(), status) == ([piece for _, piece in pieces], said.returncode)


@pytest.mark.parametrize("measure", ["cost", "count"])
def test_reference_answers_on_groups(run, measure):
    words = ["page", "school.pb", GROUPS, "--satisfaction", measure, "--language", "pl"]
    text, status, _ = answer([str(tables.EXAMPLES / word) if "." in word else word for word in words])
    said = run(*words)
    pieces, _ = pieces_said(saying.Said(said.stdout, said.returncode))
    assert (text.decode().splitlines(), status) == ([piece for _, piece in pieces], said.returncode)


@pytest.fixture(scope="module")
def pages(program, seed):
    """Cases with what the program wrote on them, in one language each."""
    rooms, pages = [], []
    for number in range(TURNED_CASES):
        case, language = page_cases.page_case(seed, number), LANGUAGES[number % len(LANGUAGES)]
        rooms.append(tempfile.TemporaryDirectory(prefix="pbaudit "))
        write_files(rooms[-1].name, case.files)
        said = saying.run(program, Case(with_language(case, language)), rooms[-1].name)
        if said.status != REFUSED:
            pages.append((case, rooms[-1].name, language, pieces_said(said)[0]))
    yield pages
    for room in rooms:
        room.cleanup()


def differs(turn, case, room, language, found):
    """Whether a page differs from the reference that is turned so. An error of the reference is no difference."""
    try:
        with turn.made():
            wanted = Wanted(case, room).pieces(language)
    except Exception:
        return False
    return difference(wanted, found) is not None


@pytest.mark.parametrize("turn", TURNS, ids=[turn.what for turn in TURNS])
def test_turned_reference_is_noticed(pages, turn):
    assert any(differs(turn, *page) for page in pages)
