"""What docs/STATEMENT.md and the section "From Rattle" of docs/LIBRARY.md quote is in its file, word for word, and the sentence of
STATEMENT in the README.

A quote is a block of lines indented by four blanks. Its file is the last path (`crates/..`) in the last paragraph before it that is
no quote. Of a file of definitions (.antt) a block has whole definitions, one after another, without their lines of comments and
without the head `abbrev pub NAME : KIND`; of a source (.rt) it has whole lines. Where lines are broken doesn't matter. Each name in
the quotes of STATEMENT is defined in one of them, or stands in its words.
"""
import re

import pytest

from common import TOP

INDENT = "    "


def paragraphs(lines):
    """The runs of lines that aren't blank, each with the number of its first line."""
    found = []
    gap = True
    for number, line in enumerate(lines, 1):
        if line.strip():
            if gap:
                found.append((number, []))
            found[-1][1].append(line)
        gap = not line.strip()
    return found


def is_quote(paragraph):
    return paragraph[0].startswith(INDENT)


def named_file(paragraph):
    """The last path that a paragraph names, or None."""
    paths = re.findall(r"`(crates/[^`\s]+)`", " ".join(paragraph))
    return paths[-1] if paths else None


def without_head(words):
    """The words of a definition from where its name comes again, behind `abbrev pub NAME : KIND`."""
    if words[:2] == ["abbrev", "pub"] and words[2] in words[3:]:
        return words[words.index(words[2], 3):]
    return words


def definitions(text):
    """The words of each definition of a file: a paragraph without its lines of comments, and without its head."""
    found = []
    for _, paragraph in paragraphs(text.splitlines()):
        lines = [line for line in paragraph if not line.lstrip().startswith("--")]
        if lines:
            found.append(without_head(" ".join(lines).split()))
    return found


def quoted_definitions(words, known):
    """How many definitions the words are, one after another. Raises ValueError at the first words that are none."""
    count = 0
    while words:
        fitting = [d for d in known if words[: len(d)] == d]
        if not fitting:
            raise ValueError("no definition of the file is: " + " ".join(words[:12]) + " ..")
        words = words[len(max(fitting, key=len)) :]
        count += 1
    return count


def quoted_lines(words, text):
    """1 where the words are whole lines of the text. Raises ValueError otherwise."""
    lines = [line.split() for line in text.splitlines()]
    for start in range(len(lines)):
        rest = words
        for line in lines[start:]:
            if rest[: len(line)] != line:
                break
            rest = rest[len(line) :]
            if not rest:
                return 1
    raise ValueError("no lines of the file are: " + " ".join(words[:12]) + " ..")


def compare(quote, before):
    """How many definitions a quote has, by the paragraph before it. Raises ValueError where it isn't as in its file."""
    path = named_file(before) if before else None
    if path is None or not path.endswith((".antt", ".rt")):
        raise ValueError("the paragraph before the quote names no file of crates/")
    file = (TOP / path).resolve()
    if not file.is_file() or TOP / "crates" not in file.parents:
        raise ValueError(f"there is no file {path}")
    text = file.read_text(encoding="utf-8")
    words = " ".join(quote).split()
    if path.endswith(".antt"):
        return quoted_definitions(words, definitions(text))
    return quoted_lines(words, text)


def sentence_of(found):
    """The words of the one paragraph that is quoted with '>', without these signs."""
    quoted = [" ".join(line.lstrip("> ") for line in p).split() for _, p in found if p[0].startswith(">")]
    return quoted[0] if len(quoted) == 1 else None


def read(document):
    return paragraphs(document.read_text(encoding="utf-8").splitlines())


def section(document, title):
    """The paragraphs of a section of a document."""
    found = read(document)
    begin = next((at for at, (_, paragraph) in enumerate(found) if paragraph == [f"## {title}"]), len(found))
    ends = (at for at, (_, paragraph) in enumerate(found) if at > begin and paragraph[0].startswith("## "))
    return found[begin:next(ends, len(found))]


def quotes_of(found):
    """Each quote, with its line and the paragraph before it."""
    before = None
    for number, paragraph in found:
        if is_quote(paragraph):
            yield number, paragraph, before
        else:
            before = paragraph


STATEMENT, LIBRARY = TOP / "docs/STATEMENT.md", TOP / "docs/LIBRARY.md"
QUOTES = [*quotes_of(read(STATEMENT)), *quotes_of(section(LIBRARY, "From Rattle"))]


@pytest.mark.parametrize("line, quote, before", QUOTES, ids=[" ".join(quote).split()[0] + f"-{line}" for line, quote, _ in QUOTES])
def test_quote(line, quote, before):
    assert compare(quote, before) > 0


def test_quotes_stand_apart():
    """A line that is indented within a paragraph would be shown as its words, and compared with nothing."""
    assert [number for number, paragraph in read(STATEMENT) if not is_quote(paragraph) and any(map(is_quote, zip(paragraph)))] == []


def test_both_quote():
    assert [*quotes_of(read(STATEMENT))] and [*quotes_of(section(LIBRARY, "From Rattle"))]


def test_sentence_is_that_of_the_readme():
    assert sentence_of(read(STATEMENT)) == sentence_of(read(TOP / "README.md")) is not None


def names_of(code):
    """The names that quotes define, those that are bound in them, and all of them. Names of one letter aren't looked at, nor
    those of the parts of records, which define nothing else that bears the same name."""
    code = re.sub(r"^ {6}pub \w+ :|(?<=[{;]) \w+ =", "", code, flags=re.MULTILINE)
    defined = set(re.findall(r"^ {4}(\w+) [^:\n]*=", code, re.MULTILINE)) | set(re.findall(r"\brecord (\w+)", code))
    binders = r"\((\w+(?: \w+)*) :|λ (\w+(?: \w+)*)\.|^ {4}\w+ ([^:\n]*?) = ?|(\w+) ∷ \w+\)|∷ (\w+)\)"
    bound = re.findall(binders, code, re.MULTILINE)
    named = set(re.findall(r"(?<![\w.])[A-Za-z_]\w+", code))
    return defined, set(re.findall(r"\b[a-z]\w*", " ".join(" ".join(each) for each in bound))), named


def test_each_name_is_told():
    """Words of the notation, and the names that functions of the sources give to what they are handed, are told nowhere."""
    text = STATEMENT.read_text(encoding="utf-8")
    lines = text.splitlines()
    code = "\n".join(line.partition("  --")[0] for line in lines if line.startswith(INDENT))
    words = "\n".join(line for line in lines if not line.startswith(INDENT))
    told = set(re.findall(r"\w+", " ".join(re.findall(r"`([^`]+)`", words))))
    defined, bound, named = names_of(code)
    notation = {"pub", "record", "where", "Type", "ensures", "if", "then", "else"}
    handed = {"result", "question", "election", "outcome", "certificate", "violation"}
    assert len(defined) > 80 and {"Feasible", "PricesPromise"} <= defined
    assert named - defined - bound - told - notation - handed - {"all", "covered"} == set()
