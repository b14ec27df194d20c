"""Finds definitions and lemmas of proofs/ and specs/ that nothing uses, imports that their file doesn't use, and lemmas
that state the same.

A name means what its file declares, or else what its file imports under it. So one of two lemmas that share a name is
found. Used is what a source names in its clauses and tactics; what the prover finds by its name, the answers to goals
and the invariants; what is there to be computed, in Examples.antt; and what these use in turn. The imports of a source
that are looked at are those of `ghost use`.

Two lemmas state the same where they differ in the names and types of their variables alone, so that one is the other or
a case of it, or both are cases of a third.

What it can't see: a variable counts as a use of what its file declares or imports under the same name. Fields,
constructors and what a `where` declares may be unused, and so may one of two imports of the same name in a source. An
import that is needed, though nothing names it, would be found. What a `where` declares may state what a lemma does, and
so may a lemma that has its premises in another order.
"""
import re

import pytest

from common import TOP

FILES = ("crates/*/proofs/**/*.antt", "crates/*/specs/**/*.antt", "crates/*/src/**/*.rt")
NAME = r"(?:\[\]|[^\s(){}\[\],;.]+)"
PATH = re.compile(rf"\.?{NAME}(?:\.{NAME})*")
# a declaration at the margin: its name, and the words before it
DECLARED = re.compile(r"(?:(?:pub|abbrev|unfoldable|opaque|data|record|ruleset) )*([^\s(){}:=,;]+) (?=[:=({])")
IMPORT = re.compile(r"(?m)^ *(pub |ghost )?use ([^\s{};]+?)(?:\.\{([^}]*)\})?(?: as ([^\s;]+))?;?$")
TACTIC = re.compile(r"#!?\[tactic[^\]]*\]")
CLAUSE = re.compile(r"\b(?:requires|ensures|ghost)\b[^{};]*\{")
# a section, whose declarations stand two further in
SECTION = re.compile(r"(?m)^(module _[^\n]*(?:\n    [^\n]*)*? where\n)((?:(?:  [^\n]*)?\n)+)")
# where a name is bound or is a label, and so isn't used
BOUND = re.compile(
    rf"[({{]\s*(?:{NAME}\s+)+:\s|[{{;]\s*{NAME}\s+=\s|\b(?:let|pub) {NAME} [:=]\s|λ (?:{NAME} )*{NAME}\. "
)
# variables, with their types
BINDER = re.compile(r"[({]([^(){}:]+) : [^(){}]*[)}]")
LAMBDA = re.compile(r"λ ([^.()]+)\. ")
TOKEN = re.compile(r"[^\s(){}\[\],;]+|[(){}\[\],;]")
TEXTS_AND_COMMENTS = {
    ".antt": re.compile(r'(?m)"(?:\\.|[^"\\\n])*"|--.*$'),
    ".rt": re.compile(r"""(?m)"(?:\\(?s:.)|[^"\\])*"|'(?:\\.|[^'\\])'|//.*$"""),
}


def words_of(text):
    """The names and paths of a text, and the parts of its operators."""
    words = {word for word in PATH.findall(BOUND.sub(" ( ", text)) if word[0] != "."}
    return words.union(*(word.split("◌") for word in words)) - {""}


def clauses_of(text):
    """What a source says to the prover alone: its clauses, ghost items and tactics."""
    parts = TACTIC.findall(text)
    for found in CLAUSE.finditer(text):
        depth, end = 1, found.end()
        while depth and end < len(text):
            depth += {"{": 1, "}": -1}.get(text[end], 0)
            end += 1
        parts.append(text[found.end() - 1 : end])
    return "\n".join(parts)


class File:
    """What a file declares, each with its words, and what it imports."""

    def __init__(self, path):
        self.path = path.relative_to(TOP)
        # a text becomes one word, which is no name
        text = TEXTS_AND_COMMENTS[path.suffix].sub(
            lambda m: re.sub(r"[\s(){}\[\],;.]", "_", m[0]) if m[0][0] == '"' else "", path.read_text()
        )
        crate = f"Rattle.{self.path.parts[1]}"
        self.module = ".".join([crate, *self.path.with_suffix("").parts[2:]]).removesuffix(".Lib")
        # what an imported name means; that of a module ends with a dot
        self.imports = {}
        # the text of each declaration, and under no name the rest
        self.blocks = {"": ""}
        # the type of each constructor
        self.types = {}
        for mark, module, items, other in IMPORT.findall(text):
            if mark == "ghost " or path.suffix == ".antt":
                self.read_import(module, items, other)
                self.blocks[""] += items if mark == "pub " else ""
        text = IMPORT.sub("", text)
        if path.suffix == ".rt":
            said = clauses_of(text).replace("::", ".").replace("crate.", crate + ".")
            # a lemma of another crate
            self.blocks[""] = re.sub(r"(?<![\w.])(?=pb_\w+\.proofs\.)", "Rattle.", said)
        else:
            self.read_declarations(SECTION.sub(lambda m: m[1] + re.sub(r"(?m)^  ", "", m[2]), text))
        self.words = {name: words_of(block) for name, block in self.blocks.items()}

    def read_import(self, module, items, other):
        for item in filter(None, (x.strip() for x in items.split(","))):
            name, _, renamed = item.partition(" as ")
            self.imports[renamed or name] = f"{module}.{name}"
        if not items:
            self.imports[(other or module.split(".")[-1]) + "."] = module

    def read_declarations(self, text):
        name, is_data = "", False
        for line in text.split("\n"):
            declared, first = DECLARED.match(line), line.split(" ")[0]
            if first and first != "unfolding":
                name = declared[1] if declared else first if first in self.blocks else ""
                is_data = re.match("(pub )?data ", line)
            elif is_data and re.match(rf"  {NAME} :", line):
                self.types[line.split()[0]] = name
            self.blocks[name] = self.blocks.get(name, "") + line + "\n"

    def is_used_unnamed(self, name):
        is_proof = self.path.parts[2] == "proofs" and self.path.name in ("Answers.antt", "Invariants.antt")
        is_answer = is_proof and re.search(r":\s+goal\.", self.blocks[name])
        return not name or is_answer or self.path.name == "Examples.antt"


def meant_by(path, files):
    """The file and the name in it that a path means, where it's one of ours."""
    parts = path.split(".")
    for n in range(len(parts) - 1, 0, -1):
        file = files.get(".".join(parts[:n]))
        if file:
            name = file.types.get(parts[n], parts[n])
            if name in file.blocks:
                return {(file, name)}
            return meant_by(file.imports[name], files) if name in file.imports else set()
    return set()


def uses_of(file, name, files):
    """What a declaration uses, and the imports by which it does."""
    words = file.words[name]
    # operators, of which the parts stand there
    known = [*file.blocks, *file.imports]
    words = words.union(x for x in known if "◌" in x and words.issuperset(filter(None, x.split("◌"))))
    uses, imports = set(), set()
    for word in words:
        head, _, rest = word.partition(".")
        own = file.types.get(head, head)
        if rest and head + "." in file.imports:
            imports.add(head + ".")
            uses |= meant_by(f"{file.imports[head + '.']}.{rest}", files)
        elif head == "Rattle":
            uses |= meant_by(word, files)
        elif own in file.blocks:
            uses.add((file, own))
        elif head in file.imports:
            imports.add(head)
    return uses.union(*(meant_by(file.imports[x], files) for x in imports)), imports


def statement_of(file, name):
    """What a lemma states, without the types of its variables, which are called by numbers; None for a definition."""
    signature = re.match(r"(?:pub )?(\S+) ([:({].*\n(?: .*\n)*)", file.blocks[name])
    text = signature[2] if signature and signature[1] == name else ""
    groups = [*BINDER.findall(text), *LAMBDA.findall(text)]
    if not BINDER.search(text) or re.search(r"Type\s+0\s*$", text):
        return None
    # variables may stand before the colon too
    text = BINDER.sub(" ", text.replace(":", " : ", 1))
    variables = {word for group in groups for word in group.split()}
    numbers, said = {}, []
    for token in TOKEN.findall(text):
        head, dot, rest = token.partition(".")
        if head in variables:
            head = numbers.setdefault(head, str(len(numbers)))
        elif head in file.blocks:
            head = f"{file.module}.{head}"
        else:
            head = file.imports.get(head, head)
        said.append(head + dot + rest)
    return re.sub(r"^[: →]*|(?<=→)[ →]+", "", " ".join(said))


def repeated(files):
    """The lemmas that state what one before them does."""
    stated, found = {}, []
    for file in files.values():
        for name in filter(None, file.blocks):
            statement = statement_of(file, name)
            if statement:
                first = stated.setdefault(statement, (file, name))
                if first != (file, name):
                    found.append(f"{file.path}: {name} states what {first[1]} of {first[0].path} does")
    return found


@pytest.fixture(scope="module")
def files():
    return {file.module: file for pattern in FILES for file in map(File, sorted(TOP.glob(pattern)))}


@pytest.fixture(scope="module")
def uses(files):
    return {(file, name): uses_of(file, name, files) for file in files.values() for name in file.blocks}


def test_each_declaration_is_used(uses):
    waiting = [(file, name) for file, name in uses if file.is_used_unnamed(name)]
    used = set(waiting)
    while waiting:
        more = uses[waiting.pop()][0] - used
        used |= more
        waiting += more
    assert uses and [f"{file.path}: {name}" for file, name in uses if (file, name) not in used] == []


def test_each_import_is_used(files, uses):
    idle = []
    for file in files.values():
        unused = set(file.imports).difference(*(uses[file, name][1] for name in file.blocks))
        idle += [f"{file.path}: {name.removesuffix('.')}" for name in sorted(unused)]
    assert idle == []


def test_no_lemma_states_what_another_does(files):
    assert repeated(files) == []
