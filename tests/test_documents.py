"""The pages lead somewhere: each link of a page to a file or a heading, and each path in backticks; they keep to their lengths, which
docs/TRUST.md tells; docs/DESIGN.md has each crate, walks through each command by calls that there are, and lists what a change touches;
the README has the kit; what docs/ANSWERS.md, docs/COUNCILS.md and docs/STORY.md quote and docs/CONDITIONS.md names is said by the page
about a certificate, and the buttons that pages name are on the page in a browser; the sums of docs/CAMPAIGNS.md are right, and so is its
refutation; each word of docs/GLOSSARY.md has its definition; the build that docs/LIBRARY.md shows fails where it has to; each file that
docs/files.py prints begins with a comment on what it is for; each command that the pages show writes what stands under it; and each
changed line that docs/FORMATS.md shows has its refusal."""
import csv
import math
import re
import shlex
import shutil
import subprocess
from fractions import Fraction

import pytest

import tables
from common import TOP

LENGTHS = {"README.md": 120, "docs/STATEMENT.md": 500}
WORDS = ["crates/pb_words/src/wording/en.rt", "crates/pb_words/src/headlines.rt"]
SAID = {"docs/ANSWERS.md": WORDS, "docs/COUNCILS.md": WORDS, "docs/STORY.md": WORDS}
# What stands in quotes and isn't on the page in a browser: how other programs save a file.
SAVED_AS = {"CSV UTF-8", "CSV", "Unicode text", "Save link as", "Save page as"}
LETTERS = ("Feasible", "Exhaustive", "Cover", *"C1 C2 C3 C4 C5 S5 V1 V2 V3 V4 U1 U2 U3".split())
PAGES = [*("README.md", "CONTRIBUTING.md", "CHANGELOG.md", "SECURITY.md", "examples/README.md", "tests/README.md", "tests/reference/README.md"),
         *sorted(f"docs/{path.name}" for path in (TOP / "docs").glob("*.md"))]  # fmt: skip
FOLDERS = r"\.ci|bench|crates|docs|examples|include|packaging|python|release|tests|web"


def prose(text):
    """The text of a page without its indented blocks."""
    return "\n".join("" if line.startswith("    ") else line for line in text.splitlines())


def anchors(page):
    """What a link may name behind '#': each heading in small letters, with hyphens for blanks and no other signs."""
    headings = re.findall(r"^#+ (.+)$", prose(page.read_text(encoding="utf-8")), re.MULTILINE)
    return {re.sub(r"[^\w\- ]", "", heading.lower()).replace(" ", "-") for heading in headings}


def link_error(page, target):
    """What is wrong with a link of a page, or None."""
    path, _, anchor = target.partition("#")
    file = (page.parent / path).resolve() if path else page
    if not file.exists():
        return f"there is no {path}"
    if anchor and (file.suffix != ".md" or anchor not in anchors(file)):
        return f"{path or page.name} has no heading #{anchor}"
    return None


def quotes(text):
    """What stands between “ and ”, on one line."""
    return [" ".join(words.split()) for words in re.findall(r"“([^”]+)”", text)]


def texts_of(sources):
    """The texts of these sources, each on one line."""
    code = "".join((TOP / name).read_text(encoding="utf-8") for name in sources)
    return set(re.findall(r'"([^"\n]*)"', re.sub(r"\\\n\s*", "", code)))


@pytest.mark.parametrize("name", PAGES)
def test_links(name):
    text = prose((TOP / name).read_text(encoding="utf-8"))
    links = re.findall(r"\]\(([^)\s]+)\)", text) + re.findall(r"src=\s*\"([^\"]+)\"", text)
    errors = [link_error(TOP / name, target) for target in links if not re.match(r"[a-z]+:", target)]
    assert [error for error in errors if error] == []


@pytest.mark.parametrize("name", PAGES)
def test_paths(name):
    """But for patterns, what a build makes, and what the gate's copy hasn't."""
    text = prose((TOP / name).read_text(encoding="utf-8"))
    words = [word for code in re.findall(r"`([^`\n]+)`", text) for word in code.split()]
    paths = [word for word in words if re.fullmatch(rf"(?:{FOLDERS})/[\w./-]*", word)]
    there = [path for path in paths if not re.search("NAME|MODULE|VERSION|/out(/|$)|/must-fail/", path)]
    assert [path for path in there if not (TOP / path).exists()] == []


@pytest.mark.parametrize("name", SAID)
def test_quotes(name):
    said = texts_of(SAID[name])
    assert [quote for quote in quotes(prose((TOP / name).read_text(encoding="utf-8"))) if quote not in said] == []


@pytest.mark.parametrize("name", ["docs/SPREADSHEET.md", "docs/STORY.md", "docs/WEB.md"])
def test_buttons_are_those_of_the_page(name):
    """What stands between " and " is a text of the page in a browser, or begins one, with whatever it has in its slots."""
    text = re.sub(r"`[^`]*`", "", " ".join(prose((TOP / name).read_text(encoding="utf-8")).split()))
    words = re.findall(r': "((?:[^"\\]|\\.)*)"', (TOP / "web/src/words/en.ts").read_text(encoding="utf-8"))
    texts = [re.compile(re.sub(r"\\\{\w+\\\}", ".+", re.escape(each)) + "|" + re.escape(each.partition(":")[0])) for each in words]
    named = set(re.findall(r'"([A-Z][^"]*)"', re.sub(r"<[^>]*>", "", text))) - SAVED_AS
    assert named and [each for each in sorted(named) if not any(text.fullmatch(each) for text in texts)] == []


def test_names_are_those_of_the_page():
    """The table of names in docs/CONDITIONS.md has each condition and test, by the page's words for it."""
    table = (TOP / "docs/CONDITIONS.md").read_text(encoding="utf-8").split("\n## Names\n")[1]
    names = dict(re.findall(r"^\| (\w+) \| ([^|]+) \|", table, re.MULTILINE))
    headings = (TOP / "crates/pb_words/src/wording/en.rt").read_text(encoding="utf-8")
    said = dict(re.findall(r'Sentence::Name(\w+) =>\s*"([^"]+)"', headings))
    assert {letter: names.get(letter) for letter in LETTERS} == {letter: said.get(letter) for letter in LETTERS}


def rows_of(page):
    """The rows of a page's tables, without their heads."""
    lines = (TOP / page).read_text(encoding="utf-8").splitlines()
    return [line for line, before in zip(lines[1:], lines) if line.startswith("| ") and before.startswith("|")]


def test_glossary_has_definitions():
    """Each row of docs/GLOSSARY.md leads to the file of a definition, which has one by that name."""
    rows = rows_of("docs/GLOSSARY.md")
    assert len(rows) > 30
    for row in rows:
        links = re.findall(r"\[`(\w+)`\]\(\.\./(crates/pb_\w+/specs/[\w/]+\.antt)\)", row)
        assert links and len(links) == row.count("](../crates"), row
        for name, path in links:
            code = (TOP / path).read_text(encoding="utf-8")
            assert re.search(rf"^(?:abbrev pub|pub record) {name}\b", code, re.MULTILINE), f"{path} doesn't define {name}"


def test_names_of_the_proof():
    """Each name that docs/PROVED.md has in backticks is one of the sources or definitions, or ends one, as `_on_outcomes`."""
    files = [file for kind in ("crates/*/src/**/*.rt", "crates/*/specs/**/*.antt", "python/pbaudit/*.py") for file in TOP.glob(kind)]
    known = {word for file in files for word in re.findall(r"\w+", file.read_text(encoding="utf-8"))}
    named = re.findall(r"`(\w+(?:::\w+)*)`", (TOP / "docs/PROVED.md").read_text(encoding="utf-8"))
    names = {name for path in named for name in path.split("::")}
    ends = {name for name in names if name.startswith("_") and any(word.endswith(name) for word in known)}
    assert len(names) > 200 and names - known - ends == set()


@pytest.mark.parametrize("name", ["README.md", "CONTRIBUTING.md"])
def test_security_is_linked(name):
    assert "](SECURITY.md)" in (TOP / name).read_text(encoding="utf-8")


@pytest.mark.parametrize("name, told, headings", [("FAQ", "eleven questions", r"## .*\?"), ("TOUR", "five steps", r"## \d\. .*"),
                                                  ("STORY", "five steps", r"## \d\. .*")])  # fmt: skip
def test_page_has_what_it_begins_with(name, told, headings):
    text = (TOP / f"docs/{name}.md").read_text(encoding="utf-8")
    assert told in " ".join(text.split()[:20])
    assert len(re.findall(f"^{headings}$", text, re.MULTILINE)) == {"five": 5, "eleven": 11}[told.split()[0]]


def test_all_answers_are_listed():
    """Each command of the program, and each line of a yes that docs/FORMATS.md has, stands in the section of docs/ANSWERS.md on all."""
    listed = (TOP / "docs/ANSWERS.md").read_text(encoding="utf-8").split("\n## All answers\n")[1].split("\n## ")[0]
    words = {word for code in re.findall("`([^`]*)`", listed) for word in code.split()}
    commands = {*re.findall(r'name: "(\w+)",\n +about: ', (TOP / "crates/pb_command/src/command.rt").read_text(encoding="utf-8"))}
    assert len(commands) == 11 and commands - words == set()
    printed = (TOP / "docs/FORMATS.md").read_text(encoding="utf-8").split("\n## Printed lines\n")[1].split("\n### ")[0]
    lines = {line for row in re.findall(r"^\| (`.*?) \|", printed, re.MULTILINE) for line in re.findall("`([^`]*)`", row)}
    yes = {line for line in lines if re.match("satisfied|supported|violation|unpriceable", line)}
    assert len(yes) == 9 and yes == {*re.findall("`((?:satisfied|supported|violation|unpriceable)[^`]*)`", listed)}


def test_kit_is_named():
    """README, and no other page, names the kit that proved all of it: the line of `rt version`."""
    named = {name: re.findall(r"\b(?:rattle-)?kit[- ]\d+\w*", (TOP / name).read_text(encoding="utf-8")) for name in PAGES}
    told = re.search(r"`(rattle-kit-\w+)`, `(logic \w+)` \(the line of `rt version`\)", (TOP / "README.md").read_text(encoding="utf-8"))
    assert {name: kits for name, kits in named.items() if kits} == {"README.md": [told[1]]}


def test_crates_of_the_design():
    """The table of docs/DESIGN.md has each crate of crates.txt, the picture each but those of tests: once, after those that it rests on."""
    lines = re.findall(r"^(\w+)(?: staticlib)?:(.*)$", (TOP / "crates.txt").read_text(encoding="utf-8"), re.MULTILINE)
    rests_on = {crate: below.split() for crate, below in lines}
    _, picture, table = re.split("\n## (?:One picture of the house|The crates)\n", (TOP / "docs/DESIGN.md").read_text(encoding="utf-8"))
    drawn = [name for line in picture.splitlines() if line.startswith("    ") for name in re.findall(r"\bpb(?:_\w+|audit)\b", line)]
    listed = [name for row in re.findall(r"^\| (`.*?) \|", table.split("\n## ")[0], re.MULTILINE) for name in re.findall(r"`(\w+)`", row)]
    assert sorted(listed) == sorted(crate for crate in rests_on if crate != "pb_samples")
    assert sorted(drawn) == sorted(crate for crate in listed if not crate.endswith("_tests"))
    for names in drawn, listed:
        assert [(crate, each) for crate in names for each in rests_on[crate] if each in names and names.index(each) > names.index(crate)] == []


def test_each_library_is_named():
    """A crate lists in crates.txt just the libraries of the repository that its files name, and of the kit's none that they don't."""
    lines = re.findall(r"^(\w+)(?: staticlib)?:(.*)$", (TOP / "crates.txt").read_text(encoding="utf-8"), re.MULTILINE)
    ours, idle, missing = {crate for crate, _ in lines}, [], []
    for crate, below in lines:
        files = [path for part in ("src", "specs", "proofs") for path in (TOP / "crates" / crate / part).rglob("*") if path.is_file()]
        texts = [path.read_text(encoding="utf-8") for path in files]
        words = {word for text in texts for word in re.findall(r"\w+", text)}
        idle += [(crate, each) for each in below.split() if each not in words]
        named = {word for text in texts for pair in re.findall(r"Rattle\.(\w+)\.|\b(\w+)::", text) for word in pair}
        missing += [(crate, each) for each in sorted(named & ours - {crate, *below.split()})]
    assert (idle, missing) == ([], [])


# What docs/DESIGN.md says how to add, and some of its kind, all of which are named wherever a new one has to be.
NAMED_BY = {
    "a condition on prices": [rf"(?<![A-Z\d]){name}(?![a-z\d])|\b{name.lower()}\b" for name in ("C4", "C5", "S5")],
    "a measure, of at most 10^18 for each project": ["ByCount", "ByCost"], "a command": ["(?i)tidy", "(?i)margins"],
}  # fmt: skip
KINDS = {"src": "rt", "specs": "antt", "proofs": "antt"}


def places_that_name(words):
    """The sources, modules and proofs that have each word, but for comments, and for the crates of tests."""
    for kind, ending in KINDS.items():
        for path in (TOP / "crates").glob(f"*/{kind}/**/*.{ending}"):
            crate = path.relative_to(TOP / "crates").parts[0]
            code = re.sub("--.*" if ending == "antt" else "//.*", "", path.read_text(encoding="utf-8"))
            if not crate.endswith("_tests") and crate != "pb_samples" and all(re.search(word, code) for word in words):
                yield path.relative_to(TOP / "crates").as_posix()


def places_of_the_row(text):
    """The places that a row lists: of each crate sources, and modules and proofs, of which the first has the name of the folder."""
    crate, folder = "", ""
    for name in re.findall(r"`([\w/]+)`", text):
        if name.startswith("pb_"):
            crate, folder = name, ""
        elif name.startswith(("specs/", "proofs/")):
            folder = name.partition("/")[0]
            yield f"{crate}/{name}.antt"
        elif name[0].isupper():
            yield f"{crate}/{folder}/{name}.antt"
        else:
            yield f"{crate}/src/{name}.rt"


@pytest.mark.parametrize("what", NAMED_BY)
def test_places_of_a_change(what):
    """Up to 'Besides', the row lists just the places that name those of the kind, and it says how many they are."""
    [row] = [row for row in rows_of("docs/DESIGN.md") if row.startswith(f"| {what}: ")]
    head, text = row.strip("| ").split(" | ")
    listed = [*places_of_the_row(text.partition(" Besides, ")[0])]
    assert sorted(listed) == sorted(places_that_name(NAMED_BY[what]))
    told = [int(number) for number in re.findall(r"(\d+) (?:sources|modules|proofs)", head)]
    assert told == [sum(f"/{kind}/" in place for place in listed) for kind in KINDS]


def calls_of_the_walk():
    """Who calls whom, as docs/DESIGN.md walks through the commands: of names with commas between them the last calls on."""
    section = (TOP / "docs/DESIGN.md").read_text(encoding="utf-8").split("\n## A walk through each command\n")[1].split("\n## ")[0]
    for line in section.splitlines():
        if not line.startswith("    "):
            continue
        walk = next(part for part in re.split(r" {2,}", line.strip()) if " > " in part)
        for chain in walk.split("; "):
            steps = [step.split(", ") for step in chain.split(" > ")]
            yield from ((callers[-1], called) for callers, names in zip(steps, steps[1:]) for called in names)


def functions_of_the_crates():
    """By name, the crate and the lines of each function: up to the next line that has no more than its closing brace."""
    functions = {}
    for path in (TOP / "crates").glob("*/src/**/*.rt"):
        lines = path.read_text(encoding="utf-8").splitlines()
        for at, line in enumerate(lines):
            begun = re.match(r"( *)(?:pub(?:\(\w+\))? )?fn (\w+)", line)
            if begun and (begun[1] + "}") in lines[at:]:
                body = "\n".join(lines[at : lines.index(begun[1] + "}", at)])
                functions.setdefault(begun[2], []).append((path.relative_to(TOP / "crates").parts[0], body))
    return functions


def test_walk_through_each_command():
    """A function of each name calls the next one, in a crate that is no higher, and no call leads back up."""
    order = re.findall(r"^(\w+)(?: staticlib)?:", (TOP / "crates.txt").read_text(encoding="utf-8"), re.MULTILINE)
    functions = functions_of_the_crates()
    calls = [*calls_of_the_walk()]
    assert len(calls) > 60
    for caller, called in calls:
        crates = {crate for crate, body in functions[caller] if re.search(rf"\b{called}(?:::<[^>]*>)?\(", body)}
        lowest = min(order.index(crate) for crate, _ in functions[called])
        assert any(lowest <= order.index(crate) for crate in crates), (caller, called)
    below = {}
    for caller, called in calls:
        below.setdefault(caller, set()).add(called)

    def ends(name, above):
        assert name not in above, [*above, name]
        for called in below.get(name, ()):
            ends(called, [*above, name])

    ends("main", [])


def test_limits_that_a_service_is_told():
    """The most bytes of a file, as the sources have it, in both ways of writing."""
    told = re.search(r"a file may have 2\^(\d+) \(([\d,]+)\)", (TOP / "SECURITY.md").read_text(encoding="utf-8"))
    stated = re.search(r"\bconst MOST_BYTES: usize = ([\d_]+);", (TOP / "crates/pb_reply/src/loaded.rt").read_text("utf-8"))
    assert 2 ** int(told[1]) == int(told[2].replace(",", "")) == int(stated[1])


@pytest.mark.parametrize("name", LENGTHS)
def test_length(name):
    assert len((TOP / name).read_text(encoding="utf-8").splitlines()) <= LENGTHS[name]


def test_all_pages_together():
    """Those for readers; CONTRIBUTING is for who changes the sources."""
    pages = [TOP / "README.md", *(TOP / "docs").glob("*.md")]
    assert sum(len(page.read_text(encoding="utf-8").splitlines()) for page in pages) <= 4060


def test_sums_of_the_district():
    """The share of nine voters, and how many voters the demand needs, as docs/CAMPAIGNS.md works them out."""
    text = " ".join((TOP / "docs/CAMPAIGNS.md").read_text(encoding="utf-8").split())
    lines = (TOP / "examples/district.pb").read_text(encoding="utf-8-sig").replace("\r", "").split("\nVOTES\n")
    rows = [row for row in csv.reader(lines[0].splitlines(), delimiter=";") if len(row) > 5 and row[0].isdigit()]
    costs = {row[0]: Fraction(row[1].replace(",", ".")) for row in rows}
    limit = Fraction(re.search(r"^budget;([\d.,]+)$", lines[0], re.MULTILINE)[1].replace(",", "."))
    voters = len([line for line in lines[1].splitlines() if line.strip(" ;")]) - 1
    demand = costs["105"] + costs["121"]
    assert f"9 × {float(limit):.2f} / {voters} = {float(9 * limit / voters):.2f}" in text
    needed = voters * demand / limit
    assert f"{voters} × {float(demand):.2f} / {float(limit):.2f} = {math.floor(needed * 1000) / 1000}.., so nine" in text
    assert math.ceil(needed) == 9 and f"With eight voters it would be {float(8 * limit / voters):.2f}" in text


def test_refutation_of_the_campaigners(run, room):
    """As docs/CAMPAIGNS.md says how to write it: for three of five voters, who agree on y and for whom x was funded."""
    shown = (TOP / "docs/CAMPAIGNS.md").read_text(encoding="utf-8").split("\n## 4. ")[1]
    text = re.search(r"((?: {4}.*\n)+)", shown)[1].replace("    ", "")
    meant = {"HOW MANY VOTERS THE GROUP HAS": "3", "HOW MANY VOTERS THERE ARE IN ALL": "5", "A FUNDED PROJECT": "x", "THE PROJECT": "y"}
    for words, stands in meant.items():
        assert words in text
        text = text.replace(words, stands)
    (room / "claim.csv").write_text(text)
    (room / "town.pb").write_bytes(tables.Table("refutations.txt").files["group.pb"])
    told = run("refutation", "town.pb", "claim.csv", cwd=room)
    assert (told.stdout, told.returncode) == (b"unpriceable cover\n", 0)


@pytest.mark.parametrize("name", [page for page in PAGES if page != "CHANGELOG.md"])
def test_nothing_is_said_that_a_violation_denies(name):
    """A yes to prices doesn't say that all groups got what they deserve, or that none was passed over."""
    text = " ".join((TOP / name).read_text(encoding="utf-8").split())
    assert re.findall(r"[^.]*\b(?:[Nn]o group(?: of voters)? (?:is|was) treated|[Pp]assed over)[^.]*", text) == []


def section_of(page, heading):
    """How many lines a section has, with its heading."""
    text = (TOP / page).read_text(encoding="utf-8")
    return len(text[text.index(f"\n{heading}\n") + 1:].split("\n## ")[0].rstrip("\n").splitlines())


def lines_of(*patterns):
    files = {file for pattern in patterns for file in TOP.glob(pattern)}
    return sum(len(file.read_text(encoding="utf-8").splitlines()) for file in files)


def files_below(file, found):
    """The files of definitions of crates/ on which one stands by its `use` lines, with itself."""
    found.add(file)
    for crate, module in re.findall(r"^use Rattle\.(pb_\w+)\.specs\.([\w.]*\w)", file.read_text(encoding="utf-8"), re.MULTILINE):
        path = TOP / "crates" / crate / "specs" / module.replace(".", "/")
        named = [below for each in (path, path.parent) if (below := each.with_name(f"{each.name}.antt")).is_file()]
        assert named or module.startswith("declared."), f"{file} uses {module}, which is no file"
        if named and named[0] not in found:
            files_below(named[0], found)
    return found


def test_routes_have_their_lines():
    """How much docs/TRUST.md says that there is to read, to the twentieth part."""
    trust = (TOP / "docs/TRUST.md").read_text(encoding="utf-8")
    figures = re.findall(r"^\| \d+ minutes \|.*\| ([\d,]+)(?: more| in all)? \|", trust, re.MULTILINE)
    figures += re.findall(r"The reference is about ([\d,]+) lines", trust)
    told = [int(figure.replace(",", "")) for figure in figures]
    definitions = ("Amounts", "Conditions", "Groups", "EveryGroup", "Refutations")
    specs = [*(f"crates/pb_cohesion/specs/{name}.antt" for name in definitions),
             *(f"crates/pb_{crate}/specs/**/{name}.antt" for crate in ("election", "certificate") for name in ("Text", "Faults")),
             "crates/pb_certificate/specs/**/Kind.antt", "crates/pb_certificate/specs/Prices/RowFaults.antt",
             "crates/pb_records/specs/Headed.antt",
             "crates/pb_audit/specs/Answers.antt"]  # fmt: skip
    counted = [section_of("docs/STATEMENT.md", "## The promise") + section_of("docs/CONDITIONS.md", "## The conditions"),
               lines_of("docs/STATEMENT.md"), lines_of(*specs),
               sum(len(file.read_text(encoding="utf-8").splitlines()) for file in files_below(TOP / specs[-1], set())),
               lines_of("tests/reference/*.py")]  # fmt: skip
    assert len(told) == len(counted)
    assert [(one, other) for one, other in zip(told, counted) if abs(one - other) > other / 20] == []


@pytest.fixture(scope="module")
def purposes():
    """What docs/files.py prints of each file."""
    printed = subprocess.run([TOP / "docs/files.py"], capture_output=True, text=True, check=True).stdout
    folder, found = "", {}
    for line in printed.splitlines():
        if not line.startswith(" "):
            folder = line
        else:
            name, _, purpose = line.strip().partition(": ")
            found[f"{folder}/{name.rstrip(':')}"] = purpose
    return found


def test_each_file_begins_with_what_it_is_for(purposes):
    assert purposes and [name for name, purpose in purposes.items() if not purpose] == []


def test_each_file_is_listed(purposes):
    """Those of the crates' sources and definitions, of the Python package and of the page."""
    kinds = ["crates/*/src/**/*.rt", "crates/*/specs/**/*.antt", "python/pbaudit/**/*.py", "web/*.*", "web/src/**/*", "web/tests/**/*"]
    files = {file for kind in kinds for file in TOP.glob(kind) if file.suffix in (".rt", ".antt", ".py", ".ts", ".js", ".c")}
    assert sorted(purposes) == sorted(str(file.relative_to(TOP)) for file in files if file.name != "Lib.antt")


def shown_commands():
    """Each command that a page shows behind '$ ', with the lines that stand under it, up to the end of the block, and the commands
    above it that write files."""
    for name in PAGES:
        if not name.startswith(("README.md", "docs/", "tests/reference/")):
            continue
        writing, command, lines = [], None, []
        for line in [*(TOP / name).read_text(encoding="utf-8").splitlines(), "end"]:
            if command and (line.startswith("    $ ") or line and not line.startswith("    ")):
                yield pytest.param([*writing], command, "\n".join(lines).strip("\n"), id=f"{name}: {command}")
                writing += [command] if " > /tmp/" in command else []
                command = None
            if line.startswith("    $ "):
                command, lines = line[6:], []
            elif command:
                lines.append(line[4:])


@pytest.mark.parametrize("writing, command, wanted", shown_commands())
def test_shown_command(program, tmp_path, writing, command, wanted):
    """As ./pbaudit the program is called that is tried. Each command has a folder of its own in place of /tmp."""
    def said(command):
        called = re.sub(r"(?<![\w/.])\./pbaudit(?![\w-])", str(program), command.replace("/tmp/", f"{tmp_path}/"))
        told = subprocess.run(["bash", "-c", called], cwd=TOP, stdin=subprocess.DEVNULL, stdout=subprocess.PIPE, text=True,
                              stderr=subprocess.STDOUT, timeout=120, check=False)  # fmt: skip
        return told.stdout.rstrip("\n").replace(f"{tmp_path}/", "/tmp/")

    assert [said(each) for each in writing] == [""] * len(writing)
    assert said(command) == wanted


REFUTATION = ["pb-refutation,1", "cover,0", "role,project,weight", "least,a,2", "most,b,1", "left,c,1"]


def shown_changes():
    """Each change of a line that docs/FORMATS.md shows: of which kind of file, the line, its text, and the refusal's number and record."""
    page = (TOP / "docs/FORMATS.md").read_text(encoding="utf-8")
    election, prices, refutation = re.split(r"\nExamples are changes to|\nAnd to the refutation", page)
    for number, row in re.findall(r"^\| (\d+) (\|.*)", election, re.MULTILINE):
        for line, text, record in re.findall(r"line (\d+) is `([^`]*)`: record (\d+)", row):
            yield "read", int(line), text, number, record
    for kind, table in ("prices", prices), ("refutation", refutation.partition("\n## ")[0]):
        for line, texts, number, record in re.findall(r"^\| .*line (\d+) is (`.*`).* \| (\d+), record (\d+) \|$", table, re.MULTILINE):
            for text in re.findall("`([^`]*)`", texts):
                yield kind, int(line), text, number, record


@pytest.mark.parametrize("kind, line, text, number, record", shown_changes())
def test_shown_change_is_refused(run, room, kind, line, text, number, record):
    """By its number and record, as docs/FORMATS.md has it."""
    sample = {"read": "sample.pb", "prices": "sample.prices.csv"}.get(kind)
    lines = (TOP / "examples" / sample).read_text(encoding="utf-8").splitlines() if sample else [*REFUTATION]
    lines[line - 1] = text
    (room / "changed").write_text("\n".join(lines) + "\n", encoding="utf-8")
    files = [room / "changed"] if kind == "read" else [TOP / "examples/sample.pb", room / "changed"]
    told = run(kind, *files)
    file = "election" if kind == "read" else "certificate"
    assert told.returncode == 2 and re.fullmatch(rf"refused {file} {number} \w+ record {record}\n", told.stdout.decode())


def test_changes_are_shown():
    kinds = [kind for kind, *_ in shown_changes()]
    assert all(kinds.count(kind) > 4 for kind in ("read", "prices", "refutation"))


@pytest.mark.parametrize("more, status", [
    ({}, 0),
    ({"sample.violation.csv": "sample.wrong.violation.csv", "sample.refutation.csv": "sample.wrong.refutation.csv"}, 0),
    ({"sample.violation.csv": "school.violation.csv"}, 1),
    ({"sample.refutation.csv": "sample.outcome.csv"}, 1),
    ({"sample.prices.csv": "sample.wrong.prices.csv"}, 1),
    ({"school.pb": "school.pb"}, 2),
    ({"school.pb": "school.pb", "school.prices.csv": "school.prices.csv"}, 0),
    ({"school.pb": "school.pb", "school.prices.csv": "school.prices.csv", "school.violation.csv": "school.violation.csv"}, 1),
    ({"school.pb": "school.pb", "school.prices.csv": "school.prices.csv", "school.cost.violation.csv": "school.violation.csv"}, 1),
    ({"school.pb": "school.pb", "school.prices.csv": "school.prices.csv", "school.refutation.csv": "school.refutation.csv"}, 1),
])  # fmt: skip
def test_build_fails_where_something_speaks_against_an_outcome(program, room, more, status):
    """As docs/LIBRARY.md shows it, but that Exhaustive isn't asked for: the prices of the school hold then, and so do a violation and
    a refutation."""
    shown = (TOP / "docs/LIBRARY.md").read_text("utf-8").split("**To fail a CI build,**")[1]
    build = re.search(r"\n\n((?: {4}.*\n)+)", shown)[1]
    assert build.count("~/pbaudit/bin/pbaudit") == 2 and build.count("--stable\n") == 1
    build = build.replace("~/pbaudit/bin/pbaudit", shlex.quote(str(program))).replace("--stable", "--stable --no-exhaustive")
    (room / "elections").mkdir()
    for name, example in ({"sample.pb": "sample.pb", "sample.prices.csv": "sample.prices.csv"} | more).items():
        shutil.copy(TOP / "examples" / example, room / "elections" / name)
    done = subprocess.run(["bash", "-c", build], cwd=room, stdin=subprocess.DEVNULL, capture_output=True, timeout=120, check=False)
    assert done.returncode == status, done
