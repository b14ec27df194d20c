"""The module of the page, run by Node, beside the program: the same cases, status and bytes; and what the scripts of the page are made
of, as tsc, eslint, esbuild and Node's own runner see them."""
import base64
import collections
import os
import re
import subprocess
import tempfile

import pytest

import by_node
import cases
import file_kinds
import saying
import tables
import variants
from common import TOP, needs
from tables import EXAMPLES

BY_CHANCE = 2000
WEB = TOP / "web"
# The memory that never grows has so many megabytes beyond what the module starts with.
MEGABYTES = 12
LANGUAGES = ("en", "pl", "de", "fr")
# Commands whose allocations are made to fail one by one, on the examples.
STARVED = [
    ["read", "district.pb"], ["prices", "district.pb", "district.prices.csv", "--stable"],
    ["violation", "district.pb", "district.violation.csv", "--outcome", "district.other.outcome.csv"],
    ["both", "district.pb", "district.stable.prices.csv", "district.violation.csv",
     "--outcome", "district.stable.outcome.csv"],
    ["explain", "district.pb", "district.short.prices.csv"], ["margins", "district.pb", "district.prices.csv"],
    ["tidy", "sample.pb", "sample.untidy.prices.csv"], ["tidy", "district.pb", "sample.outcome.csv"],
    ["page", "district.pb", "district.prices.csv", "--stable"],
]  # fmt: skip
# Debian's eslint reads older JavaScript and no types, so tsc writes each module in that. (It says that 0n is newer.)
OLDER = ["--noEmit", "false", "--target", "es2019", "--module", "es2015"]


def commands_of(case, number):
    """The commands that are asked of a case's files: its own, and of a certificate the page and the explanation."""
    command, *words = case.words
    yield case.words
    if command in ("prices", "violation", "refutation", "explain"):
        yield ["page", *words, "--language", LANGUAGES[number % len(LANGUAGES)]]
    if command in ("prices", "violation", "refutation"):
        yield ["explain", *words]


def test_by_chance(run, node, seed, by_chance, room):
    case = cases.without_folders(seed, by_chance)
    cases.write_files(room, case.files)
    for words in commands_of(case, by_chance):
        ran, told = run(*words, cwd=room), node.ask(by_node.call_of(words, room))
        assert (told.get("status"), told.get("text")) == (ran.returncode, ran.stdout)
        if ran.returncode == 2:
            assert (told.get("line"), told.get("sentences")) == by_node.told_hints(ran.stderr)
        if words[0] not in ("read", "page"):
            assert told.get("notes") == by_node.told_notes(ran.stderr)


@pytest.mark.parametrize("file, kind", file_kinds.EACH)
def test_kind(node, file, kind):
    assert node.ask({"kind": base64.b64encode(file).decode()}) == {"kind": kind or "unknown"}


@pytest.mark.parametrize("name", ["answers.txt", "groups.txt", "hints.txt", "refutations.txt"])
def test_what_is_said(node, room, name):
    """Of both two lines are said, unless a file is refused. The notes on an election that is read are its other lines."""
    for row, words, files in tables.asked(name):
        if words[0] in ("margins", "tidy", "page"):
            continue
        cases.write_files(room, {"missing": b"", **files})
        told, lines = node.ask(by_node.call_of(words, room)), row.printed[:2 if words[0] == "both" else 1]
        assert told["says"] == [by_node.said(line) for line in lines], (row.group, words)
        assert told["lines"] == lines, (row.group, words)
        if words[0] == "read":
            assert told["notes"] == row.printed[1:], (row.group, words)


def test_each_kind_of_answer_comes(seed, option):
    """The reference says which come, since the program says the same. A page and an explanation end as their command does."""
    if option("cases") is not None and option("cases") < BY_CHANCE:
        pytest.skip("fewer cases than usual")
    counts = collections.Counter()
    for number in range(BY_CHANCE):
        case = cases.without_folders(seed, number)
        with tempfile.TemporaryDirectory() as room:
            cases.write_files(room, case.files)
            status = saying.reference_says(case, room).status
        counts.update(f"{words[0]} {status}" for words in commands_of(case, number))
    commands = ("prices", "violation", "refutation", "both", "explain", "page")
    wanted = [f"{command} {status}" for command in commands for status in (0, 1, 2)]
    wanted += [f"{command} {status}" for command in ("read", "margins", "tidy") for status in (0, 2)]
    assert [kind for kind in wanted if not counts[kind]] == []


@pytest.fixture(scope="module")
def starving(page, tmp_path_factory):
    """The module with memory that never grows."""
    needs("node")
    small = tmp_path_factory.mktemp("small") / "small.html"
    variants.write(page, small, lambda module: variants.with_fixed_memory(module, MEGABYTES))
    process = by_node.Node(small)
    yield process
    process.close()


@pytest.mark.parametrize("words", STARVED, ids=" ".join)
def test_each_allocation_fails(starving, words):
    """The answer is that memory ran out, with nothing written, or the usual one."""
    told = starving.ask({**by_node.call_of(words, EXAMPLES), "starve": True})
    assert told["wrong"] == 0 and told["failed"] > 0


def test_the_oldest_browsers_are_the_same_everywhere():
    """For which the scripts are made, which docs/WEB.md names, and which the page names in each language where it can't run."""
    made_for = re.search(r"--target=([\w.,]+)", (WEB / "assemble.py").read_text(encoding="utf-8"))[1]
    oldest = dict(re.findall(r"([a-z]+)([\d.]+)", made_for))
    document = (TOP / "docs/WEB.md").read_text(encoding="utf-8")
    named = re.findall(r"(Chromium|Firefox|Safari) since ([\d.]+) \(", document)
    assert named == [("Chromium", oldest["chrome"]), ("Firefox", oldest["firefox"]), ("Safari", oldest["safari"])]
    for language in ("en", "de", "fr", "pl"):
        [sentence] = re.findall(r"^  broken: (.*)$", (WEB / f"src/words/{language}.ts").read_text(encoding="utf-8"), re.MULTILINE)
        assert re.findall(r"\d+(?:\.\d+)?", sentence) == [*oldest.values()]


def test_types():
    needs("tsc")
    told = subprocess.run(["tsc", "--project", WEB], capture_output=True, text=True, check=False)
    assert told.returncode == 0, told.stdout


def test_style(room):
    """What eslint says of the modules. It reads no types, and that each name is used is seen by tsc."""
    needs("tsc", "eslint")
    written = room / "written"
    subprocess.run(["tsc", "--project", WEB, *OLDER, "--outDir", written], capture_output=True, check=False)
    # Debian's eslint finds its parts by the path of Debian's Node, which another Node doesn't have.
    words = ["eslint", "--no-eslintrc", "--format", "unix", "--config", WEB / "eslint.json", written]
    paths = {**os.environ, "NODE_PATH": "/usr/share/nodejs"}
    told = subprocess.run(words, cwd=room, env=paths, capture_output=True, text=True, check=False)
    assert written.is_dir() and told.returncode == 0, told.stdout + told.stderr


# A pattern in a script, and words of printed lines, of tables and of the library's pages.
PATTERN = re.compile(r"(?:[=(,:\[!&|?;>]|return) */(?![/*])((?:[^/\\\n\[]|\\.|\[(?:[^\]\\\n]|\\.)*\])+)/")
OF_THE_PROGRAM = re.compile(r"failed|satisfied|priceable|supported|\^violation|refused|note:| voters| projects|says |<\w|class=")
CALLED = {"pbaudit_report", "pbaudit_answer_page", "pbaudit_groups_page", "pbaudit_folder_entry", "pbaudit_folder_total", "pbaudit_kind",
          "pbaudit_room"}  # fmt: skip
# What a text may be called that is an answer's, a printed page or a stream, or its bytes; and what makes such a text.
TEXT = (r"\b(?:texts?|lines?|page|html|printed|answer|reply|told|said|shown|output|stdout|stderr|bytes|data|content|first|rest|head|notes?"
        r"|sentences?|textContent|nodeValue|(?:inner|outer)(?:Text|HTML)|srcdoc)\b")  # fmt: skip
IN_BRACKETS = r"\((?:[^()]|\((?:[^()]|\([^()]*\))*\))*\)"
TEXT_OF_CALL = rf"\b(?:decoded?|String|toString|join|\w*[lL]ine(?:Of)?|textOf){IN_BRACKETS}"
# How a text is split, searched or cut, whatever it is called but by the names of files and letters; and how lists and bytes are too.
OF_TEXTS = (r"(?:split|substr(?:ing)?|match(?:All)?|search|startsWith|endsWith|charAt|charCodeAt|codePointAt|trim(?:Start|End)?"
            r"|replace(?:All)?)\(")  # fmt: skip
OF_LISTS = r"(?:indexOf|lastIndexOf|includes|slice|subarray|at)\("
ANYTHING = r"\b(?!(?:name|webkitRelativePath|letter)\b)\w+|[])`'\"]"
TAKEN_APART = re.compile(
    rf"(?:{ANYTHING})[!?]?\s*\.{OF_TEXTS}|(?:{TEXT}|{TEXT_OF_CALL}|`)[!?]?\s*\.{OF_LISTS}|{TEXT}[!?]?(?:\?\.)?\[(?:\d|at\b|\w+\.length)"
    rf"|\.(?:exec|test)\(|\b(?:rowsOf|textOf)\({TEXT}|\bnew Records\(|\bDOMParser\b|\bcontentDocument\b")
# Folders of modules whose texts are those of files, of names and of the page's own words: they are given no answer.
OF_FILES = {"elections", "files", "finding", "sheets", "words"}
# What is taken apart nevertheless, how often in the module, and why.
ALLOWED = {
    "auditor/replies.ts: bytes.indexOf(": (1, "where a line of JSON ends"),
    "auditor/replies.ts: bytes.subarray(": (2, "the line of JSON, which is read as such, and what is behind it"),
    "auditor/objects.ts: text.replace(": (1, "numbers in JSON that are too large for a number"),
    "auditor/statuses.ts: .test(": (1, "what a browser says where it has no memory"),
    "package/entries.ts: file.endsWith(": (1, "the name of a file"),
    "package/handed.ts: .exec(": (1, "a language that a caller gives"),
    "package/handed.ts: .test(": (2, "a text that a caller gives, and what another value is called"),
    "package/library.ts: bytes.subarray(": (1, "a file that is too long"),
    "package/machine.ts: line.indexOf(": (2, "the words of Node's own command"),
    "package/machine.ts: line.subarray(": (1, "the words of Node's own command"),
    "package/module.ts: bytes[at": (1, "the bytes of the module"),
    "package/module.ts: text.charCodeAt(": (1, "the bytes of the module"),
    "page/answer.ts: contentDocument": (3, "the size and the styles of a page that is shown"),
    "page/answer.ts: page.replaceAll(": (1, "the styles of a page that is shown"),
    "page/election.ts: ).replace(": (1, "a text of an election's file"),
    "page/election.ts: text.trim(": (1, "a text of an election's file"),
    "page/elements.ts: ).trim(": (1, "the bytes of the module"),
    "page/holding.ts: page.endsWith(": (1, "a page into which the files are put, ahead of its end"),
    "page/holding.ts: page.slice(": (1, "a page into which the files are put, ahead of its end"),
    "page/holding.ts: text.replace(": (1, "a text that is escaped"),
    "page/holding.ts: text.slice(": (2, "the first letter of a word of the page's"),
    "page/lists.ts: page.replace(": (1, "the page's own, which takes another file"),
    "page/projects.ts: searched.trim(": (1, "what somebody searches for"),
    "page/told.ts: textContent?.trim(": (1, "a sentence of the page's own"),
    "page/tools.ts: textContent?.trim(": (1, "a sentence of the page's own"),
    "worker/bytes.ts: bytes.subarray(": (1, "a line of a file"),
    "worker/bytes.ts: bytes[at": (3, "the bytes of a file, and of its sum"),
}
PLANTED = [
    'const [first] = text.split("\\n");', 'if (decoded(reply.text).indexOf("failed") === 0) return;', "text.subarray(0, text.indexOf(10))",
    'if (page.includes("<h1>")) return;', "const rows = new Records(reply.text, COMMA);", "const found = LINE.exec(line);",
    "if (FAILED.test(said.line)) return;", "const [, voter] = stdout.match(VOTER)!;", 'new DOMParser().parseFromString(page, "text/html")',
    'frame.contentDocument.querySelector("td")', "new TextDecoder().decode(told.text).trim()", 'for (const row of rowsOf(text, ","))',
    'const rest = printed.replace("failed ", "");', "return reply.text.slice(9);",
    'decoded(calls.page(c, asked).bytes).indexOf("<title>")', 'text.replace(LINE, "")', "LINE.exec(decoded(bytes))", 'String(text).split("\n")',
    'if (text[0] === "f") return;', "text[text.length - 1]", 'first.startsWith("failed")', "note.slice(6)", 'frame.innerText.split("\n")',
    'innerHTML.indexOf("<td>")', 'place.srcdoc.split("<h1>")', 'text\n    .split(" ")', "lineOf(said).slice(7)", "`${told.text}`.slice(0, 6)",
]  # fmt: skip


def scripts_of(folders):
    return {path.relative_to(WEB / "src").as_posix(): path.read_text(encoding="utf-8") for path in (WEB / "src").rglob("*.ts")
            if path.parent.name not in folders}  # fmt: skip


def test_no_text_of_an_answer_is_taken_apart():
    """But what is listed."""
    found = collections.Counter(f"{name}: {part}" for name, text in scripts_of(OF_FILES).items() for part in TAKEN_APART.findall(text))
    assert found == {part: count for part, (count, _) in ALLOWED.items()}


@pytest.mark.parametrize("line", PLANTED)
def test_what_would_take_an_answer_apart_is_seen(line):
    assert TAKEN_APART.search(line)


def test_nothing_is_read_off_what_is_printed():
    """Answers are read as JSON: no script has a pattern on a printed line, a table or a page, or calls what answers in lines alone."""
    scripts = {path.name: path.read_text(encoding="utf-8") for path in (WEB / "src").rglob("*.ts") if path.parent.name != "sheets"}
    patterns = {(name, found) for name, text in scripts.items() for found in PATTERN.findall(text)}
    assert len(patterns) > 20
    assert [each for each in sorted(patterns) if OF_THE_PROGRAM.search(each[1])] == []
    assert {found for text in scripts.values() for found in re.findall(r'"(pbaudit_\w+)"', text)} == CALLED


def test_modules_that_need_no_browser(room):
    """By Node's own runner."""
    needs("node", "esbuild")
    tests = sorted(str(path.relative_to(WEB)) for path in (WEB / "tests").glob("*.test.ts"))
    bundle = ["esbuild", *tests, "--bundle", "--platform=node", "--log-level=warning", f"--outdir={room}"]
    made = subprocess.run(bundle, cwd=WEB, capture_output=True, text=True, check=False)
    assert made.returncode == 0, made.stderr
    told = subprocess.run(["node", "--test", room], capture_output=True, text=True, check=False)
    assert told.returncode == 0, told.stdout[-4000:]
    assert int(re.search(r"^# pass (\d+)$", told.stdout, re.MULTILINE)[1]) >= len(tests) > 0
