"""The package for JavaScript: its command beside the program, what it answers, its types, and its bytes. What the machine tells the
command is tried by test_command.py.

`pytest tests --program COMMAND`, with the package's command.js, runs all else that is tried on the program.
"""
import concurrent.futures
import io
import json
import os
import random
import re
import shutil
import subprocess
import tarfile

import pytest

import variants
from cases import numbered, write_files
from common import TOP
from tables import EXAMPLES

ANSWERS = re.findall(r"^pbaudit (.*)$", (EXAMPLES / "answers.txt").read_text(encoding="utf-8"), re.MULTILINE)
# So many files by chance, half of them damaged, and so many lines of words.
CASES, LINES = 60, 150
WORDS = ["read", "groups", "prices", "violation", "both", "explain", "page", "margins", "tidy", "folder", "help", "pric", "foo", "a",
         "b", "c", "-", "--", "--stable", "--cover", "--no-exhaustive", "--outcome", "--outcome=x", "--outcome=",
         "--language", "--language=de", "--stable=1", "-h", "--help", "-V", "--version", "-x", "--foo", "--sta", "--stabl",
         "--outcom", "--help=1", "--version=2", "-hV", "---", "", "\u00e9", "a\u202eb", "--lang", "--exhaustive", "--vers",
         "=", "--=", "--=x", "-1", "--stable=", "viol", "-\u00e9", "--satisfaction", "--satisfaction=count", "--satisfaction=votes", "--json", "--satis", "--jso",
         "--groups", "--groups", "--group"]  # fmt: skip
CALLER = """
import { readFileSync } from 'node:fs';
import { auditor, OutOfMemory } from 'pbaudit';

const a = await auditor();
const read = name => readFileSync(`${process.argv[2]}/${name}`);
const district = read('district.pb'), sample = read('sample.pb');
const unknown = read('district.voter-id.violation.csv'), outcome = read('district.other.outcome.csv');
const misspelt = (command, ...words) => {
  try {
    return a[command](...words).answer;
  } catch (error) {
    return error instanceof TypeError && error.message.split(' ')[4];
  }
};
console.log(JSON.stringify({
  read: a.read(sample),
  groups: [a.groups(sample), a.groups(read('school.pb'), { satisfaction: 'count' }),
           a.groups(sample, { outcome: 'pb-outcome,1\\nproject,a\\nproject,b\\nproject,c\\n' })],
  onGroups: [a.explainGroups(sample), a.groupMargins(sample), a.groupsPage(read('school.pb'), { satisfaction: 'count' }),
             a.explainGroups(sample, { outcome: 'pb-outcome,1\\nproject,a\\nproject,b\\nproject,c\\n' })],
  refutation: a.refutation(read('school.pb'), read('school.refutation.csv'), { stable: true }),
  yes: a.prices(sample, read('sample.prices.csv'), { stable: true }),
  no: a.prices(district, read('district.prices.csv'), { stable: true }),
  text: a.prices(sample.toString(), read('sample.prices.csv').toString()),
  refused: a.violation(district, unknown),
  violation: a.violation(district, read('district.violation.csv'), { outcome }),
  both: [
    a.both(sample, read('sample.prices.csv'), read('sample.wrong.violation.csv')),
    a.both(read('school.pb'), read('school.prices.csv'), read('school.violation.csv'), { stable: true, exhaustive: false }),
    a.both(read('school.pb'), read('school.prices.csv'), read('school.violation.csv')),
  ],
  bothRefused: a.both(sample, read('sample.prices.csv'), read('sample.prices.csv')),
  explain: a.explain(district, read('district.prices.csv')),
  margins: a.margins(sample, read('sample.prices.csv')),
  tidy: a.tidy(sample, read('sample.untidy.prices.csv')),
  page: a.page(sample, read('sample.prices.csv'), { language: 'de', names: { election: 'x.pb' } }),
  folder: a.folder([['a.pb', sample], ['a.prices.csv', read('sample.wrong.prices.csv')], ['b.pb', 'META']]),
  isError: new OutOfMemory() instanceof Error,
  misspelt: [
    ...['prices', 'explain', 'page'].map(command => misspelt(command, sample, sample, { stabel: true })),
    ...['violation', 'refutation', 'margins'].map(command => misspelt(command, sample, sample, { outcom: '' })),
    misspelt('both', sample, sample, sample, { covered: true }), misspelt('folder', [], { outcome: '' }),
  ],
}));
"""
TYPED = """
import { asyncAuditor, auditor } from 'pbaudit';
import { workerAuditor } from 'pbaudit/worker';
import type { AnySource, AsyncAuditor, Auditor, BlobSource, ForPrices, LaterFor, StreamSource, Verdict, WorkerAuditor } from 'pbaudit';

declare const file: BlobSource, body: StreamSource;
const told = (verdict: Verdict): string => {
  if (verdict.answer === 'refused') return `${verdict.name} ${verdict.line ?? 0} ${verdict.hint.join()}`;
  return verdict.status === 1 ? `${verdict.condition} ${verdict.project ?? ''}` : verdict.form ?? 'violation';
};
const ask = (a: Auditor): string => told(a.prices('', new Uint8Array(), { stable: true, outcome: '' }));
const page = (a: Auditor): string => a.page('', new ArrayBuffer(0), { language: 'de-AT', names: { election: 'a.pb' } }).text;
const groups = (verdict: Verdict): 'strict' | 'weak' | 'little' | null => verdict.saysOfGroups;
const short = (a: Auditor): string => {
  const verdict = a.groups('', { satisfaction: 'count', outcome: '' });
  return verdict.status === 1 ? `${verdict.measure} ${verdict.voters}` : `${verdict.status === 0 && verdict.measure}`;
};
const stable = (a: Auditor): boolean | undefined => {
  const verdict = a.refutation('', '', { stable: true });
  return verdict.status === 0 ? verdict.stable : undefined;
};
const later = async (a: AsyncAuditor | WorkerAuditor, blob: BlobSource, stream: StreamSource, any: AnySource): Promise<string> => {
  const verdict = await a.groups(blob, { satisfaction: 'count', outcome: stream });
  const more: LaterFor<ForPrices> = { stable: true, outcome: blob };
  return [told(verdict), told(await a.prices(stream, '', more)), (await a.folder([['a.pb', any]])).text].join();
};
workerAuditor().then(w => later(w, file, body, '').finally(() => w.close()));
asyncAuditor().then(b => later(b, file, body, new Uint8Array()));
auditor().then(a => [short(a), stable(a), ask(a), page(a), groups(a.prices(new DataView(new ArrayBuffer(0)), '')), a.folder(new Map([['a.pb', '']])).files.map(({ file }) => file), a.read('').text]);
"""
# Each is a mistake that the types have to tell.
MISTAKES = ["told(a.read(''))", "a.prices('')", "a.prices('', '', { stabel: true })", "a.page('', '', { language: 'xx' })",
            "a.violation('', '', { stable: true })", "a.violation('', '').condition", "a.folder(['a.pb'])",
            "a.prices('', null)", "a.prices('', '', { stable: 'true' })", "a.read(new Blob([]))", "a.folder(null)",
            "a.tidy('', '', { outcome: '' })", "a.groups('', { satisfaction: 'votes' })", "a.groups('', { stable: true })",
            "a.refutation('', '', { cover: true })", "a.read(file)", "a.read(body)", "a.close()"]  # fmt: skip
LATER_MISTAKES = ["b.read(1)", "b.read({ size: 1 })", "told(b.read(file).answer)", "b.groups(file, { outcome: 1 })",
                  "b.prices(file, file, { stabel: true })", "b.close()", "b.folder(['a.pb'])"]  # fmt: skip
# What is a file to those who have the types of browsers.
IN_BROWSERS = """
const response = new Response('');
asyncAuditor().then(b => [b.read(new Blob([])), b.read(new File([], 'a.pb')), b.read(response.body!), b.read(new Blob([]).stream())]);
"""
IN_BROWSERS_MISTAKES = ["a.read(new Blob([]))", "b.read(response)", "b.read(response.body)", "b.read(document.body)"]


def ends(command, words, cwd, stdin=b""):
    ran = subprocess.run([command, *words], cwd=cwd, input=stdin, capture_output=True, timeout=120, check=False)
    return ran.returncode, ran.stdout, ran.stderr


def test_examples(program, command):
    for words in (line.split(" ") for line in ANSWERS):
        assert ends(command, words, EXAMPLES) == ends(program, words, EXAMPLES), words


def test_files_by_chance(program, command, tmp_path):
    """Status, answer, notes and hints, byte for byte, half of the files being damaged."""
    def differs(number):
        case = numbered("javascript", number)
        room = tmp_path / str(number)
        room.mkdir()
        write_files(room, case.files)
        words, stdin = ([], case.stdin) if case.stdin is not None else (case.words, b"")
        wanted, found = ends(program, words, room, stdin), ends(command, words, room, stdin)
        return [] if wanted == found else [f"{words}: the program ends with {wanted}, the command with {found}"]

    with concurrent.futures.ThreadPoolExecutor(4) as threads:
        told = list(threads.map(differs, range(CASES)))
    assert len(told) == CASES and not sum(told, [])


@pytest.mark.parametrize("words", [
    ["read", "missing.pb"], ["read", "."], ["read", ""], ["read", "-"], ["read", "a\tb\u202e.pb"],
    ["prices", "missing.pb", "missing.csv"], ["prices", "sample.pb", "missing.csv"], ["prices", "sample.prices.csv", "no.csv"],
    ["both", "sample.pb", "missing.csv", "."], ["both", "sample.pb", "sample.pb", "missing.csv"],
    ["violation", "sample.pb", "district.violation.csv", "--outcome", "."], ["tidy", "sample.prices.csv", "."],
    ["page", "sample.pb", "sample.prices.csv", "--language", "xx"], ["read", "/dev/null"], ["folder", "."], ["folder", ""],
    ["folder", "sample.pb"], ["folder", "missing"], ["read", b"\xff.pb"], [],
], ids=str)  # fmt: skip
def test_files_that_cannot_be_read(program, command, words):
    assert ends(command, words, EXAMPLES) == ends(program, words, EXAMPLES)


def test_a_folder_of_names(program, command, tmp_path):
    names = ["", " b", "it's", '"q"', "-rf", "\u00e9", "\u4f60", "\U0001f468", "A", "a.b", "z" * 200]
    for number, name in enumerate(names):
        shutil.copy(EXAMPLES / "sample.pb", tmp_path / f"{name}{number}.pb")
        certificate = "sample.prices.csv" if number % 2 else "sample.wrong.prices.csv"
        shutil.copy(EXAMPLES / certificate, tmp_path / f"{name}{number}.prices.csv")
    for name in (".pb", "b.PB", "prices.csv", "tab\t.pb", "alone.violation.csv", "1.stable.prices.csv", "a0.b.Prices.csv",
                 "A8.refutation.csv", "Refutation.CSV"):
        (tmp_path / name).write_text("nothing")
    (tmp_path / "folder.pb").mkdir()
    (tmp_path / "link.pb").symlink_to("A8.pb")
    for words in (["folder", "."], ["folder", tmp_path, "--stable"], ["folder", ".", "--json"], ["folder", "missing", "--json"]):
        assert ends(command, words, tmp_path) == ends(program, words, tmp_path)


def test_output_that_is_not_taken(command):
    with open("/dev/full", "wb") as full:
        ran = subprocess.run([command, "read", "sample.pb"], cwd=EXAMPLES, stdout=full, stderr=subprocess.PIPE, check=False)
    assert (ran.returncode, ran.stderr) == (4, b"fault write\n")


def test_words_by_chance(program, command, tmp_path):
    """Help and what is told of words that aren't understood, byte for byte."""
    chance = random.Random(1)
    lines = [[*([chance.choice(WORDS[:10])] if chance.random() < 0.6 else []), *chance.choices(WORDS, k=chance.randint(0, 5))]
             for _ in range(LINES)]  # fmt: skip
    with concurrent.futures.ThreadPoolExecutor(4) as threads:
        found, wanted = (list(threads.map(lambda line: ends(each, line, tmp_path), lines)) for each in (command, program))
    assert [line for line, *both in zip(lines, found, wanted, strict=True) if both[0] != both[1]] == []
    assert {status for status, *_ in wanted} >= {0, 2, 3}


@pytest.fixture(scope="module")
def told(either):
    (either / "caller.mjs").write_text(CALLER)
    ran = subprocess.run(["node", "caller.mjs", EXAMPLES], cwd=either, stdout=subprocess.PIPE, check=True)
    return json.loads(ran.stdout)


@pytest.mark.parametrize("certificate, wanted", [
    ("prices", (0, b"supported priceable\n", b"")), ("short.prices", (1, b"failed C3 project 101\n", b"")),
    ("violation", (2, b"refused certificate 21 BadHead record 1\n",
                   b"line 1: expected the record pb-prices,1, but found 'pb-violation,1'\n"
                   b"this is a violation certificate, not a price certificate\n"))])  # fmt: skip
def test_the_example_of_the_documents(either, certificate, wanted):
    """That of docs/LIBRARY.md, on the files that it names, and on one of another kind."""
    shown = (TOP / "docs/LIBRARY.md").read_text(encoding="utf-8")
    example = re.search(r"\n\n(    import \{ readFileSync \}(?:.|\n)*?)\n\n(?! {4})", shown)[1]
    (either / "verify.mjs").write_text(re.sub("^    ", "", example, flags=re.MULTILINE))
    assert ends("node", ["verify.mjs", EXAMPLES / "district.pb", EXAMPLES / f"district.{certificate}.csv"], either) == wanted
    # What is refused as a whole is on no line.
    told = ends("node", ["verify.mjs", "/dev/null", EXAMPLES / f"district.{certificate}.csv"], either)
    assert told == (2, b"refused election 2 NoMeta record 1\n", b"the file is blank; META is missing\n")


def test_verdicts_have_facts(told):
    # Three voters with 4 each have more than the limit, 10.
    assert told["yes"] == {"status": 0, "answer": "yes", "form": "stable", "saysOfGroups": "strict", "notes": [],
                           "text": "supported stable\n"}  # fmt: skip
    assert told["no"] == {"status": 1, "answer": "no", "condition": "S5", "project": "102", "saysOfGroups": None,
                          "notes": [], "text": "failed S5 project 102\n"}  # fmt: skip
    assert told["text"]["form"] == "priceable"
    assert (told["violation"]["answer"], told["violation"]["saysOfGroups"]) == ("yes", None)
    assert told["read"] == {"status": 0, "answer": "read", "voters": 3, "projects": 3, "funded": 2, "notes": [],
                            "remarks": [], "text": "read 3 voters 3 projects 2 funded\n"}  # fmt: skip


@pytest.mark.parametrize("budget, exhaustive, wanted", [
    (1999, False, "strict"), (1999, True, "strict"), (2000, False, "weak"), (2000, True, "strict"), (2001, False, "little"),
    (2001, True, "little"),
])  # fmt: skip
def test_what_a_yes_says_of_groups(either, budget, exhaustive, wanted):
    """Two voters have 1000 each. Nothing that they didn't get can be afforded, so Exhaustive holds."""
    (either / "groups.mjs").write_text(r"""
import { auditor } from 'pbaudit';
const [budget, exhaustive] = JSON.parse(process.argv[2]), a = await auditor();
const pb = `META\nkey;value\nbudget;${budget}\nvote_type;approval\nPROJECTS\nproject_id;cost;selected\na;1;1\nb;3000;0\n`
  + 'VOTES\nvoter_id;vote\n1;a,b\n2;b\n';
const prices = 'pb-prices,1\ndenominator,1\nvoter_budget,1000\nvoter,project,payment\n1,a,1\n';
const group = 'pb-violation,1\nproject,b\nvoter,1\n', asked = { exhaustive };
const yes = [a.prices(pb, prices, asked), a.explain(pb, prices, asked), a.page(pb, prices, asked),
             a.both(pb, prices, group, asked).prices];
const others = [a.prices(pb, prices.replace('1,a,1', '1,a,2'), asked), a.prices(pb, group, asked), a.violation(pb, group),
                a.both(pb, prices, group, asked).violation, a.explain(pb, group), a.page(pb, group)];
console.log(JSON.stringify([yes.map(({ answer }) => answer), ...[yes, others].map(all => all.map(each => each.saysOfGroups))]));
""")
    ran = subprocess.run(["node", "groups.mjs", json.dumps([budget, exhaustive])], cwd=either, stdout=subprocess.PIPE,
                         check=True)  # fmt: skip
    assert json.loads(ran.stdout) == [["yes"] * 4, [wanted] * 4, [None] * 6]


def test_both_has_two_verdicts(told):
    """Each with its own line. In sample.pb three voters have 4 each, which is more than the limit, 10, and pay for what is funded; `c` costs
    9, and its supporter has 2 left. Voter 1, who is the group, doesn't want `c`. In school.pb 100 voters have 10 each, which is less than the
    limit; ten pay for the bench, and nobody can offer more than 10 for the school, of 90,000. The group are the other 90, whose share is what
    the school costs, and who got nothing. What remains of the limit is enough for the school."""
    violation = {"status": 0, "answer": "yes", "saysOfGroups": None, "notes": [], "text": "violation\n"}
    first, little, unexhausted = told["both"]
    assert first == {
        "status": 1, "answer": "no", "text": "supported priceable\nfailed V2 voter 1 project c\n",
        "prices": {"status": 0, "answer": "yes", "form": "priceable", "saysOfGroups": "strict", "notes": [], "text": "supported priceable\n"},
        "violation": {"status": 1, "answer": "no", "condition": "V2", "voter": 1, "project": "c", "saysOfGroups": None, "notes": [],
                      "text": "failed V2 voter 1 project c\n"},
    }  # fmt: skip
    assert little == {
        "status": 0, "answer": "yes", "text": "supported stable\nviolation\n", "violation": violation,
        "prices": {"status": 0, "answer": "yes", "form": "stable", "saysOfGroups": "little", "text": "supported stable\n",
                   "notes": ["note: the voter budgets together are less than the limit, so this yes says little"]},
    }  # fmt: skip
    assert unexhausted == {
        "status": 1, "answer": "no", "text": "failed Exhaustive project school\nviolation\n", "violation": violation,
        "prices": {"status": 1, "answer": "no", "condition": "Exhaustive", "project": "school", "saysOfGroups": None, "notes": [],
                   "text": "failed Exhaustive project school\n"},
    }  # fmt: skip


def test_notes_on_columns_that_are_not_used(either):
    """As the program notes them, which doesn't with `both`; the files are counted as always."""
    (either / "columns.mjs").write_text(r"""
import { readFileSync } from 'node:fs';
import { auditor } from 'pbaudit';
const file = name => readFileSync(`${process.argv[2]}/${name}`).toString(), a = await auditor();
const pb = file('sample.pb').replace('voter_id;vote', 'voter_id;vote;weight;points').replace(/^(\d;[a-c,]+)$/gm, '$1;1;2');
const answers = [a.read(pb), a.prices(pb, file('sample.prices.csv')), a.violation(pb, file('sample.wrong.violation.csv'))];
const both = a.both(pb, file('sample.prices.csv'), file('sample.wrong.violation.csv'));
console.log(JSON.stringify([...answers, both.prices, both.violation].map(({ notes }) => notes)));
""")
    ran = subprocess.run(["node", "columns.mjs", EXAMPLES], cwd=either, stdout=subprocess.PIPE, check=True)
    notes = [f"note: column {name} of VOTES is not used" for name in ("weight", "points")]
    assert json.loads(ran.stdout) == [notes, notes, notes, [], []]


def test_groups_that_fall_short(told):
    """In sample.pb one voter wants `c`, and has a third of the limit, 10: its cost is 9, and funded for that voter is 4. In
    school.pb 90 of 100 got nothing, and have 90 % of the limit, which is what the school costs. All of sample.pb costs 19."""
    satisfied = {"status": 0, "answer": "yes", "measure": "cost", "saysOfGroups": None, "text": "satisfied ejr+ by cost\n"}
    yes, no, over = told["groups"]
    assert yes == {**satisfied, "notes": []}
    assert no == {"status": 1, "answer": "no", "condition": "EJR+", "measure": "count", "voters": 90, "project": "school",
                  "saysOfGroups": None, "notes": [], "text": "failed EJR+ by count voters 90 project school\n"}  # fmt: skip
    assert over == {**satisfied, "notes": ["note: the funded projects cost more than the limit"]}


def test_figures_of_groups(program, told):
    """The texts are the program's; the facts are those of the answer on groups."""
    explained, margins, page, over = told["onGroups"]
    assert (explained["answer"], explained["measure"], explained["notes"]) == ("yes", "cost", [])
    assert explained["text"].encode() == ends(program, ["explain", "sample.pb", "--groups"], EXAMPLES)[1]
    assert (margins["answer"], margins["text"].encode()) == ("written", ends(program, ["margins", "sample.pb", "--groups"], EXAMPLES)[1])
    assert (page["status"], page["answer"], bool(page["sentence"])) == (1, "no", True)
    assert over["notes"] == ["note: the funded projects cost more than the limit"]


def test_a_refutation_asked_about_stable_prices(told):
    """It refutes all prices with Cover, and that is the answer."""
    assert told["refutation"] == {"status": 0, "answer": "yes", "stable": False, "cover": True, "saysOfGroups": None,
                                  "notes": [], "text": "unpriceable cover\n"}  # fmt: skip


@pytest.mark.parametrize("words", [
    ["groups", "school.pb"], ["groups", "school.pb", "--satisfaction", "count"], ["groups", "sample.pb", "--satisfaction=cost"],
    ["groups", "school.pb", "--satisfaction", "votes"], ["groups", "school.pb", "--satisfaction="], ["groups", "missing.pb"],
    ["groups", "school.pb", "--outcome", "sample.outcome.csv"], ["groups", "over.pb"], ["groups", "over.pb", "--json"],
    ["groups", "school.pb", "--satisfaction", "count", "--json"], ["groups", "school.pb", "--json", "--outcome", "missing"],
    ["read", "sample.pb", "--json"], ["read", "missing.pb", "--json"], ["read", "sample.prices.csv", "--json"],
    ["prices", "district.pb", "district.short.prices.csv", "--json"], ["both", "sample.pb", "missing.csv", "x", "--json"],
    ["prices", "district.pb", "district.violation.csv", "--json"], ["explain", "school.pb", "school.refutation.csv", "--json"],
    ["both", "sample.pb", "sample.prices.csv", "sample.wrong.violation.csv", "--json"], ["margins", "sample.pb", "--json"],
    ["explain", "sample.pb", "--groups"], ["explain", "school.pb", "--groups", "--satisfaction", "count", "--json"],
    ["explain", "over.pb", "--groups"], ["margins", "over.pb", "--groups"], ["margins", "--groups", "sample.pb"],
    ["margins", "school.pb", "--groups", "--satisfaction=count"], ["page", "sample.pb", "--groups"],
    ["page", "school.pb", "--groups", "--language", "de"], ["margins", "missing.pb", "--groups"],
    ["explain", "sample.pb", "--groups", "--outcome", "sample.prices.csv"], ["page", "sample.prices.csv", "--groups"],
    ["page", "sample.pb", "--groups", "--outcome", "missing"],
    ["refutation", "school.pb", "school.refutation.csv", "--stable"],
    ["refutation", "school.pb", "school.refutation.csv", "--stable", "--json"],
], ids=" ".join)  # fmt: skip
def test_groups_stable_refutations_and_objects(program, command, tmp_path, words):
    """As the program answers, with its notes, its hints and its status."""
    shutil.copytree(EXAMPLES, tmp_path / "examples")
    over = (EXAMPLES / "school.pb").read_text(encoding="utf-8").replace(";100000\n", ";99\n")
    (tmp_path / "examples/over.pb").write_text(over, encoding="utf-8")
    assert ends(command, words, tmp_path / "examples") == ends(program, words, tmp_path / "examples")


def test_refused_files_are_values(told):
    refused = told["refused"]
    assert (refused["status"], refused["answer"], refused["input"]) == (2, "refused", "certificate")
    assert (refused["number"], refused["name"], refused["record"], refused["line"]) == (24, "UnknownVoter", 4, 4)
    assert refused["hint"][0] == "there is no voter '20582'; the election has 60 voters"
    assert told["bothRefused"]["input"] == "violation"
    assert told["bothRefused"]["hint"][1] == "this is a price certificate, not a violation certificate"
    assert told["isError"]


def test_options_that_are_misspelt_are_refused(told):
    assert told["misspelt"] == ["'stabel'"] * 3 + ["'outcom'"] * 3 + ["'covered'", "'outcome'"]


def test_texts_are_the_programs(program, told):
    def says(*words):
        return ends(program, words, EXAMPLES)[1].decode()

    assert told["explain"]["text"] == says("explain", "district.pb", "district.prices.csv")
    assert told["margins"]["text"] == says("margins", "sample.pb", "sample.prices.csv")
    assert told["tidy"]["text"] == says("tidy", "sample.pb", "sample.untidy.prices.csv")
    assert 'lang="de"' in told["page"]["text"] and "x.pb" in told["page"]["text"] and told["page"]["sentence"]
    assert told["folder"]["text"].endswith("total 2 elections 0 yes 1 no 1 refused\n")
    assert [each["file"] for each in told["folder"]["files"]] == ["a.pb", "a.prices.csv", "b.pb"]


# Has a folder answered under each mode that is given, by each kind of auditor.
OF_A_FOLDER = """
import { readdirSync, readFileSync } from "node:fs";
import { asyncAuditor, auditor } from "pbaudit";
import { workerAuditor } from "pbaudit/worker";
const [folder, modes] = process.argv.slice(2), files = new Map(readdirSync(folder).map(name => [name, readFileSync(`${folder}/${name}`)]));
const told = [];
for (const one of [await auditor(), await asyncAuditor(), await workerAuditor()]) {
  for (const mode of JSON.parse(modes)) {
    const { status, text } = await one.folder(files, mode);
    told.push([status, text]);
  }
  one.close?.();
}
console.log(JSON.stringify(told));
"""
MODES = {"": {}, "--stable": {"stable": True}, "--no-exhaustive --cover": {"exhaustive": False, "cover": True}}


def test_a_folder_is_the_programs(program, either, room):
    """The examples, an election that is refused and one without an outcome, and names that are hard to keep as they are."""
    for name in os.listdir(EXAMPLES):
        if name.startswith(("district.", "hall.", "sample.", "school.")):
            shutil.copy(EXAMPLES / name, room)
    sample, prices = ((EXAMPLES / f"sample.{end}").read_bytes() for end in ("pb", "prices.csv"))
    for name in ("\ufefftown", '"<b>\'', "\u00e9", "a b", "--stable", "y" * 240):
        (room / f"{name}.pb").write_bytes(sample)
        (room / f"{name}.violation.csv").write_bytes(prices)
    (room / "refused.pb").write_bytes(prices)
    (room / "refused.prices.csv").write_bytes(prices)
    (room / "without.pb").write_bytes(sample.replace(b";selected", b";funded"))
    (room / "without.prices.csv").write_bytes(prices)
    (either / "folder.mjs").write_text(OF_A_FOLDER)
    ran = subprocess.run(["node", "folder.mjs", room, json.dumps([*MODES.values()])], cwd=either, stdout=subprocess.PIPE, check=True)
    wanted = [ends(program, ["folder", ".", *words.split()], room)[:2] for words in MODES]
    assert json.loads(ran.stdout) == [[status, text.decode()] for status, text in wanted] * 3
    assert len({text for _, text in wanted}) == len(MODES)


# Ways of finding packages that tsc knows, and the system of modules that a caller is of.
WAYS = {"imported": ("mts", "node16", "node16"), "required": ("cts", "node16", "node16"), "bundled": ("ts", "es2022", "node")}


def compiled(folder, *texts, lib="es2022", ways=WAYS):
    """What tsc says of a caller, in each way of finding packages."""
    told = []
    for ending, module, way in (WAYS[each] for each in ways):
        (folder / f"caller.{ending}").write_text("\n".join(texts))
        words = ["--strict", "--noEmit", "--target", "es2022", "--module", module, "--moduleResolution", way, "--lib", lib]
        ran = subprocess.run(["tsc", *words, f"caller.{ending}"], cwd=folder, capture_output=True, text=True, check=False)
        told.append(ran.stdout)
    return told


def test_types(installed):
    assert compiled(installed, TYPED) == [""] * len(WAYS)


def test_types_with_those_of_browsers(installed):
    assert compiled(installed, TYPED, IN_BROWSERS, lib="es2022,dom", ways=["imported"]) == [""]


def calling(mistake):
    return f"Promise.all([auditor(), asyncAuditor()]).then(([a, b]) => {mistake});"


@pytest.mark.parametrize("mistake", [*MISTAKES, *LATER_MISTAKES])
def test_types_tell_mistakes(installed, mistake):
    [told] = compiled(installed, TYPED, calling(mistake), ways=["imported"])
    assert "error TS" in told


@pytest.mark.parametrize("way", ["required", "bundled"])
def test_types_tell_a_mistake_in_each_way(installed, way):
    [told] = compiled(installed, TYPED, calling("a.violation('', '', { stable: true })"), ways=[way])
    assert "error TS" in told


@pytest.mark.parametrize("mistake", IN_BROWSERS_MISTAKES)
def test_types_tell_mistakes_with_those_of_browsers(installed, mistake):
    [told] = compiled(installed, TYPED, IN_BROWSERS, calling(mistake), lib="es2022,dom", ways=["imported"])
    assert "error TS" in told


@pytest.mark.parametrize("takes", ["import {{ auditor }} from 'pbaudit';", "const {{ auditor }} = require('pbaudit');"])
@pytest.mark.parametrize("platform", ["browser", "node"])
def test_a_bundler_takes_it(installed, takes, platform):
    """What is bundled needs nothing beside it."""
    (installed / "small.js").write_text(f"{takes.format()}\nauditor().then(a => console.log(a.read('META').name));\n")
    words = ["esbuild", "small.js", "--bundle", f"--platform={platform}", "--outfile=out/small.js", "--log-level=warning"]
    assert subprocess.run(words, cwd=installed, capture_output=True, check=True).stderr == b""
    alone = shutil.copy(installed / "out/small.js", installed / "out/alone.cjs")
    told = subprocess.run(["node", alone], stdout=subprocess.PIPE, check=True)
    assert told.stdout == b"NoHeader\n"


@pytest.mark.parametrize("takes", ["import {{ workerAuditor }} from 'pbaudit/worker';",
                                   "const {{ workerAuditor }} = require('pbaudit/worker');"])  # fmt: skip
def test_a_bundler_takes_the_worker_that_is_meant(installed, takes):
    """For Node that of Node, which runs from one file, and for browsers one that has nothing of Node."""
    (installed / "away.js").write_text(f"{takes.format()}\nworkerAuditor().then(w => w.read('META')).then(({{ name }}) => console.log(name));\n")
    scripts = {}
    for platform in ("browser", "node"):
        put = installed / f"out/{platform}.cjs"
        words = ["esbuild", "away.js", "--bundle", f"--platform={platform}", f"--outfile={put}", "--log-level=warning"]
        assert subprocess.run(words, cwd=installed, capture_output=True, check=True).stderr == b""
        scripts[platform] = put.read_text(encoding="utf-8")
    assert "worker_threads" in scripts["node"] and "node:" not in scripts["browser"]
    assert "createObjectURL" in scripts["browser"] and "createObjectURL" not in scripts["node"]
    told = subprocess.run(["node", "out/node.cjs"], cwd=installed, stdout=subprocess.PIPE, check=True, timeout=60)
    assert told.stdout == b"NoHeader\n"


def test_out_of_memory_is_an_error(page, command, tmp_path):
    """With modules whose memory doesn't grow: an exception of its own, the program's line, and then the next call."""
    small, of_command = tmp_path / "small.html", tmp_path / "small.wasm"
    variants.write(page, small, lambda module: variants.with_fixed_memory(module, 12))
    of_command.write_bytes(variants.with_fixed_memory((command.parent / "pbaudit.wasm").read_bytes(), 12))
    subprocess.run([TOP / "packaging/javascript", small, of_command, tmp_path], stdout=subprocess.DEVNULL, check=True)
    with tarfile.open(next(tmp_path.glob("*.tgz"))) as package:
        package.extractall(tmp_path)
    (tmp_path / "large.pb").write_text((EXAMPLES / "sample.pb").read_text() + "4;a,b,c\n" * 2_000_000)
    ran = ends(tmp_path / "package/command.js", ["read", tmp_path / "large.pb"], tmp_path)
    assert ran == (4, b"", b"fault memory\n")
    (tmp_path / "caller.mjs").write_text("""
import { readFileSync } from 'node:fs';
import { auditor, OutOfMemory } from './package/index_node.js';
const a = await auditor();
try {
  a.read(readFileSync('large.pb'));
} catch (error) {
  console.log(error instanceof OutOfMemory, a.read(readFileSync(`${process.argv[2]}/sample.pb`)).voters);
}""")
    told = subprocess.run(["node", "caller.mjs", EXAMPLES], cwd=tmp_path, stdout=subprocess.PIPE, check=True)
    assert told.stdout == b"true 3\n"
    (tmp_path / "away.cjs").write_text("""
const { readFileSync } = require('node:fs');
const { OutOfMemory } = require('./package/cjs/index_node.js');
require('./package/cjs/worker_node.js').workerAuditor().then(async w => {
  const error = await w.read(readFileSync('large.pb')).catch(error => error);
  console.log(error instanceof OutOfMemory, (await w.read(readFileSync(`${process.argv[2]}/sample.pb`))).voters);
});""")
    told = subprocess.run(["node", "away.cjs", EXAMPLES], cwd=tmp_path, stdout=subprocess.PIPE, check=True, timeout=120)
    assert told.stdout == b"true 3\n"


def test_package_has_the_same_bytes_elsewhere(packed, page, tmp_path):
    """Also where the command's module and native code are those of a package."""
    for name in ("web", "packaging", "CHANGELOG.md", "LICENSE", "python/pbaudit", "crates/pb_words/src"):
        (tmp_path / "copy" / name).parent.mkdir(parents=True, exist_ok=True)
        if (TOP / name).is_dir():
            shutil.copytree(TOP / name, tmp_path / "copy" / name, ignore=shutil.ignore_patterns("out", "__pycache__"))
        else:
            shutil.copy(TOP / name, tmp_path / "copy" / name)
    (tmp_path / "made").mkdir()
    words = [tmp_path / "copy/packaging/javascript", page, packed, tmp_path / "made"]
    subprocess.run(words, stdout=subprocess.DEVNULL, check=True)
    assert (tmp_path / "made" / packed.name).read_bytes() == packed.read_bytes()


def put_package(path, **files):
    with tarfile.open(path, "w:gz") as package:
        for name, data in files.items():
            entry = tarfile.TarInfo(f"package/{name}")
            entry.size = len(data)
            package.addfile(entry, io.BytesIO(data))
    return path


def test_of_a_package_the_command_and_native_code_are_taken(page, tmp_path):
    """By their names: others, which could lie anywhere, aren't."""
    native = {"native/pbaudit-linux-x64.node": b"one", "native/pbaudit-darwin-arm64.node": b"other"}
    others = {"native/../../../out.node": b"", "native/pbaudit-../x.node": b"", "native/x.node": b"", "native/pbaudit-linux-x64.node.js": b""}
    given = put_package(tmp_path / "given.tgz", **{"pbaudit.wasm": b"command"}, **native, **others)
    (tmp_path / "room/made").mkdir(parents=True)
    subprocess.run([TOP / "packaging/javascript", page, given, tmp_path / "room/made"], stdout=subprocess.DEVNULL, check=True)
    with tarfile.open(next((tmp_path / "room/made").iterdir())) as package:
        names = {entry.name.removeprefix("package/") for entry in package}
        assert {name: package.extractfile(f"package/{name}").read() for name in ("pbaudit.wasm", *native)} == {"pbaudit.wasm": b"command", **native}
    assert {name for name in names if "native" in name} == {*native}
    assert [*tmp_path.rglob("out.node"), *tmp_path.rglob("x.node")] == []


@pytest.mark.parametrize("files, addons, why", [
    ({"package.json": b"{}"}, [], "the package for COMMAND has no pbaudit.wasm"),
    ({"pbaudit.wasm": b""}, ["linux-x64.node"], "linux-x64.node is no name of an addon: it is pbaudit-PLATFORM-ARCH.node"),
])  # fmt: skip
def test_no_package_is_made_without_its_command_or_with_another_addon(page, tmp_path, files, addons, why):
    given = put_package(tmp_path / "given.tgz", **files)
    (tmp_path / "made").mkdir()
    done = subprocess.run([TOP / "packaging/javascript", page, given, tmp_path / "made", *addons], capture_output=True, text=True)
    assert (done.returncode, done.stderr) == (1, f"javascript: {why}\n") and [*(tmp_path / "made").iterdir()] == []


def test_package_is_named_as_what_is_released_or_isnt(packed):
    state = subprocess.run([TOP / "packaging/version", "--state"], stdout=subprocess.PIPE, text=True, check=True).stdout.strip()
    with tarfile.open(packed) as package:
        about = json.load(package.extractfile("package/package.json"))
    assert (packed.name, about["version"]) == (f"pbaudit-{state}.tgz", state)


def files_of(packed):
    """The texts of the package: all but the module of the command and native code."""
    with tarfile.open(packed) as package:
        files = {entry.name.removeprefix("package/"): package.extractfile(entry).read() for entry in package}
    return {name: data.decode() for name, data in files.items() if not name.endswith((".wasm", ".node"))}


def test_package_needs_nothing(packed):
    files = files_of(packed)
    about = json.loads(files["package.json"])
    with tarfile.open(packed) as package:
        assert {entry.uname + entry.gname for entry in package} == {""}
    assert not {"dependencies", "scripts", "peerDependencies"} & set(about)
    scripts = {name: text for name, text in files.items() if name.endswith(".js") and "generated" not in name}
    own = r"\./(?:index|index_node|generated|generated_worker)\.js"
    assert len(scripts) == 9
    assert not re.findall(rf"""(?:from |import\(?|require\()["'](?!node:|{own})""", "".join(scripts.values()))
    with_node = {name for name, text in scripts.items() if "node:" in text}
    wanted = {"command.js", *(f"{folder}{name}_node.js" for folder in ("", "cjs/") for name in ("index", "worker"))}
    assert with_node == wanted, "what a bundler takes for browsers has nothing of Node"
    assert not [name for name, text in files.items() if "generated_worker" in name and "node:" in text]


def test_package_has_native_code(packed, addons):
    with tarfile.open(packed) as package:
        files = {entry.name.removeprefix("package/native/"): package.extractfile(entry).read() for entry in package if "/native/" in entry.name}
    assert files == {addon.name: addon.read_bytes() for addon in addons}


def places_in(about):
    """Each file that package.json names, with the conditions on the way to it."""
    def among(value, *way):
        if isinstance(value, str):
            yield way, value
        for name, inner in value.items() if isinstance(value, dict) else ():
            yield from among(inner, *way, name)
    return list(among(about["exports"]))


def test_package_names_its_files(packed):
    files = files_of(packed)
    about = json.loads(files["package.json"])
    places = places_in(about)
    assert {way[0] for way, _ in places} == {".", "./worker", "./package.json"}
    for way, path in [*places, (("main",), about["main"]), (("module",), about["module"]), (("types",), about["types"])]:
        assert path.removeprefix("./") in files, (way, path)
        assert path.endswith(".d.ts") == ("types" in way), (way, path)
    for entry in (".", "./worker"):
        assert [*about["exports"][entry]] == ["import", "require"]
        for system in about["exports"][entry].values():
            assert next(iter(system)) == "types" and [*system][-1] == "default", "the first that fits is taken"
    kinds = {about["type"], json.loads(files["cjs/package.json"])["type"]}
    assert kinds == {"module", "commonjs"} and len(about["keywords"]) > 3
    assert {path for path in files if path.endswith(".d.ts") and path.startswith("types/")} == {
        path.removeprefix("cjs/") for path in files if path.endswith(".d.ts") and path.startswith("cjs/")}


def test_npm_runs_it(packed, program, tmp_path):
    if not shutil.which("npx"):
        pytest.skip("npx is not installed")
    shutil.copytree(EXAMPLES, tmp_path / "examples")
    shutil.copy(packed, tmp_path / "examples")
    words = ["prices", "district.pb", "district.prices.csv", "--stable"]
    npx = ["--yes", "--offline", "--cache", tmp_path / "cache", f"./{packed.name}"]
    assert ends("npx", [*npx, *words], tmp_path / "examples") == ends(program, words, EXAMPLES)
