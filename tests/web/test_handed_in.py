"""What a caller of the package for JavaScript hands in: it is taken as what it plainly is, or a TypeError names it."""
import re

import pytest

import handing
from common import TOP
from handing import CALLS, with_options

ON_PRICES = ("prices", "both", "explain", "page", "folder")
NO_SWITCH = ["'true'", "'false'", "'yes'", "''", "{}", "[]", "0", "1", "2", "null", "NaN", "1n", "new Boolean(false)",
             "Symbol()", "() => true"]  # fmt: skip
NO_OPTIONS = ["null", "'stable'", "''", "[]", "[true]", "1", "0", "true", "false", "1n", "new Map([['stable', true]])",
              "new Date()", "() => ({})", "Promise.resolve({})", "new (class { stable = true })()",
              "Object.create({ stable: true })",
              "Object.create(Object.create(null, { stable: { value: true } }))"]  # fmt: skip
ON_GROUPS = ("groups", "explainGroups", "groupMargins", "groupsPage")
FILES = {"both": ["election", "prices", "violation"], **{call: ["election"] for call in ("read", *ON_GROUPS)}}
NO_FILE = {"null": "null", "undefined": "undefined", "1": "1", "true": "true", "{}": "an Object", "[1, 2]": "an Array",
           "new Blob([pb])": "a Blob: await its arrayBuffer()", "Promise.resolve(pb)": "a Promise: await it",
           "new String('a')": "a String", "() => pb": "a function", "Symbol('x')": "Symbol(x)", "1n": "1",
           "new Map()": "a Map"}  # fmt: skip
SAME_FILE = ["pb.toString()", "new Uint8Array(pb)", "whole(pb)", "shared(pb)", "new Uint8Array(shared(pb))",
             "new DataView(whole(pb))", "new DataView(inside(pb), 8, pb.length)", "Buffer.from(inside(pb), 8, pb.length)",
             "new Int8Array(whole(pb))", "new Uint8ClampedArray(whole(pb))", "new Float64Array(whole(pb))",
             "new BigInt64Array(whole(pb))", "elsewhere('new Uint8Array(pb)')",
             "elsewhere('new Uint8Array(pb).buffer')"]  # fmt: skip
NO_FOLDER = ["null", "undefined", "1", "'a.pb'", "{}", "{ 'a.pb': pb }", "['a.pb']", "['ab']", "[['a.pb']]",
             "[['a.pb', pb, 1]]", "[null]", "pb"]  # fmt: skip


@pytest.fixture(scope="module")
def evaluate(either):
    with handing.evaluating(either) as by:
        yield by


@pytest.fixture
def refuses(evaluate):
    """Sees that a call throws a TypeError in whose message these words are."""
    def by(expression, *words):
        told = evaluate(expression)
        assert told.get("error") == "TypeError", (expression, told)
        assert [word for word in words if word not in told["text"]] == [], (expression, told)
        return told["text"]
    return by


def test_each_call_is_tried():
    """Those that docs/WEB.md lists."""
    listed = re.search(r"((?:`\w+`,\s+)+`\w+` and `\w+`) of `await auditor\(\)`", (TOP / "docs/WEB.md").read_text("utf-8"))
    assert {*re.findall(r"`(\w+)`", listed[1])} == {*CALLS}


@pytest.mark.parametrize("call", CALLS)
def test_usual_calls_are_answered(evaluate, call):
    told = evaluate(CALLS[call])
    assert "error" not in told and evaluate(with_options(call, "undefined")) == told
    assert evaluate(with_options(call, "Object.create(null)")) == told
    assert evaluate(with_options(call, "elsewhere('({})')")) == told


@pytest.mark.parametrize("call", ON_PRICES)
@pytest.mark.parametrize("name", ["stable", "exhaustive", "cover"])
def test_switches_are_true_or_false(refuses, call, name):
    for value in NO_SWITCH:
        refuses(with_options(call, f"{{ {name}: {value} }}"), f"'{name}'", "true or false")


def test_a_refutation_is_asked_about_stable_prices_by_true_or_false(evaluate, refuses):
    call = CALLS["refutation"]
    for value in NO_SWITCH:
        refuses(with_options("refutation", f"{{ stable: {value} }}"), "'stable'", "true or false")
    for name in ("exhaustive", "cover", "satisfaction"):
        refuses(with_options("refutation", f"{{ {name}: true }}"), f"'{name}'")
    # Weights that refute all prices refute stable ones, and the answer is the stronger one.
    for options in ("{ stable: true }", "{ stable: false }", "{ stable: undefined }"):
        assert evaluate(with_options("refutation", options)) == evaluate(call)


@pytest.mark.parametrize("value", [*NO_SWITCH[:1], "'costs'", "'COST'", "''", "null", "true", "0", "['cost']", "{}",
                                   "new String('cost')", "Symbol('cost')"])  # fmt: skip
def test_other_measures_are_refused(refuses, value):
    for call in ON_GROUPS:
        refuses(f"a.{call}(pb, {{ satisfaction: {value} }})", "'satisfaction'", "cost or count")
        refuses(f"a.{call}(pb, {{ measure: {value} }})", "'measure'")


# Of school.pb: all 100 voters approve the school, for 90,000 of a limit of 100,000; ten have got the bench, for 100. With
# the school funded, these ten have 10,000 for the bench, which by count they need twice.
@pytest.mark.parametrize("options, wanted", [
    ("{}", "failed EJR+ by cost voters 100 project school"),
    ("{ satisfaction: undefined }", "failed EJR+ by cost voters 100 project school"),
    ("{ satisfaction: 'cost' }", "failed EJR+ by cost voters 100 project school"),
    ("{ satisfaction: 'count' }", "failed EJR+ by count voters 90 project school"),
    ("{ satisfaction: 'count', outcome: 'pb-outcome,1\\nproject,school\\n' }", "failed EJR+ by count voters 10 project bench"),
])  # fmt: skip
def test_groups_are_asked_by_a_measure(evaluate, options, wanted):
    assert evaluate(f"a.groups(pb, {options})")["text"] == f"{wanted}\n"
    assert evaluate(f"a.explainGroups(pb, {options})")["text"].split("\n")[0] == wanted
    assert evaluate(f"a.groupsPage(pb, {options})")["text"].count(f"<code>{wanted}</code>") == 1
    measure = "count" if "'count'" in options else "cost"
    assert evaluate(f"a.groupMargins(pb, {options})")["text"].startswith(f"pb-groups,1\nsatisfaction,{measure}\n")


@pytest.mark.parametrize("options, wanted", [
    ("{ exhaustive: true }", "failed Exhaustive project school"),
    ("{ exhaustive: undefined }", "failed Exhaustive project school"),
    ("{ exhaustive: false }", "supported priceable"), ("{ exhaustive: false, stable: true }", "supported stable"),
    ("{ exhaustive: false, stable: false, outcome: undefined }", "supported priceable"),
    ("elsewhere('({ exhaustive: false })')", "supported priceable"),
    ("{ __proto__: null, exhaustive: false }", "supported priceable"),
])  # fmt: skip
def test_switches_that_are_ask_what_they_say(evaluate, options, wanted):
    assert evaluate(f"a.prices(pb, prices, {options})")["text"] == f"{wanted}\n"


@pytest.mark.parametrize("call", CALLS)
def test_options_are_a_plain_object(refuses, call):
    for value in NO_OPTIONS:
        refuses(with_options(call, value), "argument of options", "a plain object")


@pytest.mark.parametrize("call", CALLS)
def test_no_other_option_is_taken(refuses, call):
    refuses(with_options(call, "{ stabel: true }"), "'stabel'")
    refuses(with_options(call, "{ [Symbol('stable')]: true }"), "'Symbol(stable)'")
    if call not in (*ON_PRICES, "refutation"):
        refuses(with_options(call, "{ stable: true }"), "'stable'")
    refuses(with_options(call, "{}, { stable: true }"), call, "no more")


@pytest.mark.parametrize("language, code", [
    ("de", "de"), ("DE", "de"), ("de-AT", "de"), ("De-at", "de"), ("de-Latn-AT", "de"), ("PL", "pl"), ("fr-CA", "fr"),
    ("EN-gb", "en"),
])  # fmt: skip
def test_languages_by_their_first_part(evaluate, language, code):
    told = evaluate(f"a.page(pb, prices, {{ language: '{language}' }})")
    assert told["answer"] == "no" and f'<html lang="{code}"' in told["text"]


@pytest.mark.parametrize("value", [
    "'xx'", "''", "'d'", "'deutsch'", "'german'", "'de_AT'", "'de-'", "' de'", "'de '", "'xx-de'", "'de\\n'", "'d\u0435'",
    "null", "1", "true", "['de']", "{}", "new String('de')", "new Intl.Locale('de')",
])  # fmt: skip
def test_other_languages_are_refused(refuses, value):
    refuses(f"a.page(pb, prices, {{ language: {value} }})", "'language'", "en, pl, de or fr")


@pytest.mark.parametrize("value", ["null", "'a.pb'", "[]", "1", "new Map()"])
def test_names_are_a_plain_object(refuses, value):
    refuses(f"a.page(pb, prices, {{ names: {value} }})", "'names'", "a plain object")


def test_names_are_texts(evaluate, refuses):
    for value in ("null", "1", "{}", "[]", "pb"):
        refuses(f"a.page(pb, prices, {{ names: {{ election: {value} }} }})", "'election'", "text")
    refuses("a.page(pb, prices, { names: { prices: 'a' } })", "'prices'")
    refuses("a.groupsPage(pb, { names: { certificate: 'a' } })", "'certificate'", "those are election, outcome")
    assert "first.pb" in evaluate("a.groupsPage(pb, { names: { election: 'first.pb' }, language: 'de' })")["text"]
    refuses("a.page(pb, prices, { names: { election: '\\ud800.pb' } })", "'election'", "surrogates")
    assert "first.pb" in evaluate("a.page(pb, prices, { names: { election: 'first.pb', outcome: undefined } })")["text"]


@pytest.mark.parametrize("form", SAME_FILE)
def test_forms_of_a_file(evaluate, form):
    for call in CALLS:
        told = evaluate(re.sub(r"(?<!\.)\bpb\b", form.replace("\\", "\\\\"), CALLS[call], count=1))
        assert told == evaluate(CALLS[call]), call


@pytest.mark.parametrize("call", [call for call in CALLS if call != "folder"])
def test_other_things_are_no_files(refuses, call):
    files = FILES.get(call, ["election", "certificate"])
    for value, shown in NO_FILE.items():
        for at, name in enumerate(files):
            words = ["pb"] * len(files)
            words[at] = value
            refuses(f"a.{call}({', '.join(words)})", f"{name} has to be text or bytes", shown)
        if value != "undefined" and call not in ("read", "tidy"):
            refuses(with_options(call, f"{{ outcome: {value} }}"), "outcome has to be text or bytes", shown)
    refuses(f"a.{call}()", "election has to be text or bytes, and not undefined")


@pytest.mark.parametrize("value, word", [
    ("gone()", "handed on"), ("goneView()", "handed on"), ("'META\\ud800'", "surrogates"), ("'\\udc00'", "surrogates"),
])  # fmt: skip
def test_files_without_their_bytes_are_refused(refuses, value, word):
    refuses(f"a.read({value})", "election", word)
    refuses(f"a.folder([['a.pb', {value}]])", "'a.pb'", word)


@pytest.mark.parametrize("view", ["Uint8Array(all, 8)", "Uint8Array(all, 8, 16)", "Uint8Array(all, 6, 2)", "Float64Array(all, 8, 1)",
                                  "DataView(all, 8)", "DataView(all, 4, 4)"])  # fmt: skip
def test_views_of_buffers_that_were_cut_short(refuses, view):
    """Arrays among them say that they are empty, which would be another file."""
    for who in ("a", "b", "w"):
        refuses(f"{who}.read(cut(all => new {view}))", "election", "cut short")
        refuses(f"{who}.groups(pb, {{ outcome: cut(all => new {view}) }})", "outcome", "cut short")
    refuses(f"a.folder([['a.pb', pb], ['notes.txt', cut(all => new {view})]])", "'notes.txt'", "cut short")
    refuses(f"b.read(stream(pb, cut(all => new {view})))", "election", "cut short")


def test_views_that_are_not_cut_short(evaluate):
    for view in ("Uint8Array(all, 0, 7)", "Uint8Array(all, 7)", "Uint8Array(all, 3, 0)", "DataView(all, 0, 7)", "DataView(all, 7)", "Uint8Array(0)"):
        assert evaluate(f"a.read(cut(all => new {view}))")["answer"] == "refused"


def test_folders(evaluate, refuses):
    told = evaluate(CALLS["folder"])
    files = "['a.pb', pb], ['a.prices.csv', prices]"
    for form in (f"new Map([{files}])", f"new Set([{files}])", f"[{files}].values()",
                 "Object.entries({ 'a.pb': pb, 'a.prices.csv': prices })"):  # fmt: skip
        assert evaluate(f"a.folder({form})") == told, form
    for value in NO_FOLDER:
        refuses(f"a.folder({value})", "the files of a folder", "a Map")
    for name in ("1", "null", "undefined", "pb"):
        refuses(f"a.folder([[{name}, pb]])", "the name of a file has to be text")
    refuses("a.folder([['\\ud800.pb', pb]])", "the name of a file", "surrogates")
    refuses("a.folder([['a.pb', pb], ['a.pb', '']])", "'a.pb'", "twice")


@pytest.mark.parametrize("name", ["a.pb", "a.prices.csv", "alone.violation.csv", "read me.txt"])
def test_files_of_a_folder(refuses, name):
    """Also of one that isn't audited."""
    for value, shown in NO_FILE.items():
        refuses(f"a.folder([['a.pb', pb], ['{name}', {value}]].slice({'1' if name == 'a.pb' else '0'}))", f"'{name}'", shown)


def test_nothing_hidden_is_told(refuses):
    for expression in ("a.page(pb, prices, { language: '\\x1b[2J\\u202e' })", "a.read(pb, { '\\x1b[2J\\u202e': 1 })",
                       "a.folder([['\\x1b[2J\\u202e', 1]])", "a.read({ [Symbol.toStringTag]: '\\x1b[2J\\u202e' })"):  # fmt: skip
        assert "\ufffd[2J\ufffd" in refuses(expression)
    assert len(refuses("a.page(pb, prices, { language: 'x'.repeat(1e6) })")) < 300
