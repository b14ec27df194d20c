"""Files that the package for JavaScript reads first, here or in a worker: Blobs, streams and the bodies of responses get the answer
that their bytes get, whether the package was imported or required."""
import json
import re
import subprocess

import pytest

import handing
from handing import CALLS, with_options
from tables import EXAMPLES

# Who answers later: here and in a worker, as it is imported and as it is required.
LATER = ["b", "w", "rb", "rw"]
FORMS = {
    "text": "{}.toString()", "bytes": "new Uint8Array({})", "a buffer": "whole({})", "a shared one": "shared({})",
    "a view": "new DataView(inside({0}), 8, {0}.length)", "a Blob": "new Blob([{}])", "a File": "new File([{}], 'a.pb')",
    "a part of a Blob": "new Blob(['x', {0}, 'y']).slice(1, {0}.length + 1)", "a Blob's stream": "new Blob([{}]).stream()",
    "a body": "new Response({}).body", "a stream": "stream({0}.subarray(0, 3), whole({0}.subarray(3)))",
    "a stream of buffers": "stream(whole({0}.subarray(0, 9)), shared({0}.subarray(9)))",
}  # fmt: skip
# What a call hands in as a file.
FILE = re.compile(r"(?<![.\w'])(?:pb|prices|group|file\('[^']*'\))(?![\w'])")
WANTED = "text, bytes, a Blob or a stream"
NO_FILE = {"null": "null", "undefined": "undefined", "1": "1", "{}": "an Object", "[1, 2]": "an Array", "new Map()": "a Map",
           "new Response(pb)": "a Response: await its arrayBuffer()", "Promise.resolve(pb)": "a Promise: await it",
           "{ size: 1, arrayBuffer: async () => whole(pb) }": "an Object: await its arrayBuffer()",
           "{ locked: false, getReader: () => stream(pb).getReader() }": "an Object", "Object.create(Blob.prototype)": "a Blob",
           "Object.create(ReadableStream.prototype)": "a ReadableStream", "new TransformStream()": "a TransformStream",
           "process.stdin": "an Object: hand in Readable.toWeb() of it",
           "stream(pb).getReader()": "a ReadableStreamDefaultReader"}  # fmt: skip


@pytest.fixture(scope="module")
def evaluate(either):
    with handing.evaluating(either) as by:
        yield by


@pytest.fixture
def refuses(evaluate):
    """Sees that a call ends with a TypeError in whose message these words are."""
    def by(expression, *words):
        told = evaluate(expression)
        assert told.get("error") == "TypeError", (expression, told)
        assert [word for word in words if word not in told["text"]] == [], (expression, told)
    return by


def by_form(call, who, form):
    """A call with each of its files in a form."""
    return who + FILE.sub(lambda file: FORMS[form].format(file[0]), CALLS[call])[1:]


def test_forms_are_put_in_each_place():
    assert by_form("both", "w", "a Blob") == "w.both(new Blob([pb]), new Blob([prices]), new Blob([group]), {})"
    assert by_form("folder", "b", "a body") == (
        "b.folder([['a.pb', new Response(pb).body], ['a.prices.csv', new Response(prices).body]], {})")


@pytest.mark.parametrize("who", LATER)
@pytest.mark.parametrize("form", FORMS)
def test_forms_of_a_file(evaluate, who, form):
    for call, at_hand in CALLS.items():
        wanted = evaluate(at_hand)
        assert "error" not in wanted and wanted["text"]
        assert evaluate(by_form(call, who, form)) == wanted, call


@pytest.mark.parametrize("call", CALLS)
def test_what_is_required_answers_as_what_is_imported(evaluate, call):
    assert evaluate(f"r{CALLS[call]}") == evaluate(CALLS[call])


@pytest.mark.parametrize("who", LATER)
def test_an_outcome_and_options(evaluate, who):
    """With the school funded, the ten with the bench have 10,000 for it, which by count they need twice."""
    outcome = "new Blob(['pb-outcome,1\\nproject,school\\n'])"
    told = evaluate(f"{who}.groups(new Blob([pb]), {{ satisfaction: 'count', outcome: {outcome} }})")
    assert told["text"] == "failed EJR+ by count voters 10 project bench\n"
    told = evaluate(f"{who}.prices(stream(pb), new Blob([prices]), {{ exhaustive: false, stable: true }})")
    assert told["text"] == "supported stable\n"


@pytest.mark.parametrize("who", LATER)
def test_a_refused_file_is_an_answer(evaluate, who):
    assert evaluate(f"{who}.read(new Blob(['META']))") == evaluate("a.read('META')")
    assert evaluate("a.read('META')")["answer"] == "refused"


@pytest.mark.parametrize("who", LATER)
@pytest.mark.parametrize("value", NO_FILE)
def test_other_things_are_no_files(refuses, who, value):
    refuses(f"{who}.read({value})", f"election has to be {WANTED}, and not {NO_FILE[value]}")
    refuses(f"{who}.prices(pb, {value})", f"certificate has to be {WANTED}", NO_FILE[value])
    refuses(f"{who}.folder([['a.txt', {value}]])", f"the file 'a.txt' has to be {WANTED}", NO_FILE[value])
    if value != "undefined":
        refuses(f"{who}.groups(pb, {{ outcome: {value} }})", f"outcome has to be {WANTED}", NO_FILE[value])


def test_at_hand_are_text_and_bytes_alone(refuses):
    for value in ("new Blob([pb])", "stream(pb)", "new Response(pb)"):
        for who in ("a", "ra"):
            refuses(f"{who}.read({value})", "election has to be text or bytes, and not a")


@pytest.mark.parametrize("who", LATER)
def test_streams_that_cannot_be_read(evaluate, refuses, who):
    refuses(f"{{ const s = stream(pb); s.getReader(); {who}.read(s); }}", "election is a stream that somebody else reads")
    refuses(f"{{ const s = stream(pb); {who}.prices(s, s); }}", "certificate is a stream that somebody else reads")
    for piece, shown in (("'META'", "'META'"), ("1", "1"), ("null", "null"), ("[1]", "an Array"), ("new Blob([pb])", "a Blob")):
        refuses(f"{who}.read(stream(pb.subarray(0, 1), {piece}))", "each piece of the stream election has to be bytes", shown)
    refuses(f"{who}.read(new ReadableStream({{ pull(c) {{ c.enqueue('META'); }}, cancel() {{ throw new Error('no end'); }} }}))",
            "each piece of the stream election has to be bytes")  # fmt: skip
    told = evaluate(f"{who}.read(new ReadableStream({{ start(c) {{ c.error(new Error('cut off')); }} }}))")
    assert told == {"error": "Error: cut off", "text": "cut off"}


@pytest.mark.parametrize("who", LATER)
def test_nothing_is_read_where_a_word_is_wrong(evaluate, who):
    for wrong in ("'x', { stabel: true }", "1", "new Blob(['x']), { stable: 1 }"):
        told = evaluate(f"(async s => {{ try {{ await {who}.prices(s, {wrong}); }} catch (e) {{ return `${{e.name}} ${{s.locked}}`; }} }})"
                        "(stream(pb))")  # fmt: skip
        assert told == {"answer": "TypeError false"}


@pytest.mark.parametrize("who", LATER)
def test_bytes_count_as_they_are_when_they_are_handed_in(evaluate, who):
    told = evaluate("(async all => { const told = " + who + ".read(all); all.fill(0); return told; })(new Uint8Array(pb))")
    assert told == evaluate("a.read(pb)")
    assert evaluate(f"{who}.read(new Uint8Array(pb).fill(0))") != told


@pytest.mark.parametrize("who", LATER)
def test_files_of_a_folder_that_are_not_audited_are_not_read(evaluate, who):
    told = evaluate(f"(async s => {{ await {who}.folder([['a.pb', new Blob([pb])], ['notes.txt', s]]); return s.locked; }})(stream(pb))")
    assert told == {"answer": False}


@pytest.mark.parametrize("who", LATER)
def test_a_file_that_is_too_long(evaluate, who):
    """A stream without an end is read so far that it is refused for its length, and no further."""
    told = evaluate("(async () => { let end = ''; const piece = new Uint8Array(2 ** 24).fill(10); const told = await "
                    + who + ".read(new ReadableStream({ pull(c) { c.enqueue(piece); }, cancel() { end = 'cancelled'; } })); "
                    "return `${told.name} ${end}`; })()")  # fmt: skip
    assert told == {"answer": "TooLong cancelled"}


def test_many_calls_at_once(evaluate):
    told = evaluate("Promise.all(Array.from({ length: 60 }, (_, at) => at % 3 ? w.read(new Blob([pb])) : w.prices(pb, stream(prices)))"
                    ").then(all => all.map(({ answer }) => answer).join())")  # fmt: skip
    assert told["answer"].split(",") == [*["no", "read", "read"] * 20]


PENDING = """
import { readFileSync } from 'node:fs';
import { asyncAuditor } from 'pbaudit';
import { workerAuditor } from 'pbaudit/worker';

const small = readFileSync(`${process.argv[2]}/sample.pb`, 'utf8');
const large = small + Array.from({ length: 600000 }, (_, at) => `${at + 4};a,b,c\\n`).join('');
/** How often something else runs while an audit does. */
async function ranBeside(a) {
  await a.read(small);
  const file = new Blob([large]);
  let others = 0;
  const timer = setInterval(() => others++, 1);
  const { voters } = await a.groups(file).then(() => a.read(file));
  clearInterval(timer);
  return { voters, others };
}
console.log(JSON.stringify([await ranBeside(await asyncAuditor()), await ranBeside(await workerAuditor())]));
"""


def test_a_worker_lets_others_run(either):
    """Here an audit stands in the way of what else would run, and in a worker it doesn't."""
    (either / "pending.mjs").write_text(PENDING)
    ran = subprocess.run(["node", "pending.mjs", EXAMPLES], cwd=either, stdout=subprocess.PIPE, check=True, timeout=300)
    here, away = json.loads(ran.stdout)
    assert here["voters"] == away["voters"] == 600003
    assert away["others"] > 10 * max(1, here["others"]), (here, away)


FULL = """
import { readFileSync } from 'node:fs';
import { asyncAuditor, auditor, OutOfMemory } from 'pbaudit';
import { workerAuditor } from 'pbaudit/worker';

const pb = readFileSync(`${process.argv[2]}/sample.pb`), auditors = await Promise.all([auditor(), asyncAuditor(), workerAuditor()]);
const { Instance } = WebAssembly, told = [];
let isFull = true;
WebAssembly.Instance = function (...words) {
  if (isFull) throw new RangeError('WebAssembly.Instance(): Out of memory: Cannot allocate Wasm memory for new instance');
  return new Instance(...words);
};
async function tell(call) {
  await call().then(({ status }) => told.push(status), error => told.push(error instanceof OutOfMemory));
}
async function tellBoth(a) {
  await tell(async () => a.read(pb));
  await tell(async () => a.folder([['a.pb', pb]]));
}
for (const a of auditors.slice(0, 2)) await tellBoth(a);
isFull = false;
for (const a of auditors) await tellBoth(a);
console.log(JSON.stringify(told));
"""


def test_whoever_runs_the_module_has_no_memory_for_it(by_module):
    """As where a process has taken all that it may. Later there may be some again."""
    (by_module / "full.mjs").write_text(FULL)
    ran = subprocess.run(["node", "full.mjs", EXAMPLES], cwd=by_module, stdout=subprocess.PIPE, check=True, timeout=60)
    assert json.loads(ran.stdout) == [True] * 4 + [0] * 6


@pytest.mark.parametrize("ends, wanted", [
    ("console.log((await w.read(pb)).answer)", b"read\n"), ("w.read(pb).then(({ answer }) => console.log(answer))", b"read\n"),
    ("", b""),
])  # fmt: skip
def test_a_program_ends_once_all_is_answered(either, ends, wanted):
    """Also without closing the worker."""
    (either / "ending.mjs").write_text(f"""
import {{ readFileSync }} from 'node:fs';
import {{ workerAuditor }} from 'pbaudit/worker';
const pb = readFileSync(`${{process.argv[2]}}/sample.pb`), w = await workerAuditor();
{ends};
""")
    ran = subprocess.run(["node", "ending.mjs", EXAMPLES], cwd=either, capture_output=True, timeout=60, check=False)
    assert (ran.returncode, ran.stdout, ran.stderr) == (0, wanted, b"")


def test_a_worker_that_is_closed(either):
    (either / "closed.cjs").write_text("""
const { readFileSync } = require('node:fs');
const { workerAuditor } = require('pbaudit/worker');
const pb = readFileSync(`${process.argv[2]}/sample.pb`);
workerAuditor().then(async w => {
  await w.read(pb);
  const open = w.read(pb);
  await new Promise(setImmediate);
  w.close();
  for (const call of [open, w.read(pb)]) console.log(await call.then(({ answer }) => answer, ({ message }) => message));
});
""")
    ran = subprocess.run(["node", "closed.cjs", EXAMPLES], cwd=either, stdout=subprocess.PIPE, check=True, timeout=60)
    first, second = ran.stdout.decode().splitlines()
    assert first in ("the auditor was closed", "read") and second == "the auditor is closed"
