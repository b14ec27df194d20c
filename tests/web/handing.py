"""Hands things in to the package for JavaScript: each expression is evaluated by Node, and tells an answer or an error."""
import contextlib
import json
import subprocess

from tables import EXAMPLES

# Evaluates an expression on each line of standard input, and writes what it comes to.
CALLER = r"""
import { readFileSync } from 'node:fs';
import { createRequire } from 'node:module';
import { createInterface } from 'node:readline';
import vm from 'node:vm';
import { asyncAuditor, auditor } from 'pbaudit';
import { workerAuditor } from 'pbaudit/worker';

const require = createRequire(import.meta.url), required = require('pbaudit'), file = name => readFileSync(`${process.argv[2]}/${name}`);
const a = await auditor(), b = await asyncAuditor(), w = await workerAuditor();
const ra = await required.auditor(), rb = await required.asyncAuditor(), rw = await require('pbaudit/worker').workerAuditor();
const prices = file('school.prices.csv'), group = file('school.violation.csv');
const whole = bytes => { const all = new Uint8Array(bytes.length); all.set(bytes); return all.buffer; };
const shared = bytes => { const all = new SharedArrayBuffer(bytes.length); new Uint8Array(all).set(bytes); return all; };
const inside = bytes => { const all = new Uint8Array(bytes.length + 16).fill(255); all.set(bytes, 8); return all.buffer; };
// Its length can be divided by eight.
const pb = Buffer.concat([file('school.pb'), Buffer.alloc(-file('school.pb').length & 7, '\n')]);
const gone = () => { const all = whole(pb); structuredClone(all, { transfer: [all] }); return all; };
const goneView = () => { const all = new Uint8Array(pb); structuredClone(all, { transfer: [all.buffer] }); return all; };
// Views of a buffer that was cut short since: of bytes in it and behind its end, of one length and of what is there.
const cut = view => { const all = new ArrayBuffer(pb.length + 8, { maxByteLength: pb.length + 8 }), made = view(all); all.resize(7); return made; };
const stream = (...pieces) => new ReadableStream({
  start(controller) { for (const piece of pieces) controller.enqueue(piece); controller.close(); },
});
const elsewhere = text => vm.runInNewContext(text, { pb });
for await (const line of createInterface({ input: process.stdin })) {
  let told;
  try {
    const came = await eval(JSON.parse(line));
    told = typeof came === 'object' ? { answer: came.answer, text: came.text } : { answer: came };
  } catch (error) {
    told = { error: error instanceof TypeError ? 'TypeError' : `${error}`, text: error.message };
  }
  console.log(JSON.stringify(told));
}
"""
# A call of each kind, with a place for the options, and those of which prices are asked.
CALLS = {
    "read": "a.read(pb, {})", "groups": "a.groups(pb, {})", "prices": "a.prices(pb, prices, {})", "violation": "a.violation(pb, group, {})",
    "refutation": "a.refutation(pb, file('school.refutation.csv'), {})", "both": "a.both(pb, prices, group, {})",
    "explain": "a.explain(pb, prices, {})", "margins": "a.margins(pb, prices, {})", "tidy": "a.tidy(pb, prices, {})",
    "explainGroups": "a.explainGroups(pb, {})", "groupMargins": "a.groupMargins(pb, {})", "groupsPage": "a.groupsPage(pb, {})",
    "page": "a.page(pb, prices, {})", "folder": "a.folder([['a.pb', pb], ['a.prices.csv', prices]], {})",
}


def with_options(call, options):
    return CALLS[call][:-len("{})")] + options + ")"


@contextlib.contextmanager
def evaluating(installed):
    """What an expression comes to, in a folder that has the package. `a` answers at once, `b` later and `w` in a worker; with an
    `r` before it, it was required and not imported."""
    (installed / "handed.mjs").write_text(CALLER)
    node = subprocess.Popen(["node", "handed.mjs", EXAMPLES], cwd=installed, stdin=subprocess.PIPE, stdout=subprocess.PIPE,
                            text=True)  # fmt: skip

    def by(expression):
        print(json.dumps(expression), file=node.stdin, flush=True)
        return json.loads(node.stdout.readline())
    yield by
    node.stdin.close()
    node.wait()
