"""The module of the package for JavaScript is kept from one audit to the next, and answers as a new one does; it is given up
after a trap, out of memory, and where its memory has grown."""
import json
import subprocess

import pytest

import variants
from common import HERE
from tables import EXAMPLES

# So many megabytes beyond what the module starts with, where its memory never grows.
MEGABYTES = 12
GIVEN_UP = {"a trap": "RuntimeError", "an exception": "SyntaxError", "room that isn't there": "OutOfMemory"}
# Counts the modules that are made, and calls the package so often.
COUNTED = """
import { readFileSync } from 'node:fs';
let made = 0;
const { Instance } = WebAssembly;
WebAssembly.Instance = class extends Instance { constructor(...words) { super(...words); made++; } };
const { auditor, OutOfMemory } = await import('pbaudit'), a = await auditor();
const file = name => readFileSync(`${process.argv[2]}/${name}`), pb = file('district.pb'), prices = file('district.prices.csv');
for (let at = 0; at < 20; at++) {
  a.read(pb);
  a.prices(pb, prices, { stable: true });
  a.violation(pb, prices);
  a.page(pb, prices);
}
a.folder(Array.from({ length: 20 }, (_, at) => [[`${at}.pb`, pb], [`${at}.prices.csv`, prices]]).flat());
console.log(made);
"""


def told_by(folder, module):
    (folder / "module.wasm").write_bytes(module)
    ran = subprocess.run(["node", HERE / "web/kept.js", folder / "module.wasm", EXAMPLES], stdout=subprocess.PIPE, check=True)
    return {line["name"]: line for line in map(json.loads, ran.stdout.splitlines())}


@pytest.fixture(scope="module")
def told(page, tmp_path_factory):
    return told_by(tmp_path_factory.mktemp("kept"), variants.module_of(page))


@pytest.fixture(scope="module")
def starving(page, tmp_path_factory):
    return told_by(tmp_path_factory.mktemp("kept"), variants.with_fixed_memory(variants.module_of(page), MEGABYTES))


def test_answers_are_those_of_a_new_one(told, starving):
    assert [(name, line["differ"]) for name, line in [*told.items(), *starving.items()] if line["differ"]] == []


def test_nothing_of_what_was_before_is_in_its_memory(told, starving):
    assert [name for name, line in [*told.items(), *starving.items()] if not line["isClean"]] == []


def test_it_is_kept_after_answers_and_refusals(told):
    given_up = {"a file that is too large to be kept": None, **GIVEN_UP}
    assert {name: line.get("error") for name, line in told.items() if not line["isKept"]} == given_up
    assert len(told) > 2 * len(given_up)


def test_it_is_given_up_after_out_of_memory(starving):
    names = {"a large election": "OutOfMemory", "a file that is too large to be kept": "OutOfMemory", **GIVEN_UP}
    assert {name: line.get("error") for name, line in starving.items() if not line["isKept"]} == names


def test_package_makes_one(by_module):
    (by_module / "counted.mjs").write_text(COUNTED)
    ran = subprocess.run(["node", "counted.mjs", EXAMPLES], cwd=by_module, stdout=subprocess.PIPE, check=True)
    assert ran.stdout == b"1\n"
