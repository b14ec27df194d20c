"""The wheel for any platform, unpacked, with the command of the package for JavaScript that is made of what is built here: Python's calls and its command `pbaudit` answer by Node as the program does, and without Node they say what is missing."""
import os
import re
import shlex
import sys

import pytest

from common import TOP, needs, ran

EXAMPLES = TOP / "examples"
WRITE = """
import pathlib, sys, wheel_writer
wheel_writer.write_module_wheel(sys.argv[1], pathlib.Path(sys.argv[2]).read_bytes())
"""
# As the script or the program does that pip makes of the entry point.
COMMAND = """
import importlib.metadata, sys
entry, = importlib.metadata.distribution("pbaudit").entry_points
assert (entry.group, entry.name) == ("console_scripts", "pbaudit")
sys.exit(entry.load()())
"""
VALUES = """
import pbaudit
a, b = projects = pbaudit.Project("a", 6), pbaudit.Project("b", 4)
profile = [{a, b}, {a}, {b}]
"""
AUDITS = f"""{VALUES}
verdict = pbaudit.audit_prices("district.pb", "district.short.prices.csv")
print(bool(verdict), verdict, verdict.condition, verdict.project)
print(pbaudit.audit_violation("district.pb", "district.violation.csv", "district.other.outcome.csv"))
try:
    pbaudit.audit_violation("district.pb", "district.voter-id.violation.csv")
except pbaudit.Refusal as refusal:
    print(refusal.line, refusal.name, refusal.reason.splitlines()[0])
print(pbaudit.validate_price_system(pbaudit.Instance(projects, 10), profile, projects, 4, [{{a: 2, b: 2}}, {{a: 4}}, {{b: 1}}]))
"""
AUDITED = """\
False failed C3 project 101 C3 101
violation
4 UnknownVoter certificate:4: there is no voter '20582'; the election has 60 voters
failed C3 project b
"""
# A yes to prices is followed by what it says of groups.
YES = f"""{VALUES}
verdict = pbaudit.validate_price_system(pbaudit.Instance(projects, 10), profile, projects, 4, [{{a: 2, b: 2}}, {{a: 4}}, {{b: 2}}])
print(verdict, verdict.says_of_groups)
print(pbaudit.audit_groups("hall.pb", satisfaction="count"))
"""


def unpacked(package, folder):
    """A folder with the wheel that has this package for JavaScript, as Python finds it."""
    needs("node")
    made = ran(sys.executable, "-B", "-c", WRITE, folder, package, cwd=TOP / "python/backend")
    assert made.returncode == 0, made.stderr
    wheel, = folder.glob("*-py3-none-any.whl")
    assert ran(sys.executable, "-m", "zipfile", "-e", wheel, folder / "site").returncode == 0
    return folder / "site"


def python(site, *words, **given):
    environment = {"PATH": os.environ["PATH"], "PYTHONPATH": str(site), "PYTHONDONTWRITEBYTECODE": "1", **given}
    return ran(sys.executable, *words, cwd=EXAMPLES, env=environment)


@pytest.fixture(scope="module")
def site(again, tmp_path_factory):
    packages = [*again.glob("*.tgz")]
    if not packages:
        pytest.skip("it isn't built here")
    return unpacked(packages[0], tmp_path_factory.mktemp("unpacked"))


def test_calls(site):
    done = python(site, "-c", AUDITS)
    assert (done.returncode, done.stdout) == (0, AUDITED), done.stderr


@pytest.mark.parametrize("command", [["-m", "pbaudit"], ["-c", COMMAND]], ids=["module", "command"])
@pytest.mark.parametrize("words, status, told", [
    (["prices", "district.pb", "district.short.prices.csv"], 1, "failed C3 project 101\n"),
    (["refutation", "school.pb", "school.refutation.csv"], 0, "unpriceable cover\n"),
    (["violation", "district.pb", "none.csv"], 2, "refused certificate 18 Read record 0\n"),
])  # fmt: skip
def test_command(site, command, words, status, told):
    done = python(site, *command, *words)
    assert (done.returncode, done.stdout) == (status, told), done.stderr


def test_folder_by_workers(site):
    """Each of which has Node answer: the lines and the status of the program."""
    text = (EXAMPLES / "answers.txt").read_text(encoding="utf-8")
    (told, status), = re.findall(r"^pbaudit folder \.\n((?:.*\n)*?)status (\d)$", text, re.MULTILINE)
    done = python(site, "-m", "pbaudit", "folder", ".", "--workers", "2")
    assert (done.returncode, done.stdout) == (int(status), told), done.stderr


@pytest.mark.parametrize("words", [["-m", "pbaudit", "prices", "sample.pb", "sample.prices.csv"], ["-c", AUDITS]])
def test_without_node(site, tmp_path, words):
    """It doesn't take a command of its own name for the program."""
    (tmp_path / "pbaudit").write_text("#!/bin/sh\necho supported priceable\n")
    (tmp_path / "pbaudit").chmod(0o755)
    done = python(site, *words, PATH=str(tmp_path))
    assert done.returncode in (1, 4) and done.stdout == ""
    assert "this is the wheel of pbaudit for any platform, which answers by Node 18 or newer, and there is no command node" in done.stderr


def test_it_answers_as_the_program(site):
    """What follows a yes, and each command of examples/answers.txt that Python has too."""
    done = python(site, "-c", YES)
    assert (done.returncode, done.stdout) == (0, "supported priceable strict\nfailed EJR+ by count voters 2 project dance\n"), done.stderr
    text = (EXAMPLES / "answers.txt").read_text(encoding="utf-8")
    found = re.findall(r"^pbaudit (.*)\n((?:.*\n)*?)status (\d)$", text, re.MULTILINE)
    tried = [(shlex.split(line), told, int(status)) for line, told, status in found if "--groups" not in line and not line.startswith("page ")]
    assert len(tried) > 30
    for words, told, status in tried:
        done = python(site, "-m", "pbaudit", *words)
        assert (done.returncode, done.stdout) == (status, told), words
