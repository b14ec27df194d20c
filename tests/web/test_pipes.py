"""The package's command on pipes: what writes its input and what reads its output may be slow, or go away."""
import contextlib
import fcntl
import os
import shutil
import socket
import subprocess
import threading
import time

import pytest

from tables import EXAMPLES

# A yes of each command with each of its inputs.
LINES = [
    "groups sample.pb --outcome sample.outcome.csv",
    "read sample.pb",
    "prices district.pb district.stable.prices.csv --stable --outcome district.stable.outcome.csv",
    "violation district.pb district.violation.csv --outcome district.other.outcome.csv",
    "refutation sample.pb sample.wrong.refutation.csv --outcome sample.wrong.outcome.csv",
    "both district.pb district.stable.prices.csv district.violation.csv --outcome district.stable.outcome.csv",
    "explain district.pb district.violation.csv --outcome district.other.outcome.csv",
    "margins district.pb district.stable.prices.csv --outcome district.stable.outcome.csv",
    "tidy sample.pb sample.untidy.prices.csv",
    "page district.pb district.violation.csv --outcome district.other.outcome.csv",
]  # fmt: skip
INPUTS = [(line, name) for line in LINES for name in line.split(" ") if "." in name]
# Tells by a file that standard input is read from now on.
BEFORE_READING = """
const fs = require("fs"), { syncBuiltinESMExports } = require("module"), { readSync } = fs;
fs.readSync = (file, ...words) => {
  if (file === 0) fs.writeFileSync(process.env.TRIED, "");
  return readSync(file, ...words);
};
syncBuiltinESMExports();
"""
SECONDS = 0.2
SMALL_PIPE = 4096


def ends(command, words, cwd=EXAMPLES, **how):
    ran = subprocess.run([command, *words], cwd=cwd, timeout=120, check=False, **{"capture_output": True} | how)
    return ran.returncode, ran.stdout, ran.stderr


def drip(into, data, is_awaited=lambda: True):
    """Writes data to an open file, slowly at its beginning, in its middle and at its end, once it is awaited."""
    while not is_awaited():
        time.sleep(SECONDS / 10)
    with contextlib.suppress(BrokenPipeError), into:
        for part in (data[:len(data) // 2], data[len(data) // 2:], b""):
            time.sleep(SECONDS)
            into.write(part)
            into.flush()


@contextlib.contextmanager
def dripping(open_, data, *awaited):
    """Drips data meanwhile into what this opens."""
    thread = threading.Thread(target=lambda: drip(open_(), data, *awaited), daemon=True)
    thread.start()
    yield
    thread.join(60)


@contextlib.contextmanager
def standard_input(data, kind, *awaited):
    """The reading end of what drips. A read there doesn't wait."""
    if kind == "pipe":
        end, other = (os.fdopen(each, mode, buffering=0) for each, mode in zip(os.pipe(), ("rb", "wb")))
    else:
        end, sock = socket.socketpair()
        other = sock.makefile("wb", buffering=0)
        sock.close()
    os.set_blocking(end.fileno(), False)
    with end, dripping(lambda: other, data, *awaited):
        yield end


def test_each_input_is_tried(commands):
    inputs = {command: len(names) for command, names in commands.inputs.items() if names and command != "folder"}
    assert {line.split(" ")[0]: sum(line == each for each, _ in INPUTS) for line in LINES} == inputs


@pytest.mark.parametrize("line, name", INPUTS)
def test_fifo(program, command, tmp_path, line, name):
    room = tmp_path / "room"
    shutil.copytree(EXAMPLES, room)
    (room / name).unlink()
    os.mkfifo(room / name)
    with dripping(lambda: open(room / name, "wb", buffering=0), (EXAMPLES / name).read_bytes()):
        found = ends(command, line.split(" "), room)
    assert found == ends(program, line.split(" "))


@pytest.mark.parametrize("line, name", INPUTS)
def test_slow_standard_input_by_its_path(program, command, line, name):
    words = ["/dev/stdin" if word == name else word for word in line.split(" ")]
    with standard_input((EXAMPLES / name).read_bytes(), "pipe") as stdin:
        found = ends(command, words, stdin=stdin)
    with open(EXAMPLES / name, "rb") as stdin:
        assert found == ends(program, words, stdin=stdin)


@pytest.mark.parametrize("kind", ["pipe", "socket"])
@pytest.mark.parametrize("name", ["sample.pb", "district.pb"])
def test_slow_standard_input(command, tmp_path, kind, name):
    """What comes first comes after the command has tried to read it."""
    (tmp_path / "before.cjs").write_text(BEFORE_READING)
    tried = tmp_path / "tried"
    how = os.environ | {"NODE_OPTIONS": f"--require={tmp_path}/before.cjs", "TRIED": str(tried)}
    with standard_input((EXAMPLES / name).read_bytes(), kind, tried.exists) as stdin:
        found = ends(command, [], stdin=stdin, env=how)
    assert tried.exists() and found == ends(command, ["read", name]) and found[0] == 0


def small_pipe():
    """A pipe that takes little, into which a write doesn't wait."""
    end, other = os.pipe()
    fcntl.fcntl(other, fcntl.F_SETPIPE_SZ, SMALL_PIPE)
    os.set_blocking(other, False)
    return end, other


@pytest.mark.parametrize("words, stream", [
    (["page", "district.pb", "district.prices.csv"], "stdout"), (["--help"], "stdout"),
    (["read", "sample.pb", "x" * 20_000], "stderr"),
], ids=["page", "help", "usage"])  # fmt: skip
def test_slow_reader(program, command, words, stream):
    end, other = small_pipe()
    with subprocess.Popen([command, *words], cwd=EXAMPLES, **{stream: other}) as running:
        os.close(other)
        found = b""
        while part := os.read(end, SMALL_PIPE):
            found += part
            time.sleep(SECONDS / 10)
    os.close(end)
    status, *streams = ends(program, words)
    assert (running.returncode, found) == (status, streams[stream == "stderr"])


@pytest.mark.parametrize("kind", ["full", "gone"])
@pytest.mark.parametrize("line", [*LINES, "folder .", "--help", "help read", "--version"])
def test_output_that_is_not_taken(command, line, kind):
    if kind == "full":
        out = os.open("/dev/full", os.O_WRONLY)
    else:
        end, out = os.pipe()
        os.close(end)
    with os.fdopen(out, "wb", buffering=0) as stdout:
        status, _, told = ends(command, line.split(" "), capture_output=False, stdout=stdout, stderr=subprocess.PIPE)
    assert (status, told) == (4, b"fault write\n")


@pytest.mark.parametrize("line, status", [
    (LINES[0], 0), ("prices school.pb school.prices.csv", 1), ("read school.prices.csv", 2),
])  # fmt: skip
def test_output_that_nobody_wants(command, line, status):
    """It is thrown away, however /dev/null was opened, and the status is that of the answer."""
    for how in (os.O_WRONLY, os.O_RDWR):
        with os.fdopen(os.open(os.devnull, how), "wb", buffering=0) as stdout:
            assert ends(command, line.split(" "), capture_output=False, stdout=stdout)[0] == status
