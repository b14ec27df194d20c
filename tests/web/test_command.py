"""The package's command beside the program, in what each is told by the machine: files that can't be opened, read, written or
listed, names and words of any bytes, and streams that aren't there. And how it ends where its module can't go on."""
import errno
import json
import os
import shutil
import signal
import socket
import subprocess

import pytest

from common import TOP, needs
from tables import EXAMPLES

# Paths, and what the system says of each: in a folder made by `odd`.
ODD = {
    "missing": errno.ENOENT, "sample.pb/below": errno.ENOTDIR, "missing/below": errno.ENOENT, "dangling": errno.ENOENT,
    "loop": errno.ELOOP, "loop/below": errno.ELOOP, "x" * 256: errno.ENAMETOOLONG, "./" * 2048 + "x": errno.ENAMETOOLONG,
    "socket": errno.ENXIO, "closed": errno.EACCES, "locked/below": errno.EACCES, "/proc/self/mem": errno.EIO, "\ufeffx": errno.ENOENT,
    "\ufffd": errno.ENOENT,
}  # fmt: skip
ODD_FILES = {**ODD, ".": errno.EISDIR, "inner": errno.EISDIR, "linked": errno.EISDIR}
ODD_FOLDERS = {**ODD, "sample.pb": errno.ENOTDIR, "pipe": errno.ENOTDIR, "/dev/null": errno.ENOTDIR, "locked": errno.EACCES,
               "closed": errno.ENOTDIR, "socket": errno.ENOTDIR, "/proc/self/mem": errno.ENOTDIR}  # fmt: skip
# Without what lets root read everything.
AS_ANYBODY = ["setpriv", "--bounding-set", "-dac_override,-dac_read_search"]
NOT_TEXT = [b"\xff", b"a\xed\xa0\x80", b"--\xc3", b"--outcome=\x80", b"\xc3\xa9\xff\xef\xbf\xbd"]
# Tells what Linux is told to say of errors, and the calls that the machine has and the module wants.
TELL = """
import { readFileSync } from 'node:fs';
import { ERRORS, machineOf } from './told.js';
const module = new WebAssembly.Module(readFileSync(process.argv[2]));
console.log(JSON.stringify({
  errors: ERRORS, calls: Object.keys(machineOf([], () => undefined)), imports: WebAssembly.Module.imports(module),
}));
"""
TRAPPING = '(module (memory (export "memory") 1) (func (export "run") (result i32) (unreachable)))'


def ends(command, words, cwd, *before, **how):
    ran = subprocess.run([*before, command, *words], cwd=cwd, timeout=120, check=False, **{"capture_output": True} | how)
    return ran.returncode, ran.stdout, ran.stderr


@pytest.fixture(scope="module")
def odd(tmp_path_factory):
    room = tmp_path_factory.mktemp("odd")
    for name in ("sample.pb", "sample.prices.csv"):
        shutil.copy(EXAMPLES / name, room)
    for name, target in (("dangling", "missing"), ("loop", "loop"), ("linked", "inner")):
        (room / name).symlink_to(target)
    (room / "inner").mkdir()
    os.mkfifo(room / "pipe")
    with socket.socket(socket.AF_UNIX) as made:
        made.bind(os.path.relpath(room / "socket"))
    (room / "closed").write_bytes(b"META\n")
    (room / "locked").mkdir()
    for name in ("closed", "locked"):
        (room / name).chmod(0)
    yield room
    (room / "locked").chmod(0o700)


def before(error):
    """What runs the command so that this error comes."""
    if error != errno.EACCES or os.getuid() != 0:
        return []
    needs("setpriv")
    return AS_ANYBODY


@pytest.mark.parametrize("path", ODD_FILES)
def test_file_that_can_not_be_read(program, command, odd, path):
    for words in (["read", path], ["prices", "sample.pb", path], ["groups", "sample.pb", "--outcome", path, "--json"]):
        found, wanted = (ends(each, words, odd, *before(ODD_FILES[path])) for each in (command, program))
        assert found == wanted
        assert found[0] == 2 and found[2].decode().endswith(f": {os.strerror(ODD_FILES[path])}\n")


@pytest.mark.parametrize("path", ODD_FOLDERS)
def test_folder_that_can_not_be_listed(program, command, odd, path):
    found, wanted = (ends(each, ["folder", path], odd, *before(ODD_FOLDERS[path])) for each in (command, program))
    assert found == wanted
    assert found[:2] == (2, b"refused folder 18 Read record 0\n") and found[2].decode().endswith(f": {os.strerror(ODD_FOLDERS[path])}\n")


@pytest.mark.parametrize("path", ["linked", "linked/", "inner/", "inner/../inner", ".//inner"])
def test_folder_by_its_path(program, command, odd, path):
    assert ends(command, ["folder", path], odd) == ends(program, ["folder", path], odd)
    assert ends(command, ["folder", path], odd)[0] == 0


@pytest.mark.parametrize("names", [[b"\xff.pb"], [b"\xff", b"a.pb"], [b"b\xff.pb", b"a\xfe.pb", b"c.pb"], [b"\xed\xa0\x80.prices.csv"]])
def test_folder_with_names_that_are_not_text(program, command, tmp_path, names):
    for name in names:
        shutil.copy(EXAMPLES / "sample.pb", os.fsencode(tmp_path) + b"/" + name)
    found = ends(command, ["folder", "."], tmp_path)
    assert found == ends(program, ["folder", "."], tmp_path)
    assert found[0] == 2 and b"UTF-8" in found[2]


def test_large_folder(program, command, tmp_path):
    """Names that fill what a listing is read into many times, of all lengths that are there."""
    for length in range(2, 252):
        for first in "ab\u00e9":
            (tmp_path / f"{first}{'x' * (length - len(first.encode()))}.pb").write_text("META\n")
    found = ends(command, ["folder", "."], tmp_path)
    assert found == ends(program, ["folder", "."], tmp_path)
    assert found[0] == 2 and found[1].count(b"\n") == 3 * 250 + 1


@pytest.mark.parametrize("word", NOT_TEXT)
def test_words_that_are_not_text(program, command, word):
    for words in ([word], ["read", word], ["--", "read", word], ["read", "sample.pb", "--outcome", word, "\ufffd"]):
        found = ends(command, words, EXAMPLES)
        assert found == ends(program, words, EXAMPLES) == (3, b"", b"error: an argument is not UTF-8\n")


@pytest.mark.parametrize("words", [["read", "\ufffd.pb"], ["\ufffd"], ["read", "", "\ufffd", ""], ["read", "a\n\r\t\x1b"]])
def test_words_of_any_characters(program, command, words):
    assert ends(command, words, EXAMPLES) == ends(program, words, EXAMPLES)


@pytest.mark.parametrize("words", [["read", "sample.pb"], ["--help"], ["folder", "."], ["pric"]])
def test_streams_that_take_nothing(program, command, words):
    """What standard error doesn't take is lost."""
    for stream in ("stdout", "stderr"):
        other = {"stdout": "stderr", "stderr": "stdout"}[stream]
        with open("/dev/full", "wb") as full:
            how = {"capture_output": False, stream: full, other: subprocess.PIPE}
            assert ends(command, words, EXAMPLES, **how) == ends(program, words, EXAMPLES, **how)


def test_streams_that_are_closed(command):
    """Node opens /dev/null in their place, before any script runs."""
    read = f"read {EXAMPLES}/sample.pb"
    refused = (2, b"refused election 2 NoMeta record 1\n", b"standard input: record 1: the file doesn't begin with META\n")
    for words, closed, wanted in [
        ("", "<&-", refused), (read, ">&-", (0, b"", b"")), (read, "2>&-", (0, b"read 3 voters 3 projects 2 funded\n", b"")),
        ("read missing", "2>&-", (2, b"refused election 18 Read record 0\n", b"")),
    ]:  # fmt: skip
        assert ends("sh", ["-c", f'"$0" {words} {closed}', command], EXAMPLES) == wanted


def test_files_that_may_not_grow(program, command, tmp_path):
    """Node has such a write fail, and the program is ended by a signal."""
    def written(each):
        return ends("sh", ["-c", f'ulimit -f 0; exec "$0" read {EXAMPLES}/sample.pb > "$1"', each, tmp_path / "out"], EXAMPLES)
    assert written(command) == (4, b"", b"fault write\n")
    assert written(program) == (-signal.SIGXFSZ, b"", b"")


@pytest.mark.parametrize("path", ["/dev/stdin", "/proc/self/fd/0"])
def test_standard_input_by_a_path(program, command, path):
    found, wanted = (ends(each, ["read", path], EXAMPLES, input=(EXAMPLES / "sample.pb").read_bytes()) for each in (command, program))
    assert found == wanted and found[0] == 0


def test_files_are_only_read(command, odd):
    """A module that is told nothing else of the machine can change no file: nothing that it imports could."""
    before_it = {path.name: path.lstat().st_mtime_ns for path in odd.iterdir()}
    ends(command, ["folder", "."], odd)
    assert {path.name: path.lstat().st_mtime_ns for path in odd.iterdir()} == before_it


@pytest.fixture(scope="module")
def machine(command, tmp_path_factory):
    """What machine.ts and errors.ts have, and what the module wants."""
    room = tmp_path_factory.mktemp("machine")
    (room / "all.ts").write_text(f'export {{ machineOf }} from "{TOP}/web/src/package/machine.js";\n'
                                 f'export {{ ERRORS }} from "{TOP}/web/src/package/errors.js";\n')
    (room / "package.json").write_text('{"type": "module"}')
    (room / "tell.js").write_text(TELL)
    subprocess.run(["esbuild", room / "all.ts", "--bundle", "--format=esm", "--platform=node", f"--outfile={room / 'told.js'}",
                    "--log-level=warning"], check=True)  # fmt: skip
    told = subprocess.run(["node", room / "tell.js", command.parent / "pbaudit.wasm"], stdout=subprocess.PIPE, check=True)
    return json.loads(told.stdout)


def test_errors_are_those_of_linux(machine):
    """By their numbers and words, as Python has them of the C library."""
    assert len(machine["errors"]) > 30
    for name, (number, text) in machine["errors"].items():
        assert (getattr(errno, name), os.strerror(getattr(errno, name))) == (number, text)


def test_module_wants_what_the_machine_has(machine):
    assert sorted(each["name"] for each in machine["imports"]) == sorted(machine["calls"])
    assert {(each["module"], each["kind"]) for each in machine["imports"]} == {("machine", "function")}


@pytest.fixture
def other(command, tmp_path):
    """A copy of the command, whose module can be another one."""
    for name in ("command.js", "package.json", "pbaudit.wasm"):
        shutil.copy(command.parent / name, tmp_path)
    return tmp_path / "command.js"


@pytest.mark.parametrize("change", ["trap", "missing", "damaged"])
def test_module_that_can_not_go_on(other, change):
    """That is no answer, as status 1 would be, with which Node ends where nothing is caught."""
    module = other.parent / "pbaudit.wasm"
    if change == "trap":
        needs("wasm-as")
        (other.parent / "trap.wat").write_text(TRAPPING)
        subprocess.run(["wasm-as", other.parent / "trap.wat", "-o", module], check=True)
    elif change == "damaged":
        module.write_bytes(module.read_bytes()[:-1])
    else:
        module.unlink()
    status, out, err = ends(other, ["read", "sample.pb"], EXAMPLES)
    assert (status, out) == (4, b"") and err.startswith(b"pbaudit: ")


def test_fault_that_can_not_be_told(other):
    """The status isn't that of a no."""
    (other.parent / "pbaudit.wasm").unlink()
    with open("/dev/full", "wb") as full:
        assert ends(other, ["read", "sample.pb"], EXAMPLES, capture_output=False, stdout=subprocess.PIPE, stderr=full) == (4, b"", None)


@pytest.mark.parametrize("words", [[b"\xff"], ["\ufffd"], ["read", "\ufffd"], ["read", b"\xef\xbb\xbf\xff"]])
@pytest.mark.parametrize("title", ["read", "read\0sample.pb", "x" * 9999])
def test_words_behind_a_title(command, words, title):
    """In their place Linux has the title that Node was told to show. What it shows isn't asked."""
    how = os.environ | {"NODE_OPTIONS": f"--title={title.replace(chr(0), ' ')}"}
    wanted = [word.decode(errors="replace") if isinstance(word, bytes) else word for word in words]
    assert ends(command, words, EXAMPLES, env=how) == ends(command, wanted, EXAMPLES)


def test_without_webassembly(command):
    status, out, err = ends(command, ["--version"], EXAMPLES, "node", "--jitless")
    assert (status, out) == (4, b"") and b"WebAssembly" in err
