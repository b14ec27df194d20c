"""Compares release/ with what is built here. Each file has to have the sum of SHA256SUMS, and all together at most 6 MB. Where MADE-OF
names the sources and the tools of today, each file has to be, byte for byte, what `packaging/release` makes of what is built;
of a part that is of other sources or tools it is said, with `-rP`. Then a byte of each file is turned, which has to be seen. The
version is one wherever it stands, no newer glibc is asked for than is said, and what is packed is what lies beside it."""
import hashlib
import lzma
import os
import re
import shutil
import subprocess
import tarfile
import zipfile

import pytest

from common import LIBRARY_NAME, TOP, cloned, needs, turned

RELEASE = TOP / "release"
MOST = 10_000_000
SUMS, MADE_OF = "SHA256SUMS", "MADE-OF"
# What each file is made of, by the names in MADE-OF, beside the program's sources and the kit.
EVERY = {"version", "crates", "kit", "packaging"}
LIBRARY = EVERY | {"library", "cc", "ld"}
ARM_LIBRARY = EVERY | {"library", "arm-cc", "arm-ld"}
PAGE = EVERY | {"page", "wasm-opt", "builtins", "esbuild"}
RESTS_ON = {
    "libpbaudit.so": LIBRARY, "libpbaudit.a.xz": LIBRARY | {"xz"}, "pbaudit.h": LIBRARY, "pbaudit.pc": LIBRARY,
    "-aarch64.tar.xz": ARM_LIBRARY | {"xz"}, "pbaudit.html": PAGE, ".tgz": LIBRARY | ARM_LIBRARY | PAGE | {"tsc", "zlib"},
    "aarch64.whl": ARM_LIBRARY | {"python", "zlib"}, "-any.whl": PAGE | {"python", "zlib"}, ".whl": LIBRARY | {"python", "zlib"},
}  # fmt: skip
# What packs all of it, and what has the sums of all files.
OF_PACKAGES = {"gzip", "dpkg-deb"}
RESTS_ON["pbaudit.spdx.json"] = set().union(OF_PACKAGES, *RESTS_ON.values())
# The glibc for which each is.
GLIBC = {"pbaudit": (2, 28), LIBRARY_NAME: (2, 17)}


def rests_on(name):
    """What a file is made of. The version is a part of the names of packages, and the number of the interface of that of the
    library, which in release/ may be another than here."""
    name = re.sub(r"\.so\.\d+$", ".so", name)
    return next((parts for end, parts in RESTS_ON.items() if name.endswith(end)), EVERY)


def sum_of(file):
    return hashlib.sha256(file.read_bytes()).hexdigest()


def made_of(folder):
    """The lines of MADE-OF, by the names of sources and tools."""
    head, _, lines = (folder / MADE_OF).read_text(encoding="utf-8").partition("\n\n")
    return {"version": head.split()[1]} | dict(line.split(" ", 1) for line in lines.splitlines())


def files_of(folder):
    return {file.name: file for file in folder.iterdir() if file.name not in (MADE_OF, SUMS)}


def wrong_sums(folder):
    """What is wrong in a folder by its own sums: a file for each line, and a line for each file."""
    try:
        lines = (folder / SUMS).read_text(encoding="utf-8").splitlines()
        sums = dict(reversed(line.split("  ", 1)) for line in lines)
    except ValueError:
        return [f"{SUMS} can't be read"]
    found = {file.name: sum_of(file) for file in folder.iterdir() if file.name != SUMS}
    return [f"{name} isn't the file of {SUMS}" for name in sorted(sums.keys() | found.keys())
            if sums.get(name) != found.get(name)]


def why_not_compared(name, again):
    """Why a file of release/ may differ from what is built here, or None."""
    was, now = made_of(RELEASE), made_of(again)
    others = sorted(rests_on(name) & {part for part in was.keys() | now.keys() if was.get(part) != now.get(part)})
    if others:
        return f"it is older, of another state of {', '.join(others)}"
    # Of each library the package for JavaScript has native code.
    parts = [name, "libpbaudit.a.xz", "libpbaudit-aarch64.tar.xz"] if name.endswith(".tgz") else [name]
    return None if all((again / part).exists() for part in parts) else "it isn't built here"


def glibc_of(file):
    """The newest glibc that a program or a library asks for."""
    return max(tuple(map(int, found)) for found in re.findall(rb"\0GLIBC_(\d+)\.(\d+)", file.read_bytes()))


NAMES = sorted(file.name for file in RELEASE.iterdir()) if RELEASE.is_dir() else []
FILES = [name for name in NAMES if name not in (SUMS, MADE_OF)]


@pytest.mark.parametrize("name", FILES)
def test_it_is_what_is_built(again, name):
    if not (again / name).exists() or sum_of(again / name) != sum_of(RELEASE / name):
        reason = why_not_compared(name, again)
        if reason:
            pytest.skip(reason)
        pytest.fail("of the same sources something else is built here")


def test_each_source_and_tool_is_that_of_a_file():
    assert set().union(*map(rests_on, FILES)) - OF_PACKAGES == {*made_of(RELEASE)} - OF_PACKAGES


def test_its_sums():
    assert wrong_sums(RELEASE) == []


def test_its_sums_where_git_turns_ends_of_lines(room):
    """As it is set up on Windows: what is cloned is what was committed."""
    shutil.copytree(RELEASE, room / "all/release")
    shutil.copy(TOP / ".gitattributes", room / "all")
    assert wrong_sums(cloned(room / "all", room / "clone", "-c", "core.autocrlf=true") / "release") == []


def test_what_is_made_without_the_kit(again, room):
    """By the commands of docs/BYTES.md, of the program and the page."""
    needs("esbuild", "tsc")
    made = [the(again, name).name for name in ("pbaudit.1", "pbaudit.bash", "_pbaudit", "pbaudit.fish", "pbaudit.html", "*.tgz")]
    if shutil.which("rt", path="/usr/bin:/bin"):
        pytest.skip("rt is in /usr/bin")
    shown = (TOP / "docs/BYTES.md").read_text(encoding="utf-8").split("**Without the kit**")[1]
    commands = re.search(r"\n\n((?: {4}.*\n)+)", shown)[1].replace("release/", f"{again}/").replace("FOLDER", '"$1"')
    commands = commands.replace("pbaudit-VERSION.tgz", the(again, "*.tgz").name)
    subprocess.run(["bash", "-euc", commands, "bash", room], cwd=TOP, env=os.environ | {"PATH": "/usr/bin:/bin"}, check=True,
                   stdout=subprocess.DEVNULL)  # fmt: skip
    assert {file.name for file in room.iterdir()} == {*made}
    assert [name for name in made if sum_of(room / name) != sum_of(again / name)] == []


def test_nothing_more_is_built(again):
    assert [name for name in files_of(again) if name not in FILES and not why_not_compared(name, again)] == []


def test_size():
    assert sum(file.stat().st_size for file in RELEASE.iterdir()) <= MOST


@pytest.fixture
def copy(room):
    shutil.copytree(RELEASE, room / "copy")
    return room / "copy"


@pytest.mark.parametrize("name", NAMES)
def test_turned_byte_is_seen_by_the_sums(copy, name):
    (copy / name).write_bytes(turned((copy / name).read_bytes()))
    assert wrong_sums(copy)


@pytest.mark.parametrize("name", FILES)
def test_missing_file_is_seen(copy, name):
    (copy / name).unlink()
    assert wrong_sums(copy)


def test_file_more_is_seen(copy):
    (copy / "more").write_bytes(b"")
    assert wrong_sums(copy)


def test_version():
    told = subprocess.run([TOP / "packaging/version"], capture_output=True, text=True, check=True).stdout
    sources = sorted((TOP / "crates").glob("*/src/**/*.rt"))
    stated = [text for source in sources for text in re.findall(r'"(\d+\.\d+\.\d+)"', source.read_text(encoding="utf-8"))]
    assert stated == [told.rstrip("\n")]


def test_version_of_the_changelog():
    """Its newest part that has a date."""
    changelog = (TOP / "CHANGELOG.md").read_text(encoding="utf-8")
    told = subprocess.run([TOP / "packaging/version"], capture_output=True, text=True, check=True).stdout
    assert re.search(r"^## \[(\d+\.\d+\.\d+)\] - \d{4}-\d\d-\d\d$", changelog, re.MULTILINE)[1] == told.rstrip("\n")


def test_citation_is_of_the_newest_version():
    """CITATION.cff has the version and the day that the changelog has, and what its schema, 1.2.0, asks for."""
    changelog = (TOP / "CHANGELOG.md").read_text(encoding="utf-8")
    told = dict(re.findall(r'^([\w-]+): *"?(.*?)"?$', (TOP / "CITATION.cff").read_text(encoding="utf-8"), re.MULTILINE))
    newest = re.search(r"^## \[(\d+\.\d+\.\d+)\] - (\d{4}-\d\d-\d\d)$", changelog, re.MULTILINE)
    assert (told["version"], told["date-released"]) == newest.groups()
    assert told["cff-version"] == "1.2.0" and {"message", "title", "authors"} <= {*told}


@pytest.mark.parametrize("name", GLIBC)
def test_glibc(again, name):
    if not (again / name).exists():
        pytest.skip("it isn't built here")
    assert glibc_of(again / name) <= GLIBC[name]


def wants_of(file):
    """What a program or a library lacks that makes an error harder to use: code at any address, addresses of functions that can't be
    written once it has begun, and no memory that can be both written and run."""
    needs("readelf")
    told = subprocess.run(["readelf", "-hldW", file], capture_output=True, text=True, check=True).stdout
    has = {
        "any address": re.search(r"^ +Type: +DYN ", told, re.MULTILINE),
        "functions bound at once": re.search(r"\(FLAGS\) .*\bBIND_NOW\b|\(BIND_NOW\)", told),
        "read-only addresses": re.search(r"^ +GNU_RELRO ", told, re.MULTILINE),
        "a stack that isn't run": re.search(r"^ +GNU_STACK .* RW +\w+$", told, re.MULTILINE),
        "nothing written and run": not re.search(r"^ +LOAD .* RWE ", told, re.MULTILINE),
        "code that isn't changed": "TEXTREL" not in told,
    }
    return [name for name, is_there in has.items() if not is_there]


@pytest.mark.parametrize("name", GLIBC)
def test_hardening(again, name):
    assert wants_of(the(again, name)) == []


def test_hardening_of_the_library_for_arm(again, room):
    with lzma.open(the(again, "libpbaudit-aarch64.tar.xz")) as packed, tarfile.open(fileobj=packed) as files:
        (room / "library").write_bytes(files.extractfile(f"aarch64/{LIBRARY_NAME}").read())
    assert wants_of(room / "library") == []


@pytest.mark.parametrize("machine", ["linux-x64", "linux-arm64"])
def test_hardening_and_glibc_of_native_code_for_node(again, room, machine):
    with tarfile.open(the(again, "*.tgz")) as package:
        names = package.getnames()
        if f"package/native/pbaudit-{machine}.node" not in names:
            pytest.skip("it isn't built here")
        (room / "addon").write_bytes(package.extractfile(f"package/native/pbaudit-{machine}.node").read())
    assert wants_of(room / "addon") == [] and glibc_of(room / "addon") <= (2, 28)


def test_want_of_hardening_is_seen(room):
    """What a compiler makes that is told to leave it all out."""
    needs("cc")
    (room / "main.c").write_text("int main(void) { return 0; }\n")
    flags = ["-no-pie", "-Wl,-z,norelro,-z,lazy,-z,execstack"]
    subprocess.run(["cc", "-o", room / "main", room / "main.c", *flags], check=True, capture_output=True)
    assert {"any address", "functions bound at once", "read-only addresses", "a stack that isn't run"} <= {*wants_of(room / "main")}


def the(folder, pattern):
    """The one file of this form. Skips where none is built."""
    found = sorted(folder.glob(pattern))
    if not found:
        pytest.skip("it isn't built here")
    assert len(found) == 1
    return found[0]


def inside(wheel, end):
    with zipfile.ZipFile(wheel) as files:
        found = [name for name in files.namelist() if name.endswith(end)]
        assert len(found) == 1
        return files.read(found[0])


def test_wheel_has_library_and_program(again):
    wheel = the(again, "*x86_64.whl")
    assert inside(wheel, f"/{LIBRARY_NAME}") == (again / LIBRARY_NAME).read_bytes()
    assert inside(wheel, ".data/scripts/pbaudit") == (TOP / "python/backend/entry.py").read_bytes()
    assert inside(wheel, "pbaudit/bin/pbaudit") == (again / "pbaudit").read_bytes()
    assert "manylinux_2_28_x86_64" in wheel.name


def test_wheel_for_any_platform_has_the_package_for_javascript(again):
    wheel = the(again, "*-py3-none-any.whl")
    with tarfile.open(the(again, "*.tgz")) as package:
        for name in ("command.js", "pbaudit.wasm", "package.json"):
            assert inside(wheel, f"/node/{name}") == package.extractfile(f"package/{name}").read()


def test_wheel_for_arm_has_its_library(again):
    wheel = the(again, "*aarch64.whl")
    with lzma.open(the(again, "libpbaudit-aarch64.tar.xz")) as packed, tarfile.open(fileobj=packed) as files:
        assert files.getnames() == [f"aarch64/{name}" for name in (LIBRARY_NAME, "libpbaudit.so", "libpbaudit.a", "pbaudit.h", "pbaudit.pc")]
        assert files.getmember("aarch64/libpbaudit.so").linkname == LIBRARY_NAME
        library = files.extractfile(f"aarch64/{LIBRARY_NAME}").read()
        assert files.extractfile("aarch64/pbaudit.h").read() == (TOP / "include/pbaudit.h").read_bytes()
    assert inside(wheel, f"/{LIBRARY_NAME}") == library
    # Of ELF's machines ARM's of 64 bits is number 183.
    assert library[:4] == b"\x7fELF" and int.from_bytes(library[18:20], "little") == 183
    assert "manylinux_2_17_aarch64" in wheel.name
