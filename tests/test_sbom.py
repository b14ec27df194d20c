"""Compares pbaudit.spdx.json with what it is made of: MADE-OF, crates.txt and the files beside it. First as `packaging/sbom` writes
it into a folder of made-up files, then those of release/ and of what is built here."""
import hashlib
import json
import re
import shutil

import pytest

from common import LIBRARY_NAME, TOP, ran
from test_release import RELEASE, made_of, rests_on, sum_of

SPDX = "pbaudit.spdx.json"
RUNTIME = "builtins"
SOURCES = {"version", "crates", "library", "page", "python", "packaging"}
# What has the proved code: the program, and the rest by how its name ends.
LINKED = re.compile(r"pbaudit|.*(\.so\.\d+|\.a\.xz|\.tar\.xz|\.whl|\.html|\.tgz)")


# The package for JavaScript of this version had no native code yet, which these make.
WITHOUT_NATIVE, MAKE_NATIVE = "pbaudit-0.3.0.tgz", {"cc", "ld", "arm-cc", "arm-ld"}


def read(folder):
    return json.loads((folder / SPDX).read_text(encoding="utf-8"))


def kits_crates(root):
    """The crates of the kit below one of this repository, from line to line of crates.txt, which has the lowest first."""
    below = {}
    for line in (TOP / "crates.txt").read_text(encoding="utf-8").splitlines():
        if not line.startswith("#"):
            name, _, uses = line.partition(":")
            below[name.split()[0]] = set().union(*(below.get(each, {each}) for each in uses.split()))
    return below[root]


def is_linked(name):
    return LINKED.fullmatch(name) is not None


def wanted_crates(name):
    """Of a file: the program stands on all of them, and the package for JavaScript and all wheels but that for ARM have it."""
    if not is_linked(name):
        return set()
    has_program = name == "pbaudit" or name.endswith(("x86_64.whl", "-any.whl", ".tgz"))
    return kits_crates("pbaudit") if has_program else kits_crates("pb_c")


def related(spdx, how, file, ahead):
    """The names of what a file has this relation to, or what has it to the file where it stands ahead."""
    names = {each["SPDXID"]: each["name"] for each in spdx["packages"]}
    one, other = ("spdxElementId", "relatedSpdxElement") if ahead else ("relatedSpdxElement", "spdxElementId")
    return {names[each[one]] for each in spdx["relationships"] if each["relationshipType"] == how and each[other] == file}


def wrong_packages(spdx, made, told):
    """Names whose version is another, or of which only one side knows; and sums of sources that aren't there."""
    packages = {each["name"]: each["versionInfo"] for each in spdx["packages"]}
    crates = kits_crates("pbaudit") | kits_crates("pb_c")
    wanted = {"pbaudit": made["version"], "Rattle kit": made["kit"], **dict.fromkeys(crates, made["kit"]), **told}
    yield from (name for name in packages.keys() | wanted.keys() if packages.get(name) != wanted.get(name))
    yield from (part for part in SOURCES - {"version"} if f"{part} {made[part]}" not in spdx["packages"][0]["sourceInfo"])


def wrong_files(spdx, folder):
    """Names of files of which only one side knows, or that have another sum."""
    files = {each["fileName"].removeprefix("./"): each["checksums"] for each in spdx["files"]}
    yield from files.keys() ^ {file.name for file in folder.iterdir() if file.name not in ("SHA256SUMS", SPDX)}
    for name, sums in files.items():
        wanted = {"SHA256": sum_of(folder / name), "SHA1": hashlib.sha1((folder / name).read_bytes()).hexdigest()}
        if {it["algorithm"]: it["checksumValue"] for it in sums} != wanted:
            yield name


def wrong_relations(spdx, told):
    for each in spdx["files"]:
        name = each["fileName"].removeprefix("./")
        tools = rests_on(name) & told.keys() if is_linked(name) else set()
        if name == WITHOUT_NATIVE:
            tools -= MAKE_NATIVE
        wanted = wanted_crates(name) | (tools & {RUNTIME}), tools - {RUNTIME}
        if (related(spdx, "STATIC_LINK", each["SPDXID"], False), related(spdx, "BUILD_TOOL_OF", each["SPDXID"], True)) != wanted:
            yield f"what {name} is made of"


def what_differs(folder):
    """What of the SPDX in a folder isn't as MADE-OF, crates.txt and the files have it."""
    spdx, made = read(folder), made_of(folder)
    told = {name: text for name, text in made.items() if text and name not in SOURCES | {"kit"}}
    return [*wrong_packages(spdx, made, told), *wrong_files(spdx, folder), *wrong_relations(spdx, told)]


MADE_UP = """pbaudit 0.2.0+unreleased for Linux, of sources with these sums

crates aa
library bb
page cc
python dd
packaging ee
kit a kit of 2030
cc a compiler, libc 1
ld a linker
arm-cc another compiler
arm-ld another linker
wasm-opt an optimizer
builtins ff
esbuild 1.2.3
tsc a checker
xz a packer
zlib 1
gzip a zipper
dpkg-deb """ + "\n"
NAMES = ("pbaudit", "_pbaudit", "pbaudit.1", "pbaudit.h", LIBRARY_NAME, "libpbaudit.a.xz", "libpbaudit-aarch64.tar.xz",
         "pbaudit.html", "pbaudit-0.2.0.tgz", "pbaudit-0.2.0-py3-none-manylinux_2_28_x86_64.whl", "pbaudit-0.2.0-py3-none-manylinux2014_aarch64.whl",
         "pbaudit-0.2.0-py3-none-any.whl")  # fmt: skip


@pytest.fixture
def folder(room):
    made = room / "made"
    made.mkdir()
    (made / "MADE-OF").write_text(MADE_UP)
    for name in NAMES:
        (made / name).write_text(name)
    done = ran(TOP / "packaging/sbom", made)
    assert (done.returncode, done.stderr) == (0, "")
    return made


def test_it_says_what_made_of_says(folder):
    """A tool that wasn't there is left out."""
    assert what_differs(folder) == []
    spdx = read(folder)
    assert (spdx["spdxVersion"], spdx["dataLicense"], spdx["SPDXID"]) == ("SPDX-2.3", "CC0-1.0", "SPDXRef-DOCUMENT")
    identifiers = [each["SPDXID"] for each in spdx["packages"] + spdx["files"]]
    assert len({*identifiers}) == len(identifiers) and all(re.fullmatch(r"SPDXRef-[A-Za-z0-9.-]+", each) for each in identifiers)
    ends = {each[end] for each in spdx["relationships"] for end in ("spdxElementId", "relatedSpdxElement")}
    assert ends <= {*identifiers, "SPDXRef-DOCUMENT"}
    assert re.fullmatch(r"\d{4}-\d\d-\d\dT00:00:00Z", spdx["creationInfo"]["created"])


def test_same_files_give_the_same_bytes(folder, room):
    shutil.copytree(folder, room / "again")
    assert ran(TOP / "packaging/sbom", room / "again").returncode == 0
    assert (room / "again" / SPDX).read_bytes() == (folder / SPDX).read_bytes()


@pytest.mark.parametrize("name, old, new, differs", [
    ("MADE-OF", "esbuild 1.2.3", "esbuild 1.2.4", "esbuild"), ("MADE-OF", "kit a", "kit b", "csv"),
    ("MADE-OF", "crates aa", "crates ab", "crates"), ("MADE-OF", "dpkg-deb ", "dpkg-deb 1", "dpkg-deb"),
    ("MADE-OF", "builtins ff", "builtins ", "builtins"), ("MADE-OF", "0.2.0+unreleased", "0.3.0", "pbaudit"),
    ("pbaudit.1", "p", "q", "pbaudit.1"), (SPDX, '"SPDXRef-Crate-clap"', '"SPDXRef-Crate-csv"', "what pbaudit is made of"),
    (SPDX, '"SPDXRef-Tool-tsc"', '"SPDXRef-Tool-xz"', "what pbaudit-0.2.0.tgz is made of"),
])  # fmt: skip
def test_difference_is_seen(folder, name, old, new, differs):
    text = (folder / name).read_text()
    (folder / name).write_text(text.replace(old, new))
    assert differs in what_differs(folder)


@pytest.mark.parametrize("of_release", [True, False], ids=["release", "built here"])
def test_released(again, of_release):
    folder = RELEASE if of_release else again
    if not (folder / SPDX).exists():
        pytest.skip("it is older, of another state of packaging" if of_release else "it isn't built here")
    assert what_differs(folder) == []
