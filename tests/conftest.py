"""What the tests share: where the program, the library, the package and the page are, and what is skipped for want of what.

By default the program is crates/pbaudit/out/pbaudit, the library is in lib, and the page in web/out, where they are built;
else those of release/, if it was made of these sources. What isn't there is a reason to skip, and so is a tool that isn't
installed. With --gate a test fails that is skipped for any other reason, or for want of what is there, or of what packages.txt
should have brought.
"""
import collections
import functools
import lzma
import pathlib
import re
import shutil
import subprocess
import sys
import tarfile
import tempfile

import pytest

import saying
from cases import Case, write_files
from common import HERE, LIBRARY_NAME, TOP, needs, ran
from helps import Helps

# For what a test may be skipped in the gate as well: want of a command, where the machine lacks a package of packages.txt; a release
# that other tools made, want of leave to make a namespace or to mount a disk, an rt that can't be hidden, a Python for ARM, and
# npx, which some packages of Node have, and whose own package can't stand beside these.
NOT_INSTALLED = re.compile(r"(\S+) is not installed")
ALLOWED = re.compile(r"it is older, of another state of |nothing runs in the root folder|no disk can be mounted here|rt is in /usr/bin"
                     r"|python3:arm64 is not installed")
OWN_PACKAGE = {"npx"}
sys.path.append(str(TOP / "python"))
sys.path.append(str(TOP / "python/backend"))
sys.path.append(str(TOP / "web"))


def pytest_addoption(parser):
    group = parser.getgroup("pbaudit")
    group.addoption("--program", help="the program that is tried")
    group.addoption("--library", help="the folder that ./pbaudit-library filled")
    group.addoption("--arm-library", help="the folder that ./pbaudit-library --target aarch64 filled")
    group.addoption("--arm-root", help="a folder with Debian's Python for arm64, as tests/test_arm.py says")
    group.addoption("--page", help="the pbaudit.html that ./pbaudit-web made")
    group.addoption("--released", help="the folder that packaging/release --again filled, which is compared with release/")
    group.addoption("--root", help="a root folder of another system, for the tests on a bare machine")
    group.addoption("--cases", type=int, help="how many cases are made by chance, for each test that makes such")
    group.addoption("--seed", default="1", help="of what these are made; the same seed makes the same ones")
    group.addoption("--seconds", type=int, default=120, help="how long the C library is fuzzed")
    group.addoption("--pictures", help="a folder for pictures of the pages that browsers show")
    group.addoption("--gate", action="store_true", help="a test fails that is skipped though its machine has what it needs")


# What is built, and by whose names a test asks for it.
BUILT = {"program", "library", "arm_library", "page", "again", "built_here"}


def pytest_collection_modifyitems(items):
    """`-m built` chooses the tests of what is built, and `-m 'not built'` those of the sources and the scripts. The tests of a group
    run one after the other where there are several workers, so the largest groups come first, and single tests fill up."""
    for item in items:
        if BUILT & {*item.fixturenames}:
            item.add_marker("built")
    sizes = collections.Counter(group_of(item) for item in items)
    items.sort(key=lambda item: -sizes[group_of(item)] if group_of(item) else 0)


def group_of(item):
    """The group of a test, by which `--dist loadgroup` gives it to a worker, or None."""
    mark = item.get_closest_marker("xdist_group")
    return mark and (mark.args[0] if mark.args else mark.kwargs["name"])


def pytest_generate_tests(metafunc):
    """`by_chance` is the number of a case that is made by chance, from 0; BY_CHANCE of the module says how many there are."""
    if "by_chance" in metafunc.fixturenames:
        given = metafunc.config.getoption("cases")
        count = metafunc.module.BY_CHANCE if given is None else given
        metafunc.parametrize("by_chance", range(count))


@functools.lru_cache(maxsize=None)
def has_all_packages():
    """Whether each package of packages.txt is installed, by dpkg."""
    names = [line for line in (HERE / "packages.txt").read_text("utf-8").splitlines() if line and not line.startswith("#")]
    told = ran("dpkg-query", "-W", "-f", "${Package} ${Status}\n", *names)
    return {*names} <= {*re.findall(r"(?m)^(\S+) \S+ ok installed$", told.stdout)}


def is_lacking(wants):
    """Whether a skip is for want of a command that isn't there, and that no package of packages.txt was to bring."""
    return wants and not shutil.which(wants[1]) and (wants[1] in OWN_PACKAGE or not has_all_packages())


@pytest.hookimpl(hookwrapper=True)
def pytest_runtest_makereport(item, call):
    """In the gate a skip is a failure, unless it is for one of these reasons, and that command isn't there."""
    report = (yield).get_result()
    if report.skipped and item.config.getoption("gate") and not hasattr(report, "wasxfail"):
        reason = report.longrepr[2] if isinstance(report.longrepr, tuple) else str(report.longrepr)
        if not ALLOWED.search(reason) and not is_lacking(NOT_INSTALLED.search(reason)):
            report.outcome, report.longrepr = "failed", f"{reason}, and in the gate it has to be tried"


def released(*parts):
    """Whether release/ was made of these parts of the sources (packaging/sources)."""
    made = (TOP / "release/MADE-OF").read_text("utf-8") if (TOP / "release/MADE-OF").exists() else ""
    sums = dict(line.split(" ", 1) for line in made.splitlines() if " " in line)
    return all(sums.get(part) == subprocess.run([TOP / "packaging/sources", part], capture_output=True, text=True,
                                                check=True).stdout.strip() for part in parts)  # fmt: skip


def found(option, built, given, parts):
    """A path that an option gives, or else what is built, or else that of a release, where it was made of these parts."""
    if option:
        path = pathlib.Path(option).resolve()
        assert path.exists(), f"{path} isn't there"
        return path
    if built.exists():
        return built
    if not released(*parts):
        pytest.skip(f"{built} isn't built, and release/ is of other sources")
    return given


@pytest.fixture(scope="session")
def option(request):
    return request.config.getoption


@pytest.fixture(scope="session")
def seed(option):
    return option("seed")


@pytest.fixture(scope="session")
def program(option):
    return found(option("program"), TOP / "crates/pbaudit/out/pbaudit", TOP / "release/pbaudit", ["crates"])


@pytest.fixture(scope="session")
def library(option, tmp_path_factory):
    """The folder of the C library, in which that of a release is unpacked."""
    folder = found(option("library"), TOP / "lib", TOP / "release", ["crates", "library"])
    if (folder / "libpbaudit.a").exists():
        return folder
    unpacked = tmp_path_factory.mktemp("library")
    for name in (LIBRARY_NAME, "pbaudit.h", "pbaudit.pc"):
        shutil.copy(folder / name, unpacked)
    (unpacked / "libpbaudit.so").symlink_to(LIBRARY_NAME)
    (unpacked / "libpbaudit.a").write_bytes(lzma.decompress((folder / "libpbaudit.a.xz").read_bytes()))
    return unpacked


@pytest.fixture(scope="session")
def arm_library(option, tmp_path_factory):
    """The folder of the C library for ARM, in which that of a release is unpacked."""
    built, packed = TOP / "lib/aarch64", TOP / "release/libpbaudit-aarch64.tar.xz"
    if not option("arm_library") and not built.exists():
        needs("aarch64-linux-gnu-gcc")
    given = found(option("arm_library"), built, packed, ["crates", "library"])
    if given.is_dir():
        return given
    unpacked = tmp_path_factory.mktemp("arm")
    with lzma.open(given) as data, tarfile.open(fileobj=data) as files:
        files.extractall(unpacked)
    return unpacked / "aarch64"


@pytest.fixture(scope="session")
def page(option):
    return found(option("page"), TOP / "web/out/pbaudit.html", TOP / "release/pbaudit.html", ["crates", "page"])


@pytest.fixture(scope="session")
def again(option, tmp_path_factory):
    """What `packaging/release` makes of what is built here."""
    if option("released"):
        return pathlib.Path(option("released")).resolve()
    folder = tmp_path_factory.mktemp("again")
    subprocess.run([TOP / "packaging/release", "--again", folder], check=True, stderr=subprocess.DEVNULL)
    return folder


@pytest.fixture(scope="session")
def built_here():
    """Skips where the program or the library isn't built among the sources."""
    for path in (TOP / "crates/pbaudit/out/pbaudit", TOP / "lib/libpbaudit.a"):
        if not path.exists():
            pytest.skip(f"{path} isn't built")


@pytest.fixture
def room():
    """A folder that goes with the test. Its name has a blank in it."""
    with tempfile.TemporaryDirectory(prefix="pbaudit ", ignore_cleanup_errors=True) as folder:
        yield pathlib.Path(folder)


@pytest.fixture(params=["reference", pytest.param("program", marks=pytest.mark.built)])
def ask(request, room):
    """Answers a command on files, by the reference and by the program: the text and the status."""
    program = request.getfixturevalue("program") if request.param == "program" else None

    def asked(words, files):
        case = Case(words, files)
        write_files(room, files)
        said = saying.run(program, case, room) if program else saying.reference_says(case, room)
        return said.text.decode(), said.status
    return asked


@pytest.fixture(scope="session")
def run(program):
    """Runs the program by words, in a folder, and gives its status, standard output and standard error."""
    def by(*words, cwd=TOP / "examples", stdin=b"", **more):
        return subprocess.run([program, *words], cwd=cwd, input=stdin, capture_output=True, timeout=120, check=False, **more)
    return by


@pytest.fixture(scope="session")
def commands(program):
    """What the help of the program says of its commands, so that a test sees whether it tries each."""
    return Helps(program)


@pytest.fixture(scope="session")
def auditor(library):
    """The library, called as the Python package calls it."""
    from pbaudit import _auditor
    return _auditor._Library(str(library / LIBRARY_NAME))


@pytest.fixture(scope="session")
def c_library(library):
    """The library by its other calls."""
    import c_library
    return c_library.Library(library / LIBRARY_NAME)


@pytest.fixture(scope="session")
def built(library, tmp_path_factory):
    """Builds a caller of the C library, and gives its path."""
    room = tmp_path_factory.mktemp("built")

    def build(name, source, *flags, check=True):
        path = room / name
        words = ["cc", "-std=gnu11", "-O1", "-g", "-Wall", "-Wextra", "-Werror", "-I", library, "-o", path, source, *flags]
        told = subprocess.run(words, cwd=room, capture_output=True, text=True, check=False)
        assert told.returncode == 0 or not check, told.stderr
        return path if told.returncode == 0 else None
    return build


@pytest.fixture(scope="session")
def caller(built, library):
    """library.c, whose allocations can be made to fail."""
    wraps = "-Wl,--wrap=malloc,--wrap=realloc,--wrap=free"
    return built("caller", HERE / "library.c", library / "libpbaudit.a", "-pthread", wraps)


@pytest.fixture(scope="session")
def node(page):
    """The module of the page, in a process of Node."""
    import by_node
    needs("node")
    process = by_node.Node(page)
    yield process
    process.close()
