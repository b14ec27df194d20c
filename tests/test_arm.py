"""Tries the C library for ARM under qemu-user: what it asks of glibc, its caller on the examples and on cases with a damaged file
beside the program, that each of its allocations may fail, the native code for Node by a host that stands in for it
(addon_host.c), and the tests of the Python package by an ARM Python. That Python is taken from --arm-root, a folder into which Debian's packages for arm64 were unpacked:

    apt-get download python3.11-minimal:arm64 libpython3.11-minimal:arm64 libpython3.11-stdlib:arm64 libc6:arm64 libgcc-s1:arm64 \\
        zlib1g:arm64 libexpat1:arm64 libssl3:arm64 libbz2-1.0:arm64 liblzma5:arm64 libffi8:arm64 libsqlite3-0:arm64 \\
        libreadline8:arm64 libuuid1:arm64 libncursesw6:arm64 libtinfo6:arm64 libcrypt1:arm64
    for package in *.deb; do dpkg -x "$package" FOLDER; done

`dpkg --add-architecture arm64 && apt-get update` has to go ahead."""
import os
import re
import subprocess
import zipfile

import pytest

import calls
import cases
import wheel_writer
from common import HERE, LIBRARY_NAME, TOP, needs
from test_library import each_call, told_by

BY_CHANCE = 200
WRAPS = "-Wl,--wrap=malloc,--wrap=realloc,--wrap=free"
# The tests of the package that need pytest, another package, or more time than an emulated processor has.
NOT_ON_ARM = {"test_finding", "test_finding_command", "test_finding_refutations", "test_matrices", "test_wheel"}


@pytest.fixture(scope="module")
def arm_caller(arm_library, tmp_path_factory):
    """The words that run library.c for ARM."""
    needs("aarch64-linux-gnu-gcc", "qemu-aarch64")
    path = tmp_path_factory.mktemp("arm") / "caller"
    words = ["aarch64-linux-gnu-gcc", "-std=gnu11", "-O1", "-Wall", "-Wextra", "-Werror", "-I", arm_library, "-o", path,
             HERE / "library.c", arm_library / "libpbaudit.a", "-pthread", WRAPS]
    subprocess.run(words, check=True)
    # Not linked statically, since then what the C library itself takes would be counted as well.
    return ["qemu-aarch64", "-L", "/usr/aarch64-linux-gnu", path]


def test_what_it_asks_of_glibc(arm_library):
    data = (arm_library / LIBRARY_NAME).read_bytes()
    assert {*re.findall(rb"\0GLIBC_([\d.]+)", data)} == {b"2.17"}


@each_call
def test_call(arm_caller, words, text, status):
    ran = told_by([*arm_caller, "once", *words])
    assert (ran.returncode, ran.stdout) == (status, text)


@pytest.mark.parametrize("words", [["prices", "s", "sample.pb", "sample.prices.csv"], ["read", "-", "sample.pb"]])
def test_each_allocation_fails(arm_caller, words):
    ran = told_by([*arm_caller, "memory", *words])
    assert ran.returncode == 0 and sum(map(int, ran.stdout.split())) > 0, ran


def test_by_chance(run, arm_caller, seed, by_chance, room):
    case = cases.without_folders(seed, by_chance, damaged=0.5)
    cases.write_files(room, case.files)
    wanted = run(*case.words, cwd=room)
    ran = told_by([*arm_caller, "once", *calls.caller_words(case.words)], room)
    assert (ran.returncode, ran.stdout) == (wanted.returncode, wanted.stdout)


@pytest.fixture(scope="module")
def arm_host(arm_library, tmp_path_factory):
    """The words that run the native code for Node in its host."""
    needs("aarch64-linux-gnu-gcc", "qemu-aarch64")
    folder, compiler = tmp_path_factory.mktemp("host"), "aarch64-linux-gnu-gcc"
    subprocess.run([TOP / "packaging/link-addon", arm_library / "libpbaudit.a", folder / "pbaudit-linux-arm64.node"], check=True,
                   env=os.environ | {"CC": compiler})  # fmt: skip
    words = [compiler, "-std=gnu11", "-O1", "-Wall", "-Wextra", "-Werror", "-rdynamic", "-o", folder / "host", HERE / "addon_host.c", "-ldl"]
    subprocess.run(words, check=True)
    return ["qemu-aarch64", "-L", "/usr/aarch64-linux-gnu", folder / "host", folder / "pbaudit-linux-arm64.node"]


@pytest.mark.parametrize("certificate, status", [("prices", 0), ("short.prices", 1), ("violation", 2)])
def test_native_code_for_node(run, arm_host, certificate, status):
    """What it reports ends with the object and the text of the program; and a word that is misaligned is refused."""
    files = ["district.pb", f"district.{certificate}.csv"]
    ran = told_by([*arm_host, *files])
    wanted = run("prices", *files, "--json").stdout + run("prices", *files).stdout
    assert (ran.returncode, ran.stdout.partition(b"\n")[2]) == (status, wanted)


@pytest.fixture(scope="module")
def arm_python(option, arm_library, tmp_path_factory):
    """A script that runs an ARM Python with the package, installed from the wheel for ARM."""
    needs("qemu-aarch64")
    root = option("arm_root")
    if not root:
        pytest.skip("python3:arm64 is not installed: --arm-root says where it is")
    folder = tmp_path_factory.mktemp("arm")
    name = wheel_writer.write_wheel(folder, (arm_library / LIBRARY_NAME).read_bytes(), machine="aarch64")
    with zipfile.ZipFile(folder / name) as wheel:
        wheel.extractall(folder / "site")
    script, python = folder / "python3", next((TOP / root / "usr/bin").glob("python3.*"))
    script.write_text(f'#!/bin/sh\nexport PYTHONHOME="{TOP / root}/usr" PYTHONDONTWRITEBYTECODE=1\n'
                      f'exec qemu-aarch64 -L "{TOP / root}" -0 "$0" "{python}" "$@"\n')
    script.chmod(0o755)
    return script, {**os.environ, "PYTHONPATH": str(folder / "site")}


def test_it_is_an_arm_python(arm_python):
    script, environment = arm_python
    program = "import platform, pbaudit; print(platform.machine(), pbaudit.audit_prices('district.pb', 'district.prices.csv'))"
    done = subprocess.run([script, "-c", program], env=environment, cwd=TOP / "examples", capture_output=True, text=True, check=False)
    assert done.stdout == "aarch64 supported priceable\n", done.stderr


def test_command_by_the_library(arm_python, run):
    script, environment = arm_python
    words = ["explain", "district.pb", "district.short.prices.csv", "--stable"]
    done = subprocess.run([script, "-m", "pbaudit", *words], env=environment, cwd=TOP / "examples", capture_output=True, check=False)
    wanted = run(*words)
    assert (done.returncode, done.stdout) == (wanted.returncode, wanted.stdout), done.stderr


PACKAGE_TESTS = sorted(path.stem for path in (TOP / "python/tests").glob("test_*.py") if path.stem not in NOT_ON_ARM)


@pytest.mark.parametrize("module", PACKAGE_TESTS)
def test_package(arm_python, program, module):
    """Where the tests call the program, that is the one for this machine."""
    script, environment = arm_python
    done = subprocess.run([script, "-m", "unittest", "-q", module], env=environment, cwd=TOP / "python/tests", text=True,
                          capture_output=True, check=False)
    assert done.returncode == 0, done.stderr
