"""Where the tests and the repository are, what a test needs that may be missing, and what several do with files and commands."""
import os
import pathlib
import re
import shutil
import subprocess

import pytest

HERE = pathlib.Path(__file__).resolve().parent
TOP = HERE.parent
# The number of the interface, by the header, and the C library, in whose name it stands.
INTERFACE = int(re.search(r"^#define PBAUDIT_INTERFACE (\d+)$", (TOP / "include/pbaudit.h").read_text("utf-8"), re.MULTILINE)[1])
LIBRARY_NAME = f"libpbaudit.so.{INTERFACE}"


def needs(*commands):
    """Skips a test where one of these commands isn't installed; a tuple has several names of one."""
    for names in commands:
        names = (names,) if isinstance(names, str) else names
        if not any(map(shutil.which, names)):
            pytest.skip(f"{names[0]} is not installed")


def ran(*words, **more):
    """A command that has ended: its status and what it wrote."""
    more = {"stdin": subprocess.DEVNULL, "capture_output": True, "text": True, "timeout": 1200, "check": False} | more
    try:
        return subprocess.run([str(word) for word in words], **more)
    except OSError as error:
        return subprocess.CompletedProcess(words, 127, "", str(error))


def script(path, text):
    path.write_text(text)
    path.chmod(0o755)


def turned(data):
    """The bytes of a file with one in the middle turned."""
    middle = len(data) // 2
    return data[:middle] + bytes([data[middle] ^ 1]) + data[middle + 1:]


def cloned(source, clone, *options):
    """Commits a folder as a repository of git, and clones it by these options of git; no other configuration counts."""
    needs("git")
    alone = os.environ | {"GIT_CONFIG_GLOBAL": "/dev/null", "GIT_CONFIG_NOSYSTEM": "1"}
    me = ("-c", "user.name=a", "-c", "user.email=a@example.org")
    for words in (["init", "-q", source], ["-C", source, "add", "-A", "-f"], ["-C", source, *me, "commit", "-q", "-m", "all"],
                  ["clone", "-q", *options, source, clone]):  # fmt: skip
        done = ran("git", *words, env=alone)
        assert done.returncode == 0, done.stderr
    return clone
