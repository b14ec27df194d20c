"""The native code of the package for JavaScript: how it is linked, where it lies, and libraries that stand in for the C library."""
import os
import pathlib
import subprocess
import tarfile

import header
from common import TOP, ran

HEADER = (TOP / "include/pbaudit.h").read_text(encoding="utf-8")
# The name of the addon for the machine of the tests.
MACHINE = "pbaudit-linux-x64.node"


def linked(library, put, top=TOP, **environment):
    done = ran(top / "packaging/link-addon", library, put, env=os.environ | environment)
    assert done.returncode == 0, done.stderr
    return put


def stand_in(folder, answer, top=TOP):
    """A library of which each function answers so: an expression in C, in which `calls` is how often one was called."""
    functions, _ = header.functions(HEADER)
    text = "".join(f"uint8_t {name}({takes}) {{ calls++; return {answer}; }}\n" for name, takes in functions.items())
    (folder / "library.c").write_text(f'#include "pbaudit.h"\nstatic unsigned calls;\n{text}')
    subprocess.run(["cc", "-fPIC", "-I", top / "include", "-c", "-o", folder / "library.o", folder / "library.c"], check=True)
    subprocess.run(["ar", "rcs", folder / "library.a", folder / "library.o"], check=True)
    return folder / "library.a"


def unpacked(packed, folder):
    """Unpacks the package where a script of the folder may import it."""
    (folder / "node_modules").mkdir()
    with tarfile.open(packed) as package:
        package.extractall(folder / "node_modules")
    (folder / "node_modules" / "package").rename(folder / "node_modules" / "pbaudit")
    return folder


def native_of(folder):
    """Where the addon lies in such a folder."""
    return pathlib.Path(folder) / "node_modules/pbaudit/native" / MACHINE
