"""Where the proved library and the proved program are found. Nothing else in this package says so.

A package that was installed by a wheel takes its own alone: the library is in its folder, and the program in `bin` there,
which that for ARM lacks. The wheel for any platform has neither: Node runs the proved code as a WebAssembly module.
Elsewhere each is the first of these that is there:

1. in a checkout of the repository, the one that was built there, by `./pbaudit-library` or `./pbaudit --build`;
2. in a checkout, that of `release/`, where its checksums say that it was made of these sources;
3. for the program, `pbaudit` on the PATH.
"""
import os
import pathlib
import re
import shutil
import subprocess
import sys
from typing import List, Optional

_PACKAGE = pathlib.Path(__file__).resolve().parent
_CHECKOUT = _PACKAGE.parent.parent
# The number is that of the interface which this package calls (`PBAUDIT_INTERFACE` of the header). One of another number isn't found.
LIBRARY = "libpbaudit.so.2"
_OWN, _OWN_PROGRAM = _PACKAGE / LIBRARY, _PACKAGE / "bin" / "pbaudit"
# What the command that pip installs has within it.
_ENTRY = b"from pbaudit.__main__ import main"
_MODULE = _PACKAGE / "node" / "command.js"
_OLDEST_NODE = 18
_NEEDS_NODE = f"this is the wheel of pbaudit for any platform, which answers by Node {_OLDEST_NODE} or newer"
_WITHOUT_NODE = ("install Node, or open pbaudit.html in a browser; the wheels for x86-64 and ARM Linux with glibc need no Node")


def library() -> Optional[pathlib.Path]:
    """The library, or None."""
    if _MODULE.is_file():
        return None
    return _OWN if _OWN.is_file() else _of_checkout(f"lib/{LIBRARY}")


def program() -> Optional[pathlib.Path]:
    """The program, or None."""
    if _OWN.is_file():
        return _OWN_PROGRAM if _OWN_PROGRAM.is_file() and os.access(_OWN_PROGRAM, os.X_OK) else None
    if _MODULE.is_file():
        # A command of that name may be this package's own, which would call it again.
        return None
    on_the_path = shutil.which("pbaudit")
    is_one = on_the_path is not None and not _is_entry(on_the_path)
    return _of_checkout("crates/pbaudit/out/pbaudit") or (pathlib.Path(on_the_path) if on_the_path and is_one else None)


def module() -> Optional[List[str]]:
    """The words by which Node runs the module, or None where the package isn't that of the wheel for any platform. Raises
    ImportError where Node isn't there or is too old."""
    if not _MODULE.is_file():
        return None
    node = shutil.which("node")
    if node is None:
        raise ImportError(f"{_NEEDS_NODE}, and there is no command node on the PATH; {_WITHOUT_NODE}")
    told = subprocess.run([node, "--version"], stdin=subprocess.DEVNULL, capture_output=True, text=True, check=False).stdout
    found = re.match(r"v(\d+)\.", told)
    if not found or int(found[1]) < _OLDEST_NODE:
        raise ImportError(f"{_NEEDS_NODE}, and {node} is {told.strip() or 'none'}; {_WITHOUT_NODE}")
    return [node, str(_MODULE)]


def command() -> List[str]:
    """How the program is run from a shell: by its name if that is on the PATH, and otherwise by this package and its Python,
    as that was called."""
    if shutil.which("pbaudit"):
        return ["pbaudit"]
    # Python 3.9 doesn't know how it was called.
    called: List[str] = getattr(sys, "orig_argv", [])
    return [called[0] if called and called[0] else sys.executable, "-m", "pbaudit"]


def _of_checkout(built: str) -> Optional[pathlib.Path]:
    return _CHECKOUT / built if (_CHECKOUT / built).is_file() else _released(built.rpartition("/")[2])


def _is_entry(path: str) -> bool:
    """Whether it is the command that pip installs, which would call this package again."""
    try:
        with open(path, "rb") as file:
            return _ENTRY in file.read(4096)
    except OSError:
        return False


def _released(name: str) -> Optional[pathlib.Path]:
    command = _CHECKOUT / "packaging" / "released"
    if not command.is_file() or not shutil.which("bash"):
        return None
    done = subprocess.run(["bash", str(command), name], stdin=subprocess.DEVNULL, stdout=subprocess.PIPE, check=False)
    return pathlib.Path(done.stdout.decode().rstrip("\n")) if done.returncode == 0 else None
