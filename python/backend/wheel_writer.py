"""Writes the wheel of pbaudit by the standard library alone, so that `pip install` needs no other package.

The wheel holds the proved library, the proved program, and the command `pbaudit`, which is entry.py. Library and program are
those that were built here, in `lib` and in `crates/pbaudit/out`, where no source is newer; else those of the folder `release`,
where they were made of these sources. Where neither is so and `rt` is on the PATH, they are built, and where that fails there
is no wheel. Without `rt` those that were built are taken, however old they are; and where there are none nothing is installed.
The same files give the same bytes.

The wheel for any platform has neither. It holds the command of the package for JavaScript, the program as a module that Node runs.
"""
import base64
import hashlib
import io
import pathlib
import platform
import re
import shutil
import struct
import subprocess
import sys
import tarfile
import zipfile
from typing import List, NamedTuple, Tuple

PYTHON = pathlib.Path(__file__).resolve().parent.parent
REPOSITORY = PYTHON.parent
# What both are built of, as ./install has it.
SOURCES = ("crates.txt", "HANDLES", "crates/*/src", "crates/*/specs", "crates/*/proofs")
PROJECT = (PYTHON / "pyproject.toml").read_text(encoding="utf-8")
# What the command of the package is made of, and where the wheel has the program, to which that hands over.
ENTRY, PROGRAM_IN_WHEEL = PYTHON / "backend" / "entry.py", "pbaudit/bin/pbaudit"
# The command of the wheel for any platform: what entry.py does without a program.
ENTRY_POINT, ANY = b"[console_scripts]\npbaudit = pbaudit.__main__:main\n", ["py3-none-any"]
# What stands in a zip file has a date, which is the same for every build.
DATE = (1980, 1, 1, 0, 0, 0)


class Part(NamedTuple):
    """What the wheel holds: its name in `release`, where it is built, by what command, and of what beside SOURCES."""

    name: str
    built: str
    command: List[str]
    sources: Tuple[str, ...]


# What of the package for JavaScript its command needs.
MODULE = ("command.js", "pbaudit.wasm", "package.json")
# By the name that the package looks for, in which the number of its interface stands.
LIBRARY_NAME = re.search(r'^LIBRARY = "(.*)"$', (PYTHON / "pbaudit/_places.py").read_text(encoding="utf-8"), re.MULTILINE)[1]
LIBRARY = Part(LIBRARY_NAME, f"lib/{LIBRARY_NAME}", ["pbaudit-library"], ("include", "pbaudit-library"))
PROGRAM = Part("pbaudit", "crates/pbaudit/out/pbaudit", ["pbaudit", "--build"], ())


class NoWheel(SystemExit):
    """Ends the installation with a sentence."""


def field(name):
    """The text of a field of pyproject.toml."""
    return re.search(rf'^"?{name}"? = "(.*)"$', PROJECT, re.MULTILINE)[1]


def text_of(name):
    """The text of a file that the repository has beside the folder python."""
    source = REPOSITORY / name
    if not source.exists():
        raise NoWheel(f"pbaudit: {source} is missing: install from a whole copy of the repository, by pip 21.3 or later, "
                      "or install the wheel of its folder release")
    return source.read_text(encoding="utf-8")


def version():
    """The version, which stands in the sources of the program alone. Behind it is '+unreleased' where CHANGELOG.md begins with
    what isn't released, as packaging/version --state says."""
    source = text_of("crates/pb_words/src/version.rt")
    stated = re.search(r'^pub const VERSION: &str = "(\d+\.\d+\.\d+)";$', source, re.MULTILINE)[1]
    first = re.search(r"^## (.*)$", text_of("CHANGELOG.md"), re.MULTILINE)[1]
    if first != "Unreleased" and not first.startswith(f"[{stated}] - "):
        raise NoWheel(f"pbaudit: the first heading of CHANGELOG.md is neither 'Unreleased' nor that of {stated}")
    return f"{stated}+unreleased" if first == "Unreleased" else stated


def is_current(part):
    """Whether it is built and no source is newer."""
    built = REPOSITORY / part.built
    if not built.exists():
        return False
    sources = (path for pattern in (*SOURCES, *part.sources) for path in REPOSITORY.glob(pattern))
    return all(path.lstat().st_mtime_ns <= built.stat().st_mtime_ns
               for source in sources for path in (source, *source.rglob("*")))


def released(part):
    """That of the folder `release`, or None where it isn't of these sources."""
    command = REPOSITORY / "packaging" / "released"
    if not command.exists() or not shutil.which("bash"):
        return None
    done = subprocess.run(["bash", str(command), part.name], stdout=subprocess.PIPE, check=False)
    return pathlib.Path(done.stdout.decode().rstrip("\n")) if done.returncode == 0 else None


def is_for_this_machine():
    """Whether they, which are for x86-64 Linux with glibc, can be run here."""
    return (sys.platform == "linux" and platform.machine() in ("x86_64", "AMD64") and struct.calcsize("P") == 8
            and platform.libc_ver()[0] == "glibc")


def found(part):
    """Its bytes for the wheel. It is built first where that is needed and can be done."""
    if is_current(part):
        return (REPOSITORY / part.built).read_bytes()
    of_release = released(part)
    if of_release:
        return of_release.read_bytes()
    builder, *words = part.command
    if (REPOSITORY / builder).exists() and shutil.which("rt"):
        print(f"pbaudit: building {part.name}: everything is proved first", file=sys.stderr)
        subprocess.run([str(REPOSITORY / builder), *words], check=True, stdout=sys.stderr)
    if not (REPOSITORY / part.built).exists():
        raise NoWheel(f"pbaudit: {part.name} is not built, the one in release/ may not be made of these sources, and rt, "
                      "the command of the Rattle kit, is not on the PATH; the wheel in release/ can be installed")
    return (REPOSITORY / part.built).read_bytes()


def tags_of(binaries, machine):
    """The tags of the wheel: for every Python 3, and for the oldest glibc that has what its binaries ask of it. Tags that
    older versions of pip know stand beside it."""
    asked = {tuple(map(int, found)) for data in binaries for found in re.findall(rb"\0GLIBC_(\d+)\.(\d+)", data)}
    major, minor = max(asked, default=(2, 5))
    platforms = [f"manylinux_{major}_{minor}_{machine}"]
    if (major, minor) <= (2, 17):
        platforms.append(f"manylinux2014_{machine}")
    return [f"py3-none-{platform}" for platform in platforms]


def extras():
    """The optional packages, by the name under which they are asked for."""
    section = re.search(r"^\[project.optional-dependencies\]\n((?:.+\n)*)", PROJECT, re.MULTILINE)[1]
    for extra, packages in re.findall(r"^(\w+) = \[(.*)\]$", section, re.MULTILINE):
        yield "Provides-Extra", extra
        yield from (("Requires-Dist", f"{package}; extra == '{extra}'") for package in re.findall('"(.*?)"', packages))


def metadata():
    """What the wheel says of itself, by pyproject.toml, and the README."""
    author = re.search(r'^authors = .*name = "(.*?)"', PROJECT, re.MULTILINE)[1]
    classifiers = re.search(r"^classifiers = \[\n(.*?)^\]", PROJECT, re.MULTILINE | re.DOTALL)[1]
    lines = [
        ("Metadata-Version", "2.1"),
        ("Name", field("name")),
        ("Version", version()),
        ("Summary", field("description")),
        ("Author", author),
        ("License", "MIT"),
        ("License-File", "LICENSE"),
        ("Requires-Python", field("requires-python")),
        ("Description-Content-Type", "text/markdown"),
        *extras(),
    ]
    said = [*lines, *(("Classifier", text) for text in re.findall(r'"(.*)"', classifiers))]
    readme = (PYTHON / "README.md").read_text(encoding="utf-8")
    return "".join(f"{name}: {value}\n" for name, value in said) + "\n" + readme


def files_of(library, program, tags, module=None):
    """The files of the wheel with what is in them. Without a program the command asks the library, or where there is a module in
    its place has Node run that."""
    files = {str(path.relative_to(PYTHON)): path.read_bytes() for path in sorted((PYTHON / "pbaudit").rglob("*.py"))}
    files["pbaudit/_version.py"] = f'"""The version of this package."""\nVERSION = "{version()}"\n'.encode()
    files["pbaudit/py.typed"] = b""
    files.update({f"pbaudit/{LIBRARY.name}": library} if module is None else module)
    if program is not None:
        files[PROGRAM_IN_WHEEL] = program
    return with_metadata(files, tags, is_pure=module is not None)


def with_metadata(files, tags, is_pure=False):
    """The files with the command and with what the wheel says of itself. In a wheel for any platform the command is an entry
    point, of which pip makes a program on Windows, where a script can't be run by its name."""
    head = f"{field('name')}-{version()}"
    folder = f"{head}.dist-info"
    command = {f"{folder}/entry_points.txt": ENTRY_POINT} if is_pure else {f"{head}.data/scripts/pbaudit": ENTRY.read_bytes()}
    said = ["Wheel-Version: 1.0", "Generator: pbaudit", f"Root-Is-Purelib: {str(is_pure).lower()}"]
    lines = [*said, *(f"Tag: {tag}" for tag in tags)]
    files = {
        **files, **command,
        f"{folder}/LICENSE": (REPOSITORY / "LICENSE").read_bytes(), f"{folder}/METADATA": metadata().encode(),
        f"{folder}/WHEEL": "".join(f"{line}\n" for line in lines).encode(),
    }
    record = "".join(f"{path},{hash_of(data)},{len(data)}\n" for path, data in files.items())
    return {**files, f"{folder}/RECORD": f"{record}{folder}/RECORD,,\n".encode()}


def build_wheel(wheel_directory, config_settings=None, metadata_directory=None):
    """Writes the wheel and answers its name, as PEP 517 asks."""
    version()
    if not is_for_this_machine():
        raise NoWheel("pbaudit: this folder has neither library nor program for this machine, but for x86-64 Linux with "
                      "glibc; on ARM Linux install the wheel for it in release/, and elsewhere the one for any platform "
                      "(py3-none-any), which needs Node")
    return write_wheel(wheel_directory, found(LIBRARY), found(PROGRAM))


def build_editable(wheel_directory, config_settings=None, metadata_directory=None):
    """Writes a wheel by which Python takes the package from this folder, and answers its name, as PEP 660 asks. Library and
    program are then those of the repository, as for any caller there."""
    version()
    files = {f"__editable__.{field('name')}.pth": f"{PYTHON}\n".encode()}
    return zipped(wheel_directory, with_metadata(files, ANY), platforms_of(ANY))


def write_wheel(folder, library, program=None, machine="x86_64"):
    """Writes the wheel for a machine, with a library and perhaps a program, into a folder, and answers its name."""
    tags = tags_of([library] if program is None else [library, program], machine)
    return zipped(folder, files_of(library, program, tags), platforms_of(tags))


def write_module_wheel(folder, package):
    """Writes the wheel for any platform, with what the command of the package for JavaScript needs, into a folder, and answers
    its name."""
    with tarfile.open(fileobj=io.BytesIO(package)) as tar:
        module = {f"pbaudit/node/{name}": tar.extractfile(f"package/{name}").read() for name in MODULE}
    return zipped(folder, files_of(None, None, ANY, module), platforms_of(ANY))


def platforms_of(tags):
    """What the name of a wheel has of its tags."""
    return ".".join(tag.rpartition("-")[2] for tag in tags)


def zipped(folder, files, platforms):
    """Writes a wheel of these files, and answers its name."""
    name = f"{field('name')}-{version()}-py3-none-{platforms}.whl"
    with zipfile.ZipFile(pathlib.Path(folder) / name, "w", zipfile.ZIP_DEFLATED) as wheel:
        for path, content in files.items():
            entry = zipfile.ZipInfo(path, DATE)
            is_command = path == PROGRAM_IN_WHEEL or path.endswith(".data/scripts/pbaudit")
            entry.external_attr = (0o100755 if is_command else 0o100644) << 16
            wheel.writestr(entry, content, zipfile.ZIP_DEFLATED, 9)
    return name


def hash_of(data):
    return "sha256=" + base64.urlsafe_b64encode(hashlib.sha256(data).digest()).rstrip(b"=").decode()
