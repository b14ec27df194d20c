"""What goes into the wheel."""
import contextlib
import email
import hashlib
import io
import os
import pathlib
import re
import shutil
import subprocess
import sys
import tarfile
import tempfile
import unittest
import zipfile
from unittest import mock

import pbaudit

TOP = pathlib.Path(__file__).resolve().parents[2]
sys.path.append(str(TOP / "python" / "backend"))
import wheel_writer  # noqa: E402

# What tells of a library what it asks of glibc.
OLD, NEW = b"old\0GLIBC_2.2.5\0GLIBC_2.14\0", b"new\0GLIBC_2.28\0GLIBC_2.4\0"
OLD_PROGRAM, NEW_PROGRAM = b"old program\0GLIBC_2.2.5\0", b"new program\0GLIBC_2.3\0"
ENTRY = TOP / "python" / "backend" / "entry.py"
LIBRARY = "libpbaudit.so.2"
STATES_VERSION = "crates/pb_words/src/version.rt"


def version():
    """That of the program, with what a wheel says behind it of sources that aren't released."""
    is_released = not (TOP / "CHANGELOG.md").read_text(encoding="utf-8").split("\n## ")[1].startswith("Unreleased\n")
    return that_of_the_program() + ("" if is_released else "+unreleased")


def that_of_the_program():
    return re.search(r'VERSION: &str = "(.*)"', (TOP / STATES_VERSION).read_text(encoding="utf-8"))[1]


class Wheels(unittest.TestCase):
    """A repository with a library, a program and a source, with times in seconds, and builders that write others."""

    def setUp(self):
        self.top = pathlib.Path(tempfile.mkdtemp())
        self.addCleanup(shutil.rmtree, self.top)
        self.library, self.program = self.top / "lib" / LIBRARY, self.top / "crates/pbaudit/out/pbaudit"
        self.built = []
        for name in ("crates/pb_money/src/lib.rt", "crates/pb_money/specs/Lib.antt", "crates/pb_money/proofs/Lib.antt",
                     "crates.txt", "HANDLES", "include/pbaudit.h", "pbaudit-library", "pbaudit"):
            path = self.top / name
            path.parent.mkdir(parents=True, exist_ok=True)
            path.write_bytes(b"old")
        for name in ("LICENSE", "CHANGELOG.md", "packaging", STATES_VERSION):
            (self.top / name).parent.mkdir(parents=True, exist_ok=True)
            (shutil.copytree if (TOP / name).is_dir() else shutil.copy)(TOP / name, self.top / name)
        for path, data in ((self.library, OLD), (self.program, OLD_PROGRAM)):
            path.parent.mkdir(parents=True)
            path.write_bytes(data)
        for path in [*self.top.rglob("*"), self.top]:
            os.utime(path, (1000, 1000))
        for path in (self.library, self.program):
            os.utime(path, (2000, 2000))

    def build(self, command, **given):
        """In the place of pbaudit-library and pbaudit; what asks of the release runs as it is."""
        if command[0] == "bash":
            return RUN(command, **given)
        name, *words = command
        self.built.append([str(pathlib.Path(name).relative_to(self.top)), *words])
        path, data = (self.program, NEW_PROGRAM) if words else (self.library, NEW)
        path.write_bytes(data)

    def release(self, **given):
        """Makes a release of the sources as they are."""
        release = self.top / "release"
        release.mkdir(exist_ok=True)
        files = {LIBRARY: given.get("library", NEW), "pbaudit": given.get("program", NEW_PROGRAM)}
        for name, data in files.items():
            (release / name).write_bytes(data)
        sums = [f"{part} {RUN([self.top / 'packaging' / 'sources', part], capture_output=True, text=True, check=True).stdout}"
                for part in ("crates", "library")]
        (release / "MADE-OF").write_text("".join(sums))
        lines = [f"{hashlib.sha256(data).hexdigest()}  {name}\n" for name, data in files.items()]
        (release / "SHA256SUMS").write_text("".join(lines))
        return release

    @contextlib.contextmanager
    def wheel(self, rt="/usr/bin/rt", build=None):
        """The wheel, as a zip file, and its name."""
        which = shutil.which
        with mock.patch.object(wheel_writer, "REPOSITORY", self.top), \
                mock.patch.object(shutil, "which", lambda name: rt if name == "rt" else which(name)), \
                mock.patch.object(subprocess, "run", build or self.build), tempfile.TemporaryDirectory() as room, \
                contextlib.redirect_stderr(io.StringIO()):
            name = wheel_writer.build_wheel(room)
            with zipfile.ZipFile(pathlib.Path(room, name)) as wheel:
                yield wheel, name

    def in_the_wheel(self, **given):
        """The library and the program in the wheel."""
        with self.wheel(**given) as (wheel, _):
            self.assertIn("pbaudit/py.typed", wheel.namelist())
            program, command = "pbaudit/bin/pbaudit", f"pbaudit-{version()}.data/scripts/pbaudit"
            for name in (program, command):
                self.assertEqual(wheel.getinfo(name).external_attr >> 16, 0o100755)
            self.assertEqual(wheel.read(command), ENTRY.read_bytes())
            return wheel.read(f"pbaudit/{LIBRARY}"), wheel.read(program)

    def test_what_is_current_is_taken(self):
        self.release()
        self.assertEqual((self.in_the_wheel(), self.built), ((OLD, OLD_PROGRAM), []))

    def test_what_is_missing_or_older_than_a_source_is_built(self):
        builds_library, builds_program = ["pbaudit-library"], ["pbaudit", "--build"]
        for newer in ("crates/pb_money/src/lib.rt", "crates/pb_money/src", "crates.txt", "HANDLES"):
            with self.subTest(newer=newer):
                self.setUp()
                os.utime(self.top / newer, (3000, 3000))
                self.assertEqual((self.in_the_wheel(), self.built), ((NEW, NEW_PROGRAM), [builds_library, builds_program]))
        for newer in ("include/pbaudit.h", "pbaudit-library"):
            with self.subTest(newer=newer):
                self.setUp()
                os.utime(self.top / newer, (3000, 3000))
                self.assertEqual((self.in_the_wheel(), self.built), ((NEW, OLD_PROGRAM), [builds_library]))
        for missing, wanted in (("library", (NEW, OLD_PROGRAM)), ("program", (OLD, NEW_PROGRAM))):
            with self.subTest(missing=missing):
                self.setUp()
                getattr(self, missing).unlink()
                self.assertEqual(self.in_the_wheel(), wanted)

    def test_what_is_released_of_these_sources_is_taken(self):
        self.library.unlink()
        self.program.unlink()
        self.release()
        for rt in ("/usr/bin/rt", None):
            self.assertEqual((self.in_the_wheel(rt=rt), self.built), ((NEW, NEW_PROGRAM), []))
        os.utime(self.top / "crates.txt", (3000, 3000))
        self.assertEqual((self.in_the_wheel(rt=None), self.built), ((NEW, NEW_PROGRAM), []))

    def test_what_is_released_of_other_sources_is_not_taken(self):
        for name in ("crates/pb_money/src/lib.rt", "crates.txt", "HANDLES", "include/pbaudit.h", "pbaudit-library"):
            with self.subTest(changed=name):
                self.setUp()
                self.library.unlink()
                self.release()
                (self.top / name).write_bytes(b"changed")
                with self.assertRaisesRegex(SystemExit, "release/ may not be made of these sources"):
                    self.in_the_wheel(rt=None)
                self.assertEqual(self.in_the_wheel()[0], NEW)
                self.assertIn(["pbaudit-library"], self.built)

    def test_a_released_file_with_a_wrong_byte_is_not_taken(self):
        for name in ("library", "program"):
            with self.subTest(name=name):
                self.setUp()
                getattr(self, name).unlink()
                (self.release() / getattr(self, name).name).write_bytes(OLD)
                with self.assertRaises(SystemExit):
                    self.in_the_wheel(rt=None)

    def test_without_rt_what_is_there_is_taken(self):
        os.utime(self.top / "crates.txt", (3000, 3000))
        self.assertEqual((self.in_the_wheel(rt=None), self.built), ((OLD, OLD_PROGRAM), []))

    def test_without_both_nothing_is_installed(self):
        for name in ("library", "program"):
            with self.subTest(missing=name):
                self.setUp()
                getattr(self, name).unlink()
                with self.assertRaisesRegex(SystemExit, f"^pbaudit: ({LIBRARY}|pbaudit) is not built, "):
                    self.in_the_wheel(rt=None)

    def test_on_another_machine_nothing_is_installed(self):
        for where, answer in (("platform.machine", "aarch64"), ("platform.libc_ver", ("", "")), ("struct.calcsize", 4)):
            with self.subTest(where=where), mock.patch(where, lambda *_, answer=answer: answer), \
                    self.assertRaisesRegex(SystemExit, "^pbaudit: this folder has neither library nor program for this machine"):
                self.in_the_wheel()
        with mock.patch.object(sys, "platform", "darwin"), self.assertRaises(SystemExit):
            self.in_the_wheel()

    def test_a_copy_of_the_folder_alone_is_not_installed(self):
        for name in (STATES_VERSION, "CHANGELOG.md"):
            with self.subTest(name=name):
                self.setUp()
                (self.top / name).unlink()
                with self.assertRaisesRegex(SystemExit, f"{pathlib.Path(name).name} is missing"):
                    self.in_the_wheel()

    def test_what_is_not_released_is_named_so(self):
        """By the first heading of the changelog: so a wheel of later sources isn't taken for that of the version."""
        stated = that_of_the_program()
        for heading, named in (("Unreleased", f"{stated}+unreleased"), (f"[{stated}] - 2026-11-27", stated)):
            with self.subTest(heading=heading):
                (self.top / "CHANGELOG.md").write_text(f"# Changelog\n\n## {heading}\n\n## [{stated}] - 2026-11-27\n")
                with self.wheel() as (wheel, name):
                    self.assertTrue(name.startswith(f"pbaudit-{named}-py3-none-"), name)
                    said = email.message_from_bytes(wheel.read(f"pbaudit-{named}.dist-info/METADATA"))
                    self.assertEqual(said["Version"], named)
                    self.assertIn(f'VERSION = "{named}"', wheel.read("pbaudit/_version.py").decode())
        (self.top / "CHANGELOG.md").write_text("# Changelog\n\n## [9.9.9] - 2026-11-27\n")
        with self.assertRaisesRegex(SystemExit, f"neither 'Unreleased' nor that of {stated}"):
            self.in_the_wheel()

    def test_a_build_that_fails_leaves_no_wheel(self):
        self.library.unlink()

        def fail(command, **given):
            if command[0] == "bash":
                return RUN(command, **given)
            self.assertTrue(given["check"])
            raise subprocess.CalledProcessError(70, command)
        with self.assertRaises(subprocess.CalledProcessError):
            self.in_the_wheel(build=fail)

    def test_the_tag_is_that_of_the_glibc_that_is_asked_for(self):
        with self.wheel() as (wheel, name):
            self.assertEqual(name, f"pbaudit-{version()}-py3-none-manylinux_2_14_x86_64.manylinux2014_x86_64.whl")
            tags = wheel.read(f"pbaudit-{version()}.dist-info/WHEEL").decode()
        self.assertIn("Tag: py3-none-manylinux_2_14_x86_64\nTag: py3-none-manylinux2014_x86_64\n", tags)
        self.library.write_bytes(NEW)
        os.utime(self.library, (2000, 2000))
        with self.wheel() as (_, name):
            self.assertEqual(name, f"pbaudit-{version()}-py3-none-manylinux_2_28_x86_64.whl")
        self.library.write_bytes(OLD)
        self.program.write_bytes(NEW)
        for path in (self.library, self.program):
            os.utime(path, (2000, 2000))
        with self.wheel() as (_, name):
            self.assertEqual(name, f"pbaudit-{version()}-py3-none-manylinux_2_28_x86_64.whl")

    def test_for_any_platform_it_has_the_command_of_the_package_for_javascript(self):
        """And neither library nor program; the same package gives the same bytes."""
        made = io.BytesIO()
        with tarfile.open(fileobj=made, mode="w:gz") as package:
            for name in ("LICENSE", "command.js", "generated.js", "index.js", "package.json", "pbaudit.wasm"):
                entry = tarfile.TarInfo(f"package/{name}")
                entry.size = len(name)
                package.addfile(entry, io.BytesIO(name.encode()))
        with tempfile.TemporaryDirectory() as room:
            wheels = []
            for folder in ("one", "two"):
                pathlib.Path(room, folder).mkdir()
                name = wheel_writer.write_module_wheel(pathlib.Path(room, folder), made.getvalue())
                self.assertEqual(name, f"pbaudit-{version()}-py3-none-any.whl")
                wheels.append(pathlib.Path(room, folder, name).read_bytes())
        self.assertEqual(*wheels)
        with zipfile.ZipFile(io.BytesIO(wheels[0])) as wheel:
            names = {name for name in wheel.namelist() if not name.endswith((".py", "py.typed")) and "dist-info" not in name}
            self.assertEqual(names, {f"pbaudit/node/{name}" for name in ("command.js", "package.json", "pbaudit.wasm")})
            self.assertEqual(wheel.read("pbaudit/node/command.js"), b"command.js")
            said = wheel.read(f"pbaudit-{version()}.dist-info/WHEEL").decode()
            self.assertIn("Root-Is-Purelib: true\nTag: py3-none-any\n", said)
            self.assertIn(b"pbaudit.__main__:main", wheel.read(f"pbaudit-{version()}.dist-info/entry_points.txt"))

    def test_without_a_program_the_command_asks_the_library(self):
        with tempfile.TemporaryDirectory() as room:
            name = wheel_writer.write_wheel(room, OLD, machine="aarch64")
            self.assertEqual(name, f"pbaudit-{version()}-py3-none-manylinux_2_14_aarch64.manylinux2014_aarch64.whl")
            with zipfile.ZipFile(pathlib.Path(room, name)) as wheel:
                self.assertEqual(wheel.read(f"pbaudit-{version()}.data/scripts/pbaudit"), ENTRY.read_bytes())
                self.assertNotIn("pbaudit/bin/pbaudit", wheel.namelist())

    def test_one_by_which_python_takes_the_package_from_here(self):
        """It has the command, what the package says of itself, and the folder; nothing has to be built for it."""
        self.library.unlink()
        self.program.unlink()
        with mock.patch.object(wheel_writer, "REPOSITORY", self.top), tempfile.TemporaryDirectory() as room:
            name = wheel_writer.build_editable(room)
            self.assertEqual(name, f"pbaudit-{version()}-py3-none-any.whl")
            with zipfile.ZipFile(pathlib.Path(room, name)) as wheel:
                self.assertEqual(wheel.read("__editable__.pbaudit.pth").decode(), f"{TOP / 'python'}\n")
                command = f"pbaudit-{version()}.data/scripts/pbaudit"
                self.assertEqual((wheel.read(command), wheel.getinfo(command).external_attr >> 16),
                                 (ENTRY.read_bytes(), 0o100755))
                self.assertFalse([each for each in wheel.namelist() if each.startswith("pbaudit/")])
        self.assertEqual(self.built, [])

    def test_what_it_says_of_itself(self):
        with self.wheel() as (wheel, _):
            folder = f"pbaudit-{version()}.dist-info"
            self.assertEqual(wheel.read(f"{folder}/LICENSE"), (TOP / "LICENSE").read_bytes())
            said = email.message_from_bytes(wheel.read(f"{folder}/METADATA"))
            self.assertEqual(wheel.testzip(), None)
            record = wheel.read(f"{folder}/RECORD").decode()
            names = wheel.namelist()
            modules = wheel.read("pbaudit/_version.py").decode()
        self.assertEqual((said["Name"], said["Version"], said["Author"]), ("pbaudit", version(), "the pbaudit authors"))
        self.assertNotIn("Project-URL", said)
        self.assertNotIn(".example", str(said))
        self.assertIn("License :: OSI Approved :: MIT License", said.get_all("Classifier"))
        self.assertEqual(said.get_payload(), (TOP / "python" / "README.md").read_text(encoding="utf-8"))
        self.assertEqual([line.split(",")[0] for line in record.splitlines()], names)
        self.assertIn(f'VERSION = "{version()}"', modules)

    def test_the_same_files_give_the_same_bytes(self):
        with self.wheel() as (first, _), self.wheel() as (second, _):
            with open(first.filename, "rb") as one, open(second.filename, "rb") as two:
                self.assertEqual(one.read(), two.read())
            self.assertEqual({entry.date_time for entry in first.infolist()}, {(1980, 1, 1, 0, 0, 0)})


class Version(unittest.TestCase):
    def test_it_is_that_of_the_program(self):
        self.assertEqual(pbaudit.__version__, version())


RUN = subprocess.run
