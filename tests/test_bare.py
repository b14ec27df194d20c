"""Tries what is released on a machine that has nothing of this one: in a root folder made of files of Debian's packages (libc, bash,
coreutils, dpkg, Python, man) and nothing else, without the kit and without a network. There it calls the first command of the
README on a clone, whose path has a blank, also where the clone can't be written; installs the package of Python, by ./python
and by the wheel; the .deb, with its man page; the .tar.gz; and runs ./install. Needs Debian, and root or leave to make a namespace.
With --root another system is taken, as debootstrap makes it."""
import os
import re
import shutil
import subprocess
import tempfile
from pathlib import Path

import pytest

from common import LIBRARY_NAME, TOP, needs, ran
from test_versions import sets_in, sums_in

pytestmark = pytest.mark.xdist_group("bare")
# With those on which they stand, and what each Debian has in any case.
PACKAGES = ["bash", "coreutils", "dash", "diffutils", "dpkg", "findutils", "grep", "gzip", "libc-bin", "man-db",
            "python3", "python3-pip-whl", "sed", "tar", "util-linux", "xz-utils"]
LINKS = {"bin": "usr/bin", "sbin": "usr/sbin", "lib": "usr/lib", "lib64": "usr/lib64"}
CLONE = "home/a clone"
AUDIT = "prices examples/district.pb examples/district.prices.csv"
ANSWER = "supported priceable\n"


def stanzas():
    """What dpkg knows of each package that is installed."""
    text = Path("/var/lib/dpkg/status").read_text(encoding="utf-8", errors="replace")
    found = (stanza for stanza in text.split("\n\n") if "\nStatus: install ok installed\n" in stanza)
    return {re.search(r"^Package: (.*)$", stanza, re.MULTILINE)[1]: stanza for stanza in found}


def with_what_they_need(known):
    """The packages and those on which they stand."""
    found, wanted = set(), list(PACKAGES)
    while wanted:
        name = wanted.pop()
        if name in found or name not in known:
            continue
        found.add(name)
        for field in re.findall(r"^(?:Pre-)?Depends: (.*)$", known[name], re.MULTILINE):
            wanted += [re.split(r"[ :(]", choice.strip())[0] for choice in re.split(r"[,|]", field)]
    return found


def take(path, root):
    """Puts a file of a package, a link or a folder into the root."""
    to = Path(f"{root}{path}")
    if os.path.isdir(path) and not os.path.islink(path):
        to.mkdir(parents=True, exist_ok=True)
    elif os.path.lexists(path) and not os.path.lexists(to):
        to.parent.mkdir(parents=True, exist_ok=True)
        shutil.copy2(path, to, follow_symlinks=False)


def make_root(root):
    """A root folder of the packages' files alone, with what dpkg has to know of them."""
    known = stanzas()
    assert {"bash", "coreutils", "python3"} <= {*known}
    for link, to in LINKS.items():
        (root / to).mkdir(parents=True, exist_ok=True)
        (root / link).symlink_to(to)
    names = sorted(with_what_they_need(known))
    for path in ran("dpkg-query", "-L", *names).stdout.splitlines():
        if path.startswith("/") and not path.startswith(("/usr/share/doc/", "/usr/share/locale/")):
            take(path, root)
    if not (root / "usr/bin/sh").exists():
        (root / "usr/bin/sh").symlink_to("dash")
    for folder in ("dev", "etc", "home", "proc", "root", "tmp", "var/lib/dpkg/info", "var/lib/dpkg/updates",
                   "var/lib/dpkg/triggers", "var/cache/man"):
        (root / folder).mkdir(parents=True, exist_ok=True)
    (root / "var/lib/dpkg/status").write_text("".join(f"{known[name]}\n\n" for name in names), encoding="utf-8")


class Machine:
    """A root folder, in which commands run."""

    def __init__(self, root):
        self.root = root
        (root / "dev").mkdir(exist_ok=True)
        (root / "dev/null").touch()

    def run(self, command, *words, read_only=False):
        """Runs a command line of bash in the clone, with words as $1 and so on."""
        clone = self.root / CLONE
        inside = f'cd "/{CLONE}" && {command}'
        outside = 'mount --bind /dev/null "$1/dev/null"'
        if read_only:
            outside += ' && mount --bind "$2" "$2" && mount -o remount,bind,ro "$2"'
        outside += ' && shift 2 && exec env -i PATH=/usr/sbin:/usr/bin:/sbin:/bin HOME=/root LC_ALL=C.UTF-8 MANPAGER=cat ' \
                   'DEBIAN_FRONTEND=noninteractive "$@"'
        namespaces = ["-m"] if os.geteuid() == 0 else ["-rm"]
        return ran("unshare", *namespaces, "sh", "-ec", outside, "sh", self.root, clone, shutil.which("chroot") or "chroot",
                   self.root, "/bin/bash", "-c", inside, "bash", *words)

    def has(self, command):
        return self.run(f"command -v {command} > /dev/null").returncode == 0


def copy_files(folder, to, left_out):
    words = [f"--exclude={name}" for name in left_out]
    packed = subprocess.Popen(["tar", "-C", folder, *words, "-cf", "-", "."], stdout=subprocess.PIPE)
    subprocess.run(["tar", "-C", to, "-xf", "-"], stdin=packed.stdout, check=True)
    assert packed.wait() == 0


def make_clone(clone, again):
    """A copy of the repository without what was built, with a release of what is built here."""
    clone.mkdir(parents=True)
    copy_files(TOP, clone, ["out", ".git", "./lib", "./release", "__pycache__"])
    shutil.copytree(again, clone / "release")
    subprocess.run(["chmod", "-R", "a+rX", clone], check=True)


@pytest.fixture(scope="module")
def machine(option, again):
    needs("dpkg-query", "unshare")
    with tempfile.TemporaryDirectory() as folder:
        root = Path(folder, "root")
        root.mkdir()
        if option("root"):
            # Devices stay where they are.
            copy_files(option("root"), root, ["./dev", "./proc", "./sys"])
        else:
            make_root(root)
        made = Machine(root)
        (root / CLONE).mkdir(parents=True)
        done = made.run("ldconfig && true")
        if done.returncode and os.geteuid() != 0:
            pytest.skip(f"nothing runs in the root folder: {done.stderr.strip()}")
        assert done.returncode == 0, done.stderr
        (root / CLONE).rmdir()
        make_clone(root / CLONE, again)
        yield made


def test_first_command_of_the_readme(machine):
    """The first call tells that it is the released one, and the second doesn't."""
    done = machine.run(f"./pbaudit {AUDIT}")
    assert (done.returncode, done.stdout) == (0, ANSWER), done.stderr
    assert done.stderr.startswith("pbaudit: running the program of release/") and done.stderr.count("\n") == 1
    done = machine.run(f"./pbaudit {AUDIT}")
    assert (done.returncode, done.stdout, done.stderr) == (0, ANSWER, "")
    done = machine.run(f"rm -r out && cd / && '/{CLONE}/pbaudit' --version")
    assert done.returncode == 0, done.stderr
    shutil.rmtree(machine.root / CLONE / "out", ignore_errors=True)


def test_clone_that_can_not_be_written(machine):
    done = machine.run(f"touch note 2> /dev/null || ./pbaudit {AUDIT}", read_only=True)
    assert (done.returncode, done.stdout) == (0, ANSWER), done.stderr


def test_build_without_the_kit(machine):
    done = machine.run("./pbaudit --build")
    assert done.returncode == 70 and "rt, the command of the Rattle kit, is not on the PATH" in done.stderr


def test_libraries(machine):
    done = machine.run(f"ldd release/pbaudit release/{LIBRARY_NAME}")
    found = set(re.findall(r"^\t(\S+)", done.stdout, re.MULTILINE))
    assert found <= {"linux-vdso.so.1", "libc.so.6", "/lib64/ld-linux-x86-64.so.2"}
    assert done.returncode == 0 and "not found" not in done.stdout


def first_lines():
    """The Python lines of docs/LIBRARY.md that begin with values, and what stands there that they print."""
    text = (TOP / "docs/LIBRARY.md").read_text(encoding="utf-8")
    blocks = re.findall(r"(?<=\n\n)((?:    .*\n|\n(?=    ))+)", text)
    blocks = [re.sub("^    ", "", block, flags=re.MULTILINE) for block in blocks]
    at, = (number for number, block in enumerate(blocks) if block.startswith("from pbaudit import Instance"))
    return tuple(blocks[at:at + 2])


def pip_of(machine):
    """How pip of a wheel of Debian is called, and its version."""
    wheels = machine.run("ls /usr/share/python-wheels/pip-*.whl").stdout.split()
    if not wheels:
        pytest.skip("python3-pip-whl is not installed")
    command = f'PIP_ROOT_USER_ACTION=ignore python3 {wheels[0]}/pip install --quiet --no-index --target "$1"'
    return command, tuple(map(int, re.search(r"pip-(\d+)\.(\d+)", wheels[0]).groups()))


@pytest.mark.parametrize("what", ["unzip WHEEL", "pip install WHEEL", "pip install ./python"])
def test_package(machine, what):
    """An older pip builds in a copy of the folder python alone, and says that it can't."""
    program, printed = first_lines()
    command, version = ('python3 -m zipfile -e release/*x86_64.whl "$1"', (99, 9)) if what == "unzip WHEEL" else pip_of(machine)
    if what.startswith("pip"):
        command += " ./python" if what.endswith("python") else " release/*x86_64.whl"
    site = f"/root/site of {what.replace('/', ' ')}"
    done = machine.run(command, site)
    if what.endswith("./python") and version < (21, 3):
        assert done.returncode and "install from a whole copy of the repository" in done.stderr
        return
    assert done.returncode == 0, done.stdout + done.stderr
    done = machine.run('cd / && PYTHONPATH=$1 python3 -c "$2"', site, program)
    assert (done.returncode, done.stdout, done.stderr) == (0, printed, "")
    told = machine.run('cd / && PYTHONPATH=$1 python3 -c "import pbaudit; print(pbaudit.__version__)"', site).stdout
    assert told == machine.run("packaging/version --state").stdout
    done = machine.run(f'PYTHONPATH=$1 python3 -m pbaudit {AUDIT}', site)
    assert (done.returncode, done.stdout, done.stderr) == (0, ANSWER, "")
    if what.startswith("pip"):
        done = machine.run(f'"$1/bin/pbaudit" {AUDIT} && cmp "$1/pbaudit/bin/pbaudit" release/pbaudit', site)
        assert (done.returncode, done.stdout, done.stderr) == (0, ANSWER, "")


@pytest.fixture(scope="module")
def packages(machine, tmp_path_factory):
    """The .deb and the .tar.gz, made of the clone's release, and put into the root folder."""
    folder = tmp_path_factory.mktemp("packages")
    made = [ran(machine.root / CLONE / "packaging/packages", folder / name) for name in ("one", "two")]
    assert [done.returncode for done in made] == [0, 0], made[0].stderr
    for one, two in zip(made[0].stdout.split(), made[1].stdout.split()):
        assert Path(one).read_bytes() == Path(two).read_bytes()
    shutil.copytree(folder / "one", machine.root / "root/packages")
    return folder / "one"


def test_packages_are_those_of_their_version(packages, again):
    """By versions/, where it was dated, and is made by the same tools; what isn't released has another name."""
    made = sums_in((packages / "SHA256SUMS").read_text(encoding="utf-8"))
    names = [name for name in made if name.endswith((".deb", ".tar.gz"))]
    version = (again / "MADE-OF").read_text(encoding="utf-8").split()[1]
    assert names and all(version in name for name in names)
    if "+" not in version:
        (listed,) = sets_in(TOP / "versions" / version)
        if listed["MADE-OF"] != made["MADE-OF"]:
            pytest.skip("it is older, of another state of what MADE-OF lists")
        assert made == listed


def test_tar(machine, packages):
    """It answers by the first command of its own README, and has the page, the package for JavaScript, what says of what they are
    made, and the library with its link."""
    line = re.search("^    (.*)", (TOP / "packaging/archive.md").read_text(encoding="utf-8"), re.MULTILINE)[1]
    done = machine.run(f"cd /root && tar -xzf packages/*.tar.gz && cd pbaudit-* && cat README.md && {line}")
    assert (done.returncode, done.stdout[-len(ANSWER):]) == (0, ANSWER), done.stderr
    assert line in done.stdout
    done = machine.run("cd release && for file in pbaudit.html pbaudit-*.tgz MADE-OF pbaudit.spdx.json; do "
                       "cmp /root/pbaudit-*-linux-x86_64/$file $file || exit; done")
    assert (done.returncode, done.stdout) == (0, ""), done.stderr
    done = machine.run(f'cd /root/pbaudit-*-linux-x86_64/lib && readlink libpbaudit.so && cmp libpbaudit.so "$OLDPWD/release/{LIBRARY_NAME}"')
    assert (done.returncode, done.stdout) == (0, f"{LIBRARY_NAME}\n"), done.stderr


def test_deb(machine, packages):
    needs("dpkg-deb")
    done = machine.run("dpkg -i /root/packages/*.deb")
    assert done.returncode == 0, done.stdout + done.stderr
    done = machine.run(f"command -v pbaudit && pbaudit {AUDIT}")
    assert (done.returncode, done.stdout) == (0, f"/usr/bin/pbaudit\n{ANSWER}"), done.stderr
    done = machine.run("cd release && for file in pbaudit.html pbaudit-*.tgz; do cmp /usr/share/pbaudit/$file $file || exit; done")
    assert (done.returncode, done.stdout) == (0, ""), done.stderr
    done = machine.run("cd release && for file in MADE-OF pbaudit.spdx.json; do cmp /usr/share/doc/pbaudit/$file $file || exit; done")
    assert (done.returncode, done.stdout) == (0, ""), done.stderr
    done = machine.run("man pbaudit")
    text = re.sub(r".\x08", "", done.stdout)
    assert done.returncode == 0 and "pbaudit prices" in text and "EXIT" in text.upper(), done.stderr
    done = machine.run("dpkg -r pbaudit && ! command -v pbaudit")
    assert done.returncode == 0, done.stdout + done.stderr


def test_lintian(packages):
    needs("lintian", "dpkg-deb")
    done = ran("lintian", "--fail-on", "error,warning", "--suppress-tags", "initial-upload-closes-no-bugs", *packages.glob("*.deb"))
    assert done.returncode == 0, done.stdout + done.stderr


def test_install(machine):
    done = machine.run(f"./install /usr/local > /dev/null && cd / && cd '/{CLONE}' && /usr/local/bin/pbaudit {AUDIT}")
    assert (done.returncode, done.stdout, done.stderr) == (0, ANSWER, "")
