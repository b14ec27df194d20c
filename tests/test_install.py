"""Tries ./install: into a PREFIX, below a DESTDIR, and where it can't; and compares the man page and the completions that it makes
with the program's help. The program and the library are built here."""
import hashlib
import lzma
import os
import pathlib
import re
import shlex
import shutil

import pytest

from common import LIBRARY_NAME, TOP, needs, ran, turned
from helps import Helps
from tables import EXAMPLES

pytestmark = pytest.mark.usefixtures("built_here")
FILES = {
    "bin/pbaudit": 0o755,
    f"lib/{LIBRARY_NAME}": 0o755,
    "lib/libpbaudit.so": 0o755,
    "lib/libpbaudit.a": 0o644,
    "include/pbaudit.h": 0o644,
    "lib/pkgconfig/pbaudit.pc": 0o644,
    "share/man/man1/pbaudit.1": 0o644,
    "share/bash-completion/completions/pbaudit": 0o644,
    "share/zsh/site-functions/_pbaudit": 0o644,
    "share/fish/vendor_completions.d/pbaudit.fish": 0o644,
    "share/pbaudit/installed": 0o644,
}
MAN, BASH, ZSH, FISH = list(FILES)[6:10]
LANGUAGES = ["en", "pl", "de", "fr"]


def man_options(text):
    """By command, the options that have an entry in a man page."""
    found, at, tagged = {}, None, False
    for line in text.replace("\\-", "-").splitlines():
        if line.startswith(".SH "):
            at = "" if line == ".SH OPTIONS" else None
            if at == "":
                found[at] = set()
        elif line.startswith(".SS "):
            at = line[4:]
            found[at] = set()
        elif tagged and at is not None:
            found[at] |= set(re.findall(r"--?\w[\w-]*", re.sub(r"\\f.", " ", line)))
        tagged = line == ".TP"
    return found


def bash_replies(prefix, folder, *words):
    """What bash completes the last of these words to, where the file is sourced; in a folder."""
    script = 'source "$1" && shift && COMP_WORDS=("$@") COMP_CWORD=$(($# - 1)) && _pbaudit'
    script += '; for reply in "${COMPREPLY[@]}"; do printf "%s\\n" "$reply"; done'
    done = ran("bash", "--norc", "-euc", script, "bash", prefix / BASH, *words, cwd=folder)
    return done.stdout.splitlines() if done.returncode == 0 and not done.stderr else [done.stderr, str(done.returncode)]


@pytest.fixture(scope="module")
def prefix(tmp_path_factory):
    """A PREFIX into which all is installed."""
    folder = tmp_path_factory.mktemp("installed") / "a prefix"
    done = ran(TOP / "install", folder, env=os.environ | {"DESTDIR": ""}, umask=0o022)
    assert done.returncode == 0, done.stderr
    return folder


@pytest.fixture(scope="module")
def helps(prefix):
    return Helps(prefix / "bin/pbaudit")


@pytest.fixture
def files(room):
    """A folder with files that are completed."""
    (room / "more").mkdir()
    for file in ("a town.pb", "-town.pb"):
        (room / file).touch()
    return room


@pytest.fixture
def bash(prefix, files):
    """What bash completes the last of some words to."""
    needs("bash")
    return lambda *words: bash_replies(prefix, files, "pbaudit", *words)


def test_help_is_understood(helps):
    assert len(helps.names) > 1 and helps.sets[""] and helps.valued


def test_help_of_each_command_has_an_example(helps):
    """But for that of `help`, which is clap's own."""
    for name in {*helps.names} - {"help"}:
        assert re.search(rf"^Examples?:\n(?:  .*\n)*?  pbaudit {name}\b", helps.texts[name], re.MULTILINE), name


def test_options_stand_in_the_man_page(prefix, helps):
    assert man_options((prefix / MAN).read_text()) == helps.sets


def test_bash_completes_commands(bash, helps):
    assert sorted(bash("")) == sorted(bash("help", "")) == sorted(helps.names)
    assert set(bash("-")) == helps.sets[""]
    assert [name for name in helps.names if name not in bash(name[:2])] == []


def test_bash_completes_options(bash, helps):
    for name in helps.names:
        assert (name, set(bash(name, "-")) if helps.sets[name] else set()) == (name, helps.sets[name])
        assert [option for option in helps.sets[name] if option[:2] == "--" and option not in bash(name, "x", option[:4])] == []


def test_bash_completes_languages(bash):
    assert bash("page", "--language", "") == bash("page", "--language", "=", "") == LANGUAGES
    assert bash("page", "a town.pb", "--language", "d") == ["de"]


def test_bash_completes_values_and_files(bash, helps):
    for name, option in helps.valued:
        if option == "--language":
            continue
        assert set(bash(name, option, "")) == {"a town.pb", "more", "-town.pb"}
        assert bash(name, option, "=", "a ") == ["a town.pb"]
    for name, text in helps.texts.items():
        argument = re.search(r"^Usage: pbaudit .*<(\w+)>", text, re.MULTILINE)
        if argument and name:
            is_folder = argument[1] == "FOLDER"
            assert set(bash(name, "")) == ({"more"} if is_folder else {"a town.pb", "more", "-town.pb"})
            assert bash(name, "--", "-") == ([] if is_folder else ["-town.pb"])


def test_bash_completes_pbaudit(prefix):
    done = ran("bash", "--norc", "-c", 'source "$1" && complete -p pbaudit', "bash", prefix / BASH)
    assert done.stdout == "complete -F _pbaudit pbaudit\n"


def fish_replies(prefix, line):
    """Files of the folder are left out: they have no text behind them."""
    done = ran("fish", "--no-config", "-c", f"source {shlex.quote(str(prefix / FISH))}; complete -C {shlex.quote(line)}")
    assert (done.returncode, done.stderr) == (0, "")
    return {word.split("\t")[0] for word in done.stdout.splitlines() if "\t" in word}


def test_fish(prefix, helps):
    needs("fish")
    assert fish_replies(prefix, "pbaudit ") == set(helps.names)
    for name, wanted in helps.sets.items():
        start = f"pbaudit {name} " if name else "pbaudit "
        assert fish_replies(prefix, start + "--") == {word for word in wanted if word.startswith("--")}
        # Behind a single '-' fish adds the long options where there are short ones.
        shorts = {word for word in fish_replies(prefix, start + "-") if not word.startswith("--")}
        assert shorts == {word for word in wanted if not word.startswith("--")}


def test_fish_completes_languages(prefix, files):
    needs("fish")
    script = f"source {shlex.quote(str(prefix / FISH))}; complete -C 'pbaudit page --language '"
    done = ran("fish", "--no-config", "-c", script, cwd=files)
    assert (done.returncode, done.stderr) == (0, "")
    assert {line.split("\t")[0] for line in done.stdout.splitlines()} == {*LANGUAGES}


# In the place of zsh's own functions stand some that tell what they are called with.
ZSH_STUBS = """
    compdef() { }
    _files() { }
    _describe() { print -rl -- "commands $commands[@]" }
    _arguments() { print -rl -- "$@"; [[ $1 == -C ]] && state=arguments line=($WANTED) }
    _pbaudit_commands_too() { _pbaudit_commands }
"""


def test_zsh(prefix, helps):
    needs("zsh")
    script = f'{ZSH_STUBS}\nWANTED=$2\nsource "$1" > /dev/null\nprint top\nstate= ; _pbaudit; print end; _pbaudit_commands'
    for name, wanted in helps.sets.items():
        done = ran("zsh", "-f", "-c", script, "zsh", prefix / ZSH, name or "none")
        assert done.returncode in (0, 1) and not done.stderr
        told = done.stdout.partition("top\n")[2].partition("end\n")
        calls = told[0].split("*::argument:->arguments\n")
        part = calls[0] if not name else calls[-1] if len(calls) > 1 else ""
        assert (name, set(re.findall(r"^(?:\(.*?\))?(--?\w[\w-]*)=?\[", part, re.MULTILINE))) == (name, wanted)
        assert re.findall(r"^(?:commands )?(\w+):", told[2], re.MULTILINE) == helps.names


def test_zsh_completes_languages(prefix):
    """In the way that _arguments takes the words of a value."""
    values = re.findall(r"^ *--language'=\[.*?\]:CODE:(.*)' \\$", (prefix / ZSH).read_text("utf-8"), re.MULTILINE)
    assert values == [f"({' '.join(LANGUAGES)})"]


def test_man(prefix, helps):
    needs("man")
    done = ran("man", "-l", prefix / MAN, env=os.environ | {"MANWIDTH": "100", "MANPAGER": "cat", "LC_ALL": "C.UTF-8"})
    text = re.sub(r".\x08", "", done.stdout)
    assert (done.returncode, done.stderr) == (0, "")
    for name in helps.names:
        usage = re.search(r"^Usage: (.*)$", helps.texts[name], re.MULTILINE)
        assert re.search(rf"^   {name}$", text, re.MULTILINE)
        assert usage is None or text.count(usage[1]) == 2
    for option in set().union(*helps.sets.values()):
        assert re.search(rf"^       (?:-\w, )?{option}\b", text, re.MULTILINE), option
    # Examples stay as they are.
    kept = [line for text in helps.texts.values() for line in re.findall(r"^  (pbaudit .+)$", text, re.MULTILINE)]
    assert kept and [line for line in kept if not re.search(rf"^ +{re.escape(line)}$", text, re.MULTILINE)] == []


def test_man_has_the_usual_sections(prefix):
    """In the order of man-pages(7), with the statuses that the help lists and the names of files that go together."""
    text = (prefix / MAN).read_text(encoding="utf-8")
    sections = dict(re.findall(r"^\.SH ([A-Z ]+)\n((?:(?!\.SH ).*\n)*)", text, re.MULTILINE))
    assert list(sections) == ["NAME", "SYNOPSIS", "DESCRIPTION", "OPTIONS", "COMMANDS", "EXIT STATUS", "FILES", "EXAMPLES", "SEE ALSO"]
    assert re.findall(r"^(\d)  \w+: ", sections["EXIT STATUS"], re.MULTILINE) == ["0", "1", "2", "3", "4"]
    assert all(f"NAME.{kind}" in sections["FILES"] for kind in ("pb", "prices.csv", "violation.csv", "refutation.csv", "outcome.csv"))
    assert "FORMATS" in sections["SEE ALSO"]


@pytest.mark.parametrize("words", [["groff", "-man", "-Tutf8", "-ww", "-z"], ["mandoc", "-T", "lint", "-W", "error"]])
def test_man_page_is_clean(prefix, words):
    needs(words[0])
    done = ran(*words, prefix / MAN)
    assert (done.returncode, done.stdout + done.stderr) == (0, "")


def expect_files(root, written):
    """Everything is there and nothing else, is told, and is what is built."""
    found = {str(file.relative_to(root)): file.stat().st_mode & 0o777 for file in root.rglob("*") if file.is_file()}
    assert found == FILES and os.readlink(root / "lib/libpbaudit.so") == LIBRARY_NAME
    assert {file.stat().st_mode & 0o777 for file in [root, *root.rglob("*")] if file.is_dir()} == {0o755}
    assert sorted(written.splitlines()) == sorted(str(root / file) for file in FILES)
    words = ["read", EXAMPLES / "district.pb"]
    mine, built = ran(root / "bin/pbaudit", *words), ran(TOP / "crates/pbaudit/out/pbaudit", *words)
    assert (mine.returncode, mine.stdout) == (0, built.stdout)


def expect_library(root, prefix, room, **environment):
    """A C program is compiled by what pkg-config says, and answers."""
    needs("pkg-config")
    path = {"PKG_CONFIG_PATH": str(root / "lib/pkgconfig")}
    found = ran("pkg-config", "--cflags", "--libs", "pbaudit", env=os.environ | path | environment)
    assert found.returncode == 0, found.stderr
    version = ran("pkg-config", "--modversion", "pbaudit", env=os.environ | path).stdout
    assert ran(root / "bin/pbaudit", "--version").stdout == f"pbaudit {version}"
    told = ran("pkg-config", "--variable=prefix", "pbaudit", env=os.environ | path).stdout
    assert shlex.split(told) == [str(prefix)]
    flags = shlex.split(found.stdout)
    assert all(flag[:2] in ("-I", "-L", "-l") for flag in flags) and "-lpbaudit" in flags
    program = room / "audit"
    built = ran(*shlex.split(os.environ.get("CC") or "cc"), "-o", program, EXAMPLES / "audit.c", *flags, f"-Wl,-rpath,{root}/lib")
    assert (built.returncode, built.stderr) == (0, "")
    for certificate in ("district.prices.csv", "district.short.prices.csv"):
        given = [EXAMPLES / "district.pb", EXAMPLES / certificate]
        mine, other = ran(program, *given), ran(root / "bin/pbaudit", "prices", *given)
        assert (mine.returncode, mine.stdout) == (other.returncode, other.stdout)
    assert f"{LIBRARY_NAME} => {root}/lib/{LIBRARY_NAME} " in ran("ldd", program).stdout


@pytest.mark.parametrize("umask", [0o077, 0o022], ids=oct)
def test_prefix(room, umask):
    """Others may read it, whatever the caller's files are for; also where all is there already."""
    for _ in range(2):
        done = ran(TOP / "install", room / "a prefix", env=os.environ | {"DESTDIR": ""}, umask=umask)
        assert done.returncode == 0, done.stderr
        expect_files(room / "a prefix", done.stdout)


def test_library(prefix, room):
    expect_library(prefix, prefix, room)


def test_destdir(tmp_path):
    room = tmp_path  # without a blank: pkg-config doesn't escape a sysroot
    stage, later = room / "stage", room / "later"
    root = pathlib.Path(f"{stage}{later}")
    done = ran(TOP / "install", f"{later}/", env=os.environ | {"DESTDIR": str(stage)})
    assert done.returncode == 0, done.stderr
    expect_files(root, done.stdout)
    expect_library(root, later, room, PKG_CONFIG_SYSROOT_DIR=str(stage))
    assert not later.exists()
    assert [file for file in stage.rglob("*") if file.is_file() and root not in file.parents] == []


def test_prefix_beside(room):
    done = ran(TOP / "install", "beside", cwd=room, env=os.environ | {"DESTDIR": ""})
    assert done.returncode == 0 and (room / "beside/bin/pbaudit").is_file(), done.stderr


# What can't be a PREFIX, or where it can't be made, by the room: the words, the environment, the status, and what is told.
REFUSED = {
    "no PREFIX": ([], {}, 3, "PREFIX is missing"),
    "an empty PREFIX": ([""], {}, 3, "PREFIX is empty"),
    "two words": (["a", "b"], {}, 3, "one PREFIX is expected, not 2 arguments"),
    "an option": (["--prefix=/usr"], {}, 3, "there is no option --prefix=/usr"),
    "a PREFIX that isn't whole": (["usr"], {"DESTDIR": "{room}"}, 3, "has to begin with /"),
    "a file for a folder": (["{room}/file/below"], {}, 1, "{room}/file/below/bin can't be made (Not a directory)"),
    "a DESTDIR that is a file": (["/usr"], {"DESTDIR": "{room}/file"}, 1, "{room}/file/usr/bin can't be made"),
    "a folder that the system shuts": (["/proc/pbaudit"], {}, 1, "/proc/pbaudit/bin can't be made"),
    "no find": (["{room}/unused"], {"PATH": "{room}/tools"}, 70, "find is not on the PATH"),
    "no python3": (["{room}/unused"], {"PATH": "{room}/tools:{room}/more"}, 70, "python3 is not on the PATH"),
    "a folder that may not be written": (["{room}/shut"], {}, 1, "can't be made (Permission denied)"),
}
# What begins a comment in pbaudit.pc, quotes, or stands for something else there.
REFUSED |= {f"{sign!r} in a PREFIX": ([f"{{room}}/a{sign}b"], {}, 3, "pbaudit.pc can't name a PREFIX with one of")
            for sign in ("#", "$", "\\", "'", '"', "\n", "\t")}  # fmt: skip


@pytest.mark.parametrize("name", REFUSED)
def test_refusal(room, name):
    """It says why it can't, builds nothing then, and writes nothing."""
    words, environment, status, text = REFUSED[name]
    (room / "shut").mkdir(mode=0o500)
    command = []
    if "may not be written" in name and os.geteuid() == 0:
        # What lets root write anywhere.
        lost = "-dac_override,-dac_read_search"
        command = ["setpriv", f"--inh-caps={lost}", f"--bounding-set={lost}", "--"]
    (room / "file").touch()
    for folder, tools in (("tools", ("bash", "dirname", "readlink", "sed")), ("more", ("cat", "find", "sha256sum", "sort", "xargs"))):
        (room / folder).mkdir()
        for tool in tools:
            (room / folder / tool).symlink_to(shutil.which(tool))
    before = sorted(room.rglob("*"))
    given = {key: value.format(room=room) for key, value in environment.items()}
    done = ran(*command, TOP / "install", *(word.format(room=room) for word in words), cwd=room,
               env=os.environ | {"PATH": "/usr/bin:/bin", "DESTDIR": ""} | given)  # fmt: skip
    assert (done.returncode, done.stdout) == (status, ""), done.stderr
    assert text.format(room=room) in done.stderr and done.stderr.splitlines()[-1].startswith("install: ")
    assert sorted(room.rglob("*")) == before


def test_help():
    done = ran(TOP / "install", "--help")
    assert done.returncode == 0 and "usage: ./install PREFIX" in done.stdout and not done.stderr


@pytest.fixture
def copy(room):
    """A copy without anything built."""
    left_out = shutil.ignore_patterns("out", "lib", "release", ".git", "__pycache__")
    shutil.copytree(TOP, room / "a copy", ignore=left_out, symlinks=True)
    return room / "a copy"


def test_what_is_not_built_is_built(room, copy):
    """Where rt isn't on the PATH, it says that it has to be."""
    environment = os.environ | {"PATH": "/usr/bin:/bin", "DESTDIR": ""}
    if shutil.which("rt", path=environment["PATH"]):
        pytest.skip("rt is in /usr/bin")

    def install():
        return ran(copy / "install", room / "from copy", env=environment)

    done = install()
    assert (done.returncode, done.stdout) == (70, "")
    assert "rt, the command of the Rattle kit, is not on the PATH" in done.stderr
    assert "install: the program could not be built" in done.stderr
    assert not (room / "from copy").exists()
    # With a program there, the library alone is missing.
    out = copy / "crates/pbaudit/out"
    out.mkdir()
    shutil.copy(TOP / "crates/pbaudit/out/pbaudit", out)
    note(copy)
    done = install()
    assert (done.returncode, done.stdout) == (70, "") and "install: the library could not be built" in done.stderr
    # With both there, rt isn't wanted; and it is once a source is another than the library's.
    shutil.copytree(TOP / "lib", copy / "lib", symlinks=True)
    done = install()
    assert (done.returncode, len(done.stdout.splitlines())) == (0, len(FILES)), done.stderr
    for source in (copy / "include/pbaudit.h", copy / "HANDLES"):
        before = source.read_bytes()
        source.write_bytes(before + b"\n")
        os.utime(source, (1, 1))
        note(copy)
        done = install()
        assert done.returncode == 70 and "install: the library could not be built" in done.stderr
        source.write_bytes(before)


def note(copy):
    """Notes that the program of a copy was built of its sources."""
    sources = ran(copy / "packaging/built", "--of", "crates").stdout
    done = ran(copy / "packaging/built", "--note", copy / "crates/pbaudit/out/pbaudit", stdin=None, input=sources)
    assert done.returncode == 0, done.stderr


def make_release(copy):
    """Makes release/ in a copy, of the program and the library that are built here."""
    release = copy / "release"
    release.mkdir()
    shutil.copy(TOP / "crates/pbaudit/out/pbaudit", release)
    for name in (LIBRARY_NAME, "pbaudit.h", "pbaudit.pc"):
        shutil.copy(TOP / "lib" / name, release)
    with lzma.open(release / "libpbaudit.a.xz", "wb", preset=0) as packed:
        packed.write((TOP / "lib/libpbaudit.a").read_bytes())
    ran(copy / "packaging/man_and_completions.py", release / "pbaudit", release)
    sums = [f"{part} {ran(copy / 'packaging/sources', part).stdout}" for part in ("crates", "library")]
    (release / "MADE-OF").write_text("pbaudit\n\n" + "".join(sums))
    lines = [f"{hashlib.sha256(file.read_bytes()).hexdigest()}  {file.name}\n" for file in sorted(release.iterdir())]
    (release / "SHA256SUMS").write_text("".join(lines))
    return release


# What ./install calls where all is released.
TOOLS = ("bash", "cat", "cp", "dirname", "find", "grep", "install", "ln", "mkdir", "mktemp", "mv", "readlink", "rm", "rmdir", "sed",
         "sha256sum", "sort", "xargs", "xz")  # fmt: skip


def test_release(room, copy):
    """Without rt and python3 what is released is installed, where it is of these sources; and no file with a wrong byte."""
    release, prefix, tools = make_release(copy), room / "from release", room / "tools"
    tools.mkdir()
    for tool in TOOLS:
        (tools / tool).symlink_to(shutil.which(tool))
    environment = os.environ | {"PATH": str(tools), "DESTDIR": ""}
    done = ran(copy / "install", prefix, env=environment)
    assert (done.returncode, done.stderr) == (0, "")
    expect_files(prefix, done.stdout)
    for name, file in (("libpbaudit.a", "lib/libpbaudit.a"), (LIBRARY_NAME, f"lib/{LIBRARY_NAME}"), ("pbaudit.h", "include/pbaudit.h")):
        assert (prefix / file).read_bytes() == (TOP / "lib" / name).read_bytes()
    for file in sorted(release.iterdir()):
        if file.name not in ("MADE-OF", "SHA256SUMS"):
            whole = file.read_bytes()
            file.write_bytes(turned(whole))
            done = ran(copy / "install", room / "wrong", env=environment)
            assert (done.returncode, done.stdout) == (70, "")
            assert f"release/{file.name} isn't the file of release/SHA256SUMS" in done.stderr
            file.write_bytes(whole)
    (copy / "HANDLES").write_text("")
    done = ran(copy / "install", room / "wrong", env=environment)
    assert (done.returncode, done.stdout) == (70, "")
