#!/usr/bin/env python3
"""Puts the page together: one file with the module, the scripts, the style and an example in it.

    python3 web/assemble.py MODULE PAGE [FILE..]

MODULE is the WebAssembly module, or a page that has it: with release/pbaudit.html there the page can be worked on
without the kit. PAGE is the file that is written, and FILEs are put into it to be audited. esbuild makes one script of
the modules of the page, and one of those of each of its workers. Each script and each style is allowed by its hash in
the page's policy, and nothing else may run. The English words stand in the file itself, for browsers in which no script
runs.
"""
import base64
import hashlib
import html
import json
import pathlib
import re
import subprocess
import sys

HERE = pathlib.Path(__file__).resolve().parent
sys.path.append(str(HERE.parent / "python"))
from pbaudit.readers_page import file_element, with_files  # noqa: E402

EXAMPLES = HERE.parent / "examples"
# The example has names of its own, by which it is told apart from files that are given.
EXAMPLE = {"example.pb": "district.pb", "example.prices.csv": "district.prices.csv"}
FRAME_STYLE = HERE.parent / "crates" / "pb_page" / "src" / "style.rt"
LANGUAGES = ["en", "pl", "de", "fr"]
# The module that each script begins with, and the oldest browsers that it is for.
SCRIPTS = {"page": "src/page/start.ts", "worker": "src/worker/worker.ts", "finder": "src/worker/finder.ts",
           "sheets": "src/worker/sheets.ts"}
BUNDLE = ["--bundle", "--format=iife", "--charset=utf8", "--log-level=warning", "--target=chrome97,firefox102,safari16"]
MODULE_IN_PAGE = re.compile(rb'<script type="text/plain" id="module">([^<]*)</script>')


def text_of(name):
    return (HERE / name).read_text(encoding="utf-8")


def script_of(name):
    """One script of all the modules that this one begins with. Its bytes don't tell where the repository lies."""
    try:
        made = subprocess.run(["esbuild", SCRIPTS[name], *BUNDLE], cwd=HERE, stdout=subprocess.PIPE, check=False)
    except FileNotFoundError:
        sys.exit("assemble.py: esbuild is not on the PATH (on Debian: apt install esbuild)")
    if made.returncode != 0:
        sys.exit(f"assemble.py: esbuild ended with {made.returncode}")
    return made.stdout.decode("utf-8")


def hash_of(data):
    return f"'sha256-{base64.b64encode(hashlib.sha256(data).digest()).decode()}'"


def frame_style(module):
    """The style of the page that the library writes, by its source. That page is shown in a frame, which is under the
    same policy."""
    found = re.search(r'STYLE: &str = "([^"\\]*)";', FRAME_STYLE.read_text(encoding="utf-8"))
    style = found[1].encode() if found else b""
    if not style or style not in module:
        sys.exit(f"assemble.py: the style of {FRAME_STYLE} isn't the one in the module")
    return style


def module_of(data):
    """The module: the bytes themselves, or those that a page has."""
    found = MODULE_IN_PAGE.search(data)
    return base64.b64decode(found[1]) if found else data


def words_of(code):
    """What the page says in a language."""
    found = re.findall(r'^  (\w+): ("(?:[^"\\]|\\.)*"),$', text_of(f"src/words/{code}.ts"), re.MULTILINE)
    return {name: json.loads(text) for name, text in found}


def with_words(page, words):
    """The page with words in its elements, for whoever has no script that puts them there."""
    def written(found):
        return f"{found[0]}{html.escape(words[found[1]], quote=False)}"

    return re.sub(r'<[^>]* data-word="(\w+)"[^>]*>(?=</)', written, page)


def unstarted():
    """That no script runs, in each language."""
    told = [f'<p lang="{code}">{html.escape(words_of(code)["unstarted"], quote=False)}</p>' for code in LANGUAGES]
    return "\n".join(told)


def policy(scripts, styles):
    """Nothing is fetched, and nothing runs but the scripts of the file and the module. It has no rule that a browser doesn't
    know: each tells such a one on its console."""
    rules = {
        "default-src": ["'none'"],
        "connect-src": ["'none'"],
        "script-src": [*map(hash_of, scripts), "'wasm-unsafe-eval'"],
        "style-src": [*map(hash_of, styles)],
        "worker-src": ["blob:"],
        "img-src": ["data:"],
        "form-action": ["'none'"],
        "base-uri": ["'none'"],
    }
    return "; ".join(f"{name} {' '.join(values)}" for name, values in rules.items())


def module_element(module):
    return f'<script type="text/plain" id="module">{base64.b64encode(module).decode()}</script>'


def page_of(module):
    style, script = text_of("style.css"), script_of("page")
    fields = {
        "policy": policy([script.encode()], [style.encode(), frame_style(module)]),
        "style": style,
        "worker": script_of("worker"),
        "finder": script_of("finder"),
        "sheets": script_of("sheets"),
        "data": "\n".join([
            module_element(module),
            *[file_element("example", name, (EXAMPLES / file).read_bytes()).decode() for name, file in EXAMPLE.items()],
        ]),
        "unstarted": unstarted(),
        "script": script,
    }
    for name in ("worker", "finder", "sheets", "script"):
        if re.search("<!--|</?script", fields[name], re.IGNORECASE):
            sys.exit(f"assemble.py: {name} would end its element early")
    page = with_words(text_of("page.html"), words_of("en"))
    return re.sub(r"\{(\w+)\}", lambda found: fields[found[1]], page)


def main():
    if len(sys.argv) < 3:
        sys.exit("usage: assemble.py MODULE PAGE [FILE..]")
    module, page, *files = map(pathlib.Path, sys.argv[1:])
    made = page_of(module_of(module.read_bytes())).encode("utf-8")
    page.write_bytes(with_files(made, [(file.name, file.read_bytes()) for file in files]))


if __name__ == "__main__":
    main()
