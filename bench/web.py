#!/usr/bin/env python3
"""Measures the page that audits in a browser, in Chromium, beside the program: the time of the same command on the same
files, best of three in turns, and the greatest memory of the page's process. Then how long it takes from the drop of the
election alone until the answer on groups is to be seen; and what many districts at once take, in Chromium and Firefox.

    python3 bench/web.py PAGE PROGRAM [VOTERS PROJECTS]
    python3 bench/web.py PAGE PROGRAM --folder ELECTIONS

PAGE is the pbaudit.html that ./pbaudit-web made, beside pbaudit.wasm. The elections are those of bench.py. What is timed of the page is its
worker: to start it, to read the files into the module's memory, and to check them. The program reads the files as well.
With a size the districts are left out. With --folder it measures instead, without a browser, what a folder of so many
small elections takes by the program and by the command of the package for JavaScript, each with its start, best of three
in turns.
"""
import os
import pathlib
import subprocess
import sys
import tarfile
import tempfile
import time

HERE = pathlib.Path(__file__).resolve().parent
sys.path[:0] = [str(HERE), str(HERE.parent / "tests"), str(HERE.parent / "tests/web")]

import bench  # noqa: E402
import browsers  # noqa: E402
import costs  # noqa: E402
import districts  # noqa: E402

ROUNDS = 3
SCREEN = (1000, 800)
# A page that was just opened warms up meanwhile.
SECONDS_TO_WARM_UP = 4
SIZES = [(10_000, 100), (100_000, 100), (1_000_000, 1_000)]
COMMANDS = ("prices", "page")
# The voters and projects of an election of a folder.
SMALL = (60, 20)
# Does one audit by a worker of the page's own script: the status, the milliseconds until the files are read, and until the
# answer is there, and its first line.
AUDIT = """
const sent = [...document.querySelector('#files-input').files], command = arguments[0];
const bytes = Uint8Array.from(atob(document.querySelector('#module').textContent.trim()), letter => letter.charCodeAt(0));
const script = new Blob([document.querySelector('#worker').textContent], {type: 'text/javascript'});
return (async () => {
  const module = window.compiled ??= await WebAssembly.compile(bytes), began = performance.now();
  const worker = new Worker(URL.createObjectURL(script));
  const mode = {stable: false, exhaustive: true, cover: false};
  const files = {election: 0, certificate: sent[1] ? 1 : null, outcome: sent[2] ? 2 : null};
  const order = {command, files, mode, language: 'en', isEarly: true};
  let read = 0, took = 0, answer = {};
  const ended = await new Promise((resolve, reject) => {
    worker.onerror = reject;
    worker.onmessage = ({data}) => {
      if (data.tells === 'ready') worker.postMessage({order, files: sent});
      if (data.tells === 'checking') read = performance.now() - began;
      if (data.tells === 'answer' || data.tells === 'done') took ||= performance.now() - began;
      if (data.tells === 'answer') answer = data;
      if (data.tells === 'done') resolve({...answer, ...data.ending});
    };
    worker.postMessage({module});
  });
  worker.terminate();
  const isText = ended.text instanceof Uint8Array, text = isText ? new TextDecoder().decode(ended.text) : ended.line;
  return [ended.status, read, took, (text ?? ended.text ?? `no answer: ${ended.why}`).slice(0, 1000).split('\\n')[0]];
})();
"""
# Notes how many milliseconds after a drop the answer on groups is to be seen by cost, and by count.
WATCH = """
const shown = document.querySelector('#on-groups'), counted = document.querySelector('#on-groups-count-tags');
let began = 0;
window.took = [0, 0];
document.addEventListener('drop', () => { began = performance.now(); }, true);
const note = at => requestAnimationFrame(() => setTimeout(() => { window.took[at] ||= performance.now() - began; }));
new MutationObserver(() => {
  if (!shown.hidden) note(0);
  if (!shown.hidden && !counted.hidden) note(1);
}).observe(document.querySelector('main'), {subtree: true, attributes: true, attributeFilter: ['hidden']});
"""
# Leaves the files that are chosen to the script above.
IGNORE = """
document.querySelector('#files-input').addEventListener('change', event => event.stopImmediatePropagation(), true);
"""


def ask_once(page, room, command, files):
    """The seconds that one audit takes in a new browser, the kilobytes of the page's process, and the first line."""
    browser = browsers.Chromium(room / "profile", room)
    try:
        browser.go(pathlib.Path(page).resolve().as_uri())
        browser.ask(IGNORE)
        browser.give("#files-input", *map(pathlib.Path, files))
        _, _, took, line = browser.ask(AUDIT, command)
        return took / 1000, costs.highest_memory(browser) * 1000, line
    finally:
        browser.close()


def time_of_program(program, command, files):
    began = time.perf_counter()
    subprocess.run([program, command, *files], stdout=subprocess.DEVNULL, check=True)
    return time.perf_counter() - began


def measure(page, program, voters, projects):
    with tempfile.TemporaryDirectory() as room:
        room = pathlib.Path(room)
        files = [room / f"e.{ending}" for ending in bench.ENDINGS]
        bench.write_files(*map(str, files), voters, projects)
        browser = browsers.Chromium(room / "profile", room)
        try:
            browser.go(pathlib.Path(page).resolve().as_uri())
            before = costs.highest_memory(browser)
            browser.ask(IGNORE)
            browser.give("#files-input", *files[:2])
            size = f"{voters} voters, {projects} projects"
            for command in COMMANDS:
                own, tries = [], []
                for _ in range(ROUNDS):
                    own.append(time_of_program(program, command, files[:2]))
                    tries.append([milliseconds / 1000 for milliseconds in browser.ask(AUDIT, command)[1:3]])
                read, whole = min(tries, key=lambda each: each[1])
                print(f"{size}, {command}: the program {min(own):.2f} s, the page {whole:.2f} s ({read:.2f} s of it "
                      f"reading; {tries[0][1]:.2f} s the first time), {whole / min(own):.2f} times")
            print(f"{size}: the page's process has had {costs.highest_memory(browser):.0f} MB ({before:.0f} MB before)")
        finally:
            browser.close()


def seconds_to_the_answer(page, election, room):
    """By cost and by count, in a new browser that has had time to warm up."""
    browser = browsers.Chromium(room / "profile", room)
    try:
        browser.resize(*SCREEN)
        browser.go(pathlib.Path(page).resolve().as_uri())
        time.sleep(SECONDS_TO_WARM_UP)
        browser.ask(WATCH)
        browser.drop("#drop", election)
        browser.wait("return window.took.every(Boolean)", "the answer on groups")
        return [milliseconds / 1000 for milliseconds in browser.ask("return window.took")]
    finally:
        browser.close()


def measure_first(page, voters, projects):
    with tempfile.TemporaryDirectory() as room:
        room = pathlib.Path(room)
        bench.write_election(room / "e.pb", voters, projects)
        tries = [seconds_to_the_answer(page, room / "e.pb", room) for _ in range(ROUNDS)]
    first, whole = min(tries)
    print(f"{voters} voters, {projects} projects, the election alone: from the drop the answer by cost takes {first:.2f} s, "
          f"at most {max(tries)[0]:.2f} s, and that by count {whole:.2f} s (load {os.getloadavg()[0]:.1f})")  # fmt: skip


def measure_districts(page, engine):
    """From the choice of a folder until the last answer stands in the list, the best of three."""
    wanted = browsers.ENGINES[engine][0]
    tries = []
    for _ in range(ROUNDS):
        with tempfile.TemporaryDirectory() as room:
            room = pathlib.Path(room)
            districts.write(room / "many")
            browser = wanted(room / "profile", room)
            try:
                browser.resize(*SCREEN)
                browser.go(page)
                time.sleep(SECONDS_TO_WARM_UP)
                tries.append(districts.cost(browser, room / "many"))
            finally:
                browser.close()
    wall, spent = min(tries)
    load = os.getloadavg()[0]
    print(f"{districts.MANY} districts at once, {wanted.name}: {wall:.2f} s, and {spent:.2f} s of processors "
          f"(load {load:.1f})")  # fmt: skip


def fill(folder, elections):
    """Writes so many elections of the same voters, each with its prices."""
    folder.mkdir()
    with tempfile.TemporaryDirectory() as room:
        files = [pathlib.Path(room) / f"e.{ending}" for ending in bench.ENDINGS]
        bench.write_files(*map(str, files), *SMALL)
        read = {path.name[1:]: path.read_bytes() for path in files[:2]}
    for number in range(elections):
        for ending, data in read.items():
            (folder / f"e{number}{ending}").write_bytes(data)


def javascript(page, room):
    """The command of the package for JavaScript."""
    words = [HERE.parent / "packaging/javascript", page, pathlib.Path(page).with_name("pbaudit.wasm"), room]
    subprocess.run(words, stdout=subprocess.DEVNULL, check=True)
    with tarfile.open(next(room.glob("*.tgz"))) as package:
        package.extractall(room)
    return room / "package/command.js"


def measure_folder(page, program, elections):
    with tempfile.TemporaryDirectory() as room:
        room = pathlib.Path(room)
        command, folder = javascript(page, room), room / "folder"
        fill(folder, elections)
        own, other = [], []
        for _ in range(ROUNDS):
            own.append(time_of_program(program, "folder", [folder]))
            other.append(time_of_program("node", command, ["folder", folder]))
        print(f"{elections} elections in a folder: the program {min(own):.2f} s, JavaScript {min(other):.2f} s, "
              f"{min(other) / min(own):.1f} times (load {os.getloadavg()[0]:.1f})")  # fmt: skip


def main():
    words = bench.arguments(__doc__, "page", "program")
    words.add_argument("size", nargs="*", type=int, metavar="VOTERS PROJECTS")
    words.add_argument("--folder", type=int, metavar="ELECTIONS")
    given = words.parse_args()
    if given.folder is not None:
        if given.folder < 1 or given.size:
            words.error("--folder takes how many elections there are, and no size beside it")
        measure_folder(given.page, given.program, given.folder)
        return
    for voters, projects in bench.sizes_of(words, given.size, SIZES):
        measure(given.page, given.program, voters, projects)
        measure_first(given.page, voters, projects)
    if not given.size:
        for engine in browsers.ENGINES:
            measure_districts(pathlib.Path(given.page).resolve().as_uri(), engine)


if __name__ == "__main__":
    main()
