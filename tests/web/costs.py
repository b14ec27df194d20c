"""What a browser costs the machine: the time of its processes on processors, and the memory that a page has had."""
import os
import pathlib

import browsers

TICKS = os.sysconf("SC_CLK_TCK")


def root_of(browser):
    """The process with which a browser was started, or its driver."""
    return browser.driver.service.process.pid if isinstance(browser, browsers.Chromium) else browser.process.pid


def read(path):
    """What the system says of a process: nothing where it has ended."""
    try:
        return path.read_text(errors="replace")
    except OSError:
        return ""


def processes(browser):
    """The folders of a browser's processes under /proc."""
    folders = list(pathlib.Path("/proc").glob("[0-9]*"))
    parents = {int(folder.name): read(folder / "stat").rpartition(")")[2].split()[1:2] for folder in folders}

    def is_ours(process):
        while process > 1 and process != root_of(browser):
            process = int((parents.get(process) or ["0"])[0])
        return process == root_of(browser)

    return [folder for folder in folders if is_ours(int(folder.name))]


def seconds_of(browser):
    """The seconds that processors have spent on a browser, for its processes and for the system on their behalf."""
    told = [read(folder / "stat").rpartition(")")[2].split()[11:13] for folder in processes(browser)]
    return sum(int(ticks) for each in told for ticks in each) / TICKS


def highest_memory(browser):
    """The most memory that a process of a page of this Chromium has had, in MB."""
    pages = [folder for folder in processes(browser) if "--type=renderer" in read(folder / "cmdline")]
    lines = [line.split() for folder in pages for line in read(folder / "status").splitlines()]
    return max(int(words[1]) / 1000 for words in lines if words[0] == "VmHWM:")
