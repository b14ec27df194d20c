#!python
"""The command `pbaudit` that pip installs. The proved program goes on in its place, but for commands of the package: `find`,
`equal-shares`, `readers-page`, `folder` by workers, and pages in a file. So ahead of the program nothing is imported that
Python hasn't loaded as it began."""
import os
import sys

OWN = ("find", "equal-shares", "readers-page")
# Commands of both, which are the package's where one of these options stands.
BY_OPTION = {"folder": ("--workers",), "page": ("--folder", "--output", "-o")}


def is_own(words):
    """Whether the package has to answer, and not the program."""
    if not words:
        return False
    if words[0] in ("help", "-h", "--help"):
        return len(words) == 1 or words[1] in OWN
    return words[0] in OWN or any(word.partition("=")[0] in BY_OPTION.get(words[0], ()) for word in words)


def main(words):
    """Has the program go on, or answers the exit status of the package."""
    # As Python looks for the package; a folder that `pip install --target` filled has it beside that of this command.
    places = [*sys.path[1:], os.path.dirname(os.path.dirname(os.path.abspath(__file__)))]
    programs = [os.path.join(place, "pbaudit", "bin", "pbaudit") for place in places]
    found = [program for program in programs if os.path.isfile(program) and os.access(program, os.X_OK)]
    if found and not is_own(words):
        os.execv(found[0], [found[0], *words])
    sys.path.append(places[-1])
    try:
        from pbaudit.__main__ import main as of_package
        return of_package(words)
    except KeyboardInterrupt:
        # While the package is loaded. A shell expects that this ends by the signal.
        import signal
        signal.signal(signal.SIGINT, signal.SIG_DFL)
        os.kill(os.getpid(), signal.SIGINT)


if __name__ == "__main__":
    sys.exit(main(sys.argv[1:]))
