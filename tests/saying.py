"""What the program says of a case, and what the reference says."""
import os
import re
import subprocess

from reference.answers import answer

# What is said of a folder without elections, on standard error.
NO_ELECTION = b"pbaudit: no election was found: the folder has no file named NAME.pb\n"
# What is said there of names: of files that may be meant to be audited and aren't, and what can't be seen in others.
OF_NAMES = re.compile(rb"^(?:pbaudit: (?:not audited|names with characters that can't be seen): .*\n)+\Z", re.MULTILINE)


class Said:
    """What the program said, or has to say: the text, the status, and what was on standard error."""

    def __init__(self, text, status, errors=b""):
        self.text, self.status, self.errors = text, status, errors

    def expect(self, said):
        """This is what has to be said. A refusal has a hint behind the notes, and of a folder's files some may be told by
        their names; which these are isn't compared."""
        assert (said.text.decode(), said.status) == (self.text.decode(), self.status)
        if self.text.startswith(b"total 0 elections"):
            assert OF_NAMES.sub(b"", said.errors) == NO_ELECTION
        elif b"\ntotal " in self.text:
            assert not OF_NAMES.sub(b"", said.errors)
        elif self.text.startswith(b"refused "):
            assert said.errors.startswith(self.errors) and said.errors != self.errors
        else:
            assert said.errors == self.errors


def run(program, case, room):
    done = subprocess.run([program, *case.words], input=case.stdin or b"", capture_output=True, cwd=room, timeout=120, check=False)
    return Said(done.stdout, done.returncode, done.stderr)


def reference_says(case, room, answer=answer):
    if case.known:
        return Said(*case.known)
    paths = [os.path.join(room, word) if word in case.files or word in PATHS else word for word in case.words[1:]]
    words = case.words[:1] + paths
    if case.stdin is not None:
        words = ["read", os.path.join(room, "stdin")]
    text, status, errors = answer(words)
    return Said(text, status, errors.replace(os.fsencode(os.path.join(room, "")), b""))


# Words that are paths though no file of the case has this name.
PATHS = ["missing.csv", "folder", "folder/file/x", "room"]
