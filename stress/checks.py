"""What the scripts in Python share that try something and count what goes well."""

import functools
import os
import shutil
import signal
import subprocess
import sys

TOP = os.path.dirname(os.path.dirname(os.path.realpath(__file__)))
SCRIPT = os.path.basename(sys.argv[0])
# Where the script was started.
FROM = os.getcwd()


class Wrong(Exception):
    """Something is not as it has to be."""


# What ends one trial, and not all.
FAILURES = (Wrong, subprocess.TimeoutExpired)


def hold(is_so, what):
    """Something has to be so."""
    if not is_so:
        raise Wrong(what)


def say(text):
    """Says something on standard error."""
    print(f"{SCRIPT}: {text}", file=sys.stderr)


def fail(text, status=1):
    """Says what is wrong and ends the script."""
    say(text)
    sys.exit(status)


def begin(text, are_words):
    """Answers --help with the text, and ends the script unless `are_words` takes its words. Then
    goes to the top of the tree, and answers the words."""
    words = sys.argv[1:]
    if words == ["--help"]:
        signal.signal(signal.SIGPIPE, signal.SIG_DFL)
        print(text.strip())
        sys.exit(0)
    wrong = are_words(words)
    if wrong:
        fail(wrong, 2)
    os.chdir(TOP)
    return words


def need(command, why):
    """Ends the script where a command isn't there."""
    if not shutil.which(command):
        fail(f"the command '{command}' isn't on the PATH, and {why}", 127)


@functools.cache
def program():
    """The file of the program that is tried: the proved one, or the unproved one that
    `./test --cases` names in UNPROVED_PROGRAM. Ends the script where it isn't there."""
    unproved = os.environ.get("UNPROVED_PROGRAM")
    if unproved:
        return unproved
    told = subprocess.run([f"{TOP}/charmlet", "--version"], capture_output=True, check=False)
    if told.stdout.splitlines()[-1:] != [b"proved"]:
        fail("there is no proved program that is up to date: run ./build first", 6)
    return f"{TOP}/crates/charmlet/out/charmlet"


class Count:
    """How many trials passed, and how many failed."""

    def __init__(self):
        self.passed = self.failed = 0

    def fails(self, text):
        """Counts a trial that failed, and says why."""
        self.failed += 1
        say(text)

    def sum_up(self):
        """Prints the sum, and answers the exit status: 0 if something passed and nothing failed."""
        print(f"{self.passed} passed, {self.failed} failed")
        return 0 if self.passed > 0 and self.failed == 0 else 1
