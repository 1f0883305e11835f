"""Runs the program, for the tools beside this file that ask it."""

import os
import subprocess
import sys
import time

from tool import PATIENCE, TELLING, Fault, say

# (by the path that the tool was called by: beside a folder that is a link there is another program)
HERE = os.path.dirname(os.path.abspath(sys.argv[0]))
# The status for a journal that has the right form and is not legal.
ILLEGAL = 8


def add_word(words):
    """The option that names the program."""
    default = os.environ.get("TWODFQ_PROGRAM") or os.path.join(os.path.dirname(HERE), "twodfq")
    words.add_argument(
        "--program",
        default=default,
        metavar="FILE",
        help="the program (default: $TWODFQ_PROGRAM, or ./twodfq beside tools)",
    )


def answer(program, words, name, **source):
    """The output of the program for these words and an input: `input`, bytes, or `stdin`, a file."""
    try:
        ran = subprocess.run([program, *words], stdout=subprocess.PIPE, stderr=subprocess.PIPE, check=False, **source)
    except OSError as error:
        raise Fault(f"{program}: {error.strerror}: --program names the program") from None
    if ran.returncode == ILLEGAL:
        raise Fault(f"{name}: {ran.stdout.decode(errors='replace').partition(chr(10))[0]}")
    if ran.returncode:
        why = ran.stderr.decode(errors="replace").strip() or f"it ended with status {ran.returncode}"
        raise Fault(f"{name}: {why}")
    return ran.stdout


class Count:
    """The number of pieces of work done: shown on standard error where it takes long, and every few seconds."""

    def __init__(self, whole, what):
        self.whole, self.what, self.done, self.next = whole, what, 0, time.monotonic() + PATIENCE

    def add(self):
        self.done += 1
        self.tell()

    def tell(self):
        if time.monotonic() > self.next:
            self.next = time.monotonic() + TELLING
            say(f"{self.done} of {self.whole} {self.what}")
