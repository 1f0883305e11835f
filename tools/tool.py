"""The common parts of the tools beside this file: faults, percentiles, words, files, and `run`."""

import argparse
import contextlib
import os
import re
import signal
import sys
import time

NUMBER = re.compile(r"0|[1-9][0-9]{0,19}")
# The seconds after which work takes long, and the seconds between two messages about it from then on.
PATIENCE, TELLING = 3, 2


class Fault(Exception):
    """The fault of an input, and its place."""


class Ended(SystemExit):
    """A tool was told to end, by SIGTERM, and has something to put in order first."""


def end_in_order(*_):
    """Raises `Ended`, as the handler of SIGTERM."""
    raise Ended


class Progress:
    """The bytes of a file that are read: shown on standard error where it takes long, and every few seconds."""

    def __init__(self, file, name):
        self.name, self.read, self.next = name, 0, time.monotonic() + PATIENCE
        try:
            self.size = os.fstat(file.fileno()).st_size if file else 0
        except OSError:
            self.size = 0

    def add(self, count):
        """Adds bytes that are read."""
        self.read += count
        if time.monotonic() > self.next:
            self.next = time.monotonic() + TELLING
            of = f" of {self.size / 1e6:.0f}" if self.size else ""
            say(f"{self.name}: {self.read / 1e6:.0f}{of} MB read")


def tool_name():
    return os.path.basename(sys.argv[0])


def percentile(ranked, percent):
    """The value at rank percent/100 of their number, rounded up, as lag reports have it. Values are in order."""
    return ranked[max(1, -(-percent * len(ranked) // 100)) - 1]


@contextlib.contextmanager
def opened(name):
    """A file as it is, or standard input for `-`, and its name in messages."""
    how = {"encoding": "utf-8-sig", "errors": "surrogateescape", "newline": "\n"}
    if name == "-":
        sys.stdin.reconfigure(**how)
        yield sys.stdin, "standard input"
    else:
        with open(name, **how) as file:
            yield file, name


def say(text):
    """Says something beside the output."""
    print(f"{tool_name()}: {text}", file=sys.stderr, flush=True)


def printable(text):
    """A text of an input, with bytes and halves of characters that are no text in digits."""
    try:
        text = text.encode(errors="surrogateescape")
    except UnicodeEncodeError:
        text = text.encode(errors="backslashreplace")
    return text.decode(errors="backslashreplace")


def counted(count, what):
    """A number of things, as 1 line or 2 lines."""
    return f"{count} {what}" if count == 1 else f"{count} {what}s"


def processors():
    return len(os.sched_getaffinity(0))


def words_by(text):
    """The parser of a tool's words; its page is the text at the top of the tool."""
    about, _, more = text.partition("\n\n")
    return argparse.ArgumentParser(
        description=about, epilog=more, formatter_class=argparse.RawDescriptionHelpFormatter, allow_abbrev=False
    )


def within(low, high):
    """The parser of numbers of this range."""

    def number(word):
        if not NUMBER.fullmatch(word) or not low <= int(word) <= high:
            raise argparse.ArgumentTypeError(f"{word!r} is not a number from {low} to {high}")
        return int(word)

    return number


def run(main):
    """Runs a tool: `main` gives the whole text that it writes, and the status. A fault is printed, with status 1. Where
    nobody reads on, as behind `| head`, and where it is interrupted, it ends by the signal, without a message."""
    try:
        text, status = main()
        signal.signal(signal.SIGPIPE, signal.SIG_DFL)
        sys.stdout.write(text)
        sys.stdout.flush()
    except Fault as fault:
        sys.exit(f"{tool_name()}: {fault}")
    except (KeyboardInterrupt, Ended) as why:
        number = signal.SIGTERM if isinstance(why, Ended) else signal.SIGINT
        signal.signal(number, signal.SIG_DFL)
        os.kill(os.getpid(), number)
    except OSError as error:
        # (text that could not be written is not tried again at the end)
        os.dup2(os.open(os.devnull, os.O_WRONLY), sys.stdout.fileno())
        sys.exit(f"{tool_name()}: {error.filename + ': ' if error.filename else ''}{error.strerror}")
    sys.exit(status)
