"""The lines of journals, one by one and by blocks of entries.

Python takes half a microsecond for a split, and as long for a few numbers, so a long journal is not read line by line.
A block of lines is split at once, and searched as a whole for anything that no line of entries has. Only where it has
such a thing is each of its lines read alone.
"""

import io
import operator
import re

from tool import NUMBER, Fault, Progress

GREATEST = 2**64 - 1
# The count of numbers behind each word.
ENTRIES = {"submit": 7, "take": 5, "report": 5, "done": 5, "close": 2, "weight": 4, "workers": 3, "withdraw": 3}
# The shapes of lines: their text without digits.
SHAPES = {f"{word}{' ' * count}".encode() for word, count in ENTRIES.items()}
# The number of bytes that are read at once.
SIZE = 1 << 15
REPORT = b"report 1\n"
LEADING_ZERO = re.compile(rb" 0[0-9]")
# Digits are alike, and ends of lines are spaces.
ALIKE = bytes.maketrans(b"\n123456789", b" 000000000")


class Block:
    """Lines of entries that stand together: the number of the line before them, and of each line its fields, as they
    stand, and its moment."""

    def __init__(self, before, lines):
        self.before, self.lines = before, lines
        # (faster than at single spaces, and equal in lines that are plain)
        self.fields = [line.split() for line in lines]

    def read_moments(self):
        self.moments = list(map(int, map(operator.itemgetter(2), self.fields)))

    def is_plain(self, text, now):
        """Whether all are entries, but for digits in their words, and moments don't go back. Where not, some line has a
        fault."""
        alike = text.translate(ALIKE)
        if b"  " in alike or LEADING_ZERO.search(text):
            return False
        if not SHAPES.issuperset(text[:-1].translate(None, b"0123456789").split(b"\n")):
            return False
        if b"0" * 20 in alike and self.has_too_great():
            return False
        self.read_moments()
        return self.moments[0] >= now and self.moments == sorted(self.moments)

    def has_too_great(self):
        greatest = b"%d" % GREATEST
        return any((len(it), it) > (20, greatest) for fields in self.fields for it in fields[1:] if len(it) >= 20)


class Lines:
    """The lines of a file as lists of words. `number` is that of the line that was read last."""

    def __init__(self, file, name):
        self.file, self.name, self.number = file, name, 0
        self.progress = Progress(file, name)
        self.text, self.at = b"", 0
        self.fill()
        if self.text.startswith(b"\xef\xbb\xbf"):
            self.at = 3

    def fill(self):
        """Reads on to the end of a line, where all lines so far were asked for."""
        if self.at == len(self.text):
            self.text, self.at = self.file.buffer.read(SIZE), 0
            if not self.text.endswith(b"\n"):
                self.text += self.file.buffer.readline()
            self.progress.add(len(self.text))

    def fault(self, what):
        return Fault(f"{self.name}: line {self.number}: {what}")

    def expect(self, holds, what):
        if not holds:
            raise self.fault(what)

    def words(self):
        """The words of the next line, or None after the last line."""
        self.fill()
        end = self.text.find(b"\n", self.at) + 1 or len(self.text)
        line, self.at = self.text[self.at : end], end
        self.number += 1
        return self.words_of(line) if line else None

    def words_of(self, line):
        self.expect(line.endswith(b"\n"), "the line is cut off")
        self.expect(not line.endswith(b"\r\n"), "the line ends with CR and LF, and not with LF alone")
        return line[:-1].decode(errors="surrogateescape").split(" ")

    def back(self, words):
        """Puts the words of the line that was read last back as the next line; after the last line it does nothing."""
        if words:
            self.number -= 1
            self.at -= len(" ".join(words).encode(errors="surrogateescape")) + 1

    def fields(self, words, count):
        if len(words) != count:
            raise self.fault(f"{len(words)} fields")

    def numbers(self, words, first=1):
        """The numbers that stand in a line's words from this place on, counted from 0."""
        found = words[first:]
        if all(map(NUMBER.fullmatch, found)):
            found = [int(word) for word in found]
            if max(found, default=0) <= GREATEST:
                return found
        is_number = lambda word: NUMBER.fullmatch(str(word)) and int(word) <= GREATEST
        place = next(place for place, word in enumerate(found, first + 1) if not is_number(word))
        raise self.fault(f"field {place} is not a number")

    def number_within(self, words, place, low, high):
        number, *_ = self.numbers(words[: place + 1], place)
        self.expect(low <= number <= high, f"field {place + 1} is {number}, and not from {low} to {high}")
        return number

    def moment_of(self, line, now):
        """The moment of a line that has to be an entry."""
        words = self.words_of(line)
        self.expect(words[0] in ENTRIES, f"{words[0] or 'an empty line'} is no entry")
        self.fields(words, 1 + ENTRIES[words[0]])
        moment = self.numbers(words)[1]
        self.expect(moment >= now, "the moment goes back")
        return moment

    def text_ahead(self):
        """The lines up to a lag report, as far as they were read already; none after the last."""
        self.fill()
        text = self.text[self.at :] if self.at else self.text
        end = 0 if text.startswith(REPORT) else text.find(b"\n" + REPORT) + 1 or len(text)
        return text if end == len(text) else text[:end]

    def pass_over(self, text):
        """Passes over these lines, which come next."""
        self.at += len(text)
        self.number += text.count(b"\n")

    def block(self, text, now):
        """The next lines as entries, up to a fault, and then the fault."""
        block = Block(self.number, text[:-1].split(b"\n"))
        self.pass_over(text)
        if text.endswith(b"\n") and block.is_plain(text, now):
            return block, None
        return self.up_to_fault(block.before, text, now)

    def up_to_fault(self, before, text, now):
        """The entries before the first line with a fault, and the fault."""
        self.number, good = before, []
        try:
            for line in io.BytesIO(text):
                self.number += 1
                now = self.moment_of(line, now)
                good.append(line[:-1])
        except Fault as fault:
            block = Block(before, good)
            block.read_moments()
            return block, fault
        raise AssertionError("a block without a fault is plain")
