"""The program as its users see it, what is counted of its answers, and how tables spell texts."""
import os
import re
import subprocess
from collections import Counter
from typing import NamedTuple

TOP = os.path.dirname(os.path.dirname(os.path.realpath(__file__)))
# How long the program may take for one script.
SECONDS = 60


class Answer(NamedTuple):
    """The replies to a script, what was said on standard error, and the exit status."""
    replies: list
    errors: bytes
    status: int

    def lines(self):
        """The replies, and one line more where the script did not end well."""
        if self.status == 0 and not self.errors:
            return self.replies
        return [*self.replies, b"status %d: %b" % (self.status, self.errors)]


class Program(NamedTuple):
    path: str

    def answer(self, script, options=()):
        """What the program answers to the script on standard input, run with these options."""
        words = [self.path, "run", *options, ":memory:", "-"]
        try:
            done = subprocess.run(words, input=script, capture_output=True, timeout=SECONDS)
        except subprocess.TimeoutExpired:
            return Answer([], b"no end within %d seconds" % SECONDS, -1)
        # A reply may hold any control byte but a line feed.
        return Answer(done.stdout.split(b"\n")[:-1], done.stderr, done.returncode)


class Tally:
    """How many rows of a kind passed and failed, and how many were left out, by what they need."""

    def __init__(self, kind):
        self.kind, self.passed, self.failed, self.left_out = kind, 0, 0, Counter()

    def check(self, row, wanted, got):
        """Counts the row. Where it failed, says what was wanted and what came."""
        if got == wanted:
            self.passed += 1
        else:
            self.failed += 1
            print(f"{row}\n  wanted: {shown(wanted)}\n  came:   {shown(got)}")

    def is_well(self):
        return self.passed > 0 and self.failed == 0

    def __str__(self):
        failed = f", {self.failed} NOT" if self.failed else ""
        left_out = "".join(f", {count} {why} left out" for why, count in self.left_out.items())
        return f"{self.passed} {self.kind} as wanted{failed}{left_out}"


def shown(value):
    text = value.decode("utf-8", "backslashreplace") if isinstance(value, bytes) else str(value)
    return text if len(text) < 2000 else f"{text[:2000]} .. ({len(text)} characters)"


def lines_of(page):
    """The lines of a file of the repository, each with its number."""
    with open(os.path.join(TOP, page), encoding="utf-8") as text:
        return enumerate(text.read().split("\n"), 1)


def spelled(text):
    """The bytes that a table's text stands for: behind a pilcrow, two hexadecimal digits for that byte, or a number (or a star and
    a number) and something in angle quotes for so many of it; all else for itself."""
    def meant(found):
        count, repeated, digits = found.groups()
        return repeated.encode() * int(count) if count else bytes([int(digits, 16)])

    pieces, at = [], 0
    for found in re.finditer(r"¶(?:\*?(\d+)‹(.*?)›|([0-9A-F]{2}))", text):
        pieces += [text[at:found.start()].encode(), meant(found)]
        at = found.end()
    return b"".join([*pieces, text[at:].encode()])
