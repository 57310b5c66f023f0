"""Whole scripts with the lines that answer them: the tables of `crates/test_scripts/data`, one of them for runs with `--strict`.

There a line `# name` begins a script, and behind its commands stand their replies, each line with an arrow before it. A number in
angle quotes stands for so many numbers, from 0 on. A line `clock` gives the readings of a clock, which no user can set.
"""
import re
from itertools import zip_longest

from outside import lines_of

NAME = "scripts, each alone and among merges,"
# Each table, with the options of the command that runs its scripts.
TABLES = {"crates/test_scripts/data/scripts.txt": [], "crates/test_scripts/data/strict.txt": ["--strict"]}


class Row:
    """A script as blocks of commands and the replies to them."""

    def __init__(self, line, name):
        self.line, self.name, self.has_clock, self.blocks = line, name, False, [([], [])]

    def add(self, line):
        if line.startswith("-> "):
            self.blocks[-1][1].append(with_numbers(line[3:]).encode())
        elif line.startswith("clock "):
            self.has_clock = True
        elif line:
            if self.blocks[-1][1]:
                self.blocks.append(([], []))
            self.blocks[-1][0].append(with_numbers(line).encode())

    def script(self):
        return b"".join(line + b"\n" for commands, _ in self.blocks for line in commands)

    def replies(self):
        return [reply for _, replies in self.blocks for reply in replies]

    def among_merges(self):
        """The same script with a request for a merge behind each block. What is tried changes no basis, and its refusal names another one."""
        more, basis = Row(self.line, self.name), b"0"
        for commands, replies in self.blocks:
            tries = any(command.startswith(b"[:with ") for command in commands)
            for reply in () if tries else replies:
                basis = re.search(rb":(?:t|basis) (\d+)", reply).group(1)
            more.blocks.append(([*commands, b"[:request-index]"], [*replies, b"{:ok true :basis %b}" % basis]))
        return more

    def compared(self, program, options):
        """The lines that are wanted, and those that came: of the script alone, and then among merges."""
        more = self.among_merges()
        wanted = [*self.replies(), *more.replies()]
        return wanted, [*program.answer(self.script(), options).lines(), *program.answer(more.script(), options).lines()]


def check(program, tally):
    for table, options in TABLES.items():
        for row in rows(table):
            if row.has_clock:
                tally.left_out["under a clock that steps"] += 1
            else:
                name = f"{table}:{row.line}: {row.name}"
                tally.check(name, *first_difference(*row.compared(program, options)))


def rows(table):
    found = []
    for number, line in lines_of(table):
        if line.startswith("# "):
            found.append(Row(number, line[2:]))
        else:
            found[-1].add(line)
    return found


def with_numbers(line):
    return re.sub("‹(.*?)›", lambda found: " ".join(map(str, range(int(found.group(1))))), line)


def first_difference(wanted, got):
    """The first two lines that differ, or nothing twice."""
    return next((pair for pair in zip_longest(wanted, got) if without_instants(pair[0]) != without_instants(pair[1])), (None, None))


def without_instants(line):
    """The line without the instants of transactions, which the machine's clock gives."""
    return line and re.sub(rb'(:db/txInstant) #inst "[^"]*"', rb"\1 ..", line)
