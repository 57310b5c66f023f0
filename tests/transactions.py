"""Transactions with their replies: the rows of `crates/test_engine/data/rows.txt`, whose first lines say how they stand there."""
from itertools import zip_longest
from typing import NamedTuple

from outside import lines_of, spelled

NAME = "transactions"
TABLE = "crates/test_engine/data/rows.txt"


class Row(NamedTuple):
    line: int
    data: str
    reply: str


class History(NamedTuple):
    is_guarded: bool
    rows: list


def check(program, tally):
    """Runs each history as one script. No user can set a guard."""
    for history in histories():
        if history.is_guarded:
            tally.left_out["under a guard"] += len(history.rows)
            continue
        lines = program.answer(b"".join(b"[:transact %b]\n" % spelled(row.data) for row in history.rows)).lines()
        last = len(history.rows) - 1
        # What goes on behind the last reply is told with it.
        for row, reply in zip_longest(history.rows, [*lines[:last], b"\n".join(lines[last:])]):
            tally.check(f"{TABLE}:{row.line}: {row.data}", row.reply.encode(), reply)


def histories():
    found = []
    for number, line in lines_of(TABLE):
        data, tab, reply = line.partition("\t")
        if tab:
            found[-1].rows.append(Row(number, data, reply))
        elif line.startswith("new"):
            found.append(History(line == "new guarded", []))
    return found
