"""Standard streams that are closed, or that answer "not now" in place of making the program wait.

Where a stream is closed as the program starts, the system gives its number to the next file that is opened, and no line that is meant for
the stream may get into that file. Each row closes some of the three streams for one command, in a directory that a run with all of them
open has made.
"""
import itertools
import os
import shutil
import subprocess
import tempfile
import threading
import time
from typing import NamedTuple

NAME = "commands under closed and unready streams"
# How the shell closes each of the three.
CLOSED = ["<&-", ">&-", "2>&-"]
FIRST = '[:transact [[:db/add "x" :db/doc "first"]]]'
SCRIPTS = {"good.edn": '[:transact [[:db/add "x" :db/doc "second"]]]', "cut.edn": "[:transact [[:db/add"}
# How many commands give more replies than a pipe holds, and how long the other end waits, in seconds.
MANY, WAIT = 10_000, 0.05
# The status of `check` where it may not write its line.
NO_CONSOLE = 6


class Row(NamedTuple):
    """A command, its status, and how many transactions it adds."""
    words: list
    status: int
    added: int


def rows(closed):
    return [Row(["check", "data"], NO_CONSOLE if 1 in closed else 0, 0),
            Row(["run", "data", "good.edn"], 0, 1),
            Row(["run", "data", "cut.edn"], 5, 0),
            Row(["run", "data", "missing.edn"], 2, 0)]


def check(program, tally):
    with tempfile.TemporaryDirectory() as folder:
        made = os.path.join(folder, "made")
        os.mkdir(made)
        os.mkdir(os.path.join(made, "data"))
        for name, text in {"first.edn": FIRST, **SCRIPTS}.items():
            with open(os.path.join(made, name), "w", encoding="utf-8") as file:
                file.write(text)
        run(program, made, ["run", "--merge-at", "1", "data", "first.edn"])
        for count in (1, 2, 3):
            for closed in itertools.combinations(range(3), count):
                for row in rows(closed):
                    place = os.path.join(folder, "place")
                    shutil.copytree(made, place)
                    try_row(program, tally, place, closed, row)
                    shutil.rmtree(place)
    check_unready_input(program, tally)
    check_unready_output(program, tally)


def try_row(program, tally, place, closed, row):
    before = contents(place)
    status = run(program, place, row.words, *(CLOSED[number] for number in closed))
    after = contents(place)
    # Where a transaction is added, the gate that closed the log is opened for it, and nothing else of the log is written over.
    kept = len(before["log"]) - 1
    if row.added:
        before["log"], after["log"] = before["log"][:kept], after["log"][:kept]
    name = " ".join([*row.words, *(CLOSED[number] for number in closed)])
    wanted = row.status, before, 0, b"{:basis %d :covered 1}\n" % (1 + row.added)
    looked = subprocess.run([program.path, "check", "data"], cwd=place, capture_output=True, check=False)
    tally.check(f"tests/streams.py: {name}", wanted, (status, after, looked.returncode, looked.stdout))


def run(program, place, words, *closed):
    """The status of a command in the folder, under closed streams."""
    return subprocess.run(["sh", "-c", " ".join(['exec "$@"', *closed]), "sh", program.path, *words], cwd=place,
                          stdin=subprocess.DEVNULL, stdout=subprocess.DEVNULL, stderr=subprocess.DEVNULL,
                          check=False).returncode


def contents(place):
    """The bytes of the directory's two files."""
    found = {}
    for name in ("log", "segments"):
        with open(os.path.join(place, "data", name), "rb") as file:
            found[name] = file.read()
    return found


def check_unready_input(program, tally):
    """A pipe that does not block as standard input, into which a script comes bit by bit."""
    there, here = os.pipe()
    os.set_blocking(there, False)

    def feed():
        for piece in (b"[:d", b"b] [:sy", b"nc]"):
            time.sleep(WAIT)
            os.write(here, piece)
        os.close(here)

    feeder = threading.Thread(target=feed)
    feeder.start()
    done = subprocess.run([program.path, "run", ":memory:", "-"], stdin=there, capture_output=True, check=False)
    feeder.join()
    os.close(there)
    tally.check("tests/streams.py: an unready input", (0, b"{:basis 0}\n" * 2, b""), (done.returncode, done.stdout, done.stderr))


def check_unready_output(program, tally):
    """A pipe that does not block as standard output, which is full for a while."""
    here, there = os.pipe()
    os.set_blocking(there, False)
    with subprocess.Popen([program.path, "run", ":memory:", "-"], stdin=subprocess.PIPE, stdout=there, stderr=subprocess.PIPE) as running:
        os.close(there)
        running.stdin.write(b"[:db]\n" * MANY)
        running.stdin.close()
        time.sleep(WAIT)
        with open(here, "rb") as pipe:
            replies = pipe.read()
        errors = running.stderr.read()
    tally.check("tests/streams.py: an unready output", (0, b"{:basis 0}\n" * MANY, b""), (running.returncode, replies, errors))
