"""Backups: what a target gets and what is said of it, of targets that hold a beginning of the log and of others; and a copy that is gone
on with.

Each row is a backup of the log that FORMATS.md shows, from `a` to `b`, in a folder of its own.
"""
import os
import subprocess
import tempfile
from typing import NamedTuple, Optional

NAME = "backups"

MARK = b"FACTBASE LOG 1\n"
PAYLOAD = bytes.fromhex(
    "02 00000001 0000018cc251f400 00000002"
    "00000c0000000001 0000000000000008 06 0000018cc251f400 01"
    "0000100000000001 0000000000000007 02 00000002 6869 01")
# In the older format an entry has the same fields.
OLDER = b"\x01" + PAYLOAD[1:]
NEXT = bytes.fromhex(
    "02 00000002 0000018cc251f401 00000001 00000c0000000002 0000000000000008 06 0000018cc251f401 01")


def log(*payloads):
    """The bytes of a log with these records."""
    return MARK + b"".join(b"\x01" + len(payload).to_bytes(8, "big") + payload for payload in payloads) + b"\0"


LOG = log(PAYLOAD)
TREES = b"FACTBASE SEG 1\n\0"


def ok(copied):
    return 0, b"{:basis 1 :copied %d :covered 0}\n" % copied, b""


def refused(status, line):
    return status, b"", b"factbase: %b\n" % line


class Row(NamedTuple):
    name: str
    # The target's log before and after, or none where it is missing.
    before: Optional[bytes]
    answer: tuple
    # Where it is none, the log of `a`.
    after: Optional[bytes] = None


def left(name, before, answer):
    """A target that is left as it is."""
    return Row(name, before, answer, before)


ROWS = [
    Row("no log", None, ok(1)),
    Row("an empty file", b"", ok(1)),
    Row("15 bytes", MARK, ok(1)),
    Row("16 bytes", MARK + b"\0", ok(1)),
    Row("16 bytes of another kind", b"x" * 16, ok(1)),
    Row("16 bytes with an open gate", MARK + b"\1", ok(1)),
    Row("17 bytes with a closed gate", MARK + b"\0\0", ok(1), LOG),
    left("17 bytes with an open gate", MARK + b"\1\0", refused(4, b"bad target: record 0 at byte 16")),
    left("17 bytes of another kind", b"x" * 17, refused(4, b"bad target: record 0 at byte 0")),
    left("the same log", LOG, ok(0)),
    left("the same in the older format", log(OLDER), ok(0)),
    left("another text", LOG.replace(b"hi", b"ho"), refused(4, b"target differs at t 1")),
    left("a longer log", log(PAYLOAD, NEXT), refused(4, b"target differs at t 2")),
    left("a bad payload", log(b"\x03" + PAYLOAD[1:]), refused(4, b"bad target: record 0 at byte 24")),
    left("a bad payload behind another text", log(PAYLOAD.replace(b"hi", b"ho"), b"\x03"), refused(4, b"bad target: record 1 at byte 100")),
    left("a cut journal behind another text", LOG[:-1].replace(b"hi", b"ho") + b"\1\0", refused(4, b"bad target: record 1 at byte 92")),
]


def check(program, tally):
    for row in ROWS:
        with tempfile.TemporaryDirectory() as folder:
            write(folder, "a/log", LOG)
            if row.before is not None:
                write(folder, "b/log", row.before)
            answer = run(program, folder, "backup", "a", "b")
            found = read(folder, "b/log")
            tally.check(f"tests/backups.py: {row.name}", (row.answer, row.after or LOG, LOG), (answer, found, read(folder, "a/log")))
    check_again(program, tally)
    check_trees(program, tally)
    check_names(program, tally)
    check_console(program, tally)
    check_limit(program, tally)
    check_each_byte(program, tally)


def check_again(program, tally):
    """A backup, once more, and once more behind a further transaction; then a run on the copy, which its source is no beginning of."""
    with tempfile.TemporaryDirectory() as folder:
        write(folder, "a/log", LOG)
        first = run(program, folder, "backup", "a", "b")
        again = run(program, folder, "backup", "a", "b")
        added = run(program, folder, "run", "a", "-", script=b'[:transact [[:db/add "x" :db/doc "two"]]]\n')[0]
        further = run(program, folder, "backup", "a", "b")
        same = read(folder, "a/log") == read(folder, "b/log")
        on = run(program, folder, "run", "b", "-", script=b'[:transact [[:db/add "x" :db/doc "three"]]]\n[:datoms :aevt :db/doc]\n')
        texts = [word for word in (b"hi", b"two", b"three") if b'"%b"' % word in on[1]]
        back = run(program, folder, "backup", "a", "b")
        tally.check("tests/backups.py: again and further",
                    (ok(1), ok(0), 0, (0, b"{:basis 2 :copied 1 :covered 0}\n", b""), True, [b"hi", b"two", b"three"],
                     refused(4, b"target differs at t 3")),
                    (first, again, added, further, same, texts, back))


def check_trees(program, tally):
    """The trees of `a` are copied to a new file alone, and a copy opens with them."""
    with tempfile.TemporaryDirectory() as folder:
        write(folder, "a/log", LOG)
        merged = run(program, folder, "run", "--merge-at", "1", "a", "-")[0]
        told = (0, b"{:basis 1 :copied 1 :covered 1}\n", b"")
        tally.check("tests/backups.py: with trees", (0, told), (merged, run(program, folder, "backup", "a", "b")))
        tally.check("tests/backups.py: a copy with trees", (0, b"{:basis 1 :covered 1}\n", b""), run(program, folder, "check", "b"))
        kept = read(folder, "b/segments")
        for name, before, after in (("an empty file", b"", kept), ("16 bytes", TREES, kept), ("17 bytes", TREES + b"\0", TREES + b"\0"),
                                    ("trees", kept, kept), ("17 bytes of another kind", b"x" * 17, b"x" * 17)):
            write(folder, f"c {name}/segments", before)
            answer = run(program, folder, "backup", "a", f"c {name}")
            tally.check(f"tests/backups.py: segments: {name}", (told, after), (answer, read(folder, f"c {name}/segments")))


USAGE = refused(1, b"usage: factbase run [--merge-at N] [--strict] DIR SCRIPT.. | check DIR | load N | backup DIR DIR2")


def check_names(program, tally):
    """The words of the command, and what has the names."""
    rows = [
        (["a", "a"], USAGE),
        (["a"], USAGE),
        (["a", "b", "c"], USAGE),
        (["--", "a", "b"], ok(1)),
        ([":memory:", "b"], (0, b"{:basis 0 :copied 0 :covered 0}\n", b"")),
        (["a", ":memory:"], ok(1)),
        (["a", "./a"], refused(2, b"cannot open ./a")),
        (["a", "none"], refused(2, b"cannot open none")),
        (["none", "b"], refused(2, b"cannot open none")),
        (["a", "link"], refused(2, b"cannot open link")),
        (["a", "broken"], refused(2, b"cannot open broken")),
    ]
    for words, wanted in rows:
        with tempfile.TemporaryDirectory() as folder:
            write(folder, "a/log", LOG)
            os.symlink("a", os.path.join(folder, "link"))
            os.makedirs(os.path.join(folder, "broken", "log"))
            answer = run(program, folder, "backup", *words)
            tally.check(f"tests/backups.py: backup {' '.join(words)}", (wanted, LOG), (answer, read(folder, "a/log")))


def check_console(program, tally):
    """Standard output that takes no line: the target has all that it lacked."""
    with tempfile.TemporaryDirectory() as folder:
        write(folder, "a/log", LOG)
        os.mkdir(os.path.join(folder, "b"))
        with open("/dev/full", "wb") as full:
            done = subprocess.run([program.path, "backup", "a", "b"], cwd=folder, stdout=full, stderr=subprocess.PIPE, check=False)
        tally.check("tests/backups.py: a full standard output", (6, b"factbase: console: write fault\n", LOG),
                    (done.returncode, done.stderr, read(folder, "b/log")))


def check_limit(program, tally):
    """Files of the target that take no byte, by the limit on the size of files: what was there stays."""
    for part, before, kept in (("log", LOG[:15] + b"\0", None), ("segments", LOG, LOG)):
        with tempfile.TemporaryDirectory() as folder:
            write(folder, "a/log", LOG)
            run(program, folder, "run", "--merge-at", "1", "a", "-")
            write(folder, "b/log", before)
            done = subprocess.run(["sh", "-c", 'trap "" XFSZ; ulimit -f 0; exec "$0" backup a b', program.path], cwd=folder,
                                  stdout=subprocess.PIPE, stderr=subprocess.PIPE, check=False)
            line = b"factbase: disk fault on target %b\n" % part.encode()
            tally.check(f"tests/backups.py: a full disk, {part}", (3, b"", line, kept or before),
                        (done.returncode, done.stdout, done.stderr, read(folder, "b/log")))


def check_each_byte(program, tally):
    """Targets that differ from the log in the last bit of one byte: each is refused and left as it was, but the one whose first gate
    is closed by it, which is an empty log."""
    gate = len(MARK)
    with tempfile.TemporaryDirectory() as folder:
        write(folder, "a/log", LOG)
        for at, byte in enumerate(LOG):
            target = LOG[:at] + bytes([byte ^ 1]) + LOG[at + 1:]
            write(folder, "b/log", target)
            status = run(program, folder, "backup", "a", "b")[0]
            wanted = (0, LOG) if at == gate else (4, target)
            if wanted != (status, read(folder, "b/log")):
                break
        tally.check("tests/backups.py: each byte changed", (len(LOG) - 1, wanted), (at, (status, read(folder, "b/log"))))


def run(program, folder, *words, script=b""):
    """The status, what was written to standard output, and the line of standard error."""
    if "b" in words:
        os.makedirs(os.path.join(folder, "b"), exist_ok=True)
    done = subprocess.run([program.path, *words], cwd=folder, input=script, capture_output=True, check=False)
    return done.returncode, done.stdout, done.stderr


def write(folder, name, content):
    path = os.path.join(folder, name)
    os.makedirs(os.path.dirname(path), exist_ok=True)
    with open(path, "wb") as file:
        file.write(content)


def read(folder, name):
    with open(os.path.join(folder, name), "rb") as file:
        return file.read()
