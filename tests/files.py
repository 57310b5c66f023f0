"""What the names of files lead to: a log that is no regular file, and an output that is a source, another output or the database; and a
log that can't grow, and files with a hole.

Each row is a command of the shell in a folder of its own, after commands that prepare it. What was there before a refused command must be
there after it.
"""
import fcntl
import os
import resource
import signal
import socket
import subprocess
import tempfile
from typing import NamedTuple

NAME = "commands on links, devices and second names"
FILES = {"one": '[:transact [[:db/add "x" :db/doc "one"]]]\n', "two": "[:db]\n", "one.out": "an earlier reply\n"}


class Row(NamedTuple):
    prepare: str
    command: str
    # What stands on standard error behind `cannot open `, or nothing where the command succeeds.
    refused: str = ""
    # The outputs that were opened before the one that is refused, and so begin anew.
    begun: tuple = ()


ROWS = [
    Row("", "check data"),
    # the directory's files
    Row("ln -s /dev/full data/log", "check data", "data"),
    Row("ln -s /dev/null data/log", "run data one", "data"),
    Row("ln -s ../none data/log", "check data", "data"),
    Row("mkfifo data/log", "check data", "data"),
    Row("mkdir data/log", "check data", "data"),
    Row("mkfifo data/segments", "run data one", "data"),
    Row("ln -s /dev/zero data/segments", "check data", "data"),
    Row("ln -s log data/segments", "check data", "data"),
    Row("touch log; ln -s ../log data/log", "run data one"),
    Row("mkfifo pipe", "check pipe", "pipe"),
    # two outputs in one file
    Row("", "run :memory: one ./one", "./one", ("one.out",)),
    Row("ln -s one.out two.out", "run data one two", "two", ("one.out", "two.out")),
    Row("ln one.out two.out", "run data one two", "two", ("one.out", "two.out")),
    Row("mkfifo one.pipe; ln -sf one.pipe one.out; ln -s one.pipe two.out; cat one.pipe &", "run :memory: one two", "two"),
    Row("", "run :memory: one - 1>>one.out", "-", ("one.out",)),
    # an output that is a source
    Row("ln -sf one one.out", "run data one", "one"),
    Row("ln -sf two one.out", "run data one two", "one"),
    Row("cp two one.out", "run :memory: one ./one.out", "one"),
    Row("", "run :memory: - 0<two 1<>two", "-"),
    # an output that is the database
    Row("$F check data; ln -sf data/log one.out", "run data one", "one"),
    Row("$F check data; ln -f data/segments one.out", "run data one", "one"),
    Row("$F check data", "check data 1<>data/log", "-"),
    Row("$F check data", "run data - 1<>data/segments", "-"),
    # files that may be several outputs, and sources too
    Row("ln -sf /dev/null one.out; ln -s /dev/null two.out; ln -s /dev/null none", "run data one two none"),
    Row("ln -s one three", "run data one ./three"),
]


def check(program, tally):
    for row in ROWS:
        with tempfile.TemporaryDirectory() as folder:
            make(folder)
            shell(program, folder, row.prepare, subprocess.DEVNULL)
            before = contents(folder)
            done = shell(program, folder, f"$F {row.command}", subprocess.PIPE)
            after = contents(folder)
            lost = [name for name in before if row.refused and name not in row.begun and after.get(name) != before[name]]
            wanted = (2, f"factbase: cannot open {row.refused}\n", []) if row.refused else (0, "", [])
            tally.check(f"tests/files.py: {row.prepare}: {row.command}", wanted, (done.returncode, done.stderr.decode(), lost))
    check_held(program, tally)
    check_socket(program, tally)
    check_stopped(program, tally)
    check_holes(program, tally)


def check_held(program, tally):
    """A directory that another program has locked."""
    with tempfile.TemporaryDirectory() as folder:
        make(folder)
        shell(program, folder, "$F run data two", subprocess.DEVNULL)
        before = contents(folder)
        with open(os.path.join(folder, "data", "log"), "rb") as log:
            fcntl.flock(log, fcntl.LOCK_SH)
            done = shell(program, folder, "$F run data one", subprocess.PIPE)
        tally.check("tests/files.py: locked: run data one", (2, b"factbase: cannot open data\n", before),
                    (done.returncode, done.stderr, contents(folder)))


def check_socket(program, tally):
    """One socket as standard input and standard output."""
    ours, theirs = socket.socketpair()
    with ours, theirs:
        ours.sendall(b"[:db]\n")
        ours.shutdown(socket.SHUT_WR)
        done = subprocess.run([program.path, "run", ":memory:", "-"], stdin=theirs, stdout=theirs, check=False)
        tally.check("tests/files.py: a socket: run :memory: -", (0, b"{:basis 0}\n"), (done.returncode, ours.recv(100)))


STOPPED = ("".join(line + "\n" for line in (
    '[:transact [[:db/add "x" :db/doc "%s"]]]' % ("long" * 300),
    '[:with [[[:db/add "x" :db/doc "tried"]]] [:datoms :aevt :db/doc]]',
    "[:transact []]",
)), "".join(line + "\n" for line in (
    "{:fault :log :at 1 :basis 0}",
    '{:basis 0 :with [{:t 1 :tempids {"x" 17592186044417}}] :reply '
    '{:basis 1 :datoms [[17592186044417 :db/doc "tried" 13194139533313 true]]}}',
    "{:fault :log-stopped :at 1 :basis 0}",
)))


def check_stopped(program, tally):
    """A log that stops, at a limit on the size of files, and a transaction that is tried then."""
    def limit():
        signal.signal(signal.SIGXFSZ, signal.SIG_IGN)
        resource.setrlimit(resource.RLIMIT_FSIZE, (512, 512))

    script, wanted = STOPPED
    with tempfile.TemporaryDirectory() as folder:
        done = subprocess.run([program.path, "run", folder, "-"], input=script.encode(), capture_output=True, preexec_fn=limit, check=False)
    tally.check("tests/files.py: a log that has stopped", (7, "factbase: log stopped at t 1\n", wanted),
                (done.returncode, done.stderr.decode(), done.stdout.decode()))


# A record whose payload is a format, 16 bytes more that end in a count of none, and a hole.
HOLE = 3 << 30
BEFORE_HOLE = b"\1" + HOLE.to_bytes(8, "big") + b"\2" + bytes(16)


def check_holes(program, tally):
    """Files with a record of three gibibytes, of which few bytes are there, in less memory than that."""
    def limit():
        resource.setrlimit(resource.RLIMIT_AS, (600 << 20, 600 << 20))

    def check_with(folder):
        done = subprocess.run([program.path, "check", folder], capture_output=True, preexec_fn=limit, timeout=60, check=False)
        return done.returncode, done.stderr.decode()

    with tempfile.TemporaryDirectory() as folder:
        check_with(folder)
        make_hole(os.path.join(folder, "segments"), b"FACTBASE SEG 1\n")
        tally.check("tests/files.py: segments with a hole", (0, ""), check_with(folder))
        make_hole(os.path.join(folder, "log"), b"FACTBASE LOG 1\n")
        tally.check("tests/files.py: a log with a hole", (4, "factbase: bad log: record 0 at byte 41\n"), check_with(folder))


def make_hole(path, mark):
    with open(path, "wb") as file:
        file.write(mark + BEFORE_HOLE)
        file.truncate(len(mark) + 9 + HOLE + 1)


def make(folder):
    os.mkdir(os.path.join(folder, "data"))
    for name, text in FILES.items():
        with open(os.path.join(folder, name), "w", encoding="utf-8") as file:
            file.write(text)


def shell(program, folder, command, errors):
    return subprocess.run(["sh", "-c", command], cwd=folder, env={**os.environ, "F": program.path}, stdin=subprocess.DEVNULL,
                          stdout=subprocess.DEVNULL, stderr=errors, timeout=60, check=False)


def contents(folder):
    """The bytes of each regular file, by its path."""
    found = {}
    for at, _, names in os.walk(folder):
        for name in names:
            path = os.path.join(at, name)
            if os.path.isfile(path):
                with open(path, "rb") as file:
                    found[os.path.relpath(path, folder)] = file.read()
    return found
