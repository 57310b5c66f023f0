"""By hand: looks at the program's calls of the system through strace, and lets each of them fail in turn.

    python3 tests/traced.py PROGRAM

The calls of an opening and of three commits must be the documented ones in their order, each commit's before its reply: the record is
written behind its gate and synced, then the gate is opened and synced. Then a call of the second commit, or of the opening, fails: what is
answered, the status, and what the next opening finds. A call that a signal interrupts is made again, and a log whose sync failed is written
again when it is opened next.
"""
import os
import re
import stat
import subprocess
import sys
import tempfile

COMMITS = 3
SCRIPT = '[:transact [[:db/add "x" :db/doc "a text"]]]\n' * COMMITS
# The mark and a gate, and the bytes of each record of the script with the next gate.
HEAD, RECORD = 16, 80
KINDS = "openat,flock,fsync,fdatasync,pread64,pwrite64,ftruncate,read,write"
OPENED = [f"{call} {file}" for part in ("log", "segments")
          for call, file in (("openat", "data"), ("openat", part), ("flock", part), ("fsync", "data"))]
# The call that fails, which one of its kind it is on this file, and what then comes: the status, how many are answered, how many are found.
OPENING_CALLS = [("openat", 1, 2, 0, 0), ("openat", 2, 2, 0, 0), ("flock", 1, 2, 0, 0), ("fsync", 1, 2, 0, 0), ("fdatasync", 1, 3, 0, 0),
                 ("pwrite64", 1, 3, 0, 0), ("fdatasync", 2, 3, 0, 0), ("pread64", 1, 3, 0, 0)]
COMMIT_CALLS = [("pwrite64", 4, 7, 1, 1), ("fdatasync", 5, 7, 1, 1), ("pwrite64", 5, 7, 1, 1), ("fdatasync", 6, 7, 1, 2)]


def run(program, folder, part, inject=()):
    """Runs the script under strace. Answers the calls on the directory, this part of it and the streams, and the outcome."""
    names = ["data", *part, "script", "replies"]
    words = ["strace", "-f", "-y", "-qq", "-e", f"trace={KINDS}", *inject, "-o", "trace"]
    for name in names:
        words += ["-P", name, "-P", os.path.join(folder, name)]
    with open(os.path.join(folder, "script"), "rb") as script, open(os.path.join(folder, "replies"), "wb") as replies:
        done = subprocess.run([*words, program, "run", "data", "-"], cwd=folder, stdin=script, stdout=replies,
                              stderr=subprocess.PIPE, check=False)
    with open(os.path.join(folder, "trace"), encoding="utf-8") as trace:
        calls = [call for call in map(told, trace) if call]
    with open(os.path.join(folder, "replies"), encoding="utf-8") as replies:
        return calls, done.returncode, replies.read().splitlines()


def told(line):
    """A call that was done, as its name, its file and for a write how many bytes went where. A read is not told of."""
    found = re.match(r'\d+ +(\w+)\((?:AT_FDCWD<[^>]*>, "([^"]*)"|\d+<([^>]*)>)(.*)\) += (\d+)', line)
    if not found or found[1] in ("read", "pread64"):
        return None
    file = os.path.basename(found[2] or found[3])
    at = re.search(r", (\d+), (\d+)$", found[4])
    return f"{found[1]} {file}" + (f" {at[1]} at {at[2]}" if at and found[1] == "pwrite64" else "")


def begun(part):
    return [f"fdatasync {part}", f"pwrite64 {part} {HEAD} at 0", f"fdatasync {part}"]


def commit(nth):
    at = HEAD + nth * RECORD
    return [f"pwrite64 log {RECORD} at {at}", "fdatasync log", f"pwrite64 log 1 at {at - 1}", "fdatasync log", "write replies"]


def check(what, wanted, got):
    if wanted != got:
        sys.exit(f"{what}\n  wanted: {wanted}\n  came:   {got}")


def try_order(program, folder):
    """An opening that makes the files, and three commits; and then one that finds them. A file that has no record is begun again."""
    parts = ["data/log", "data/segments"]
    made = [*OPENED, *begun("log"), *begun("segments")]
    check("a new directory", (made + [call for nth in range(COMMITS) for call in commit(nth)], 0),
          run(program, folder, parts)[:2])
    found = [*OPENED, "fdatasync log", *begun("segments")]
    check("an old one", (found + [call for nth in range(COMMITS, 2 * COMMITS) for call in commit(nth)], 0),
          run(program, folder, parts)[:2])


def make_empty(program, folder):
    for name in os.listdir(os.path.join(folder, "data")):
        os.remove(os.path.join(folder, "data", name))
    subprocess.run([program, "check", "data"], cwd=folder, stdout=subprocess.DEVNULL, check=True)


def try_unsynced(program, folder):
    """A log whose sync failed is marked, and written again when it is opened next. It is not opened where that fails."""
    make_empty(program, folder)
    log = os.path.join(folder, "data", "log")
    run(program, folder, ["data/log"], ["-e", "inject=fdatasync:error=EIO:when=6"])
    length = os.path.getsize(log)
    is_marked = lambda: os.stat(log).st_mode & stat.S_ISVTX != 0
    check("after a failed sync", True, is_marked())
    _, came, _ = run(program, folder, ["data/log"], ["-e", "inject=fsync:error=EIO:when=1"])
    check("a second one", (2, True), (came, is_marked()))
    calls, came, _ = run(program, folder, ["data/log"])
    check("the next opening", (["openat data", "openat log", "flock log", f"pwrite64 log {length} at 0", "fsync log"], 0, False),
          (calls[:5], came, is_marked()))


def try_failure(program, folder, call, error):
    """The script on a log without a record, which is begun again, where one of the calls fails."""
    kind, nth, status, answered, kept = call
    make_empty(program, folder)
    if error == "EINTR" or (kind, error) == ("flock", "EOPNOTSUPP"):
        status, answered, kept = 0, COMMITS, COMMITS
    _, came, replies = run(program, folder, ["data/log"], ["-e", f"inject={kind}:error={error}:when={nth}"])
    receipts = [reply for reply in replies if reply.startswith("{:t ")]
    faults = ["{:fault :log :at 2 :basis 1}", "{:fault :log-stopped :at 2 :basis 1}"] if status == 7 else []
    looked = subprocess.run([program, "check", "data"], cwd=folder, capture_output=True, check=False)
    check(f"{error} at {kind} {nth}", (status, answered, faults, b"{:basis %d :covered 0}\n" % kept),
          (came, len(receipts), replies[len(receipts):], looked.stdout))


def main():
    program, count = os.path.abspath(sys.argv[1]), 0
    with tempfile.TemporaryDirectory(dir=".") as folder:
        folder = os.path.realpath(folder)
        os.mkdir(os.path.join(folder, "data"))
        with open(os.path.join(folder, "script"), "w", encoding="utf-8") as file:
            file.write(SCRIPT)
        try_order(program, folder)
        try_unsynced(program, folder)
        for call in [*OPENING_CALLS, *COMMIT_CALLS]:
            for error in ("ENOSPC", "EIO", "EINTR", *(["ENOLCK", "EOPNOTSUPP"] if call[0] == "flock" else [])):
                try_failure(program, folder, call, error)
                count += 1
        for call in (("read", 1, 6, 0, 0), ("write", 2, 6, 1, 2)):
            for error in ("EIO", "EINTR"):
                try_failure(program, folder, call, error)
                count += 1
    print(f"traced: the calls are the documented ones, and {count} failures are answered as they should be")


main()
