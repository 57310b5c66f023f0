"""By hand: kills the program while four sessions write to a directory, again and again, and looks after each kill whether the directory
holds what was answered.

    python3 tests/killed.py PROGRAM [KILLS]

Each run goes on in the directory of the one before, and merges often. Session k of run r adds the documents `r-k-0`, `r-k-1`, .. one by
one. After a kill the history must hold, of each session, every document that was answered and at most one more, in order, and everything
that it held before. The last line says how many transactions were found, how often the one more was there, and of how many the last kill
left trees.
"""
import os
import random
import re
import subprocess
import sys
import tempfile
import time

SESSIONS = 4
MOST = 2000
MERGE_AT = 100


def script(run, session):
    """The transactions of a session."""
    return "".join(f'[:transact [[:db/add "x" :db/doc "{run}-{session}-{i}"]]]\n' for i in range(MOST))


def killed(program, folder, run, after):
    """Runs the sessions, and kills the program after so many seconds. Answers how many transactions of each were answered."""
    names = []
    for session in range(SESSIONS):
        names.append(os.path.join(folder, f"{session}.edn"))
        with open(names[-1], "w") as file:
            file.write(script(run, session))
        if os.path.exists(names[-1] + ".out"):
            os.remove(names[-1] + ".out")
    words = ["run", "--merge-at", str(MERGE_AT), os.path.join(folder, "data"), *names]
    running = subprocess.Popen([program, *words])
    time.sleep(after)
    running.kill()
    running.wait()
    return [answered(name + ".out") for name in names]


def answered(path):
    """How many receipts were written whole."""
    if not os.path.exists(path):
        return 0
    with open(path, "rb") as file:
        lines = file.read().split(b"\n")[:-1]
    if not all(line.startswith(b"{:t ") for line in lines):
        sys.exit(f"no receipt: {lines}")
    return len(lines)


def documents(program, folder):
    """The documents of the history, in the order of their transactions, and its basis."""
    done = subprocess.run([program, "run", os.path.join(folder, "data"), "-"], capture_output=True,
                          input=b"[:datoms :aevt :db/doc]\n")
    if done.returncode != 0:
        sys.exit(f"status {done.returncode}: {done.stderr.decode()}")
    basis = int(re.match(rb"{:basis (\d+) ", done.stdout).group(1))
    found = re.findall(rb':db/doc "(\d+-\d+-\d+)" (\d+) true', done.stdout)
    found.sort(key=lambda pair: int(pair[1]))
    return [doc.decode() for doc, _ in found], basis


def covered(program, folder):
    """How many of the transactions stand in trees that were kept."""
    done = subprocess.run([program, "check", os.path.join(folder, "data")], capture_output=True,
                          check=True)
    return int(re.match(rb"{:basis \d+ :covered (\d+)}", done.stdout).group(1))


def judge(before, now, run, counts):
    """Says what is wrong, or how many transactions were there that nobody had been answered."""
    if now[:len(before)] != before:
        sys.exit(f"run {run}: what was there is not there any longer")
    more = 0
    for session, count in enumerate(counts):
        own = [doc for doc in now[len(before):] if doc.split("-")[1] == str(session)]
        if own != [f"{run}-{session}-{i}" for i in range(len(own))]:
            sys.exit(f"run {run}: session {session} is not in order")
        if not count <= len(own) <= count + 1:
            sys.exit(f"run {run}: session {session} was answered {count} and has {len(own)}")
        more += len(own) - count
    return more


def main():
    program = os.path.abspath(sys.argv[1])
    kills = int(sys.argv[2]) if len(sys.argv) > 2 else 200
    draw = random.Random(1)
    with tempfile.TemporaryDirectory(dir=".") as folder:
        os.mkdir(os.path.join(folder, "data"))
        before, more = [], 0
        for run in range(kills):
            counts = killed(program, folder, run, draw.uniform(0.001, 0.12))
            now, basis = documents(program, folder)
            if basis != len(now):
                sys.exit(f"run {run}: {len(now)} documents at basis {basis}")
            more += judge(before, now, run, counts)
            before = now
        kept = covered(program, folder)
    print(f"killed {kills} times: {len(before)} transactions, {more} of them unanswered, "
          f"{kept} in kept trees")


main()
