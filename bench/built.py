"""The programs that a benchmark times: the product, the proved parts, and plain Rust's beside these."""
import os
import subprocess
import sys

TOP = os.path.dirname(os.path.dirname(os.path.realpath(__file__)))


def newest_source():
    """When a source of any crate was changed last."""
    newest = os.path.getmtime(os.path.join(TOP, "crates.txt"))
    for folder, folders, files in os.walk(os.path.join(TOP, "crates")):
        folders[:] = [name for name in folders if name not in ("out", "must-fail")]
        newest = max([newest, *(os.path.getmtime(os.path.join(folder, name)) for name in files)])
    return newest


def product():
    """The program that ./factbase runs, or the one that FACTBASE names."""
    named = os.environ.get("FACTBASE")
    if named:
        return named
    return subprocess.run([os.path.join(TOP, "release", "program")], check=True, stdout=subprocess.PIPE, text=True).stdout.strip()


def bench(name):
    """The words that start the benchmark of this name. Its program is taken as the gate left it where it is newer than all sources, and else
    proved and built."""
    program = os.path.join(TOP, "crates", "bench", "out", "bench")
    if not os.path.isfile(program) or os.path.getmtime(program) < newest_source():
        # Without words the program may end with a status of its own, so what counts is that it was built.
        subprocess.run(["rt", "run"], cwd=os.path.join(TOP, "crates", "bench"), stdin=subprocess.DEVNULL, stdout=subprocess.DEVNULL)
        if not os.path.isfile(program):
            sys.exit("bench: the program could not be built")
        os.utime(program)
    return [program, name]


def plain(benchmark, folder):
    """Plain Rust's program, built into the folder."""
    program = os.path.join(folder, "plain")
    source = os.path.join(os.path.dirname(os.path.realpath(benchmark)), "plain.rs")
    subprocess.run(["rustc", "-O", "--edition", "2024", "-C", "target-cpu=x86-64-v2", "-o", program, source], check=True)
    return program
