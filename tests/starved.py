"""By hand: refuses the program each of its allocations in turn, and looks after each run whether the directory holds what was answered.

    python3 tests/starved.py PROGRAM

It needs a C compiler (`cc`). Scripts of one session and of two begin with a directory of four transactions, most of whose index trees
are dead, so that an opening makes room. Allocation n fails, once alone and once with all behind it, for each n that there is. A run has to
end with status 9, or with 0 where it could do without; then the history must have every transaction that was answered, and at most one more
of each session. The last line of each case says how many runs ended with which status.
"""
import collections
import os
import re
import shutil
import subprocess
import sys
import tempfile

# Counts the allocations of the C library, tells the count in a file, and refuses some.
REFUSING = r"""
#include <errno.h>
#include <fcntl.h>
#include <stdatomic.h>
#include <stdlib.h>
#include <sys/mman.h>
#include <unistd.h>
void *__libc_malloc(size_t), *__libc_realloc(void *, size_t), *__libc_calloc(size_t, size_t), *__libc_memalign(size_t, size_t);
static atomic_long count;
static long first, last, *told;
__attribute__((constructor)) static void begin(void) {
    first = atol(getenv("REFUSE_FIRST")), last = atol(getenv("REFUSE_LAST"));
    int file = open(getenv("TELL_COUNT"), O_RDWR | O_CREAT | O_TRUNC, 0644);
    if (ftruncate(file, sizeof count) == 0) told = mmap(0, sizeof count, PROT_READ | PROT_WRITE, MAP_SHARED, file, 0);
    close(file);
    count = 0;
}
static int refused(void) {
    if (!told) return 0;
    long n = ++count;
    *told = n;
    return first <= n && n <= last ? (errno = ENOMEM) : 0;
}
void *malloc(size_t size) { return refused() ? 0 : __libc_malloc(size); }
void *calloc(size_t n, size_t size) { return refused() ? 0 : __libc_calloc(n, size); }
void *realloc(void *old, size_t size) { return refused() ? 0 : __libc_realloc(old, size); }
void *aligned_alloc(size_t align, size_t size) { return refused() ? 0 : __libc_memalign(align, size); }
int posix_memalign(void **to, size_t align, size_t size) {
    if (refused()) return ENOMEM;
    *to = __libc_memalign(align, size);
    return *to ? 0 : ENOMEM;
}
"""
NEVER = 10**15
BEFORE = 4


def added(text):
    return f'[:transact [[:db/add "x" :db/doc "{text}"]]]\n'


CASES = [
    [added("a") + added("b") + "[:pull [*] 17592186044417]\n[:history]\n[:datoms :aevt :db/doc]\n"],
    [added("a") + added("b") + "[:datoms :eavt]\n", added("c") + "[:sync]\n" + added("d")],
]


class Place:
    def __init__(self, program, folder):
        self.program, self.folder = program, folder
        self.library, self.count = os.path.join(folder, "refusing.so"), os.path.join(folder, "count")
        source = os.path.join(folder, "refusing.c")
        with open(source, "w") as file:
            file.write(REFUSING)
        subprocess.run(["cc", "-O1", "-shared", "-fPIC", "-o", self.library, source], check=True)
        self.before, self.data = os.path.join(folder, "before"), os.path.join(folder, "data")
        os.mkdir(self.before)
        for n in range(BEFORE):
            subprocess.run([program, "run", "--merge-at", "1", self.before, "-"], input=added(n), text=True, check=True, stdout=subprocess.DEVNULL)

    def ran(self, scripts, first, last):
        """Runs the scripts, and tells the status, how many allocations there were, and how many transactions were answered."""
        shutil.rmtree(self.data, ignore_errors=True)
        shutil.copytree(self.before, self.data)
        names = [os.path.join(self.folder, f"{n}.edn") for n in range(len(scripts))]
        for name, script in zip(names, scripts):
            with open(name, "w") as file:
                file.write(script)
            with open(name + ".out", "w"):
                pass
        env = dict(os.environ, LD_PRELOAD=self.library, REFUSE_FIRST=str(first), REFUSE_LAST=str(last), TELL_COUNT=self.count)
        ended = subprocess.run([self.program, "run", "--merge-at", "1", self.data, *names], env=env, stderr=subprocess.DEVNULL, timeout=60)
        with open(self.count, "rb") as file:
            count = int.from_bytes(file.read(), sys.byteorder)
        answered = sum(len(re.findall(r"^\{:t ", open(name + ".out").read(), re.M)) for name in names)
        return ended.returncode, count, answered

    def basis(self):
        looked = subprocess.run([self.program, "check", self.data], capture_output=True, text=True, check=True)
        return int(re.match(r"\{:basis (\d+)", looked.stdout).group(1))


def starve(place, scripts):
    _, most, _ = place.ran(scripts, NEVER, NEVER)
    ends = collections.Counter()
    for first in range(1, most + 1):
        for last in (first, NEVER):
            status, _, answered = place.ran(scripts, first, last)
            more = place.basis() - BEFORE - answered
            if status not in (0, 9) or not 0 <= more <= len(scripts):
                sys.exit(f"allocation {first} to {last}: status {status}, {answered} answered, {more} more")
            ends[status] += 1
    print(f"{len(scripts)} at once, {most} allocations: {ends[9]} runs ended with status 9, {ends[0]} with 0")


def main():
    with tempfile.TemporaryDirectory() as folder:
        place = Place(os.path.abspath(sys.argv[1]), folder)
        for scripts in CASES:
            starve(place, scripts)


main()
