"""The pages against the repository: each crate of crates.txt has its row in docs/LAYERS.md, at the same place, and what docs/CHANGING.md says
of files and of crates above others is so."""
import os
import re

from outside import TOP, lines_of

NAME = "rows and paths of pages"
# Folders that a path begins with where its crate was named before it.
INSIDE = ("src/", "specs/", "proofs/", "data/")


def check(_program, tally):
    """Compares crates.txt with the table, and looks for each path that is named."""
    needs = dict(needs_of_crates())
    rows = crates_in("docs/LAYERS.md")
    for name in [*needs, *rows]:
        tally.check(f"docs/LAYERS.md: the row of {name}", (1, True), (rows.count(name), name in needs))
    out_of_place = [(wanted, got) for wanted, got in zip(needs, rows) if wanted != got]
    tally.check("docs/LAYERS.md: the first row that stands elsewhere than in crates.txt", [], out_of_place[:1])
    crate = None
    for number, line in lines_of("docs/CHANGING.md"):
        for word in re.findall(r"`([\w./-]*\w)`", line):
            crate = word if word in needs else crate
            if "/" in word:
                tally.check(f"docs/CHANGING.md:{number}: {word} of {crate}", True, is_there(word, crate))
    for name, count in re.findall(r"`(\w+)`\s+and\s+(\d+)\s+crates\s+above", text_of("docs/CHANGING.md")):
        tally.check(f"docs/CHANGING.md: crates above {name}", len(above(name, needs)), int(count))


def needs_of_crates():
    """Each crate, and the crates that it names."""
    for _number, line in lines_of("crates.txt"):
        if line and not line.startswith("#"):
            name, _, needed = line.partition(":")
            yield name, needed.split()


def crates_in(page):
    """The crates that begin the rows of the page's tables."""
    rows = (re.match(r"\| `(\w+)` \|", line) for _number, line in lines_of(page))
    return [row.group(1) for row in rows if row]


def above(name, needs):
    """The crates that are built over this one, directly or not."""
    found = {name}
    while more := {crate for crate, needed in needs.items() if crate not in found and found & set(needed)}:
        found |= more
    return found - {name}


def is_there(path, crate):
    places = [f"crates/{crate}/{path}"] if path.startswith(INSIDE) else [path, f"crates/{path}"]
    return any(os.path.exists(os.path.join(TOP, place)) for place in places)


def text_of(page):
    return "\n".join(line for _number, line in lines_of(page))
