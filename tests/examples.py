"""The manual's examples: what a reader who types them sees.

An example is a block marked `console`. A line that begins with `$ ` is a command, and lines right below it that begin with `> ` go
on with it. The lines behind, up to the next command or the block's end, are what it must write to standard output and standard
error together, in order. A last line `[exit N]` is the exit status that is wanted, where it is not 0.
"""
import os
import re
import subprocess
import tempfile
from dataclasses import dataclass, field

from outside import TOP, lines_of

NAME = "examples of the manual"
PAGES = ["README.md", "docs/COMMANDS.md"]


@dataclass
class Example:
    line: int
    command: str
    wanted: list = field(default_factory=list)
    status: int = 0


def check(_program, tally):
    """Runs each example in a folder that has ./factbase, one folder for each page."""
    for page in PAGES:
        with tempfile.TemporaryDirectory() as folder:
            os.symlink(os.path.join(TOP, "factbase"), os.path.join(folder, "factbase"))
            for example in examples_in(page):
                wanted = "".join(line + "\n" for line in example.wanted), example.status
                tally.check(f"{page}:{example.line}: {example.command}", wanted, run(example.command, folder))


def examples_in(page):
    """The examples of a page, with the lines and the status that are wanted of each."""
    found, inside, current = [], False, None
    for number, line in lines_of(page):
        if line.startswith("```"):
            inside, current = (line == "```console"), None
        elif inside and line.startswith("$ "):
            current = Example(number, line[2:])
            found.append(current)
        elif inside and current is not None and line.startswith("> ") and not current.wanted:
            current.command += "\n" + line[2:]
        elif inside and current is not None:
            status = re.fullmatch(r"\[exit (\d+)\]", line)
            if status:
                current.status = int(status.group(1))
            else:
                current.wanted.append(line)
    return found


def run(command, folder):
    done = subprocess.run(["sh", "-c", command], cwd=folder, stdin=subprocess.DEVNULL,
                          stdout=subprocess.PIPE, stderr=subprocess.STDOUT, timeout=600)
    return done.stdout.decode("utf-8", "replace"), done.returncode
