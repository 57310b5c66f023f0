"""Runs the program that is named on the command line from outside, as a user does, on the manual's examples and on the rows that
stand as data in the repository, and looks whether pages tell the truth of files and crates. The last line says what passed and what
was left out. The status is 1 where a row failed."""
import sys

import backups
import edn
import examples
import files
import pages
import scripts
import streams
import transactions
from outside import Program, Tally


def main():
    program = Program(sys.argv[1])
    tallies = []
    for kind in (examples, transactions, scripts, edn, streams, files, backups, pages):
        tally = Tally(kind.NAME)
        kind.check(program, tally)
        tallies.append(tally)
    print("test:", "; ".join(str(tally) for tally in tallies))
    return 0 if all(tally.is_well() for tally in tallies) else 1


sys.exit(main())
