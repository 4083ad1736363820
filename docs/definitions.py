#!/usr/bin/env python3
"""Prints what a doubter of a theorem reads: its calls, and the types and definitions that these rest on, each behind those that it names.

    docs/definitions.py [PART]

PART is `solve`, the first half of the theorem (if none is given), `table`, the second half, `seats`, the one history of all seats, or
`bytes`, what the program writes of what it reads. A later part leaves out what the parts before it have. Above each stands where it is
declared and what its comments say: those of its file's head, and its own. docs/THEOREM.md names the calls of each part, and the words of
the standard library. The last line counts the definitions.
"""
import argparse
import sys

from checks import definitions


def main():
    parser = argparse.ArgumentParser(description=__doc__, formatter_class=argparse.RawDescriptionHelpFormatter)
    parser.add_argument("part", metavar="PART", nargs="?", choices=list(definitions.PARTS), default="solve", help=", ".join(definitions.PARTS))
    part = parser.parse_args().part
    rows = definitions.parts()[part]
    for row in rows:
        print("\n".join(definitions.lines_of_row(row)), end="\n\n")
    print(f"{definitions.count(rows)} definitions")
    return 0


if __name__ == "__main__":
    sys.exit(main())
