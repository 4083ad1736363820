#!/usr/bin/env python3
"""Compares the code that docs/LIBRARY.md shows with the files that it is taken from.

    docs/uses.py [--write]

In front of each block stands a line with the file's name alone, as `crates/oth_uses/src/solved_board.rt`, in backquotes and with a colon. A
block has to be that file word for word, and each caller of crates/oth_uses and the C example's build line have to be shown, or linked. The
line of `crates.txt` beside each caller has to name the crates that it uses. Each problem is a line; the last line is `N passed, M failed`,
and the exit status is 1 where something failed. With `--write` the blocks are first filled from the files.
"""
import argparse
import glob
import os
import re
import sys

TOP = os.path.dirname(os.path.dirname(os.path.abspath(__file__)))
PAGE = "docs/LIBRARY.md"
BLOCK = re.compile(r"^`([^`\n]+)`:\n\n```(\w+)\n(.*?)^```$", re.MULTILINE | re.DOTALL)
LINE = re.compile(r"^The caller's line of `crates\.txt` is `mine: ([^`\n]+)`\.\n\n`([^`\n]+)`:$", re.MULTILINE)
LINE_OF_LINKED = re.compile(r"\]\(\.\./([^)\n]+\.rt)\)[^\n]*; its line is `mine: ([^`\n]+)`")
NOT_SHOWN = ("lib.rt",)
LINKED_NAMES = ("analysis", "book_and_workers", "engine_cells", "game", "in_time", "own_sink", "shared_table")
LINKED = tuple(f"crates/oth_uses/src/{name}.rt" for name in LINKED_NAMES)
BUILD = re.compile(r"cc -O2 -I\. worked\.c libothsolve\.a -o worked")


def read(name):
    """Returns the text of a file of this repository."""
    with open(f"{TOP}/{name}", encoding="utf-8") as file:
        return file.read()


def write_blocks():
    """Fills the blocks of the page from their files."""
    filled = BLOCK.sub(lambda block: f"`{block[1]}`:\n\n```{block[2]}\n{read(block[1])}```", read(PAGE))
    with open(f"{TOP}/{PAGE}", "w", encoding="utf-8") as file:
        file.write(filled)


def wanted():
    """Returns the files that the page has to show."""
    callers = (os.path.relpath(file, TOP) for file in sorted(glob.glob(f"{TOP}/crates/oth_uses/src/*.rt")))
    return [file for file in callers if os.path.basename(file) not in NOT_SHOWN]


def problems():
    """Yields for each thing that is compared its problem, or None."""
    page = read(PAGE)
    shown = {block[1]: block[3] for block in BLOCK.finditer(page)}
    for name in wanted():
        is_there = f"(../{name})" in page if name in LINKED else name in shown
        yield None if is_there else f"{PAGE} doesn't show {name}"
    for name, text in shown.items():
        if not os.path.isfile(f"{TOP}/{name}"):
            yield f"{PAGE}: there is no {name}"
        else:
            yield None if text == read(name) else f"{PAGE}: the block of {name} is not that file"
    listed = {line[2]: set(line[1].split()) for line in LINE.finditer(page)}
    listed |= {line[1]: set(line[2].split()) for line in LINE_OF_LINKED.finditer(page)}
    for name in wanted():
        used = set(re.findall(r"^(?:ghost )?use (?:Rattle\.)?(\w+)", read(name), re.MULTILINE)) - {"std", "crate"}
        yield None if used <= listed.get(name, set()) else f"{PAGE}: the line of {name} doesn't name each of {', '.join(sorted(used))}"
    for name in ("include/othsolve.h", "examples/c/worked.c", "examples/c/library.sh", PAGE):
        yield None if BUILD.search(read(name)) else f"{name}: another build line"


def main():
    parser = argparse.ArgumentParser(description=__doc__, formatter_class=argparse.RawDescriptionHelpFormatter)
    parser.add_argument("--write", action="store_true", help="first fill the blocks from the files")
    if parser.parse_args().write:
        write_blocks()
    found = list(problems())
    for problem in found:
        if problem:
            print(problem)
    failed = sum(problem is not None for problem in found)
    print(f"{len(found) - failed} passed, {failed} failed")
    return 1 if failed else 0


if __name__ == "__main__":
    sys.exit(main())
