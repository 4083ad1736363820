#!/usr/bin/env python3
"""Compares the texts that the program says of its words, each help and one fault of each kind, with the files of `texts/`.

    hostile/texts.py PROGRAM            compares them, as a part of hostile/run.py does
    hostile/texts.py PROGRAM --write    writes the files anew, to be read before they are committed
"""
import argparse
import os
import pathlib
import shlex
import sys
import tempfile

import running

FOLDER = pathlib.Path(__file__).resolve().parent / "texts"

# What begins a case: the words behind the program's name, as a shell reads them. The line below it has the status, the text follows.
PROMPT = "$ othsolve"

# Where a text is written: the lines of standard output, and those of standard error behind this line.
ERRORS = "-- standard error:"


def cases_of(path):
    """Yields the cases of a file: words, and the lines below them."""
    for case in path.read_text().split(f"\n{PROMPT}"):
        words, _, told = case.removeprefix(PROMPT).partition("\n")
        yield words.strip(), told.rstrip("\n")


def told_by(program, words, folder):
    """Tells what the program tells of the words: its status, what it wrote, and what it said."""
    done = running.ran([program, *shlex.split(words)], cwd=folder)
    wrote = done.wrote.decode(errors="backslashreplace").rstrip("\n")
    said = done.said.decode(errors="backslashreplace").rstrip("\n")
    lines = [f"status {done.status}"]
    if wrote:
        lines.append(wrote)
    if said:
        lines += [ERRORS, said]
    return "\n".join(lines)


def steps(program):
    """Yields a step for each case of each file."""
    with tempfile.TemporaryDirectory() as folder:
        for path in sorted(FOLDER.glob("*.txt")):
            for words, told in cases_of(path):
                now = told_by(program, words, folder)
                yield f"{path.stem}: othsolve {words}", "" if now == told else f"says\n{now}\nand not\n{told}"


def write(program):
    """Writes the texts of the cases anew."""
    with tempfile.TemporaryDirectory() as folder:
        for path in sorted(FOLDER.glob("*.txt")):
            cases = [f"{PROMPT} {words}".rstrip() + f"\n{told_by(program, words, folder)}\n" for words, _ in cases_of(path)]
            path.write_text("".join(cases))


def main():
    parser = argparse.ArgumentParser(description=__doc__, formatter_class=argparse.RawDescriptionHelpFormatter)
    parser.add_argument("program", metavar="PROGRAM", type=os.path.abspath, help="the built program")
    parser.add_argument("--write", action="store_true", help="write the files anew")
    given = parser.parse_args()
    if given.write:
        write(given.program)
        return 0
    _, failed = running.tell(steps(given.program))
    return 1 if failed else 0


if __name__ == "__main__":
    sys.exit(main())
