#!/usr/bin/env python3
"""Prints the microseconds that a board of few empty squares takes, by one worker and by several, beside a reference.

    bench/small.py PROGRAM BOARDS [REFERENCE] [RUNS]

PROGRAM is a built `othsolve`, BOARDS a file of board lines, thousands of each number of empty squares, so that the start of a process
counts for little, and each board once, since a reference may remember it. REFERENCE is a command that reads board lines and writes report
lines. Each command is run RUNS times (5 if not given), all in turn, of which the least seconds count. It reads a file and writes one, since
whoever fills or empties a pipe takes a processor. Three tables are printed: `solve` by the number of empty squares; boards of all these
numbers mixed, by `solve`, `scores`, `book-add` and `solve --book`; and one line at a time, each answered before the next is written, of
which the median counts. The exit status is 1 where answers differ.
"""
import argparse
import functools
import pathlib
import random
import shlex
import statistics
import subprocess
import sys
import tempfile
import time

import timing

WORKERS = (1, 2, 4, 16)
REFERENCE = "reference"
MICROSECONDS = 1e6
SEED = 20261129
# Lines of all numbers of empty squares that are mixed, and whose boards a book has.
MIXED = 20_000
# Lines of each number of empty squares that are given one at a time.
ONE_BY_ONE = 400
EMPTY_BOOK = b"OBOOK2 W\nEND 000000\n"


class Differs(Exception):
    """Two runs over one input have written different answers."""


def boards_by_empties(name):
    """Returns the lines of the file by the numbers of empty squares of their boards."""
    lines = {}
    with open(name, "rb") as boards:
        for line in boards:
            lines.setdefault(line.split()[0].count(b"-"), []).append(line)
    return dict(sorted(lines.items()))


def workers_of(number):
    """Names a number of workers."""
    return f"{number} worker{'s' * (number > 1)}"


def by_workers(program, command, *behind):
    """Returns the words of a command for each number of workers, by its name."""
    return {workers_of(number): [program, command, "--workers", str(number), *behind] for number in WORKERS}


def solved(command, given):
    """Tells what the command writes for a file of these lines, and the wall-clock seconds that it took."""
    with tempfile.TemporaryFile() as lines:
        lines.write(given)
        lines.seek(0)
        run = timing.timed(command, stdin=lines)
    return run.wrote, (run.clock,)


def answered_in_turn(command, lines):
    """Tells what the command writes for these lines, each given when the one before is answered, and the median of the seconds."""
    wrote, seconds = [], []
    with subprocess.Popen(command, stdin=subprocess.PIPE, stdout=subprocess.PIPE, bufsize=0) as process:
        for line in lines:
            began = time.monotonic()
            process.stdin.write(line)
            wrote.append(process.stdout.readline())
            seconds.append(time.monotonic() - began)
        process.stdin.close()
    return b"".join(wrote), (statistics.median(seconds),)


def measured(run, commands, given, runs):
    """Returns the least seconds of each command, run over what is given."""
    series = timing.Series({name: functools.partial(run, command, given) for name, command in commands.items()})
    for _ in range(runs):
        if len(set(series.round().values())) > 1:
            raise Differs
    return {name: least for name, (least,) in series.least.items()}


def print_head(name, columns):
    """Prints the head of a table whose rows have such a name."""
    print(f"| {name} |", " | ".join(columns), "|")
    print("|---|" + "---|" * len(columns))


def print_row(name, least, boards):
    """Prints a row of microseconds a board."""
    print(f"| {name} |", " | ".join(f"{seconds / boards * MICROSECONDS:.1f}" for seconds in least.values()), "|", flush=True)


def by_empties(given, boards):
    """Prints the table of `solve` by the number of empty squares."""
    commands = by_workers(given.program, "solve")
    if given.reference:
        commands[REFERENCE] = given.reference
    print_head("empty squares, `solve`", commands)
    for empties, lines in boards.items():
        print_row(empties, measured(solved, commands, b"".join(lines), given.runs), len(lines))


def mixed(given, boards):
    """Prints the table of boards of all numbers of empty squares, mixed."""
    lines = [line for some in boards.values() for line in some]
    random.Random(SEED).shuffle(lines)
    some = b"".join(lines[:MIXED])
    with tempfile.TemporaryDirectory() as folder:
        empty, book = pathlib.Path(folder, "empty.book"), pathlib.Path(folder, "some.book")
        empty.write_bytes(EMPTY_BOOK)
        book.write_bytes(timing.timed([given.program, "book-add", str(empty)], input=some).wrote)
        rows = {
            "`solve`": (by_workers(given.program, "solve"), some),
            "`scores`": (by_workers(given.program, "scores"), some),
            "`book-add`": (by_workers(given.program, "book-add", str(empty)), some),
            "`solve --book` of one line, which verifies them": (by_workers(given.program, "solve", "--book", str(book)), lines[0]),
        }
        print_head("mixed", by_workers(given.program, "solve"))
        for name, (commands, asked) in rows.items():
            print_row(name, measured(solved, commands, asked, given.runs), some.count(b"\n"))


def one_by_one(given, boards):
    """Prints the table of lines that are given one at a time."""
    commands = by_workers(given.program, "solve")
    print_head("empty squares, one line at a time", commands)
    for empties, lines in boards.items():
        print_row(empties, measured(answered_in_turn, commands, lines[:ONE_BY_ONE], given.runs), 1)


def words():
    """Reads the command line."""
    parser = argparse.ArgumentParser(description=__doc__, formatter_class=argparse.RawDescriptionHelpFormatter)
    parser.add_argument("program", metavar="PROGRAM", help="the built program")
    parser.add_argument("boards", metavar="BOARDS", help="the file of board lines")
    parser.add_argument("reference", metavar="REFERENCE", nargs="?", type=shlex.split, help="the command of another solver")
    parser.add_argument("runs", metavar="RUNS", nargs="?", type=timing.rounds, default=5, help="how often each is run (5)")
    return parser.parse_args()


def main():
    given = words()
    boards = boards_by_empties(given.boards)
    try:
        for table in (by_empties, mixed, one_by_one):
            table(given, boards)
            print()
    except Differs:
        print("answers differ", file=sys.stderr)
        return 1
    return 0


if __name__ == "__main__":
    sys.exit(main())
