#!/usr/bin/env python3
"""Measures what bench/figures.txt has, and writes it anew.

    bench/figures.py OURS V2 V3 [RUNS]

OURS is this program's file. V2 and V3 are commands of another solver, built for x86-64-v2 and for x86-64-v3, that read board lines and
write report lines, as `'/path/to/another/solver solve'`. The boards are those of `bench/game-NN.txt`. By 1, 2 and 4 workers OURS solves
each board in a run of its own; by 4 workers it is given all boards of the file at once too, and so are the two others. All that goes in
turn, RUNS times at the fewest empty squares (48 if not given), half as often with every two more, but at least twice. What counts is the
least wall-clock seconds: of each board, added up, or of the whole file. The exit status is 1 where two answers differ. Leave the
machine alone meanwhile, and run `bench/plot.py` after it.
"""
import argparse
import functools
import pathlib
import shlex
import sys

import timing

BENCH = pathlib.Path(__file__).resolve().parent
FIGURES = BENCH / "figures.txt"
WORKERS = (1, 2, 4)
HEAD = """\
# What was measured, a line for each number of empty squares: wall-clock seconds for the ten boards of bench/game-NN.txt, `-` where
# nothing was measured. The columns stand in the first line that is no comment. `bench/figures.py` measures and writes this file, and
# `bench/plot.py` makes the tables and the plot of it.
empty squares; 1 worker; 2 workers; 4 workers; 4 workers, a board each; other solver, x86-64-v2; other solver, x86-64-v3
"""


def solved(command, lines):
    """Tells what the command writes for these lines, and the wall-clock seconds that it takes."""
    run = timing.timed(command, input=lines)
    return run.wrote, (run.clock,)


def measured(ours, others, boards, rounds):
    """Returns the seconds of each column for these board lines."""
    alone = [[ours, "solve", "--workers", str(workers)] for workers in WORKERS]
    at_once = [[ours, "solve", "--workers", "4"]] + [shlex.split(other) for other in others]
    runs = {}
    for place, board in enumerate(boards):
        for column, command in enumerate(alone):
            runs[column, place] = functools.partial(solved, command, board)
    for column, command in enumerate(at_once, len(alone)):
        runs[column, 0] = functools.partial(solved, command, b"".join(boards))
    columns = range(len(alone) + len(at_once))
    series = timing.Series(runs)
    for _ in range(rounds):
        wrote = series.round()
        answers = {b"".join(wrote[key] for key in keys_of(column, runs)) for column in columns}
        if len(answers) != 1:
            sys.exit(f"the answers differ: {sorted(answers)}")
    return [sum(series.least[key][0] for key in keys_of(column, runs)) for column in columns]


def keys_of(column, runs):
    """Returns the runs of a column, in the order of the boards."""
    return [key for key in runs if key[0] == column]


def words():
    """Reads the command line."""
    parser = argparse.ArgumentParser(description=__doc__, formatter_class=argparse.RawDescriptionHelpFormatter)
    parser.add_argument("ours", metavar="OURS", help="this program's file")
    parser.add_argument("v2", metavar="V2", help="the command of another solver, built for x86-64-v2")
    parser.add_argument("v3", metavar="V3", help="that of the same solver, built for x86-64-v3")
    parser.add_argument("runs", metavar="RUNS", nargs="?", type=timing.rounds, default=48, help="runs at the fewest empty squares (48)")
    return parser.parse_args()


def main():
    given = words()
    rounds = given.runs
    text = HEAD
    for path in sorted(BENCH.glob("game-*.txt")):
        boards = path.read_bytes().splitlines(keepends=True)
        seconds = measured(given.ours, (given.v2, given.v3), boards, rounds)
        row = [path.stem.split("-")[1]] + [f"{each:#.3g}" for each in seconds]
        print("; ".join(row), f"({rounds} rounds)", flush=True)
        text += "; ".join(row) + "\n"
        rounds = max(2, rounds // 2)
    FIGURES.write_text(text, encoding="utf-8")
    return 0


if __name__ == "__main__":
    sys.exit(main())
