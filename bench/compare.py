#!/usr/bin/env python3
"""Runs two solvers on one file of board lines, checks that they answer the same, and prints both times and their ratio.

    bench/compare.py OURS OTHER BOARDS [RUNS]

OURS and OTHER are commands that read board lines and write a report line for each, as
`'crates/othsolve/out/othsolve solve --cells 0'` and `'/path/to/another/solver solve'`, which may be a copy of this program from before.
They are run in turn, RUNS times each (3 if not given); the times are the least of the runs, since a shared machine is noisy: wall-clock
seconds, and in brackets CPU seconds. The exit status is 1 where an answer differs, with the first few lines that do.
"""
import argparse
import functools
import shlex
import sys

import timing

OURS, OTHER = "ours", "other"
MOST_SHOWN = 5


def solved(command, boards):
    """Tells what the command writes for the boards, and the wall-clock and the CPU seconds that it took."""
    with open(boards, "rb") as lines:
        run = timing.timed(shlex.split(command), stdin=lines)
    return run.wrote, (run.clock, run.user + run.system)


def report_differences(boards, ours, others):
    """Prints the first few boards whose answers differ."""
    with open(boards, "rb") as lines:
        rows = zip(lines.read().splitlines(), ours.splitlines(), others.splitlines(), strict=False)
    differing = [row for row in rows if row[1] != row[2]]
    for board, our, other in differing[:MOST_SHOWN]:
        print(f"{board.decode()}: ours {our.decode()}, other {other.decode()}")
    if not differing:
        print("the answers differ in number")


def words():
    """Reads the command line."""
    parser = argparse.ArgumentParser(description=__doc__, formatter_class=argparse.RawDescriptionHelpFormatter)
    parser.add_argument("ours", metavar="OURS", help="the command of this program")
    parser.add_argument("other", metavar="OTHER", help="the command of another one")
    parser.add_argument("boards", metavar="BOARDS", help="the file of board lines")
    parser.add_argument("runs", metavar="RUNS", nargs="?", type=timing.rounds, default=3, help="how often each is run (3)")
    return parser.parse_args()


def main():
    given = words()
    boards = given.boards
    runs = {OURS: functools.partial(solved, given.ours, boards), OTHER: functools.partial(solved, given.other, boards)}
    series = timing.Series(runs)
    for _ in range(given.runs):
        answers = series.round()
        if answers[OURS] != answers[OTHER]:
            report_differences(boards, answers[OURS], answers[OTHER])
            return 1
    count = answers[OURS].count(b"\n")
    (a, c), (b, d) = series.least[OURS], series.least[OTHER]
    ratios = f"{a / max(b, 0.001):.2f} ({c / max(d, 0.001):.2f})"
    print(f"{count} boards of {boards}: same answers; {a:.3f} s ({c:.3f}) and {b:.3f} s ({d:.3f}), ratio {ratios}")
    return 0


if __name__ == "__main__":
    sys.exit(main())
