#!/usr/bin/env python3
"""Runs plain copies of the search beside one another, board by board, and prints how long each took.

    bench/beside.py ROUNDS BOARDS PLAIN PLAIN ..

Each PLAIN is a program that bench/plain.py made, as of this tree and of an earlier commit. In each round each board of the file goes to
each program in turn, by one worker with 65,536 cells, in a process of its own, which tells the seconds of the search. What counts is the
least of the rounds, board by board. For each program a line has the sum over the boards, the sum as a part of the first program's, and
the geometric mean of the boards' times; the sums so far go to standard error after each round. The exit status is 1 where two answers
differ. Leave the machine alone meanwhile; at the end stands how much CPU time the host gave to others.
"""
import argparse
import functools
import math
import subprocess
import sys

import timing

CELLS = "65536"


def solved(program, board):
    """Returns the program's answer to this board line, and the seconds that it tells of the search."""
    command = [program, "1", CELLS, "/dev/stdin"]
    written = subprocess.run(command, input=board, stdout=subprocess.PIPE, check=True, text=True).stdout
    row = written.splitlines()[0]
    return row.split("; ")[1], (float(row.split(" s ")[0].split()[-1]),)


def cpu_times():
    """Returns the CPU time of the machine so far, all of it and what the host gave to others."""
    with open("/proc/stat", encoding="utf-8") as stat:
        times = [int(word) for word in stat.readline().split()[1:9]]
    return sum(times), times[7]


def times_of(number, boards, least):
    """Returns the least seconds for each board of the program that stands at this place among the words."""
    return [least[place, number][0] for place in range(len(boards))]


def words():
    """Reads the command line."""
    parser = argparse.ArgumentParser(description=__doc__, formatter_class=argparse.RawDescriptionHelpFormatter)
    parser.add_argument("rounds", metavar="ROUNDS", type=timing.rounds, help="how often each board goes to each program")
    parser.add_argument("boards", metavar="BOARDS", help="the file of board lines")
    parser.add_argument("programs", metavar="PLAIN", nargs="+", help="a program that bench/plain.py made; at least two")
    given = parser.parse_args()
    if len(given.programs) < 2:
        parser.error("there is one PLAIN, and nothing to compare it with")
    return given


def main():
    given = words()
    with open(given.boards, encoding="utf-8") as lines:
        boards = lines.readlines()
    runs = {}
    for place, board in enumerate(boards):
        for number, program in enumerate(given.programs):
            runs[place, number] = functools.partial(solved, program, board)
    series, numbers = timing.Series(runs), range(len(given.programs))
    all_before, stolen_before = cpu_times()
    for done in range(1, given.rounds + 1):
        answers = series.round()
        for place, board in enumerate(boards):
            told = {answers[place, number] for number in numbers}
            if len(told) != 1:
                print(f"the answers to {board.strip()} differ: {sorted(told)}")
                return 1
        sums = ", ".join(f"{sum(times_of(number, boards, series.least)):.4f} s" for number in numbers)
        print(f"after {done}: {sums}", file=sys.stderr, flush=True)
    all_after, stolen_after = cpu_times()
    stolen = 100 * (stolen_after - stolen_before) / (all_after - all_before)
    print(f"{len(boards)} boards of {given.boards}, least of {given.rounds}, {stolen:.1f} percent to others")
    first = sum(times_of(0, boards, series.least))
    for number, program in enumerate(given.programs):
        times = times_of(number, boards, series.least)
        mean = math.exp(sum(map(math.log, times)) / len(times))
        print(f"{sum(times):10.4f} s, {sum(times) / first:6.3f}, geometric mean {mean:.6f} s: {program}")
    return 0


if __name__ == "__main__":
    sys.exit(main())
