#!/usr/bin/env python3
"""Times each form of `moves` and of `flips` on the same three million boards of scattered discs.

    bench/forms.py PROGRAM [RUNS]

PROGRAM is the plain copy of the search that `bench/plain.py OUT` makes. Each form is run in turn, RUNS times (5 if not given), and what
the making of the boards takes is taken off. Printed are nanoseconds a call and calls a second, of the least CPU time. The exit status is
1 where two forms of one call differ, or where `moves` gives another sum than rays over 64 cells do.
"""
import argparse
import functools
import sys

import timing

CALLS = 30_000_000
NOTHING = "nothing"
# What the rays of hostile/minimax.py over 64 cells give.
SUM_OF_MOVES = b"4be4f452eaff28a8\n"
FORMS = {"moves": ("moves", "moves_by_lines", "moves_by_shifts"), "flips": ("flips", "flips_by_rays", "flips_by_shifts")}


def summed(program, form):
    """Tells what the program prints of the form, and the seconds of CPU time that it takes itself."""
    run = timing.timed([program, "forms", form])
    return run.wrote, (run.user,)


def words():
    """Reads the command line."""
    parser = argparse.ArgumentParser(description=__doc__, formatter_class=argparse.RawDescriptionHelpFormatter)
    parser.add_argument("program", metavar="PROGRAM", help="the plain copy of the search, OUT/plain of bench/plain.py")
    parser.add_argument("runs", metavar="RUNS", nargs="?", type=timing.rounds, default=5, help="how often each form is run (5)")
    return parser.parse_args()


def main():
    given = words()
    names = [form for forms in FORMS.values() for form in forms]
    series = timing.Series({name: functools.partial(summed, given.program, name) for name in (NOTHING, *names)})
    for _ in range(given.runs):
        sums = series.round()
    for name in names:
        each = (series.least[name][0] - series.least[NOTHING][0]) / CALLS
        print(f"{name:16} {each * 1e9:6.2f} ns {1e-6 / each:6.0f} million calls a second")
    agree = all(len({sums[form] for form in forms}) == 1 for forms in FORMS.values())
    return 0 if agree and sums["moves"] == SUM_OF_MOVES else 1


if __name__ == "__main__":
    sys.exit(main())
