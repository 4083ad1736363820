#!/usr/bin/env python3
"""Runs the programs that `rt ci` leaves against hostile surroundings and against a small solver of its own.

    hostile/run.py [CRATES] [PART ..]

CRATES is the folder of the crates, `crates` if not given. Each step is a line, `ok` or `FAILED` and its name, and after a failure what is
wrong. Where parts are named only their steps are run: `statuses`, `texts`, `flow`, `limits`, `seen`, `terminal`, `progress`,
`differential`, `small_boards`, `recipes`, `foreign`, `refusals`, `c_library`, `installed`, `packed`, `web`, `page`. As many parts run at once as there
are processors, but for `small_boards`, which compares times: it runs first, with nothing beside it. The lines come in the order of the parts.
The last line is `N passed, M failed`; the exit status is 1 where a step failed.
"""
import argparse
import concurrent.futures
import functools
import os
import signal
import subprocess
import sys

import c_library
import differential
import flow
import foreign
import installed
import limits
import packed
import page
import progress
import recipes
import refusals
import running
import seen
import small_boards
import statuses
import terminal
import texts
import web

# The parts that compare times, which nothing may disturb.
TIMED = ("small_boards",)


def every_part(crates):
    """Returns the parts by their names."""
    program = os.path.abspath(f"{crates}/othsolve/out/othsolve")
    return {
        "statuses": lambda: statuses.steps(program),
        "texts": lambda: texts.steps(program),
        "flow": lambda: flow.steps(program),
        "limits": lambda: limits.steps(program),
        "seen": lambda: seen.steps(program),
        "terminal": lambda: terminal.steps(program),
        "progress": lambda: progress.steps(program),
        "differential": lambda: differential.steps(program),
        "small_boards": lambda: small_boards.steps(program),
        "recipes": lambda: recipes.steps(program),
        "foreign": lambda: foreign.steps(program),
        "refusals": lambda: refusals.steps(crates),
        "c_library": lambda: c_library.steps(crates),
        "installed": lambda: installed.steps(crates),
        "packed": lambda: packed.steps(crates),
        "web": lambda: web.steps(program),
        "page": lambda: page.steps(program),
    }


def steps_of(crates, part):
    """Returns the steps of the part."""
    steps = []
    try:
        for step in every_part(crates)[part]():
            steps.append(step)
    except (OSError, subprocess.SubprocessError) as error:
        steps.append((f"{part} comes to its end", f"{error}"))
    return steps


def steps(crates, parts):
    """Yields the steps of the parts, one part after the other. They run beside each other, but for those that compare times."""
    alone = {part: steps_of(crates, part) for part in parts if part in TIMED}
    with concurrent.futures.ProcessPoolExecutor() as pool:
        beside = pool.map(functools.partial(steps_of, crates), [part for part in parts if part not in alone])
        for part in parts:
            yield from alone[part] if part in alone else next(beside)


def words():
    """Reads the command line."""
    parser = argparse.ArgumentParser(description=__doc__, formatter_class=argparse.RawDescriptionHelpFormatter)
    parser.add_argument("crates", metavar="CRATES", nargs="?", default="crates", help="the folder of the crates (crates)")
    parser.add_argument("parts", metavar="PART", nargs="*", help="a part that is run (all)")
    given = parser.parse_args()
    every = list(every_part(given.crates))
    for part in given.parts:
        if part not in every:
            parser.error(f"no part {part}; there are {', '.join(every)}")
    given.parts = given.parts or every
    return given


def main():
    # A run that is begun in the background may ignore SIGINT; what is run here would then do so too.
    signal.signal(signal.SIGINT, signal.default_int_handler)
    given = words()
    passed, failed = running.tell(steps(given.crates, given.parts))
    print(f"{passed} passed, {failed} failed")
    return 1 if failed else 0


if __name__ == "__main__":
    sys.exit(main())
