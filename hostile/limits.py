#!/usr/bin/env python3
"""Runs the built program in small address spaces and with small stacks: it answers rightly or says why not, and dies of no signal.

    hostile/limits.py PROGRAM [--fine]

Status 0 wants all answers, status 1, 2 or 3 a text on standard error and a beginning of the answers. Searches of large boards are ended
after two seconds, and nothing else may end them. Of the address spaces in which memory is wanting at a bad moment many are narrow: `--fine`
tries one each 500 kB, and takes half a minute where the coarse walk takes ten seconds.
"""
import argparse
import itertools
import os
import signal
import sys
import tempfile
from concurrent.futures import ThreadPoolExecutor

from running import board_lines, book_of, ran, tell

SEED = 20261126
BOARDS = 20
EMPTIES = 14
WORKERS = (1, 2, 4, 8, 16)
# Boards whose search doesn't end soon: it is ended after some seconds, when it has been as deep as it gets.
LARGE_EMPTIES = (22, 26, 30)
LARGE_WORKERS = (1, 4, 16)
LARGE_SECONDS = 2
# In kB.
COARSE_MEMORY = sorted((*range(4000, 40001, 4000), 10500, 11500, 19000, 20500, 28500, 29000, 36500, 37000))
FINE_MEMORY = range(4000, 40001, 500)
STACKS = (128, 192, 256, 320, 384, 448, 512, 768, 1024)
LARGE_STACK = 192
# The environment lies on the stack: one of a usual size, in bytes.
ENVIRONMENT = {"USUAL": "x" * 16_000}
USUAL_STACK = 8192
# The status of `timeout` where it ended what it ran.
TIMED_OUT = 124
AT_ONCE = 4
# A shell sets both limits, soft and hard, and becomes the program.
UNDER = 'ulimit -s "$0" && ulimit -v "$1" && shift && exec "$@"; exit 99'


class Walk:
    """One command under each of some limits: its words, its input, the limits in kB as pairs of a stack and an address space."""

    def __init__(self, program, words, given, limits):
        self.words, self.given, self.limits = [program, *words], given, limits

    def wrong(self):
        """Tells what is wrong under which limits, if anything."""
        wanted = ran(self.words, self.given)
        if wanted.status != 0:
            return f"status {wanted.status} without limits"
        with ThreadPoolExecutor(AT_ONCE) as at_once:
            found = at_once.map(lambda limits: self.wrong_under(*limits, wanted.wrote), self.limits)
            told = [f"{shown(limits)}: {wrong}" for limits, wrong in zip(self.limits, found, strict=True) if wrong]
        return "; ".join(told) or None

    def wrong_under(self, stack, memory, wanted):
        """Tells what is wrong under these limits, if anything."""
        done = ran(["sh", "-c", UNDER, str(stack), str(memory), *self.words], self.given, env=ENVIRONMENT)
        if done.status == 0:
            return None if done.wrote == wanted else "other answers"
        if done.status not in (1, 2, 3):
            return f"status {status_name(done.status)}"
        if not done.said:
            return f"status {done.status} without a word"
        return None if wanted.startswith(done.wrote) else f"status {done.status} behind other answers"


def large_wrong(program):
    """Tells which search of a large board is ended by another signal than the one that it gets after some seconds, if any is."""
    searches = itertools.product(("solve", "scores"), LARGE_EMPTIES, LARGE_WORKERS)
    with ThreadPoolExecutor(AT_ONCE) as at_once:
        return "; ".join(filter(None, at_once.map(lambda search: large_wrong_in(program, *search), searches))) or None


def large_wrong_in(program, command, empties, workers):
    """Tells what is wrong with the search of one large board, if anything."""
    words = ["sh", "-c", UNDER, str(LARGE_STACK), "unlimited", "timeout", str(LARGE_SECONDS), program, command, "--workers", str(workers)]
    done = ran(words, board_lines(SEED, 1, empties), env={"PATH": os.environ["PATH"], **ENVIRONMENT})
    if done.status in (0, TIMED_OUT):
        return None
    return f"{command}, {empties} empty squares, {workers} workers: status {status_name(done.status)}"


def status_name(status):
    return signal.Signals(-status).name if isinstance(status, int) and status < 0 else status


def shown(limits):
    stack, memory = limits
    return f"-s {stack}" if memory == "unlimited" else f"-v {memory}"


def walks(program, fine):
    """Yields each walk with its name. Threads have the stack of their process, so that of an address space is told too."""
    memory = [(USUAL_STACK, size) for size in (FINE_MEMORY if fine else COARSE_MEMORY)]
    stacks = [(size, "unlimited") for size in STACKS]
    given = board_lines(SEED, BOARDS, EMPTIES)
    for workers in WORKERS:
        words = ["solve", "--workers", str(workers)]
        for limits, kind in ((memory, "address spaces"), (stacks, "stacks")):
            yield f"{BOARDS} boards by {workers} workers in {len(limits)} small {kind}", Walk(program, words, given, limits)
    with tempfile.TemporaryDirectory() as folder:
        book = book_of(program, folder, given)
        commands = {
            "scores": (["scores"], given),
            "scores by 4 workers": (["scores", "--workers", "4"], given),
            "moves": (["moves"], given),
            "transcript": (["transcript"], b"f5d6c3d3c4\n" * BOARDS),
            "play": (["play"], b"---------------------------OX------XO--------------------------- X f5d6c3d3c4\n" * BOARDS),
            "analyse": (["analyse"], b"--OXOOO-OOOOOOOOOOOOOOOOOOOOOOOOOOOOOOOOOOOOOOOOOOOOOOOOOOOOOOOO X h1b1\n" * BOARDS),
            "book-verify": (["book-verify", book], b""),
            "book-add": (["book-add", book], board_lines(SEED + 1, BOARDS, EMPTIES)),
        }
        for name, (words, lines) in commands.items():
            for limits, kind in ((memory, "address spaces"), (stacks, "stacks")):
                yield f"{name} in {len(limits)} small {kind}", Walk(program, words, lines, limits)


def steps(program, fine=False):
    """Yields a step for each walk: its name, and what is wrong with it, if anything."""
    for name, walk in walks(program, fine):
        yield name, walk.wrong()
    yield f"boards of {', '.join(map(str, LARGE_EMPTIES))} empty squares in {LARGE_STACK} kB of stack", large_wrong(program)


def main():
    parser = argparse.ArgumentParser(description=__doc__, formatter_class=argparse.RawDescriptionHelpFormatter)
    parser.add_argument("program", metavar="PROGRAM", type=os.path.abspath, help="the built program")
    parser.add_argument("--fine", action="store_true", help="try an address space each 500 kB")
    given = parser.parse_args()
    _, failed = tell(steps(given.program, given.fine))
    return 1 if failed else 0


if __name__ == "__main__":
    sys.exit(main())
