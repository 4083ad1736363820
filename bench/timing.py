"""Times runs of programs: each in turn, several times over, of which the least seconds count, since a shared machine is noisy."""
import argparse
import resource
import subprocess
import tempfile
import time
from typing import NamedTuple


class Timed(NamedTuple):
    """What a run wrote, and what it took: wall-clock seconds, and CPU seconds in the program itself and in the system for it."""

    wrote: bytes
    clock: float
    user: float
    system: float


def timed(words, **how):
    """Runs the words to their end, and gives what they wrote and took; `how` names their standard input, as of `subprocess.run`.

    They write to a file, since whoever empties a pipe takes a processor, and lets them wait where it is full.
    """
    with tempfile.TemporaryFile() as written:
        before = resource.getrusage(resource.RUSAGE_CHILDREN)
        began = time.monotonic()
        subprocess.run(words, stdout=written, check=True, **how)
        clock = time.monotonic() - began
        after = resource.getrusage(resource.RUSAGE_CHILDREN)
        written.seek(0)
        wrote = written.read()
    return Timed(wrote, clock, after.ru_utime - before.ru_utime, after.ru_stime - before.ru_stime)


class Series:
    """Runs that are made in turn, and the least seconds of each so far."""

    def __init__(self, runs):
        """Takes the runs: for each name a call that makes the run and gives its answer and a tuple of seconds."""
        self.runs, self.least = runs, {}

    def round(self):
        """Makes each run once, in their order, and gives the answers by their names; each place of the seconds is kept by itself."""
        answers = {}
        for name, run in self.runs.items():
            answers[name], seconds = run()
            self.least[name] = tuple(map(min, self.least.get(name, seconds), seconds))
        return answers


def rounds(word):
    """Returns a number of rounds, as a word of the command line tells it: at least one."""
    number = int(word)
    if number < 1:
        raise argparse.ArgumentTypeError(f"{number} rounds measure nothing")
    return number
