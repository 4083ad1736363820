"""Compares the time that several workers take with one worker's, over boards that take microseconds: more workers cost no time."""
import random
import tempfile
import time

import running
from running import ran

SEED = 20261128
FEWEST, MOST = 1, 8
# Boards of each number of empty squares, of random discs: hardly one is an image of another, which several workers would search once.
BOARDS = 2400
# Boards in the book.
IN_BOOK = 4800
WORKERS = (2, 4, 16)
ROUNDS = 3
# A machine under load takes longer at times, by one worker or by several: room for noise, and further rounds where it isn't enough.
MOST_RATIO = 1.5
MOST_ROUNDS = 12


def random_line(draw, empties):
    """Returns the line of a board of random discs with this many empty squares."""
    cells = draw.choices("XO", k=64)
    for square in draw.sample(range(64), empties):
        cells[square] = "-"
    return f"{''.join(cells)} {draw.choice('XO')}"


def mixed_lines():
    """Returns lines of boards of all these numbers of empty squares, in no order."""
    draw = random.Random(SEED)
    lines = [random_line(draw, empties) for empties in range(FEWEST, MOST + 1) for _ in range(BOARDS)]
    draw.shuffle(lines)
    return running.text_of(lines).encode()


class Race:
    """Runs of one command over one input by several numbers of workers, and the least seconds of each."""

    def __init__(self, words, behind, given):
        """The command is these words, its workers, and the words behind them."""
        self.words, self.behind, self.given = words, behind, given
        self.least, self.wrote = {}, {}

    def run(self, workers):
        """Runs the command once by these workers."""
        began = time.monotonic()
        done = ran([*self.words, "--workers", str(workers), *self.behind], self.given)
        seconds = time.monotonic() - began
        self.wrote.setdefault(workers, set()).add((done.status, done.wrote))
        self.least[workers] = min(seconds, self.least.get(workers, seconds))

    def go(self):
        """Runs the command by each number of workers, round by round, until no ratio is too high or the rounds are over."""
        for number in range(MOST_ROUNDS):
            if number >= ROUNDS and not any(map(self.wrong, WORKERS)):
                break
            for workers in (1, *WORKERS):
                self.run(workers)

    def wrong(self, workers):
        """Tells what is wrong with the runs by these workers beside one, if anything."""
        failed = [status for status, _ in self.wrote[1] if status != 0]
        if failed:
            return f"status {failed[0]} by one worker"
        if len(self.wrote[workers] | self.wrote[1]) > 1:
            return "another status or other answers than by one worker"
        ratio = self.least[workers] / self.least[1]
        if ratio > MOST_RATIO:
            return f"{ratio:.2f} of one worker's time: {self.least[workers]:.2f} and {self.least[1]:.2f} seconds"
        return None


def races(program, folder, given):
    """Yields the name of each command over these lines, and its race: the book has the first of them."""
    some = b"".join(given.splitlines(True)[:IN_BOOK])
    empty = running.file_of(folder, "empty.book", running.EMPTY_BOOK)
    book = running.book_of(program, folder, some)
    yield "solve", Race([program, "solve"], [], given)
    yield "scores", Race([program, "scores"], [], given)
    yield "solve --book", Race([program, "solve", "--book", book], [], given)
    yield "book-add", Race([program, "book-add"], [empty], some)


def steps(program):
    """Yields a step for each command and number of workers: its name, and what is wrong, if anything."""
    given = mixed_lines()
    with tempfile.TemporaryDirectory() as folder:
        for command, race in races(program, folder, given):
            race.go()
            for workers in WORKERS:
                yield f"{command}: boards of {FEWEST} to {MOST} empty squares take {workers} workers no longer than one", race.wrong(workers)
