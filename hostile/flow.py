#!/usr/bin/env python3
"""Answers come as they are ready, by several workers too, and a run that is ended in the middle leaves those that were ready.

    hostile/flow.py PROGRAM

prints in wall-clock seconds how they come: the first answer, the longest silence and the whole, by 1 and by 4 workers. By 4 on an idle
machine of 4 processors 0.1 and 0.5 seconds are the goals, and to be 3 times as fast as one. As a part of hostile/run.py it knows no
seconds: a busy machine is slow throughout, so the first answer and each silence are measured by the whole of the same run.
"""
import argparse
import os
import select
import signal
import subprocess
import sys
import tempfile
import time

from running import board_lines

SEED = 20261125
BOARDS = 300
EMPTIES = 15
WORKERS = (2, 4, 16)
PATIENCE = 120
TICK = 0.005
# Of the whole time.
FIRST = 1 / 4
SILENCE = 1 / 2
# Of the time until a run is ended.
STANDSTILL = 1 / 2
# Of the whole time, for an answer that nothing but longer searches of later lines could hold up.
SOON = 1 / 3
# Lines of 14 and three times 18 empty squares: alone, the third takes ten times as long as the second, and the last three times.
UNEQUAL = b"""\
O-OXO-X-OOXXXOO-OXXXXXOX--XXOOXXXXXXOOXXOOOOXOX--X-OOO--X-XOOO-- X
-O-OX----OOXOXO--OOOOOX--OOOOXOXXOOOOOOXXXOXOOOXXXX-OO--XX--O--- X
OO-OX---O--O-OXOOOX-OO-OO--OOOXOXO-O-XXXXO---XXOOXOOXOXO--OOOXXO X
OOOO-OOOXO-----XO--OXOOO-OO-OOXOOOO--OOOOOO-OXOO-XX--OOOOO-OOO-O X
"""
# A busy machine may stop a run for a while, but hardly each one.
TRIES = 3


def opened(given):
    """Opens a file with these bytes, to be read from its beginning."""
    file = tempfile.TemporaryFile()
    file.write(given)
    file.seek(0)
    return file


def started_with(words, source, target):
    return subprocess.Popen(words, stdin=source, stdout=target, stderr=subprocess.DEVNULL)


class Flow:
    """A run through a pipe: its status, what it wrote, and when. Seconds are counted from its start."""

    def __init__(self, words, given):
        begin = time.monotonic()
        self.wrote, self.moments = b"", [0.0]
        with opened(given) as source, started_with(words, source, subprocess.PIPE) as started:
            while piece := read_before(begin + PATIENCE, started.stdout.fileno()):
                self.wrote += piece
                if b"\n" in piece:
                    self.moments.append(time.monotonic() - begin)
            if piece is None:
                started.kill()
            self.status = started.wait() if piece is not None else f"(none after {PATIENCE} seconds)"
        self.whole = time.monotonic() - begin
        self.first = self.moments[1] if len(self.moments) > 1 else self.whole
        self.silence = longest([*self.moments, self.whole])

    def figures(self):
        return f"first answer {self.first:.3f} s, longest silence {self.silence:.3f} s, whole {self.whole:.3f} s"


def read_before(deadline, pipe):
    """Returns the next bytes of a pipe, none at its end; None where they don't come in time."""
    ready, _, _ = select.select([pipe], [], [], max(0, deadline - time.monotonic()))
    return os.read(pipe, 65536) if ready else None


def longest(moments):
    """Returns the longest time from one moment to the next."""
    return max((after - before for before, after in zip(moments, moments[1:], strict=False)), default=0.0)


def flow_wrong(words, given, wanted):
    """Tells what is wrong with how answers come, if anything."""
    for _ in range(TRIES):
        flow = Flow(words, given)
        if flow.status != 0 or flow.wrote != wanted:
            return f"status {flow.status}, {flow.wrote.count(10)} answers, other ones than by one worker"
        if flow.first <= FIRST * flow.whole and flow.silence <= SILENCE * flow.whole:
            return None
    return flow.figures()


def held_up(words, given, wanted):
    """Tells whether the second answer waits for those behind it."""
    for _ in range(TRIES):
        flow = Flow(words, given)
        if flow.status != 0 or flow.wrote != wanted:
            return f"status {flow.status}, wrote {flow.wrote!r}"
        second = flow.moments[2] if len(flow.moments) > 2 else flow.whole
        if second <= SOON * flow.whole:
            return None
    return f"the second answer after {second:.2f} s of {flow.whole:.2f}"


class Ended:
    """A run into a file that is ended by a signal in the middle: its status, what it left, and when the file grew."""

    def __init__(self, words, given, number, after, most):
        """Sends the signal `after` seconds after the start, or when `most` lines are there."""
        begin, seen = time.monotonic(), b""
        self.moments = [0.0]
        with opened(given) as source, tempfile.TemporaryFile() as file:
            with started_with(words, source, file) as started:
                while time.monotonic() - begin < after and seen.count(b"\n") < most:
                    time.sleep(TICK)
                    seen, before = contents(file), seen
                    if seen != before:
                        self.moments.append(time.monotonic() - begin)
                self.elapsed = time.monotonic() - begin
                started.send_signal(number)
                self.status = started.wait()
            self.left = contents(file)
        self.seen = seen

    def wrong(self, wanted):
        """Tells what is wrong with what it left, if anything, however busy the machine is."""
        if self.left and not self.left.endswith(b"\n") or not wanted.startswith(self.left):
            return f"left {self.left[-100:]!r}, which is no beginning of the answers"
        return None if self.left.startswith(self.seen) else f"{len(self.seen)} bytes were there, and {len(self.left)} are left"

    def late(self):
        """Tells what came too late, if anything: all answers, or some for a long time."""
        still = longest([*self.moments, self.elapsed])
        if not self.left:
            return f"no answer was there after {self.elapsed:.2f} s"
        return f"the file stood still for {still:.2f} s of {self.elapsed:.2f}" if still > STANDSTILL * self.elapsed else None


def contents(file):
    """Tells what a file has, whoever writes it."""
    return os.pread(file.fileno(), os.fstat(file.fileno()).st_size, 0)


def ended_wrong(words, given, wanted, number, whole):
    """Tells what is wrong with a run that is ended in the middle, if anything. To its end it may take `whole` seconds."""
    for _ in range(TRIES):
        ended = Ended(words, given, number, whole / 2, BOARDS // 2)
        if wrong := ended.wrong(wanted):
            return wrong
        if ended.status == -number:
            late = ended.late()
        else:
            late, whole = f"status {ended.status} after {ended.elapsed:.2f} s, before it was ended", ended.elapsed
        if late is None:
            return None
    return late


def left_wrong(words, given, whole):
    """Tells what is wrong with a run whose reader leaves behind the first answer, if anything: it ends within half of the whole time."""
    for _ in range(TRIES):
        with opened(given) as source, subprocess.Popen(words, stdin=source, stdout=subprocess.PIPE, stderr=subprocess.PIPE) as started:
            started.stdout.readline()
            started.stdout.close()
            begin = time.monotonic()
            said, status = started.stderr.read(), started.wait()
        elapsed = time.monotonic() - begin
        if (status, said) != (1, b"run error 2\n"):
            return f"status {status}, said {said[:100]!r}"
        if elapsed <= whole / 2:
            return None
    return f"it went on for {elapsed:.2f} s of {whole:.2f}"


def steps(program):
    """Yields a step for each run: its name, and what is wrong with it, if anything."""
    given = board_lines(SEED, BOARDS, EMPTIES)
    alone = Flow([program, "solve"], given)
    good = alone.status == 0 and alone.wrote.count(b"\n") == BOARDS
    yield f"{BOARDS} boards of {EMPTIES} empty squares by one worker", None if good else f"status {alone.status}"
    for workers in WORKERS:
        words = [program, "solve", "--workers", str(workers)]
        yield f"{BOARDS} answers by {workers} workers come as they are ready", flow_wrong(words, given, alone.wrote)
    wanted = Flow([program, "solve"], UNEQUAL).wrote
    for workers in (2, 4):
        words = [program, "solve", "--workers", str(workers)]
        yield f"an answer by {workers} workers does not wait for longer searches of later lines", held_up(words, UNEQUAL, wanted)
    for workers in (1, 4):
        words = [program, "solve", "--workers", str(workers)]
        whole = alone.whole if workers == 1 else Flow(words, given).whole
        for number in (signal.SIGKILL, signal.SIGTERM):
            name = f"{number.name} in the middle of a run into a file leaves the answers so far, by {workers}"
            yield name, ended_wrong(words, given, alone.wrote, number, whole)
        yield f"a run by {workers} whose reader leaves behind the first answer ends soon", left_wrong(words, given, whole)


def main():
    parser = argparse.ArgumentParser(description=__doc__, formatter_class=argparse.RawDescriptionHelpFormatter)
    parser.add_argument("program", metavar="PROGRAM", type=os.path.abspath, help="the built program")
    program = parser.parse_args().program
    given, wholes = board_lines(SEED, BOARDS, EMPTIES), []
    for workers in (1, 4):
        flow = Flow([program, "solve", "--workers", str(workers)], given)
        wholes.append(flow.whole)
        print(f"{workers} workers, {flow.wrote.count(10)} answers: {flow.figures()}", flush=True)
    print(f"4 workers are {wholes[0] / wholes[1]:.2f} times as fast as one")
    return 0


if __name__ == "__main__":
    sys.exit(main())
