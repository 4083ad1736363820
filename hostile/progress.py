"""Runs the built program on boards of which one takes seconds, and on many that take none, and looks at the line of progress.

On a terminal that line has to come, show how far the search or the run is, be renewed in place and never wrapped, and be gone when the
answer is written; where standard error is no terminal not a byte of it may come. A terminal that takes nothing holds no answer up that
goes into a file.
"""
import contextlib
import os
import pty
import re
import select
import subprocess
import tempfile
import time

from running import EMPTY_BOOK, TOP, board_lines, file_of, ran

PATIENCE = 150
# The most that a terminal is asked for at once.
MOST = 65_536
# Boards that take no time, and between them one that takes some seconds by one worker and by four: its mover wins by SCORE.
QUICK = "-OXXXXO-XXXXXXXXXXXXXXXXXXXXXXXXXXXXXXXXXXXXXXXXXXXXXXXXXXXXXXXX X"
QUICK_ANSWER = "+64 a1 h1"
LONG = "--O--------O-X--OOOOOO-OOOXXO-OX-XOXOOXOXXOOOXO--XXOXO-O--XXX--- X"
LONG_EMPTIES = LONG.count("-")
BOARDS = f"{QUICK}\n{LONG}\n{QUICK}\n".encode()
SETTLED = r", (\d+) of (\d+) moves settled, ([+-]\d+) to ([+-]\d+)"
SHOWN = re.compile(rf"line 2 of 3 read(?:: {LONG_EMPTIES} empty squares(?:{SETTLED})?)?, (\d+) s")
# A board whose moves take some seconds together, and the line that tells how far the search of one of them is.
SCORED = "XXX------XOX--O--OOO-OOXOOOXOOX--OOXOXO--XOXXOOX-XXXXXO--XXX-XO- X"
SCORED_BOARDS = f"{QUICK}\n{SCORED}\n{QUICK}\n".encode()
MOVE = r", ([a-h][1-8]): (\d+) of (\d+) replies settled(?:, ([+-]\d+) to ([+-]\d+))?"
SHOWN_MOVE = re.compile(rf"line 2 of 3 read(?:: {SCORED.count('-')} empty squares(?:{MOVE})?)?, \d+ s")
# Boards of which each takes some hundredths of a second, for one worker and for two.
MANY, SEED = 400, 20261128
BY_ONE, BY_TWO = 15, 16
# The columns of a terminal that has room for the line of a board that takes long, and of one that has none.
WIDE, NARROW = 120, 40
FAULTY = b"X\n"
# Seconds between two looks at the line, and the part of them in which one of some runs has to end.
LOOK, MOST_OF_A_LOOK, ENDS = 0.25, 0.6, 8
# What stands behind the count; a machine under load may take longer than a second for such a board too.
COUNTED = r"(?:, \d+ s|: \d+ empty squares.*)"


class Said:
    """What a run wrote to a terminal, what stood there each time that it had written, and whether a row went on."""

    def __init__(self, said, columns=WIDE):
        self.rows, self.moments, self.column, self.columns = [""], [], 0, columns
        self.is_cut, self.wrapped = False, False
        for part in re.split(r"(\r|\n|\x1b\[\?7[hl])", said.decode("ascii")):
            self.take(part)

    def take(self, part):
        if part == "\r":
            self.column = 0
        elif part == "\n":
            self.rows.append("")
        elif part.startswith("\x1b"):
            self.is_cut = part.endswith("l")
        elif part:
            self.put(part)

    def put(self, text):
        """Puts the text into the row. Behind the last column a terminal goes on in the next row, or, where it cuts, stays in that one."""
        row, end = self.rows[-1].ljust(self.column), self.column + len(text)
        self.wrapped |= not self.is_cut and end >= self.columns
        row = row[: self.column] + text + row[end:]
        self.rows[-1] = row if len(row) <= self.columns else row[: self.columns - 1] + row[-1]
        self.column = min(end, self.columns - 1)
        self.moments.append(self.rows[-1].rstrip())

    def left(self):
        """Tells what stands there at the end."""
        return [row.rstrip() for row in self.rows]


def read_all(terminal, started):
    """Tells what is written to the terminal until the run has ended."""
    said, end = b"", time.monotonic() + PATIENCE
    while time.monotonic() < end:
        ready, _, _ = select.select([terminal], [], [], 0.1)
        if ready:
            try:
                said += os.read(terminal, MOST)
            except OSError:
                break
        elif started.poll() is not None:
            break
    return said


def on_terminal(words, output_too, given=BOARDS, name="xterm"):
    """Runs the words with standard error on a terminal; returns the status, what they wrote where that is a pipe, and what they said."""
    terminal, end = pty.openpty()
    output = end if output_too else subprocess.PIPE
    named = {**os.environ, "TERM": name}
    with subprocess.Popen(words, stdin=subprocess.PIPE, stdout=output, stderr=end, env=named) as started:
        started.stdin.write(given)
        started.stdin.close()
        os.close(end)
        said = read_all(terminal, started)
        if started.poll() is None:
            started.kill()
        wrote = b"" if output_too else started.stdout.read()
    os.close(terminal)
    return started.returncode, wrote, said


def wrong_line(said, score):
    """Tells what is wrong with the line, if anything: it has to come at least twice, be of the long board, and enclose its score."""
    lines = [moment for moment in said.moments if moment.startswith("line ")]
    if len(set(lines)) < 2:
        return f"the line was not renewed: {lines!r}"
    for line in lines:
        found = SHOWN.fullmatch(line)
        if not found:
            return f"showed {line!r}"
        settled, moves, lower, upper, _ = found.groups()
        if settled and (int(settled) > int(moves) or not int(lower) <= score <= int(upper)):
            return f"showed {line!r} of a board whose score is {score:+}"
    if not any(SHOWN.fullmatch(line).group(1) for line in lines):
        return f"never told how far the search is: {lines!r}"
    return None


def wrong_moves(said, scores):
    """Tells what is wrong with the lines of a run that scores moves, if anything: each is of the board, and encloses a move's score."""
    lines = [moment for moment in said.moments if moment.startswith("line ")]
    told = 0
    for line in lines:
        found = SHOWN_MOVE.fullmatch(line)
        if not found:
            return f"showed {line!r}"
        move, settled, replies, lower, upper = found.groups()
        if move and (int(settled) > int(replies) or lower and not int(lower) <= scores[move] <= int(upper)):
            return f"showed {line!r} of a move whose score is {scores[move]:+}"
        told += bool(move)
    return None if told and len(set(lines)) > 1 else f"was not renewed, or never told how far the search is: {lines!r}"


def scoring(program):
    """Yields a step: by `scores` the line shows which move is searched."""
    words = [program, "scores"]
    plain = ran(words, SCORED_BOARDS, PATIENCE)
    status, wrote, said = on_terminal(words, False, SCORED_BOARDS)
    said = Said(said)
    wrong = None if (plain.status, status, wrote) == (0, 0, plain.wrote) else f"status {status}, wrote {wrote!r}"
    fields = plain.wrote.decode("ascii").splitlines()[1].split() if wrong is None else []
    wrong = wrong or wrong_moves(said, dict(zip(fields[1::2], map(int, fields[0::2]), strict=False)))
    left = None if said.left() == [""] else f"left {said.left()!r}"
    yield "the line of progress comes by scores, and tells of its moves", wrong or left


def wrong_width(said, told):
    """Tells what is wrong with what stands on a narrow terminal, if anything: no row goes on in the next one, and none is left."""
    return None if not said.wrapped and said.left() == [""] else f"went on in another row, or left {said.left()!r}: {told!r}"


def wrong_count(said, shown, last):
    """Tells what is wrong with the lines of a run that counts, if anything: their numbers have to rise, and what they count is `last`."""
    lines = [moment for moment in said.moments if moment and not moment.endswith(": error 1")]
    found = [shown.fullmatch(line) for line in lines]
    if None in found:
        return f"showed {lines[found.index(None)]!r}"
    counts = [(int(one[1]), int(one[2])) for one in found]
    if counts != sorted(counts) or len(set(counts)) < 3 or counts[-1][1] != last or any(number > known for number, known in counts):
        return f"counted {counts!r}"
    return "a row went on in the next one" if said.wrapped else None


def counting(program, folder):
    """Yields a step for each command that goes through much that takes little: the line counts up, and the output is as without it."""
    line, entry = re.compile(rf"line (\d+) of (\d+) read{COUNTED}"), re.compile(rf"entry (\d+) of (\d+){COUNTED}")
    lines = board_lines(SEED, MANY, BY_TWO).splitlines(True)
    mixed = b"".join([*lines[: MANY // 2], FAULTY, *lines[MANY // 2 :]])
    empty = file_of(folder, "empty.book", EMPTY_BOOK)
    book = file_of(folder, "made.book", ran([program, "book-add", "--workers", "4", empty], mixed, PATIENCE).wrote)
    two = ",".join(map(str, sorted(os.sched_getaffinity(0))[:2]))
    with open(f"{TOP}/examples/games.txt", "rb") as games:
        games = games.read()
    told = f"line {MANY // 2 + 1}: error 1"
    for words, given, shown, last, left in (
        ([program, "solve"], board_lines(SEED, MANY, BY_ONE), line, MANY, []),
        ([program, "analyse", "--last", "20"], games, line, games.count(b"\n"), []),
        ([program, "book-add", "--workers", "2", empty], mixed, line, MANY + 1, [told]),
        (["taskset", "-c", two, program, "book-verify", book], b"", entry, MANY, []),
    ):
        plain = ran(words, given, PATIENCE)
        status, wrote, bytes_said = on_terminal(words, False, given, "dumb" if "solve" in words else "xterm")
        said = Said(bytes_said, NARROW)
        wrong = None if (status, wrote) == (plain.status, plain.wrote) == (0, wrote) else f"status {status}, wrote {wrote!r}"
        gone = None if said.left() == [*left, ""] else f"left {said.left()!r}"
        name = " ".join(os.path.basename(word) for word in words)
        wrong = wrong or wrong_count(said, shown, last) or gone
        yield f"{name}: the line of progress counts up to {last} on a terminal of {NARROW} columns", wrong


def full_terminal():
    """Makes a terminal that takes no further byte until it is read: both of its ends."""
    terminal, end = pty.openpty()
    os.set_blocking(end, False)
    with contextlib.suppress(BlockingIOError):
        while True:
            os.write(end, b"-" * MOST)
    os.set_blocking(end, True)
    return terminal, end


def written_in_time(answers, started, wanted):
    """Tells what the run wrote into the file once that is all that is wanted, or the time is over."""
    end = time.monotonic() + PATIENCE
    wrote = b""
    while wrote != wanted and started.poll() is None and time.monotonic() < end:
        time.sleep(0.1)
        wrote = os.pread(answers.fileno(), MOST, 0)
    return wrote


def standing_still(program, wanted):
    """Yields a step: the answers go into a file while the terminal of the line takes nothing."""
    terminal, end = full_terminal()
    with tempfile.TemporaryFile() as answers:
        words = [program, "solve", "--cells", "262144"]
        with subprocess.Popen(words, stdin=subprocess.PIPE, stdout=answers, stderr=end) as started:
            started.stdin.write(BOARDS)
            started.stdin.close()
            os.close(end)
            wrote = written_in_time(answers, started, wanted)
            read_all(terminal, started)
    os.close(terminal)
    wrong = None if (started.returncode, wrote) == (0, wanted) else f"status {started.returncode}, wrote {wrote!r}"
    yield "a terminal that takes nothing: the answers are in their file before it is read", wrong


def ending(program):
    """Yields a step: a run ends with its last answer, and doesn't wait for the next look at the line of progress."""
    seconds = []
    for _ in range(ENDS):
        begun = time.monotonic()
        status, wrote, said = on_terminal([program, "solve"], False, f"{QUICK}\n".encode())
        seconds.append(time.monotonic() - begun)
        if (status, wrote, said) != (0, f"{QUICK_ANSWER}\n".encode(), b""):
            yield "a run on a terminal ends with its last answer", f"status {status}, wrote {wrote!r}, said {said!r}"
            return
    late = min(seconds) > MOST_OF_A_LOOK * LOOK
    yield "a run on a terminal ends with its last answer", f"it took {min(seconds):.3f} seconds at the least" if late else None


def steps(program):
    """Yields a step for each way to run it: its name, and what is wrong with it, if anything."""
    words = [program, "solve", "--workers", "4", "--cells", "262144"]
    plain = ran(words, BOARDS, PATIENCE)
    answers = plain.wrote.decode("ascii").splitlines()
    is_right = plain.status == 0 and plain.said == b"" and len(answers) == 3 and answers[0] == answers[2] == QUICK_ANSWER
    yield "the line of progress: not a byte of it on a pipe", None if is_right else f"{plain!r}"
    if not is_right:
        return
    score = int(answers[1].split()[0])
    status, wrote, told = on_terminal(words, False)
    said, narrow = Said(told), Said(told, NARROW)
    wrong = None if (status, wrote) == (0, plain.wrote) else f"status {status}, wrote {wrote!r}"
    yield "the line of progress comes by 4 workers, and leaves standard output as it is", wrong or wrong_line(said, score)
    yield "the line of progress is gone at the end", None if said.left() == [""] else f"left {said.left()!r}"
    yield f"a terminal of {NARROW} columns cuts the line of progress", wrong_width(narrow, told)
    status, _, told = on_terminal([program, "solve", "--cells", "262144"], True)
    said = Said(told)
    wrong = None if (status, said.left()) == (0, [*answers, ""]) else f"status {status}, left {said.left()!r}"
    yield "the line of progress comes by one worker, and leaves only the answers on their terminal", wrong or wrong_line(said, score)
    yield from ending(program)
    yield from scoring(program)
    yield from standing_still(program, plain.wrote)
    with tempfile.TemporaryDirectory() as folder:
        yield from counting(program, folder)
