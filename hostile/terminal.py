"""Runs the built program with standard error on a terminal and on a pipe, and wants words on the terminal alone.

On a terminal a second line has to say in words what the first says by a number; on a pipe not a byte may be added. Where standard input is
a terminal and no file of lines is named, a line says what is read.
"""
import os
import pty
import subprocess
import tempfile

import running
from running import PATIENCE
from statuses import FULL_BOARD, broken_pipe, entry

EMPTY_BOOK = running.EMPTY_BOOK.decode()

# The most that a terminal is asked for: more than any run says.
MOST = 65_536

TEXTS = {
    "empty.book": EMPTY_BOOK,
    "discs.book": EMPTY_BOOK.replace("W", "D"),
    "header.book": "no book\n",
    "line.book": "OBOOK2 W\nx\n",
    "order.book": "OBOOK2 W\n" + 2 * ("X" * 64 + " +64 +64 0000000000000000\n") + "END 000002\n",
    "count.book": "OBOOK2 W\nEND 000001\n",
    "short.book": "OBOOK2 W\nEND 00",
    "behind.book": EMPTY_BOOK + "\n",
    "bounds.book": entry("X" * 64, "-64", "+62", 0),
    "best.book": entry("X" * 64, "+64", "+64", 1),
    "empties.book": entry("-" * 64, "-64", "+64", 0),
}

REFUSALS = {
    "header.book": ("book error 1", "header.book: the first line is none of OBOOK2 W, OBOOK2 D and OBOOK1"),
    "line.book": ("book error 2 at 1", "line 2 of line.book: no entry and no end line"),
    "order.book": ("book error 3 at 2", "line 3 of order.book: its board isn't above the one before"),
    "count.book": ("book error 4", "count.book: the number of entries is wrong"),
    "short.book": ("book error 5", "short.book: the book is cut short"),
    "behind.book": ("book error 6", "behind.book: bytes follow the end"),
    "bounds.book": ("book wrong 1 at 1", "line 2 of bounds.book: the bounds don't enclose the value of its board"),
    "best.book": ("book wrong 2 at 1", "line 2 of best.book: its best moves are wrong"),
    "empties.book": ("book wrong 3 at 1", "line 2 of empties.book: its board has more than 30 empty squares"),
}


class Case:
    """One run: the words, standard input, the status, the line with a number, if any, and the line in words."""

    def __init__(self, words, status, number, told, given=b"", **how):
        self.words, self.status, self.given, self.how = words, status, given, how
        self.number = f"{number}\n".encode() if number else b""
        self.told = f"{told}\n".encode() if told else b""


def cases():
    for words in (["book-verify"], ["book-add"], ["solve", "--book"]):
        yield Case([*words, "missing.book"], 1, "run error 1", "missing.book: no such file")
        yield Case([*words, "folder"], 1, "run error 1", "folder: is a directory")
        for name, (number, told) in REFUSALS.items():
            yield Case([*words, name], 3, number, told)
    yield Case(["book-verify", "empty.book/book"], 1, "run error 1", "empty.book/book: Not a directory (os error 20)")
    yield Case(["book-verify", "a\x1b[2Jb"], 1, "run error 1", "a?[2Jb: no such file")
    if os.geteuid() != 0:
        yield Case(["book-verify", "secret.book"], 1, "run error 1", "secret.book: permission denied")
    line = f"{FULL_BOARD}\n".encode()
    yield Case(["solve", "--book", "discs.book"], 0, "", "discs.book: by the other scoring, so it is not asked", line)
    yield Case(["solve", "--scoring", "discs", "--book", "empty.book"], 0, "", "empty.book: by the other scoring, so it is not asked", line)
    yield Case(["solve", "--book", "empty.book"], 0, "", "", line)
    for command, *more in (("solve",), ("solve", "--book", "missing.book"), ("book-add", "missing.book")):
        words = [command, "--cells", "3", *more]
        yield Case(words, 2, "run error 4", "the cells must be 0 or a power of two up to 262144")
    yield Case(["solve"], 1, "run error 1", "standard input: is a directory", stdin=lambda: os.open(".", os.O_RDONLY))
    yield Case(["solve"], 1, "run error 1", "standard input: not ready (it is in non-blocking mode)", stdin=silent_pipe)
    yield Case(["book-add", "empty.book"], 1, "run error 1", "standard input: not ready (it is in non-blocking mode)", stdin=silent_pipe)
    for words in (["solve"], ["book-verify", "empty.book"], ["book-add", "empty.book"]):
        yield Case(words, 1, "run error 2", "standard output: no space left", line, stdout=lambda: os.open("/dev/full", os.O_WRONLY))
        yield Case(words, 1, "run error 2", "standard output: closed by its reader", line, stdout=broken_pipe)
    yield Case(["book-add", "empty.book"], 0, "line 1: error 1", "", b"X\n")


# What standard input is said to be, where it is a terminal.
AWAITED = {"solve": "boards", "scores": "boards", "moves": "boards", "transcript": "games", "play": "boards with moves"}


def typed_steps(program, folder):
    """Yields a step for each run whose standard input is a terminal on which nothing is typed but its end (byte 4)."""
    with open(f"{folder}/none.txt", "w", encoding="ascii"):
        pass
    for command, lines in AWAITED.items():
        told = f"othsolve: reading {lines} from the terminal; end with Ctrl-D\n".encode()
        yield f"typed: {command}", wrong_typed(program, folder, [command], 0, told)
        yield f"typed: {command} none.txt", wrong_typed(program, folder, [command, "none.txt"], 0, b"")
        yield f"typed: {command} -", wrong_typed(program, folder, [command, "-"], 0, b"")
    told = b"othsolve: reading boards from the terminal; end with Ctrl-D\n"
    yield "typed: book-add empty.book", wrong_typed(program, folder, ["book-add", "empty.book"], 0, told)
    yield "typed: solve --book empty.book", wrong_typed(program, folder, ["solve", "--book", "empty.book"], 0, told)
    yield "typed: solve --book line.book", wrong_typed(program, folder, ["solve", "--book", "line.book"], 3, b"book error 2 at 1\n")
    yield "typed: solve --cells 3", wrong_typed(program, folder, ["solve", "--cells", "3"], 2, b"run error 4\n")
    yield "typed: book-verify empty.book", wrong_typed(program, folder, ["book-verify", "empty.book"], 0, b"")


def wrong_typed(program, folder, words, status, wanted):
    """Tells what is wrong with a run whose standard input is a terminal and whose standard error is a pipe, if anything."""
    screen, typed = pty.openpty()
    os.write(screen, b"\x04")
    done = running.ran([program, *words], cwd=folder, stdin=typed)
    os.close(typed)
    os.close(screen)
    if (done.status, done.said) != (status, wanted):
        return f"status {done.status} and {done.said[:300]!r} in place of {status} and {wanted!r}"
    return None


def silent_pipe():
    """Returns the end for reading of a pipe that is open for writing, has nothing to read, and does not wait."""
    reading, _ = os.pipe()
    os.set_blocking(reading, False)
    return reading


# Words that clap refuses, and the line of its text that says where lines come from.
USAGES = (
    (["solve", "--x"], "othsolve solve [OPTIONS] [FILE]..."),
    (["scores", "--book", "boards.txt"], "othsolve scores [OPTIONS] [FILE]..."),
    (["moves", "-x"], "othsolve moves [OPTIONS] [FILE]..."),
    (["transcript", "--workers", "2"], "othsolve transcript [OPTIONS] [FILE]..."),
    (["play", "--x", "games.txt"], "othsolve play [OPTIONS] [FILE]..."),
    (["book-add", "empty.book", "boards.txt"], "othsolve book-add [OPTIONS] FILE < BOARDS"),
)


def run(program, folder, case, on_terminal):
    """Returns the status of a run, and what it says on standard error, on a terminal or on a pipe."""
    made = {name: make() for name, make in case.how.items()}
    how = {"stdin": subprocess.PIPE, "stdout": subprocess.DEVNULL, "stderr": subprocess.PIPE, **made}
    if on_terminal:
        terminal, how["stderr"] = pty.openpty()
    with subprocess.Popen([program, *case.words], cwd=folder, **how) as started:
        _, said = started.communicate(None if "stdin" in made else case.given, timeout=PATIENCE)
    for file in made.values():
        os.close(file)
    if on_terminal:
        os.close(how["stderr"])
        said = said_on(terminal)
    return started.returncode, said


def said_on(terminal):
    """Tells what was written to a terminal that nobody writes to any more. It ends lines by byte 13 and byte 10."""
    said = b""
    try:
        while part := os.read(terminal, MOST):
            said += part
    except OSError:
        pass
    os.close(terminal)
    return said.replace(b"\r\n", b"\n")


def wrong(program, folder, case):
    """Tells what is wrong with a case, if anything."""
    for on_terminal in (False, True):
        wanted = case.number + case.told if on_terminal else case.number
        status, said = run(program, folder, case, on_terminal)
        place = "on a terminal" if on_terminal else "on a pipe"
        if status != case.status:
            return f"status {status} in place of {case.status} {place}"
        if said != wanted:
            return f"said {said[:300]!r} in place of {wanted!r} {place}"
    return None


def wrong_usage(program, folder, words, usage):
    """Tells what is wrong with a run whose words are refused, if anything: on a terminal and on a pipe it says how lines are read."""
    case = Case(words, 2, "", "")
    told = [run(program, folder, case, on_terminal) for on_terminal in (False, True)]
    if told[0] != told[1] or told[0][0] != 2:
        return f"{told[0]!r} on a pipe, and {told[1]!r} on a terminal"
    if f"\nUsage: {usage}\n".encode() not in told[0][1]:
        return f"said {told[0][1]!r}"
    return None


def make(folder):
    """Returns the files of the cases."""
    os.mkdir(f"{folder}/folder")
    for name, text in TEXTS.items():
        with open(f"{folder}/{name}", "w", encoding="ascii") as file:
            file.write(text)
    with open(f"{folder}/secret.book", "w", encoding="ascii") as file:
        file.write(EMPTY_BOOK)
    os.chmod(f"{folder}/secret.book", 0)


def steps(program):
    """Yields a step for each case: its name, and what is wrong with it, if anything."""
    with tempfile.TemporaryDirectory() as folder:
        make(folder)
        for case in cases():
            words = " ".join(case.words).replace("\x1b", "ESC")
            yield f"in words: {words}: {case.told.decode().strip() or 'nothing'}", wrong(program, folder, case)
        for words, usage in USAGES:
            yield f"in words: {' '.join(words)}: Usage: {usage}", wrong_usage(program, folder, words, usage)
        yield from typed_steps(program, folder)
