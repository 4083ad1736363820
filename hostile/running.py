"""Holds what several parts need: runs that come to an end or are killed, steps that are told, libraries in front of the C library, lines of
boards, books, and the version."""
import mmap
import os
import random
import re
import struct
import subprocess
from typing import NamedTuple

import minimax

# The top of this repository.
TOP = os.path.dirname(os.path.dirname(os.path.abspath(__file__)))
PATIENCE = 60
LONG = 8
EMPTY_BOOK = b"OBOOK2 W\nEND 000000\n"
LOGIC_DIGITS = 16
# The version, as the C header has it.
with open(f"{TOP}/include/othsolve.h", encoding="ascii") as header:
    VERSION = re.search(r'^#define OTHSOLVE_VERSION "(.*)"$', header.read(), re.MULTILINE)[1]


class Ran(NamedTuple):
    """How a run ended: its status, or a text where it couldn't be begun or didn't end in time; what it wrote, and what it said."""

    status: object
    wrote: bytes
    said: bytes


def ran(words, given=b"", patience=PATIENCE, **how):
    """Runs the words with these bytes as standard input, unless another one is told, to their end. A run that hangs is killed."""
    how = {"stdout": subprocess.PIPE, "stderr": subprocess.PIPE, "timeout": patience, **how}
    if "stdin" not in how:
        how["input"] = given
    try:
        done = subprocess.run(words, check=False, **how)
    except subprocess.TimeoutExpired as late:
        return Ran(f"(none after {patience} seconds)", late.stdout or b"", late.stderr or b"")
    except (OSError, subprocess.SubprocessError) as error:
        return Ran(f"(none: {error})", b"", b"")
    return Ran(done.returncode, done.stdout or b"", done.stderr or b"")


def version_line(file):
    """Returns what `--version` has to print of code that was built into this file: the logic is what the compiler wrote there."""
    with open(file, "rb") as code:
        logics = {logic.decode() for logic in re.findall(rb"rattle logic=([0-9a-f]+)", code.read())}
    return f"othsolve {VERSION} (rattle logic {' and '.join(sorted(logic[:LOGIC_DIGITS] for logic in logics)) or 'none'})\n"


def board_lines(seed, count, empties):
    """Returns lines of `count` boards that random games lead to."""
    draw = random.Random(seed)
    return text_of(minimax.board_line(*minimax.game_board(draw, empties)) for _ in range(count)).encode()


def file_of(folder, name, given):
    """Returns the path of a file that is made with these bytes."""
    path = f"{folder}/{name}"
    with open(path, "wb") as file:
        file.write(given)
    return path


def book_of(program, folder, given):
    """Returns the path of a book that the program makes of these lines."""
    empty = file_of(folder, "empty.book", EMPTY_BOOK)
    return file_of(folder, "made.book", ran([program, "book-add", empty], given).wrote)


def text_of(lines):
    """Returns the lines as a text, each with its end."""
    return "".join(f"{line}\n" for line in lines)


def tests_of(program):
    """Returns the names of the tests of a program of tests."""
    listed = ran([program, "--list"]).wrote.decode()
    return [line.removesuffix(": test") for line in listed.splitlines() if line.endswith(": test")]


def tell(steps, indent="    "):
    """Prints a line for each step, and below it what is wrong with it, if anything; gives how many passed and how many failed."""
    passed = failed = 0
    for name, wrong in steps:
        print(f"{'FAILED' if wrong else 'ok'} {name}", flush=True)
        if wrong:
            print(f"{indent}{wrong}", flush=True)
        failed += bool(wrong)
        passed += not wrong
    return passed, failed


class Preloaded:
    """A library in front of the C library's, which keeps numbers for whoever runs a program with it."""

    def __init__(self, folder, source, numbers):
        """Builds it with `cc`. It finds the file of its numbers by the name COUNTED, and maps it into its memory."""
        self.library, self.counted, self.numbers = f"{folder}/preloaded.so", f"{folder}/counted", numbers
        text = file_of(folder, "preloaded.c", source.encode())
        subprocess.run(["cc", "-shared", "-fPIC", "-O1", "-o", self.library, text, "-ldl"], check=True)

    def ran(self, words, given=b"", **environment):
        """Tells how a run of the words ends, and the numbers that it leaves, of which each was 0."""
        with open(self.counted, "wb") as file:
            file.write(bytes(LONG * self.numbers))
        done = ran(words, given, env={"LD_PRELOAD": self.library, "COUNTED": self.counted, **environment})
        with open(self.counted, "r+b") as file, mmap.mmap(file.fileno(), LONG * self.numbers) as page:
            return done, struct.unpack(f"{self.numbers}q", page[:])
