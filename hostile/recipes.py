"""Runs each recipe of docs/RECIPES.md as it stands there, and wants the output that the page shows.

A recipe is a section of the page. Each of its blocks marked `bash` is run, in their order by one shell, and has to end with status 0 and to
write the block marked `text` that comes right behind it, word for word, or nothing where there is none. A recipe begins in an empty folder
with a copy of examples, and with `othsolve` on the PATH. One whose tool isn't installed is passed over, and its step is named so. What is
written to standard error isn't compared.
"""
import contextlib
import os
import random
import re
import shutil
import signal
import subprocess
import tempfile
import time

import seen
from running import EMPTY_BOOK, TOP, board_lines, file_of, ran

PAGE = f"{TOP}/docs/RECIPES.md"
SECTION = re.compile(r"^## (.*)$", re.MULTILINE)
BLOCK = re.compile(r"^```bash\n(.*?)^```\n(?:\n```text\n(.*?)^```\n)?", re.MULTILINE | re.DOTALL)
BEGIN = "Begin here"
SEVERAL = "A collection on several machines"
BOOK = "Keep and extend a book"
TOOLS = ("parallel", "ssh", "flock")
LEAST = 17
PATIENCE = 20

# In place of ssh: every machine is this one, but some are lost.
STAND_IN = """#!/usr/bin/env bash
while [[ $1 == -* ]]; do shift; done
machine=$1
shift
[[ $1 == -- ]] && shift
case $machine in
refuses) exit 255 ;;
dies_early) head -c 100 > /dev/null; echo +0 a1; exit 255 ;;
dies_late) bash -c "$*" | head -n 1; exit 255 ;;
esac
exec bash -c "$*"
"""
HERE = "machines=1/:\n"
LOST = ("refuses", "dies_early", "dies_late")

# Behind the first block of the recipe for books, whose `book_add` has made a book of eight boards.
AT_ONCE = """cut -c 1-100 examples/games.txt | othsolve transcript > more.txt
for n in {1..8}; do sed -n ${n}p more.txt | book_add my.book & done
wait
othsolve book-verify my.book
"""
FAILING = """cp my.book old.book
othsolve() { head -c 100 my.book; return 3; }
book_add my.book < collection.txt; echo $?
cmp my.book old.book && ls
"""
LEFT = "3\ncollection.txt\nexamples\nmy.book\nmy.book.lock\nold.book\n"

# Additions in portions: boards, and how often they are ended, as a whole or the shell alone.
PORTIONS, OF_A_PORTION, PORTIONS_EMPTIES, SEED, ENDS = 8, 5, 8, 20261201, 20
# Lines that leave the longest book room for one portion of two boards, and no room for the next one.
ROOM = 2


def recipes():
    """Returns the sections of the page that have blocks: title, and the blocks, each with what it writes."""
    with open(PAGE, encoding="utf-8") as file:
        parts = SECTION.split(file.read())
    sections = zip(parts[1::2], parts[2::2], strict=True)
    return {title: blocks for title, text in sections if (blocks := BLOCK.findall(text))}


def steps(program):
    """Yields a step for each recipe: its name, and what is wrong with it, if anything."""
    page = recipes()
    yield f"recipes: at least {LEAST} stand on the page", None if len(page) >= LEAST else f"found {list(page)}"
    for title, blocks in page.items():
        if missing_tools(blocks):
            yield passed_over(title, blocks)
        elif title == BEGIN:
            yield f"recipe: {title}", begin(blocks)
        else:
            yield f"recipe: {title}", cooked(program, blocks)
    for title, further in ((SEVERAL, lost_machines), (BOOK, book_kept)):
        if title not in page:
            yield title, "isn't on the page"
        elif missing_tools(page[title]):
            yield passed_over(f"{title}, where something fails", page[title])
        else:
            yield from further(program, page[title])


def missing_tools(blocks):
    """Returns the tools that the blocks name and that aren't installed."""
    code = "".join(code for code, _ in blocks)
    return [tool for tool in TOOLS if not shutil.which(tool) and re.search(rf"\b{tool}\b", code)]


def passed_over(name, blocks):
    """Returns a step that says that it wasn't run."""
    return f"passed over and not run, since {' and '.join(missing_tools(blocks))} isn't installed: {name}", None


def begin(blocks):
    """Tells what is wrong with the first lines of the page, if anything: from the top of the repository they lead to a copy of examples."""
    with tempfile.TemporaryDirectory() as folder:
        return wrong(blocks + [("ls\n", "examples\n")], TOP, {"TMPDIR": folder})


def cooked(program, blocks, stand_in=None):
    """Tells what is wrong with a recipe, if anything."""
    with kitchen(program, stand_in) as (folder, environment):
        return wrong(blocks, folder, environment)


@contextlib.contextmanager
def kitchen(program, stand_in=None):
    """Makes a folder with a copy of examples, and an environment with the program on the PATH, and something in place of ssh."""
    with tempfile.TemporaryDirectory() as folder, tempfile.TemporaryDirectory() as tools:
        shutil.copytree(f"{TOP}/examples", f"{folder}/examples")
        os.symlink(program, f"{tools}/othsolve")
        if stand_in:
            with open(f"{tools}/ssh", "w", encoding="ascii") as file:
                file.write(stand_in)
            os.chmod(f"{tools}/ssh", 0o755)
        yield folder, {"HOME": tools, "PATH": f"{tools}:{os.environ['PATH']}"}


def wrong(blocks, folder, environment):
    """Tells what is wrong with what a shell makes of the blocks in the folder, if anything."""
    script = "".join(f"{code}printf '\\nstatus %s\\0' $?\n" for code, _ in blocks)
    wanted = [f"{text}\nstatus 0" for _, text in blocks]
    environment = {**os.environ, "SHELL": "/bin/bash", **environment}
    try:
        ran = subprocess.run(
            ["bash", "-c", script],
            cwd=folder,
            env=environment,
            stdin=subprocess.DEVNULL,
            stdout=subprocess.PIPE,
            stderr=subprocess.PIPE,
            text=True,
            timeout=PATIENCE,
            check=False,
        )
    except subprocess.TimeoutExpired as error:
        return str(error)
    found = ran.stdout.split("\0")[:-1]
    for at, (got, want) in enumerate(zip(found, wanted, strict=False), 1):
        if got != want:
            return f"block {at} wrote {got!r} in place of {want!r}, and {ran.stderr[:300]!r}"
    return None if len(found) == len(wanted) else f"{len(found)} blocks of {len(wanted)} were run, {ran.stderr[:300]!r}"


def lost_machines(program, blocks):
    """Tests that the answers are whole where one of two machines is lost; where the only one is, the status counts what is missing."""
    for machine in LOST:
        yield f"several machines, and one {machine}", cooked(program, among(blocks, f"1/:,1/{machine}"), STAND_IN)
    yield "several machines by ssh", cooked(program, among(blocks, "1/one,2/two"), STAND_IN)
    code, _ = among(blocks, "1/refuses")[0]
    yield "the only machine refuses", cooked(program, [(f"{code}(( $? == 2 ))\n", "")], STAND_IN)


def book_kept(program, blocks):
    """Tests that additions at once are all in the book; one that fails leaves the book as it was, and no other file."""
    first, further = blocks[0], (AT_ONCE, "book ok 16\n")
    yield "a book that eight add to at once", cooked(program, [first, further])
    yield "a book-add that fails", cooked(program, [first, (FAILING, LEFT)])
    with kitchen(program) as (folder, environment):
        yield f"additions in portions that TERM ends {ENDS} times", Additions(program, blocks, folder, environment).wrong_when_ended()
    with kitchen(program) as (folder, environment):
        yield "additions in portions to a book that gets full", Additions(program, blocks, folder, environment).wrong_when_full()


class Additions:
    """The recipe's way to add a collection in portions."""

    def __init__(self, program, blocks, folder, environment):
        self.program, self.folder, self.book = program, folder, f"{folder}/my.book"
        page = "".join(code for code, _ in blocks)
        function = re.search(r"^book_add\(\).*?^\)$", page, re.MULTILINE | re.DOTALL)[0]
        self.script = f"{function}\n{re.search(r'^for portion in .*$', page, re.MULTILINE)[0]}\n"
        self.how = {"cwd": folder, "env": {**os.environ, **environment}, "stdin": subprocess.DEVNULL, "stderr": subprocess.DEVNULL}
        self.draw = random.Random(SEED)

    def begin(self, book, portions):
        """Puts this book and these portions into the folder."""
        file_of(self.folder, "my.book", book)
        for number, lines in enumerate(portions):
            file_of(self.folder, f"portion.a{chr(ord('a') + number)}", lines)

    def left(self):
        """Returns the portions that are left."""
        return sorted(name for name in os.listdir(self.folder) if name.startswith("portion."))

    def text(self):
        """Returns the book's text, once nobody adds to it."""
        subprocess.run(["flock", f"{self.book}.lock", "true"], check=True, timeout=PATIENCE)
        with open(self.book, "rb") as file:
            return file.read()

    def go_on(self, seconds=None):
        """Adds what is left; if it is not done by then, TERM ends the shell, alone or with all that it runs. Tells whether that was so."""
        with subprocess.Popen(["bash", "-c", self.script], start_new_session=True, **self.how) as shell:
            try:
                shell.wait(seconds if seconds is not None else PATIENCE)
            except subprocess.TimeoutExpired:
                if self.draw.random() < 0.5:
                    os.killpg(shell.pid, signal.SIGTERM)
                else:
                    shell.terminate()
        return shell.returncode == -signal.SIGTERM

    def books(self, portions):
        """Returns the books that none, one, two .. portions make."""
        books = [EMPTY_BOOK]
        for lines in portions:
            books.append(ran([self.program, "book-add", file_of(self.folder, "before.book", books[-1])], lines).wrote)
        return books

    def wrong_when_ended(self):
        """Tells what is wrong where TERM ends the additions at random times, if anything."""
        lines = board_lines(SEED, PORTIONS * OF_A_PORTION, PORTIONS_EMPTIES).splitlines(keepends=True)
        portions = [b"".join(lines[at : at + OF_A_PORTION]) for at in range(0, len(lines), OF_A_PORTION)]
        books, whole = self.books(portions), self.books([b"".join(lines)])[-1]
        self.begin(EMPTY_BOOK, portions)
        begun = time.monotonic()
        self.go_on()
        seconds, ends = time.monotonic() - begun, 0
        if self.left() or not self.text() == whole == books[-1]:
            return f"portions make another book than one run, and {self.left()} are left"
        while ends < ENDS:
            self.begin(EMPTY_BOOK, portions)
            while self.left():
                ends += self.go_on(self.draw.uniform(0, seconds / 2) if ends < ENDS else None)
                done, text = PORTIONS - len(self.left()), self.text()
                verified = ran([self.program, "book-verify", self.book]).wrote
                if text not in books[done : done + 2] or not verified.startswith(b"book ok "):
                    return f"end {ends}: {done} portions are done, {verified}, {len(text)} bytes"
            if self.text() != whole:
                return f"end {ends}: another book than that of one run"
        return None

    def wrong_when_full(self):
        """Tells what is wrong where the second of three portions finds the book full, if anything."""
        entries = seen.longest_book().splitlines(keepends=True)[1 : -1 - ROOM]
        lines = board_lines(SEED, 3 * ROOM, PORTIONS_EMPTIES).splitlines(keepends=True)
        portions = [b"".join(lines[at : at + ROOM]) for at in range(0, len(lines), ROOM)]
        self.begin(b"".join((b"OBOOK2 W\n", *entries, f"END {len(entries):06}\n".encode())), portions)
        self.go_on()
        verified = ran([self.program, "book-verify", self.book]).wrote
        if verified != b"book ok 100000\n" or self.left() != ["portion.ab", "portion.ac"]:
            return f"{verified}, and {self.left()} are left"
        file_of(self.folder, "my.book", EMPTY_BOOK)
        self.go_on()
        right = self.text() == self.books(portions[1:])[-1] and not self.left()
        return None if right else f"a new book has {len(self.text())} bytes, and {self.left()} are left"


def among(blocks, machines):
    """Returns the blocks with other machines."""
    return [(code.replace(HERE, f"machines={machines}\n"), text) for code, text in blocks]
