"""Runs the built program on command lines, files and devices of every kind, and wants the status and texts that docs/FORMATS.md names."""
import os
import re
import resource
import select
import subprocess
import tempfile

from running import EMPTY_BOOK, LOGIC_DIGITS, VERSION, file_of, ran

START = "---------------------------OX------XO--------------------------- X"
FIVE_MOVES = "------------------XO------XXX------OXX-----O-------------------- O"
FULL_BOARD = "X" * 64 + " X"
EDGE = "--OXOOO-" + "O" * 56 + " X"
CORNERS = "X" * 60 + "OOO- X"
TWO_CORNERS = "-OXXXXO-" + "X" * 56 + " X"
VERSION_LINE = re.compile(rf"\Aothsolve {re.escape(VERSION)} \(rattle logic [0-9a-f]{{{LOGIC_DIGITS}}}\)\n\Z".encode())
MEGABYTE = 1 << 20
LITTLE = 64
AT_ONCE = 5
FAULTY_WORDS = re.compile(rb"^error: .+\n")
# A file that can be opened, and of which no byte can be read.
UNREADABLE = "/proc/self/mem"
COMMANDS = ("solve", "scores", "moves", "transcript", "play", "analyse", "book-verify", "book-add")


class Case:
    """One run: the words, standard input, and what is wanted of the status and, as bytes or a pattern, of standard output and error."""

    def __init__(self, name, words, given=b"", status=0, wrote=None, said=None, **how):
        self.name, self.words, self.given, self.status = name, words, given, status
        self.wrote, self.said, self.how = wrote, said, how

    def wrong(self, program):
        """Tells what is wrong with the run, if anything."""
        done = ran([program, *self.words], self.given, **self.how)
        if done.status != self.status:
            return f"status {done.status} in place of {self.status}"
        if not fits(done.wrote, self.wrote):
            return f"wrote {done.wrote[:200]!r} in place of {self.wrote!r:.200}"
        if not fits(done.said, self.said):
            return f"said {done.said[:200]!r} in place of {self.said!r:.200}"
        return None


def fits(found, wanted):
    """Tells whether the bytes are the wanted ones, or have the wanted pattern; where nothing is wanted any do."""
    return found == wanted if isinstance(wanted, bytes) else wanted is None or bool(wanted.search(found))


def helps(*names):
    """Returns a pattern of help that has a line of usage and names each of these, each behind the one before."""
    return re.compile(rb"Usage: othsolve.*" + b".*".join(rb"\b%s\b" % name.encode() for name in names), re.DOTALL)


def done(folder):
    """Yields the cases of status 0."""
    lines = f"{START}\n{CORNERS}\n{FULL_BOARD}\n".encode()
    yield Case("no input", ["solve"], wrote=b"", said=b"")
    yield Case("solve", ["solve"], lines, wrote=b"error 5 60\n+64 h8\n+64 end\n", said=b"")
    yield Case("scores", ["scores"], lines, wrote=b"error 5 60\n+64 h8\n+64 end\n", said=b"")
    words = ["scores", "--workers", "2", "--cells", "0", "--scoring", "discs"]
    yield Case("scores by discs", words, f"{EDGE}\n{EDGE[:-1]}O\n".encode(), wrote=b"-49 h1 -63 b1\n+49 pass\n", said=b"")
    yield Case("moves", ["moves"], lines, wrote=b"d3 c4 f5 e6\nh8\nend\n", said=b"")
    yield Case("transcript", ["transcript"], b"\n", wrote=f"{START}\n".encode(), said=b"")
    yield Case("play", ["play"], f"{START} f5d6c3d3c4\n{START}".encode(), wrote=f"{FIVE_MOVES}\n{START}\n".encode(), said=b"")
    wrote = b"1 58 X h1 -50 -50 h1\n1 59 O pass +50 +50 pass\n1 59 X b1 -50 -50 b1\n1 lost X 0 O 0\n2 lost X 0 O 0\n"
    yield Case("analyse", ["analyse"], f"{EDGE} h1b1\nf5d6\n".encode(), wrote=wrote, said=b"")
    yield Case("a last line without byte 10", ["solve"], FULL_BOARD.encode(), wrote=b"+64 end\n", said=b"")
    for words in (["--help"], ["-h"], ["help"]):
        yield Case(f"help by {words[0]}", words, wrote=helps(*COMMANDS), said=b"")
    for word in ("--version", "-V"):
        yield Case(f"version by {word}", [word], wrote=VERSION_LINE, said=b"")
    for command in COMMANDS:
        for words in ([command, "--help"], [command, "-h"], ["help", command]):
            yield Case(f"help by {' '.join(words)}", words, wrote=helps(command), said=b"")
    yield Case("book-verify", ["book-verify", f"{folder}/empty.book"], wrote=b"book ok 0\n", said=b"")
    yield Case("book-add of no lines", ["book-add", f"{folder}/empty.book"], wrote=EMPTY_BOOK, said=b"")
    yield Case(
        "book-add passes a faulty line over", ["book-add", f"{folder}/empty.book"], b"X\n", wrote=EMPTY_BOOK, said=b"line 1: error 1\n"
    )


def files_of_lines(folder):
    """Yields the cases of files that are named: they are read one after the other, and no line has bytes of two."""
    board = f"{FULL_BOARD}\n".encode()
    texts = {"one": board, "two": f"{CORNERS}\n{TWO_CORNERS}\n".encode(), "cut": CORNERS.encode(), "empty": b"", "line": b"\n", "half": b"XX"}
    path = {name: file_of(folder, f"{name}.txt", text) for name, text in texts.items()}
    answers = {"one": b"+64 end\n", "two": b"+64 h8\n+64 a1 h1\n", "cut": b"+64 h8\n", "empty": b"", "line": b"error 1\n", "half": b"error 1\n"}
    for names in (
        ["one"],
        ["one", "two"],
        ["two", "one", "two"],
        ["cut", "one"],
        ["one", "cut"],
        ["cut", "empty", "cut"],
        ["empty", "empty"],
        ["empty", "cut", "empty", "empty", "one"],
        ["half", "half", "line", "half"],
        ["cut"] * 30,
    ):
        words = [path[name] for name in names]
        wrote = b"".join(answers[name] for name in names)
        for workers in ("1", "4"):
            given = ["solve", "--workers", workers, *words]
            yield Case(f"files, {workers} workers: {' '.join(names)}"[:100], given, b"never read\n", wrote=wrote, said=b"")
    both = ["solve", path["cut"], "-", path["one"]]
    yield Case("standard input between two files", both, CORNERS.encode(), wrote=b"+64 h8\n+64 h8\n+64 end\n", said=b"")
    yield Case("standard input named twice", ["solve", "-", "-"], board, wrote=b"+64 end\n", said=b"")
    yield Case("standard input named alone", ["solve", "-"], CORNERS.encode(), wrote=b"+64 h8\n", said=b"")
    os.link(path["cut"], f"{folder}/-odd.txt")
    for words in (["solve", "--", "-odd.txt"], ["solve", "./-odd.txt"], ["solve", "--workers=2", "--", "-odd.txt"]):
        yield Case(f"a name that begins with -: {' '.join(words)}", words, wrote=b"+64 h8\n", said=b"", cwd=folder)
    edge = file_of(folder, "edge.txt", EDGE.encode())
    mixed = ["solve", path["one"], "--workers", "2", edge, "--scoring=discs", path["cut"]]
    yield Case("options between files", mixed, wrote=b"+64 end\n-49 h1\n+64 h8\n", said=b"")
    games = file_of(folder, "games.txt", f"{START} f5d6c3d3c4".encode())
    yield Case("scores of files", ["scores", path["two"], path["cut"]], wrote=b"+64 h8\n+64 a1 +64 h1\n+64 h8\n", said=b"")
    yield Case("moves of files", ["moves", path["cut"], path["cut"]], wrote=b"h8\nh8\n", said=b"")
    yield Case("transcript of files", ["transcript", path["line"], "-"], b"f5d6c3d3c4", wrote=f"{START}\n{FIVE_MOVES}\n".encode(), said=b"")
    yield Case("play of files", ["play", games, games], wrote=f"{FIVE_MOVES}\n{FIVE_MOVES}\n".encode(), said=b"")
    large = file_of(folder, "large.txt", board * 5000 + CORNERS.encode())
    wrote = (b"+64 end\n" * 5000 + b"+64 h8\n") * 2
    yield Case("two files larger than what is read at once", ["solve", "--workers", "2", large, large], wrote=wrote, said=b"")
    yield Case("a pipe as a file", ["solve", path["cut"], "/dev/stdin"], CORNERS.encode(), wrote=b"+64 h8\n+64 h8\n", said=b"")


def explained(folder):
    """Yields the cases of `--explain`: standard output as without it, each faulty line in words, and what ended the work."""
    lines = f"{START}\n{CORNERS}\nX\n{'?' * 66}\n".encode()
    wrote = b"error 5 60\n+64 h8\nerror 1\nerror 2 at 1\n"
    told = b"line 3: a board line has 66 bytes\nline 4: byte 1 is none of 'X', 'O' and '-'\n"
    said = b"line 1: the board has 60 empty squares, and at most 30 are solved\n" + told
    for words in (["solve"], ["solve", "--workers", "4"], ["scores"]):
        yield Case(f"faults in words: {' '.join(words)}", [*words, "--explain"], lines, wrote=wrote, said=said)
    yield Case("faults in words: moves", ["moves", "--explain"], lines, wrote=b"d3 c4 f5 e6\nh8\nerror 1\nerror 2 at 1\n", said=told)
    said = b"line 2: a transcript has an even number of bytes\nline 3: move 2 is illegal\n"
    wrote = f"{FIVE_MOVES}\nerror 1\nerror 3 at 2\n".encode()
    yield Case("faults in words: transcript", ["transcript", "--explain"], b"f5d6c3d3c4\nf5d\nf5f5\n", wrote=wrote, said=said)
    wrote = b"error 3\nerror 23 at 2\n"
    said = b"line 1: byte 65 is not a space\nline 2: move 2 is illegal\n"
    given = f"{START[:64]}_X\n{START} f5f5\n".encode()
    yield Case("faults in words: play", ["play", "--explain"], given, wrote=wrote, said=said)
    wrote = b"1 error 3 at 2\n1 lost X 0 O 0\n2 error 2 at 1\n2 lost X 0 O 0\n"
    said = b"line 1: move 2 is illegal\nline 2: pair 1 is no square\n"
    yield Case("faults in words: analyse", ["analyse", "--explain"], b"f5f5\n..\n", wrote=wrote, said=said)
    half = file_of(folder, "explained.txt", b"XX")
    said = b"line 1: a board line has 66 bytes\nline 2: a board line has 66 bytes\n"
    yield Case("faults in words: two files", ["solve", half, half, "--explain"], wrote=b"error 1\nerror 1\n", said=said)
    yield Case("faults in words: none", ["solve", "--explain"], CORNERS.encode(), wrote=b"+64 h8\n", said=b"")
    good = file_of(folder, "good.txt", CORNERS.encode())
    for words in ([UNREADABLE, good], [good, UNREADABLE, good], [good, good, UNREADABLE]):
        wrote = b"+64 h8\n" * words.index(UNREADABLE)
        said = f"run error 1\n{UNREADABLE}: Input/output error (os error 5)\n".encode()
        name = f"--explain names the file that can't be read: number {words.index(UNREADABLE) + 1} of {len(words)}"
        yield Case(name, ["solve", "--explain", *words], status=1, wrote=wrote, said=said)
    said = b"run error 4\nthe cells must be 0 or a power of two up to 262144\n"
    yield Case("--explain of refused cells", ["solve", "--explain", "--cells", "3"], status=2, wrote=b"", said=said)
    said = b"run error 1\nnowhere: no such file\n"
    yield Case("--explain of a missing book", ["solve", "--explain", "--book", "nowhere"], status=1, wrote=b"", said=said, cwd=folder)
    yield Case("--explain of a missing file", ["solve", "--explain", "nowhere"], status=1, wrote=b"", said=said, cwd=folder)


def strict():
    """Yields the cases of `--strict`: status 4 where a line has a fault, wherever it stands; else and of all other faults as without it."""
    good, odd = CORNERS.encode(), b"X"
    for words in (["solve"], ["solve", "--workers", "4"], ["scores"]):
        name, given = " ".join(words), [*words, "--strict"]
        for lines, wrote in (([odd], b"error 1\n"), ([good, odd], b"+64 h8\nerror 1\n"), ([odd, good], b"error 1\n+64 h8\n")):
            for end in (b"", b"\n"):
                said = f"strict, {name}, {len(lines)} lines, last {lines[-1][:1]}{end}"
                yield Case(said, given, b"\n".join(lines) + end, status=4, wrote=wrote, said=b"")
        yield Case(f"strict, {name}, no fault", given, good, wrote=b"+64 h8\n", said=b"")
        yield Case(f"strict, {name}, no line", given, b"", wrote=b"", said=b"")
        yield Case(f"strict, {name}, too many empty squares", given, START.encode(), status=4, wrote=b"error 5 60\n", said=b"")
    yield Case("strict, moves of the start", ["moves", "--strict"], START.encode(), wrote=b"d3 c4 f5 e6\n", said=b"")
    yield Case("strict, moves", ["moves", "--strict"], b"\n" + good, status=4, wrote=b"error 1\nh8\n", said=b"")
    yield Case("strict, transcript", ["transcript", "--strict"], b"\nf5f5\n", status=4, wrote=f"{START}\nerror 3 at 2\n".encode(), said=b"")
    yield Case("strict, transcripts", ["transcript", "--strict"], b"\nf5d6c3d3c4", wrote=f"{START}\n{FIVE_MOVES}\n".encode(), said=b"")
    yield Case("strict, play", ["play", "--strict"], f"{START} f5f\n".encode(), status=4, wrote=b"error 21\n", said=b"")
    yield Case("strict, play of a board", ["play", "--strict"], START.encode(), wrote=f"{START}\n".encode(), said=b"")
    for last in (b"f5f5", b"-", b"f5d", f"{START} f5f5".encode()):
        yield Case(f"strict, analyse {last[:4]}", ["analyse", "--strict"], b"f5\n" + last, status=4, said=b"")
    yield Case("strict, analyse without a fault", ["analyse", "--strict"], b"f5", wrote=b"1 lost X 0 O 0\n", said=b"")
    many = (good + b"\n") * 20_000
    yield Case("strict, a fault before 20,000 lines", ["solve", "--strict"], odd + b"\n" + many, status=4, wrote=b"error 1\n" + b"+64 h8\n" * 20_000, said=b"")
    said = b"line 1: a board line has 66 bytes\n"
    yield Case("strict, and in words", ["solve", "--strict", "--explain"], odd, status=4, wrote=b"error 1\n", said=said)
    yield Case("strict, refused cells", ["solve", "--strict", "--cells", "3"], odd, status=2, wrote=b"", said=b"run error 4\n")
    yield Case("strict, a missing book", ["solve", "--strict", "--book", "nowhere"], odd, status=1, wrote=b"", said=b"run error 1\n")
    yield Case("strict, a directory to read", ["solve", "--strict"], status=1, said=b"run error 1\n", stdin=os.open("/", os.O_RDONLY))


def lines_of_every_kind():
    """Yields lines of every kind: faulty ones have their fault in their place, whatever their bytes and their length."""
    good = FULL_BOARD.encode()
    yield Case("a carriage return", ["solve"], good + b"\r\n" + good + b"\n", wrote=b"error 1\n+64 end\n")
    yield Case("a NUL byte", ["solve"], b"\0" + good[1:] + b"\n" + good + b"\n", wrote=b"error 2 at 1\n+64 end\n")
    yield Case("every byte", ["solve"], bytes(at for at in range(256) if at != 10) + b"\n" + good, wrote=b"error 1\n+64 end\n")
    yield Case("empty lines", ["moves"], b"\n\n" + good + b"\n\n", wrote=b"error 1\nerror 1\nend\nerror 1\n")
    long_line = b"X" * (10 * MEGABYTE) + b"\n" + good + b"\n"
    for command in ("solve", "scores", "moves"):
        wrote = b"error 1\n" + (b"end\n" if command == "moves" else b"+64 end\n")
        yield Case(f"a line of 10 MB in {LITTLE} MB of memory, {command}", [command], long_line, wrote=wrote, preexec_fn=little_memory)
    endless = START.encode() + b" " + b"f5" * (5 * MEGABYTE) + b"\n" + good + b" \n"
    wrote = b"error 23 at 2\n" + good + b"\n"
    yield Case(f"a line of 10 MB in {LITTLE} MB of memory, play", ["play"], endless, wrote=wrote, preexec_fn=little_memory)
    faulty = b"".join([START.encode() + end + b"\n" for end in (b"f5", b"\r", b" f5\r", b" \0a", b" f5f5", b"  f5")])
    wrote = b"error 1\nerror 1\nerror 21\nerror 22 at 1\nerror 23 at 2\nerror 21\n"
    yield Case("faulty lines, play", ["play"], faulty + b"?" * 66 + b" f\n" + good + b" a1", wrote=wrote + b"error 2 at 1\nerror 24 at 1\n")
    many = b"\n" * 100_000
    yield Case("100,000 lines", ["transcript"], many, wrote=f"{START}\n".encode() * 100_000)


def little_memory():
    resource.setrlimit(resource.RLIMIT_AS, (LITTLE * MEGABYTE, LITTLE * MEGABYTE))


def command_line(folder):
    """Yields the cases of status 2, with the devices as they were."""
    book = f"{folder}/empty.book"
    for words in (
        [],
        ["solve", "--workers", "0"],
        ["solve", "--workers", "17"],
        ["solve", "--workers", "two"],
        ["solve", "--cells", "262145"],
        ["solve", "--cells", "-1"],
        ["solve", "--scoring", "best"],
        ["solve", "--book"],
        ["solve", "-x"],
        ["scores", "--workers", "17"],
        ["scores", "--book", book],
        ["moves", "--workers", "1"],
        ["solve", "--version"],
        ["nothing"],
        ["moves", "--scoring", "discs", "boards.txt"],
        ["book-verify"],
        ["book-verify", book, book],
        ["book-add"],
        ["book-add", "--scoring", "discs", book],
    ):
        name = " ".join(words).replace(book, "FILE")
        yield Case(f"refused words: {name}".rstrip(), words, status=2, wrote=b"", said=FAULTY_WORDS)
    said = b"error: a word of the command line isn't UTF-8, and such files can't be used\n"
    unreadable = os.fsencode(folder) + b"/\xff.book"
    os.link(book, unreadable)
    for words in (["book-verify"], ["book-add"], ["solve", "--book"], ["moves"]):
        name = f"refused words: {' '.join(words)}: a name that isn't UTF-8"
        yield Case(name, [*words, unreadable], status=2, wrote=b"", said=said)
    for words in (
        ["solve", "--cells", "3"],
        ["solve", "--cells", "3", "--book", "nowhere"],
        ["solve", "--cells", "3", "nowhere"],
        ["book-add", "--cells", "3", "nowhere"],
    ):
        yield Case(f"refused cells: {' '.join(words)}", words, status=2, wrote=b"", said=b"run error 4\n")


def devices(folder):
    """Yields the cases of status 1: files and devices that fail."""
    read, write = b"run error 1\n", b"run error 2\n"
    line = f"{FULL_BOARD}\n".encode()
    for words in (["book-verify"], ["book-add"], ["solve", "--book"]):
        name = " ".join(words)
        yield Case(f"{name}: no such file", [*words, f"{folder}/nowhere"], status=1, wrote=b"", said=read)
        yield Case(f"{name}: a directory", [*words, folder], status=1, wrote=b"", said=read)
    unopened = {
        "nowhere": f"{folder}/nowhere: no such file",
        ".": f"{folder}/.: is a directory",
        "empty.book/lines": f"{folder}/empty.book/lines: Not a directory (os error 20)",
        "a\x1b[2Jb": f"{folder}/a?[2Jb: no such file",
    }
    good = file_of(folder, "good.txt", line)
    for name, told in unopened.items():
        said = read + f"{told}\n".encode()
        for command in ("solve", "scores", "moves", "transcript", "play"):
            yield Case(f"{command}: {told}".replace(folder, "FOLDER"), [command, f"{folder}/{name}"], line, status=1, wrote=b"", said=said)
        words = ["solve", good, f"{folder}/{name}", "-"]
        yield Case(f"behind a file: {told}".replace(folder, "FOLDER"), words, line, status=1, wrote=b"", said=said)
    yield Case("standard input is a directory", ["solve"], status=1, wrote=b"", said=read, stdin=os.open(folder, os.O_RDONLY))
    for words in (
        ["solve"],
        ["scores"],
        ["moves"],
        ["book-verify", f"{folder}/empty.book"],
        ["book-add", f"{folder}/empty.book"],
        ["--help"],
        ["--version"],
    ):
        said = b"" if words[0].startswith("--") else write
        yield Case(f"{words[0]}: a full device", words, line, status=1, said=said, stdout=os.open("/dev/full", os.O_WRONLY))
        yield Case(f"{words[0]}: a broken pipe", words, line, status=1, said=said, stdout=broken_pipe())
        yield Case(f"{words[0]}: no standard output", words, line, status=1, said=said, preexec_fn=close_output)
    yield Case("solve: standard error is full", ["solve", "--cells", "3"], status=2, wrote=b"", stderr=os.open("/dev/full", os.O_WRONLY))


def close_output():
    os.close(1)


def broken_pipe():
    """Returns the end for writing of a pipe that nobody reads."""
    reading, writing = os.pipe()
    os.close(reading)
    return writing


def entry(cells, lower, upper, best):
    """Returns a book by winner of one entry."""
    return f"OBOOK2 W\n{cells} {lower} {upper} {best:016x}\nEND 000001\n"


def books(folder):
    """Yields the cases of status 3: FILE is no book, or no true one."""
    texts = {
        "no bytes": ("", "book error 5"),
        "no header": ("no book\n", "book error 1"),
        "no entry": ("OBOOK2 W\nx\n", "book error 2 at 1"),
        "a wrong count": ("OBOOK2 W\nEND 000001\n", "book error 4"),
        "cut short": ("OBOOK2 W\nEND 00", "book error 5"),
        "bytes behind the end": (f"{EMPTY_BOOK.decode()}\n", "book error 6"),
        "wrong bounds": (entry("X" * 64, "-64", "+62", 0), "book wrong 1 at 1"),
        "wrong best moves": (entry("X" * 64, "+64", "+64", 1), "book wrong 2 at 1"),
        "too many empty squares": (entry("-" * 64, "-64", "+64", 0), "book wrong 3 at 1"),
    }
    for name, (text, said) in texts.items():
        file_of(folder, name, text.encode())
        for words in (["book-verify"], ["book-add"], ["solve", "--book"]):
            given = [*words, f"{folder}/{name}"]
            yield Case(f"{' '.join(words)}: {name}", given, status=3, wrote=b"", said=f"{said}\n".encode())
            in_words = re.compile(rf"{said}\n[^\n]*{re.escape(f'{folder}/{name}')}: [^\n]+\n\Z".encode())
            yield Case(f"{' '.join(words)} --explain: {name}", [words[0], "--explain", *given[1:]], status=3, wrote=b"", said=in_words)
    for command in ("book-verify", "book-add"):
        said = b"run error 1\nnowhere: no such file\n"
        yield Case(f"{command} --explain: no file", [command, "--explain", "nowhere"], status=1, wrote=b"", said=said, cwd=folder)
    wrote = b"line 1: error 1\n"
    yield Case("book-add --explain: a faulty line", ["book-add", "--explain", f"{folder}/empty.book"], b"X\n", wrote=EMPTY_BOOK, said=wrote)


def is_answered_at_once(program, words, lines):
    """Tells what is wrong with lines that come one by one, if anything: the answer to each is wanted while the input is still open."""
    with subprocess.Popen([program, *words], stdin=subprocess.PIPE, stdout=subprocess.PIPE, bufsize=0) as started:
        try:
            for line, wanted in lines:
                started.stdin.write(f"{line}\n".encode())
                ready, _, _ = select.select([started.stdout], [], [], AT_ONCE)
                wrote = os.read(started.stdout.fileno(), 100) if ready else b""
                if wrote != f"{wanted}\n".encode():
                    return f"wrote {wrote!r} while the input was open behind {line!r}"
            started.stdin.close()
            status = started.wait(AT_ONCE)
        except (OSError, subprocess.TimeoutExpired) as error:
            return f"{error}"
        finally:
            started.kill()
    return None if status == 0 else f"status {status}"


def lines_one_by_one(program):
    """Yields a step for each command that answers lines."""
    boards = [(FULL_BOARD, "+64 end"), (TWO_CORNERS, "+64 a1 h1"), ("X", "error 1"), (FULL_BOARD, "+64 end")]
    scores = [(FULL_BOARD, "+64 end"), (TWO_CORNERS, "+64 a1 +64 h1"), ("X", "error 1"), (EDGE, "-50 h1 -64 b1")]
    moves = [(START, "d3 c4 f5 e6"), ("X", "error 1"), (FULL_BOARD, "end")]
    games = [("", START), ("f5d", "error 1"), ("", START)]
    played = [(f"{START} f5d6c3d3c4", FIVE_MOVES), (f"{START} f5d", "error 21"), (START, START)]
    for words, lines in (
        (["solve"], boards),
        (["solve", "--workers", "4"], boards),
        (["solve", "--workers", "16", "--cells", "0"], boards),
        (["scores"], scores),
        (["scores", "--workers", "4"], scores),
        (["moves"], moves),
        (["transcript"], games),
        (["play"], played),
    ):
        yield f"a line that comes alone is answered at once: {' '.join(words)}", is_answered_at_once(program, words, lines)


def steps(program, in_little_memory=True):
    """Yields a step for each run, also in little memory unless these are left out: its name, and what is wrong with it, if anything."""
    with tempfile.TemporaryDirectory() as folder:
        file_of(folder, "empty.book", EMPTY_BOOK)
        of_lines = (files_of_lines(folder), lines_of_every_kind(), explained(folder), strict())
        for cases in (done(folder), *of_lines, command_line(folder), devices(folder), books(folder)):
            for case in cases:
                if not in_little_memory and case.how.get("preexec_fn") is little_memory:
                    continue
                yield f"status {case.status}: {case.name}", case.wrong(program)
    yield from lines_one_by_one(program)
