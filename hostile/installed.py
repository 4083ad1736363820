"""Installs what is built into an empty folder, builds programs there as a stranger would, and takes it away again.

It needs `cc`, `ar`, `nm`, `readelf` and bash. Where pkg-config isn't installed, what it would say is read from `othsolve.pc` by hand; where
man or zsh isn't, the files are compared and no program is asked.
"""
import os
import re
import shlex
import shutil
import sys
import tempfile
import textwrap

import c_library
import minimax
from running import TOP, VERSION, ran, text_of, version_line

INSTALL = f"{TOP}/install"
PYTHON = f"{TOP}/examples/python"
SONAME = f"libothsolve.so.{VERSION.split('.')[0]}"
THREADS_SEED, THREADS_BOARDS, THREADS_EMPTIES = 20261125, 200, 6
ANALYSED_EMPTIES = 7
FILES_OF_PROGRAM = """bin/othsolve
share/bash-completion/completions/othsolve
share/man/man1/othsolve.1
share/othsolve/installed
share/zsh/site-functions/_othsolve
""".split()
FILES_OF_LIBRARY = f"""include/othsolve.h
lib/libothsolve.a
lib/libothsolve.so
lib/{SONAME}
lib/libothsolve.so.{VERSION}
lib/pkgconfig/othsolve.pc
""".split()
FILES = sorted([*FILES_OF_PROGRAM, *FILES_OF_LIBRARY])
# A C program that knows the header alone. Its answers are worked ones.
FRESH = r"""
#include <othsolve.h>
#include <stdio.h>
#include <string.h>

int main(void) {
    const char *line = "--OXOOO-OOOOOOOOOOOOOOOOOOOOOOOOOOOOOOOOOOOOOOOOOOOOOOOOOOOOOOOO X";
    const uint8_t moves[] = {37, 43, 18, 19, 26}; /* f5 d6 c3 d3 c4 */
    oth_position position;
    oth_answer answer;
    uint8_t place, text[OTH_BOARD_LINE], version[OTH_VERSION_LINE];
    size_t written;
    printf("othsolve %s\n", OTHSOLVE_VERSION);
    if (oth_version(version, sizeof version, &written) != OTH_DONE) return 6;
    printf("%d\n", memcmp(version, OTHSOLVE_VERSION " ", sizeof OTHSOLVE_VERSION));
    if (oth_read_board((const uint8_t *)line, OTH_BOARD_LINE, &position, &place) != OTH_DONE) return 1;
    if (oth_solve_alone(position.board, OTH_SCORING_WINNER, 64, &answer) != OTH_DONE) return 2;
    printf("%d %d %d\n", answer.score, (int)answer.best, answer.kind);
    if (oth_read_transcript((const uint8_t *)"", 0, &position, &place) != OTH_DONE) return 3;
    for (unsigned at = 0; at < sizeof moves; at++) {
        if (oth_play(position.board, moves[at], &position.board) != OTH_DONE) return 4;
        position.mover = (uint8_t)!position.mover;
    }
    if (oth_print_board(position, text, sizeof text) != OTH_DONE) return 5;
    printf("%.66s\n", (const char *)text);
    return 0;
}
"""
FRESH_WRITES = f"""othsolve {VERSION}
0
-50 {1 << 7} 0
------------------XO------XXX------OXX-----O-------------------- O
"""
# The end of the first of the example's games, as an independent solver's scores and best moves tell it.
ANALYSED = """game 1
12 X c8 -34, lost 6: -28 h4
11 O h7 +10, lost 24: +34 h4 g8
10 X h4 -10
 9 O a5 -12, lost 22: +10 d3
 8 X d3 +12
 7 X c7 +4, lost 8: +12 a8
 6 O b6 -4
 5 X a8 +0, lost 4: +4 a7
 4 O a7 +0
 3 X g8 -6, lost 6: +0 a6
 2 O b8 +6
 1 X a6 -6
X lost 24, O lost 46
"""
# Reads boards and writes their answers by the example's module, in as many threads as the first word says.
SOLVES = """
import sys
from othsolve import Board, Scoring, solve_all
boards = [Board.of_line(line) for line in sys.stdin]
for answer in solve_all(boards, int(sys.argv[1]), Scoring[sys.argv[2].upper()], cells=64):
    print(answer)
"""
SHARES = """
import sys
from concurrent.futures import ThreadPoolExecutor
from othsolve import Board, Scoring, Table
boards = [Board.of_line(line) for line in sys.stdin]
with Table(64, Scoring[sys.argv[1].upper()]) as table, ThreadPoolExecutor(4) as pool:
    for answer in pool.map(table.solve, boards):
        print(answer)
"""
# Each line an expression, and what it comes to or is refused with.
PYTHON_ROWS = """
Board.start().moves() | ('d3', 'c4', 'f5', 'e6')
Board.start().moves_line() | 'd3 c4 f5 e6'
Board.of_transcript("f5d6c3d3c4").line() | '------------------XO------XXX------OXX-----O-------------------- O'
Board.start().play("f5").play("d6").play("c3").play("d3").play("c4") == Board.of_transcript("f5d6c3d3c4") | True
Board.start().flips("f5") | ('e5',)
Board.start().flips("a1") | ()
Board.start().empties | 60
Board.of_line(A).solve() | Answer(score=-50, best=('h1',), kind=<Kind.MOVE: 0>)
Board.of_line(A).solve(Scoring.DISCS, cells=0) | Answer(score=-49, best=('h1',), kind=<Kind.MOVE: 0>)
str(Board.of_line(PASSES).solve()) | '+50 pass'
Board.of_line(PASSES).pass_turn() == Board.of_line(A) | True
Board.of_line(A).scores() | {'b1': -64, 'h1': -50}
Board.of_line(A).scores(Scoring.DISCS, cells=0) | {'b1': -63, 'h1': -49}
Board.of_line(PASSES).scores() | {}
Board.start().scores() | Refused: more than 30 squares are empty
Table(64, Scoring.DISCS).scores(Board.of_line(A)) | {'b1': -63, 'h1': -49}
Board.of_line(A).scores(cells=3) | Refused: the cells are neither 0 nor one of 1, 2, 4 .. 262144
Board.start().play_game("f5d6c3d3c4") == Board.of_transcript("f5d6c3d3c4") | True
Board.of_transcript("f5d6").play_game("c3d3c4") == Board.of_transcript("f5d6c3d3c4") | True
Board.of_line(PASSES).play_game("") == Board.of_line(A) | True
Board.of_line(A).play_game("a1") | Refused: the move of pair 1 is illegal
Board.of_line(A).play_game("b") | Refused: the number of bytes is odd
Board.of_line(A).kind() | <Kind.MOVE: 0>
Board.of_line(PASSES).kind() | <Kind.PASS: 1>
Board.of_line("X" * 64 + " O").kind() | <Kind.END: 2>
Board.of_line(A).pass_turn() | ValueError: the side to move has a move
Board.of_line("X" * 64 + " O").pass_turn() | ValueError: the game is over
Board.start().solve() | Refused: more than 30 squares are empty
Table(64).solve_within(Board.of_line(A), 1 << 40) | Answer(score=-50, best=('h1',), kind=<Kind.MOVE: 0>)
(lambda known: (known.lower <= -50 <= known.upper, known.first in known.moves, known.moves.keys()))(Table(64).solve_within(Board.of_line(A), 0)) | (True, True, dict_keys(['b1', 'h1']))
Table(64).solve_within(Board.of_line(PASSES), 0).first | None
[Table(64).is_at_least(Board.of_line(A), score) for score in (-1000, -64, -50, -49, 64, 1000)] | [True, True, True, False, False, False]
Table(64, Scoring.DISCS).is_at_least(Board.of_line(A), -49) | True
Table(64).is_at_least(Board.start(), 0) | Refused: more than 30 squares are empty
Board.of_line(A).solve(cells=3) | Refused: the cells are neither 0 nor one of 1, 2, 4 .. 262144
Board.of_line(A).solve(cells=-1) | Refused: the cells are neither 0 nor one of 1, 2, 4 .. 262144
Table(64).solve_within(Board.of_line(A), -1) | ValueError: `most` is -1, and 0 to 2**64 - 1 can be asked for
Table(64).solve_within(Board.of_line(A), 1 << 64) | ValueError: `most` is 18446744073709551616, and 0 to 2**64 - 1 can be asked for
Board.of_line(None) | TypeError: a line is a str, not NoneType
Board.start().play_game(b"f5") | TypeError: a line is a str, not bytes
list(solve_all([Board.of_line(A)], 0)) | ValueError: `threads` is 0, and has to be 1 or more
str(again(refusal("f5d6a1"))) | 'the move of pair 3 is illegal'
again(refusal("f5d6a1")).code, again(refusal("f5d6a1")).place | (23, 3)
Board.of_line(A).solve(cells=1 << 32) | Refused: the cells are neither 0 nor one of 1, 2, 4 .. 262144
Board.of_line(A).solve(2) | ValueError: 2 is not a valid Scoring
Board.start().play("a1") | Refused: the move is illegal
Board.start().play("i1") | ValueError: 'i1' is no square: it is a letter from a to h and a digit from 1 to 8
Board(1, 1) | Refused: a square has discs of both sides
Board(1 << 64, 0) | ValueError: discs are a word of 64 bits
Board.of_line("x" + A[1:]) | Refused: byte 1 is none of 'X', 'O' and '-'; it is the leftmost such byte
Board.of_line(A[1:]) | Refused: a board line has 66 bytes
Board.of_line(A[:64] + "-X") | Refused: byte 65 is no space
Board.of_line(A[:65] + "x") | Refused: byte 66 is neither 'X' nor 'O'
Board.of_transcript("f5d") | Refused: the number of bytes is odd
Board.of_transcript("f5d6a1") | Refused: the move of pair 3 is illegal
Board.of_transcript("f5i9") | Refused: pair 2 is no letter from a to h and a digit from 1 to 8
Board.of_transcript("e6f4e3f6g5d6e7f5c5a1") | Refused: the game is over before pair 10
"""
EVALUATES = """
import pickle
import sys
from othsolve import *
A = "--OXOOO-" + "O" * 56 + " X"
PASSES = A[:65] + "O"
def again(thing):
    return pickle.loads(pickle.dumps(thing))
def refusal(moves):
    try:
        Board.of_transcript(moves)
    except Refused as refused:
        return refused
for line in sys.stdin:
    try:
        print(repr(eval(line)))
    except (TypeError, ValueError) as error:
        print(f"{type(error).__name__}: {error}")
"""
# Makes more tables than there is memory for, each dropped, closed, or closed while a seat is taken; closes one while a thread solves.
TABLES = """
import resource
import threading
import time
from othsolve import Board, Refused, Table
resource.setrlimit(resource.RLIMIT_AS, (1 << 30, 1 << 30))
for _ in range(200):
    Table(262_144)
for _ in range(200):
    with Table(262_144):
        pass
for _ in range(200):
    table = Table(262_144)
    seat = table._seats.take()
    table.close()
    table._seats.leave(seat)
board = Board.of_transcript(input())
table, answers = Table(64), []
solving = threading.Thread(target=lambda: answers.append(table.solve(board)))
solving.start()
time.sleep(0.05)
table.close()
solving.join()
table.close()
try:
    table.solve(board)
except Refused as refused:
    print(len(answers), refused)
"""
# Is interrupted in each call that searches, ends a search from another thread, and goes on.
ENDED = """
import os
import signal
import threading
from othsolve import Board, Ended, Table, solve_all
board, table = Board.of_transcript(input()), Table(4096)
def heard(call):
    threading.Timer(0.3, os.kill, (os.getpid(), signal.SIGINT)).start()
    try:
        call()
    except KeyboardInterrupt:
        return True
calls = [board.solve, board.scores, lambda: table.solve(board), lambda: table.solve_within(board, 1 << 60), lambda: table.scores(board)]
print(board.empties, [heard(call) for call in [*calls, lambda: list(solve_all([board] * 3, 2))]])
threading.Timer(0.3, table.stop).start()
try:
    table.solve(board)
except Ended as ended:
    print(-64 <= ended.bounds.lower <= ended.bounds.upper <= 64, ended.bounds.first in board.moves())
print(type(table.solve_within(board, 1 << 60)).__name__)
table.go_on()
print(table.solve(Board.of_line("X" * 64 + " O")))
"""
# What `install --program` runs.
TOOLS = "bash chmod cp dirname find install mkdir mktemp realpath rm rmdir sed sort tac".split()
# What is typed, and what completion offers.
COMPLETES = {
    "othsolve b": "book-add book-verify",
    "othsolve help m": "moves",
    "othsolve p": "play",
    "othsolve s": "scores solve",
    "othsolve solve --scoring ": "discs winner",
    "othsolve solve --scoring = d": "discs",
    "othsolve scores --sc": "--scoring",
    "othsolve solve --workers 1": "1 10 11 12 13 14 15 16",
    "othsolve solve --cells 13": "131072",
    "othsolve solve --book on": "one.book",
    "othsolve solve --workers 2 --b": "--book",
    "othsolve book-verify o": "one.book other",
    "othsolve book-verify one.book ": "--explain",
    "othsolve book-add --cells 64 on": "one.book",
    "othsolve book-add --cells=64 on": "one.book",
    "othsolve moves ": "one.book other",
    "othsolve moves --": "--explain --help --strict",
    "othsolve moves --strict on": "one.book",
    "othsolve moves --explain on": "one.book",
    "othsolve play one.book o": "one.book other",
    "othsolve solve --workers 2 on": "one.book",
    "othsolve solve < on": "one.book",
}
COMPLETION = """
. "$1"
shift
COMP_WORDS=("$@") COMP_CWORD=$(($# - 1)) COMP_LINE="$*" COMP_POINT=${#COMP_LINE}
_othsolve
[ ${#COMPREPLY[@]} = 0 ] || printf '%s\\n' "${COMPREPLY[@]}"
"""

# Copies, and ends whoever called it after the copy of number AT. (SIGINT is ignored where a run is begun in the background.)
INTERRUPTING_CP = """#!/bin/sh
"$CP" "$@" || exit
echo >> "$COUNT"
[ "$(wc -l < "$COUNT")" -ne "$AT" ] || kill -TERM "$PPID"
"""
INTERRUPTED_AT = range(2, 40, 3)
# Copies as `cp` does, but fails once at the file AT.
FAILING_CP = """#!/bin/sh
for last; do :; done
if [ "$last" = "$AT" ] && [ ! -e "$FAILED" ]; then
    : > "$FAILED"
    exit 1
fi
exec "$CP" "$@"
"""


def steps(crates):
    """Yields a step for each thing that is asked: its name, and what is wrong, if anything."""
    with tempfile.TemporaryDirectory() as folder:
        os.mkdir(f"{folder}/work")
        yield from library(f"{folder}/work", crates)
        yield from refused(folder, crates)
        prefix = f"{folder}/prefix"
        found = ran([INSTALL, prefix, crates])
        yield "an installation into an empty folder", None if found.status == 0 else f"{found}"
        yield "what is installed", differs(files(prefix), FILES)
        if found.status != 0:
            return
        yield from program(prefix)
        yield from shared_object(prefix)
        yield from c_programs(folder, prefix)
        yield from python(folder, prefix)
        yield from bash_completion(folder, prefix)
        yield from zsh_completion(prefix)
        yield from again_and_away(folder, prefix, crates)
        yield from below_destdir(folder, crates)
        yield from program_alone(folder, crates)
        yield from without_room(folder, crates)


def library(folder, crates):
    """Makes the C library where it isn't there yet, and puts it into the folder."""
    if not os.path.isfile(f"{crates}/oth_c/out/liboth_c.a"):
        made = [f"{TOP}/examples/c/library.sh", folder, crates]
        yield "the C library is made", c_library.ran_wrong(made, patience=c_library.BUILD_PATIENCE)


def differs(found, wanted):
    return None if found == wanted else f"{found!r} in place of {wanted!r}"


def files(folder):
    """Returns all files below a folder, and links."""
    return sorted(os.path.relpath(f"{at}/{name}", folder) for at, _, names in os.walk(folder) for name in names)


def read(path):
    with open(path, encoding="utf-8") as file:
        return file.read()


def refused(folder, crates):
    """Tests that installations that can't be made leave nothing, and say why."""
    os.mkdir(f"{folder}/empty")
    os.mkdir(f"{folder}/no_crates")
    rows = [
        ("no PREFIX", [], 2, "PREFIX is missing"),
        ("an option that isn't there", ["--prefix"], 2, "there is no option --prefix"),
        ("an option behind PREFIX", ["a", "--program"], 2, "--program stands in front of PREFIX"),
        ("two options", ["--program", "--uninstall", "a"], 2, "there is no option --uninstall"),
        ("too many words", ["a", "b", "c"], 2, "too many words"),
        ("a PREFIX below a file", [f"{INSTALL}/below", crates], 1, f"{INSTALL} is no folder"),
        ("a PREFIX that can't be made", ["/proc/othsolve", crates], 1, "nothing was installed"),
        ("nothing built", [f"{folder}/empty", f"{folder}/no_crates"], 1, "nothing was installed, since this is not built yet"),
        ("nothing to take away", ["--uninstall", f"{folder}/empty"], 1, "nothing is installed"),
    ]
    for name, words, status, said in rows:
        found = ran([INSTALL, *words])
        right = found.status == status and found.wrote == b"" and said in found.said.decode() and not os.listdir(f"{folder}/empty")
        yield f"install is refused: {name}", None if right else f"{found}"
    helped = ran([INSTALL, "--help"])
    right = helped.status == 0 and helped.wrote.startswith(b"usage: ./install [--program] PREFIX")
    yield "install tells its usage", None if right else f"{helped}"
    said = ran([INSTALL, f"{folder}/empty", f"{folder}/no_crates"]).said.decode()
    for crate, command in (("othsolve", "rt run -- --version"), ("oth_c", "rt lib")):
        told = f"(cd {os.path.realpath(folder)}/no_crates/{crate} && {command})"
        yield f"install says how {crate} is built", None if told in said else said
    os.makedirs(f"{folder}/taken/bin/othsolve")
    found = ran([INSTALL, f"{folder}/taken", crates])
    right = found.status == 1 and not files(f"{folder}/taken")
    yield "install is refused where a folder stands in a file's place", None if right else f"{found}"


def program(prefix):
    """Tests the program, and its page."""
    boards = read(f"{TOP}/examples/boards.txt")
    wanted = text_of(c_library.WORKED["winner"].replace("refused: 5", "error 5 60").split("|"))
    yield "the worked boards by the installed program", c_library.ran_wrong([f"{prefix}/bin/othsolve", "solve"], boards, wanted)
    page = f"{prefix}/share/man/man1/othsolve.1"
    yield "the installed page is docs/othsolve.1", differs(read(page), read(f"{TOP}/docs/othsolve.1"))
    if shutil.which("man"):
        found = ran(["man", "-w", "othsolve"], env={**os.environ, "MANPATH": f"{prefix}/share/man"})
        yield "man finds the page", None if os.path.realpath(page) == os.path.realpath(found.wrote.decode().strip()) else f"{found}"
    wrong = c_library.ran_wrong([f"{prefix}/bin/othsolve", "--version"], "", version_line(f"{prefix}/bin/othsolve"))
    yield "the version is the header's, and the logic what the compiler wrote into the program", wrong


def shared_object(prefix):
    """Tests what the shared object is called, what is seen of it, and what it needs."""
    library = f"{prefix}/lib/libothsolve.so"
    seen = ran(["nm", "-D", "--defined-only", library]).wrote.decode().split("\n")
    declared = re.findall(r"^(?:uint32_t|void) (oth_\w+)\(", read(f"{prefix}/include/othsolve.h"), re.MULTILINE)
    yield "the shared object shows the header's calls alone", differs(sorted(line.split()[2] for line in seen if line), sorted(declared))
    yield "the shared object's name", differs(dynamic(library, "SONAME"), [SONAME])
    needed = [name for name in dynamic(library, "NEEDED") if not name.startswith("libc.so")]
    yield "the shared object needs the C library alone", differs(needed, [])


def dynamic(file, kind):
    """Returns the names of this kind that a file for the dynamic linker tells."""
    text = ran(["readelf", "-dW", file]).wrote.decode()
    return re.findall(rf"\({kind}\).*\[(.*)\]", text)


def flags_by_hand(prefix):
    """Returns the words for the C compiler and the linker, and the folder of the libraries, as `othsolve.pc` says them."""
    names, text = {}, read(f"{prefix}/lib/pkgconfig/othsolve.pc")
    for line in text.split("\n"):
        pair = re.fullmatch(r"(\w+)(=|: )(.*)", line)
        if pair:
            names[pair[1]] = re.sub(r"\$\{(\w+)\}", lambda name: names[name[1]], pair[3])
    return [*shlex.split(names["Cflags"]), *shlex.split(names["Libs"])], names["libdir"], names["Version"]


def flags(prefix):
    """Returns what `flags_by_hand` does, but by pkg-config where that is installed."""
    if not shutil.which("pkg-config"):
        return flags_by_hand(prefix)
    told = {**os.environ, "PKG_CONFIG_PATH": f"{prefix}/lib/pkgconfig"}
    asked = (["--cflags", "--libs"], ["--variable=libdir"], ["--modversion"])
    words, folder, version = (ran(["pkg-config", *ask, "othsolve"], env=told).wrote.decode().strip() for ask in asked)
    return shlex.split(words), folder, version


def c_programs(folder, prefix):
    """Tests a fresh program and the example, over the shared object and over the archive."""
    words, libraries, version = flags(prefix)
    yield "what othsolve.pc says", differs((words, libraries, version), flags_by_hand(prefix))
    yield "othsolve.pc has the header's version", differs(version, VERSION)
    here = f"{folder}/work"
    with open(f"{here}/fresh.c", "w", encoding="ascii") as file:
        file.write(FRESH)
    shutil.copy(f"{TOP}/examples/c/worked.c", here)
    archive = [word for word in words if not word.startswith(("-L", "-l"))] + [f"{libraries}/libothsolve.a"]
    given = read(f"{TOP}/examples/boards.txt")
    rows = text_of(c_library.WORKED["winner"].split("|"))
    for kind, ends, needed, around in (("shared object", words, [SONAME], {"LD_LIBRARY_PATH": libraries}), ("archive", archive, [], {})):
        for name, boards, wanted in (("fresh", "", FRESH_WRITES), ("worked", given, rows)):
            made = ["cc", *c_library.FLAGS, f"{name}.c", *ends, "-o", f"{name}_{len(needed)}"]
            yield f"{name}.c is built over the installed {kind}", c_library.ran_wrong(made, cwd=here)
            own = [each for each in dynamic(f"{here}/{made[-1]}", "NEEDED") if each.startswith("libothsolve")]
            yield f"{name}.c needs, over the {kind}, {needed or 'no library'}", differs(own, needed)
            run = c_library.ran_wrong([f"{here}/{made[-1]}"], boards, wanted, env={**os.environ, **around})
            yield f"{name}.c over the installed {kind}", run


def python(folder, prefix):
    """Tests the module for Python, over the installed shared object."""
    told = {**os.environ, "OTHSOLVE_LIBRARY": f"{prefix}/lib/{SONAME}", "PYTHONPATH": PYTHON, "PYTHONDONTWRITEBYTECODE": "1"}
    rows = [line.split(" | ") for line in PYTHON_ROWS.strip().split("\n")]
    given, wanted = (text_of(column) for column in zip(*rows, strict=True))
    yield f"{len(rows)} expressions in Python", c_library.ran_wrong([sys.executable, "-c", EVALUATES], given, wanted, env=told)
    yield "each refusal says in Python what the header says", refusals_differ(told)
    yield from python_shown(told)
    words = [sys.executable, "-c", "import othsolve; print(othsolve.__version__); print('othsolve', othsolve.LIBRARY_VERSION)"]
    wanted = f"{VERSION}\n{version_line(told['OTHSOLVE_LIBRARY'])}"
    yield "the module's version, and the library's", c_library.ran_wrong(words, "", wanted, env=told)
    boards = list(minimax.boards(THREADS_SEED, THREADS_BOARDS, THREADS_EMPTIES))
    lines = text_of(minimax.board_line(*board) for board in boards)
    reports = list(zip(*(minimax.reports(*board) for board in boards), strict=True))
    for scoring, answers in zip(("winner", "discs"), reports, strict=True):
        for threads in ("1", "4"):
            name = f"{len(boards)} boards in Python by {threads} threads as a small solver answers them: {scoring}"
            words = [sys.executable, "-c", SOLVES, threads, scoring]
            yield name, c_library.ran_wrong(words, lines, text_of(answers), env=told)
        words = [sys.executable, "-c", SHARES, scoring]
        yield f"the same by 4 threads over one table: {scoring}", c_library.ran_wrong(words, lines, text_of(answers), env=told)
    games = read(f"{TOP}/examples/games.txt")
    analyse = [sys.executable, f"{PYTHON}/analyse.py"]
    yield "a game analysed from 12 empty squares on", c_library.ran_wrong(analyse, games.splitlines(True)[0], ANALYSED, env=told)
    wanted = "".join(analysed(number, game) for number, game in enumerate(games.split(), 1))
    words = [*analyse, "--empties", str(ANALYSED_EMPTIES), "--threads", "4"]
    yield f"all games analysed from {ANALYSED_EMPTIES} on, as by a small solver", c_library.ran_wrong(words, games, wanted, env=told)
    faulty = ran(analyse, b"f5d6a1\n", env=told)
    right = (faulty.status, faulty.wrote) == (1, b"game 1\nrefused: the move of pair 3 is illegal\n")
    yield "a game with a fault is refused", None if right else f"{faulty}"
    yield from python_games(analyse, games.splitlines(True)[0], told)
    yield "tables are freed, also one that is closed while it is used", c_library.ran_wrong(
        [sys.executable, "-c", TABLES], games[:88] + "\n", "1 there is no seat\n", env=told)
    wanted = f"30 {[True] * 6}\nTrue True\nBounds\n-64 end\n"
    yield "each search of Python is ended by Ctrl-C, and by another thread", c_library.ran_wrong(
        [sys.executable, "-c", ENDED], games[:60] + "\n", wanted, env=told)
    words = ["timeout", "--preserve-status", "--signal", "INT", "--kill-after", "60", "2", *analyse, "--empties", "28"]
    found = ran(words, games.splitlines(True)[0].encode(), env=told)
    yield "an analysis is ended by Ctrl-C", None if found.status == 130 else f"{found}"
    yield from python_package(folder, told)
    unfound = ran(analyse, b"", env={**told, "OTHSOLVE_LIBRARY": f"{prefix}/nowhere.so"})
    right = unfound.status == 1 and f"{prefix}/nowhere.so".encode() in unfound.said.splitlines()[-1]
    yield "a library that isn't there is named", None if right else f"{unfound}"
    found = {**told, "LD_LIBRARY_PATH": f"{prefix}/lib"}
    for name, around in (("empty", found | {"OTHSOLVE_LIBRARY": ""}), ("unset", {key: found[key] for key in found.keys() - {"OTHSOLVE_LIBRARY"}})):
        faulty = ran(analyse, b"f5d6a1\n", env=around)
        right = (faulty.status, faulty.wrote) == (1, b"game 1\nrefused: the move of pair 3 is illegal\n")
        yield f"the library that the system finds, where OTHSOLVE_LIBRARY is {name}", None if right else f"{faulty}"


def python_games(analyse, game, told):
    """Tests games as people write them, one with a fault near its end, and a reader who leaves."""
    lines = ANALYSED.splitlines(True)
    spaced = " ".join(game[at : at + 2].upper() for at in range(0, len(game) - 1, 2)) + "\r\n"
    yield "a game in capitals, with spaces and a carriage return", c_library.ran_wrong(analyse, spaced, ANALYSED, env=told)
    faulty = ran(analyse, game[:-3].encode() + b"a1\n", env=told)
    wanted = "".join(lines[:-2]) + f"refused: the move of pair {len(game) // 2} is illegal\n"
    right = (faulty.status, faulty.wrote.decode()) == (1, wanted)
    yield "the moves before a fault are analysed", None if right else f"{faulty}"
    left = ran(["bash", "-c", '"$@" | head -n 1', "bash", *analyse], game.encode() * 20, env=told)
    yield "a reader who leaves is no fault", None if (left.wrote, left.said) == (b"game 1\n", b"") else f"{left}"
    none = ran([*analyse, "--threads", "0"], game.encode(), env=told)
    yield "no threads are refused in words", None if none.status == 2 and b"0 is less than 1" in none.said else f"{none}"


def python_package(folder, told):
    """Tests the module as `pip` puts it elsewhere, without a network."""
    elsewhere = f"{folder}/site"
    words = [sys.executable, "-m", "pip", "install", "--no-index", "--quiet", "--disable-pip-version-check", "--target", elsewhere, PYTHON]
    yield "pip installs the module without a network", c_library.ran_wrong(words, env=told)
    code = "import othsolve; print(othsolve.Board.start().moves_line(), othsolve.__file__)"
    found = c_library.ran_wrong([sys.executable, "-c", code], "", f"d3 c4 f5 e6 {elsewhere}/othsolve/__init__.py\n",
                                cwd=folder, env={**told, "PYTHONPATH": elsewhere})
    yield "the module that pip installed", found
    typed = os.path.exists(f"{elsewhere}/othsolve/py.typed")
    yield "its types are marked", None if typed else "there is no py.typed"


def python_shown(told):
    """Tests what the head of the module and docs/LIBRARY.md show of Python, run as it stands there."""
    head, page = read(f"{PYTHON}/othsolve/__init__.py"), read(f"{TOP}/docs/LIBRARY.md").split("## From Python\n")[1]
    code, wanted = block_behind("Nothing else is needed.", head), block_behind("This prints", head)
    yield "what the Python module's head shows", c_library.ran_wrong([sys.executable, "-c", code], "", wanted, env=told)
    shown = page.split("```python\n")[1].split("```")[0], block_behind("This Python program prints", page)
    yield "docs/LIBRARY.md shows the same", differs(shown, (code, wanted))
    analyse, game = [sys.executable, f"{PYTHON}/analyse.py", "--empties", "5"], read(f"{TOP}/examples/games.txt").splitlines(True)[0]
    wanted = block_behind("analyse.py --empties 5", page)
    yield "the analysis that docs/LIBRARY.md shows", c_library.ran_wrong(analyse, game, wanted, env=told)


def block_behind(mark, text):
    """Returns the indented lines behind a line that ends so."""
    block = re.search(rf"{re.escape(mark)}\n\n((?:    .*\n|\n(?=    ))+)", text)[1]
    return textwrap.dedent(block)


def refusals_differ(told):
    """Tells what is wrong with the words of the module's refusals, beside those of the header's lines."""
    rows = re.findall(r"^    OTH_\w+ = (\d+),? +/\* (.*) \*/$", read(f"{TOP}/include/othsolve.h"), re.MULTILINE)
    given = "import othsolve; print({str(code): words for code, words in othsolve._WORDS.items()})"
    return differs(ran([sys.executable, "-c", given], env=told).wrote.decode().strip(), repr(dict(rows)))


def analysed(number, game):
    """Tells what the example has to say of a game, by the small solver."""
    cells, side, lost, lines = list(minimax.START), "X", {"X": 0, "O": 0}, [f"game {number}"]
    for at in range(0, len(game), 2):
        legal = dict(minimax.moves(cells, side))
        if not legal:
            side = minimax.other(side)
            legal = dict(minimax.moves(cells, side))
        square = next(each for each in legal if minimax.name(each) == game[at : at + 2])
        child, empties = minimax.after(cells, side, square, legal[square]), cells.count("-")
        if empties <= ANALYSED_EMPTIES:
            worth, best = -minimax.value(child, minimax.other(side))[0], minimax.reports(cells, side)[0]
            loss = int(best.split()[0]) - worth
            lost[side] += loss
            lines.append(f"{empties:2} {side} {game[at:at + 2]} {worth:+d}" + (f", lost {loss}: {best}" if loss else ""))
        cells, side = child, minimax.other(side)
    return text_of([*lines, f"X lost {lost['X']}, O lost {lost['O']}"])


def bash_completion(folder, prefix):
    """Tests what is offered for words as they are typed, and that it is all that the program takes."""
    script, here = f"{prefix}/share/bash-completion/completions/othsolve", f"{folder}/typed"
    os.makedirs(f"{here}/other")
    with open(f"{here}/one.book", "wb"):
        pass

    def offered(typed):
        """Tells what is offered where the last word, which may be empty, is typed; `=` and `<` are words of their own, as bash has them."""
        words = re.sub(r"(--\w+)=", r"\1 = ", typed).split(" ")
        return sorted(ran(["bash", "--norc", "-c", COMPLETION, "bash", script, *words], cwd=here).wrote.decode().split())

    for typed, wanted in COMPLETES.items():
        yield f"bash completes: {typed!r}", differs(offered(typed), sorted(wanted.split()))
    cells = ["0", *(str(1 << bit) for bit in range(19))]
    yield "bash completes each number of cells", differs(offered("othsolve solve --cells "), sorted(cells))
    yield "bash completes each number of workers", differs(offered("othsolve solve --workers "), sorted(str(each) for each in range(1, 17)))
    commands = commands_of(prefix)
    yield "bash completes each command", differs(offered("othsolve "), sorted([*commands, "help", "--help", "--version"]))
    for command in commands:
        yield f"bash completes each option of {command}", differs(offered(f"othsolve {command} -"), options_of(prefix, command))


def commands_of(prefix):
    """Returns the commands that the program's help names, but for `help`."""
    text = ran([f"{prefix}/bin/othsolve", "--help"]).wrote.decode()
    named = re.findall(r"^  ([a-z-]+) +\S", text.split("Commands:\n")[1].split("\n\n")[0], re.MULTILINE)
    return [name for name in named if name != "help"]


def options_of(prefix, command):
    """Returns the long options that help of a command names at the head of a line."""
    text = ran([f"{prefix}/bin/othsolve", command, "--help"]).wrote.decode()
    return sorted(set(re.findall(r"^ +(?:-\w, )?(--[a-z]+)", text.split("Options:\n")[1].split("\n\n")[0], re.MULTILINE)))


def zsh_completion(prefix):
    """Tests that the file for zsh names each command with its options; and that zsh can read it, where there is one."""
    text = read(f"{prefix}/share/zsh/site-functions/_othsolve")
    yield "zsh is told what the file completes", differs(text.split("\n")[0], "#compdef othsolve")
    arrays = dict(re.findall(r"^local -a (\w+)=\((.*?)\)$", text, re.MULTILINE | re.DOTALL))
    cases = dict(re.findall(r"^ +([a-z*-]+)\) (_arguments .*?|_describe .*?) ;;$", text, re.MULTILINE))
    yield "zsh completes each command", differs(re.findall(r"^    '([a-z-]+):", arrays["commands"], re.MULTILINE), commands_of(prefix))
    for command in commands_of(prefix):
        used = re.findall(r"\$(\w+)", cases.get(command, cases["*"]))
        found = sorted(option for name in used for option in re.findall(r"(--[a-z]+)", arrays[name]))
        yield f"zsh completes each option of {command}", differs(found, options_of(prefix, command))
    if shutil.which("zsh"):
        yield "zsh reads the file", c_library.ran_wrong(["zsh", "-n", f"{prefix}/share/zsh/site-functions/_othsolve"])


def again_and_away(folder, prefix, crates):
    """Tests that a second installation is as the first, and that taking it away leaves what was not of it, and no more."""
    found = ran([INSTALL, prefix, crates])
    yield "an installation once more", None if found.status == 0 else f"{found}"
    yield "what is installed then", differs(files(prefix), FILES)
    with open(f"{prefix}/bin/mine", "wb"):
        pass
    found = ran([INSTALL, "--uninstall", prefix])
    left = found.status, files(prefix), sorted(os.listdir(prefix))
    yield "what is left when it is taken away", differs(left, (0, ["bin/mine"], ["bin"]))
    found = ran([INSTALL, "--uninstall", prefix])
    yield "it can't be taken away twice", differs((found.status, files(prefix)), (1, ["bin/mine"]))
    mine = f"{folder}/own place"
    os.makedirs(f"{mine}/lib")
    found = ran([INSTALL, mine, crates])
    yield "an installation below a name with a space", differs((found.status, files(mine)), (0, FILES))
    yield "othsolve.pc names it as one word", differs(flags(mine)[0], [f"-I{mine}/include", f"-L{mine}/lib", "-lothsolve"])
    found = ran([INSTALL, "--uninstall", mine])
    yield "nothing is left but the folder that was there", differs((found.status, os.listdir(mine), files(mine)), (0, ["lib"], []))


def below_destdir(folder, crates):
    """Tests an installation below DESTDIR, as those who make packages install."""
    told, root = {**os.environ, "DESTDIR": f"{folder}/package"}, f"{folder}/package/opt/othsolve"
    found = ran([INSTALL, "/opt/othsolve", crates], env=told)
    wanted = [f"opt/othsolve/{name}" for name in FILES]
    yield "an installation below DESTDIR", differs((found.status, files(f"{folder}/package")), (0, wanted))
    pc = read(f"{root}/lib/pkgconfig/othsolve.pc")
    yield "othsolve.pc names PREFIX and not DESTDIR", None if pc.startswith("prefix=/opt/othsolve\n") and "package" not in pc else pc
    found = ran([INSTALL, "--uninstall", "/opt/othsolve"], env=told)
    yield "nothing is left below DESTDIR", differs((found.status, files(f"{folder}/package"), os.listdir(root)), (0, [], []))


def program_alone(folder, crates):
    """Tests an installation of the program alone, where neither the C library nor what makes it is there, and one of all over it."""
    prefix, alone, tools = f"{folder}/alone", f"{folder}/program/othsolve/out", f"{folder}/tools"
    os.makedirs(alone)
    os.mkdir(tools)
    shutil.copy(f"{crates}/othsolve/out/othsolve", alone)
    for tool in TOOLS:
        os.symlink(shutil.which(tool), f"{tools}/{tool}")
    told = {**os.environ, "PATH": tools}
    found = ran([INSTALL, "--program", prefix, f"{folder}/program"], env=told)
    yield "the program alone is installed without rt, cc and ar", differs((found.status, files(prefix)), (0, FILES_OF_PROGRAM))
    yield "it answers", c_library.ran_wrong([f"{prefix}/bin/othsolve", "moves"], "X" * 64 + " O\n", "end\n")
    found = ran([INSTALL, f"{folder}/all", f"{folder}/program"], env=told)
    right = found.status == 1 and b"./install --program" in found.said and not os.path.exists(f"{folder}/all")
    yield "without it, it is named where the library isn't built", None if right else f"{found}"
    found = ran([INSTALL, prefix, crates])
    yield "all is installed over the program", differs((found.status, files(prefix)), (0, FILES))
    found = ran([INSTALL, "--program", prefix, crates])
    yield "the program takes the place of all", differs((found.status, files(prefix)), (0, FILES_OF_PROGRAM))
    found = ran([INSTALL, "--uninstall", prefix], env=told)
    yield "it is taken away", differs((found.status, os.listdir(prefix)), (0, []))
    found = ran([INSTALL, prefix, crates], env={**os.environ, "LIBDIR": "lib64"})
    wanted = sorted(re.sub("^lib/", "lib64/", name) for name in FILES)
    yield "LIBDIR gets the libraries", differs((found.status, files(prefix)), (0, wanted))
    pc = read(f"{prefix}/lib64/pkgconfig/othsolve.pc")
    yield "othsolve.pc names LIBDIR", None if f"prefix={prefix}\nlibdir=${{prefix}}/lib64\n" in pc else pc
    found = ran([INSTALL, "--uninstall", prefix])
    yield "LIBDIR is taken away", differs((found.status, os.listdir(prefix)), (0, []))


def without_room(folder, crates):
    """Tests that nothing is left where a file can't be written, and that an earlier installation stays as it was."""
    prefix, shims, failed = f"{folder}/full", f"{folder}/shims", f"{folder}/failed"
    os.mkdir(shims)
    with open(f"{shims}/cp", "w", encoding="utf-8") as file:
        file.write(FAILING_CP)
    os.chmod(f"{shims}/cp", 0o755)
    path = f"{shims}:{os.environ['PATH']}"
    told = {**os.environ, "PATH": path, "CP": shutil.which("cp"), "FAILED": failed, "AT": f"{prefix}/share/man/man1/othsolve.1"}
    found = ran([INSTALL, prefix, crates], env=told)
    right = found.status == 1 and b"nothing was left behind" in found.said and os.path.exists(failed) and not os.listdir(prefix)
    yield "an installation that can't write a file leaves nothing", None if right else f"{found}, {files(prefix)}"
    if os.path.exists(failed):
        os.remove(failed)
    ran([INSTALL, prefix, crates])
    with open(f"{prefix}/bin/othsolve", "ab") as file:
        file.write(b"an earlier one")
    before = contents(prefix)
    found = ran([INSTALL, prefix, crates], env=told)
    right = found.status == 1 and b"the earlier installation is back" in found.said and os.path.exists(failed)
    yield "one over an earlier one says that it is back", None if right else f"{found}"
    yield "the earlier one is as it was", None if before and contents(prefix) == before else f"{files(prefix)}"
    yield from interrupted(folder, prefix, crates, before)
    found = ran([INSTALL, "--uninstall", prefix])
    yield "it can be taken away", differs((found.status, os.listdir(prefix)), (0, []))


def interrupted(folder, prefix, crates, before):
    """Tests that an installation which is interrupted leaves the earlier one as it was, after whichever file."""
    shims, count = f"{folder}/interrupting", f"{folder}/count"
    os.mkdir(shims)
    with open(f"{shims}/cp", "w", encoding="utf-8") as file:
        file.write(INTERRUPTING_CP)
    os.chmod(f"{shims}/cp", 0o755)
    told = {**os.environ, "PATH": f"{shims}:{os.environ['PATH']}", "CP": shutil.which("cp"), "COUNT": count}
    broken_off = 0
    for at in INTERRUPTED_AT:
        open(count, "w", encoding="utf-8").close()
        found = ran([INSTALL, prefix, crates], env={**told, "AT": str(at)})
        if found.status == 0:
            break
        broken_off += 1
        if contents(prefix) != before:
            yield f"interrupted after copy {at}", f"{found}, {files(prefix)}"
    yield "an installation that is interrupted leaves the earlier one as it was", None if broken_off > 5 else f"{broken_off} were interrupted"


def contents(folder):
    """Tells what each file and each link below a folder is, and its mode."""
    found = {}
    for name in files(folder):
        path = f"{folder}/{name}"
        with open(path, "rb") as file:
            found[name] = os.readlink(path) if os.path.islink(path) else file.read(), os.lstat(path).st_mode
    return found
