"""Builds the C library's example in an empty folder, and compares what C programs get from the library with what the built program prints.

It needs `cc` and `ar`. Where valgrind is installed, the same runs are made under it: no error, and nothing lost. Where the compiler has
ThreadSanitizer, threads that share a table and end each other's calls are run under it: no race.
"""
import os
import random
import shutil
import subprocess
import tempfile
import textwrap

import differential
import minimax
from running import TOP, text_of

SEED = 20261124
BOARDS = 1000
MOST_EMPTIES = 12
GAMES = 200
PLAYED = 500
SCORED, MOST_EMPTIES_SCORED = 300, 6
PATIENCE = 150
BUILD_PATIENCE = 1_800
MOST_REQUESTS = 6
VALGRIND = ["valgrind", "-q", "--error-exitcode=99", "--leak-check=full", "--show-leak-kinds=all", "--errors-for-leak-kinds=all"]
FLAGS = ["-std=c99", "-O2", "-Wall", "-Wextra", "-Werror"]
WORKED = {
    "winner": "+64 end|+64 a1|-64 pass|+64 a1 h1|-48 a1|-50 h1|+50 pass|+64 a1 a2|refused: 5",
    "discs": "+64 end|+64 a1|-64 pass|+64 a1 h1|-47 a1|-49 h1|+49 pass|+64 a2|refused: 5",
}


def steps(crates):
    """Yields a step for each build and run: its name, and what is wrong with it, if anything."""
    with tempfile.TemporaryDirectory() as folder, tempfile.TemporaryDirectory() as tests:
        program = os.path.abspath(f"{crates}/othsolve/out/othsolve")
        unmade = ran_wrong([f"{TOP}/examples/c/library.sh", folder, crates], patience=BUILD_PATIENCE)
        yield "the C library is made", unmade
        if unmade:
            return
        yield from example(folder)
        yield from shown(folder)
        shutil.copy(f"{TOP}/hostile/c_calls.c", tests)
        for name in ("othsolve.h", "libothsolve.a"):
            shutil.copy(f"{folder}/{name}", tests)
        flags = ["-std=gnu11", *FLAGS[1:], "-I.", "-Wl,--wrap=malloc"]
        unbuilt = ran_wrong(["cc", *flags, "c_calls.c", "libothsolve.a", "-pthread", "-o", "c_calls"], cwd=tests)
        yield "the C calls are built", unbuilt
        if unbuilt:
            return
        calls = f"{tests}/c_calls"
        yield "each refusal of a C call", ran_wrong([calls, "refusals"])
        yield "the library's version is the program's", ran_wrong([calls, "version"], wanted=printed([program, "--version"], ""))
        lines = board_lines()
        yield from against_program(program, calls, lines)
        yield from scores(program, calls)
        yield from moves_on_boards(calls)
        yield from without_memory(program, calls, lines[:100])
        if has_thread_sanitizer():
            yield from under_thread_sanitizer(program, tests, flags, lines[:200])
        if shutil.which("valgrind"):
            yield from under_valgrind(program, calls, lines[:50])


def ran_wrong(words, given="", wanted="", patience=PATIENCE, **how):
    """Tells what is wrong with a run that is to print just this with status 0, if anything."""
    try:
        ran = subprocess.run(words, input=given, stdout=subprocess.PIPE, stderr=subprocess.PIPE, text=True, timeout=patience, **how)
    except (OSError, subprocess.TimeoutExpired) as error:
        return f"{words[0]}: {error}"
    for at, (found, want) in enumerate(zip(ran.stdout.splitlines(), wanted.splitlines(), strict=False)):
        if found != want:
            return f"line {at + 1}: {found!r} in place of {want!r}"
    if ran.returncode != 0 or ran.stdout != wanted:
        return f"status {ran.returncode}, {ran.stdout[-300:]!r}, {ran.stderr[-600:]!r}"
    return None


def printed(words, given):
    """Tells what a run prints."""
    return subprocess.run(words, input=given, stdout=subprocess.PIPE, text=True, timeout=PATIENCE, check=False).stdout


def example(folder):
    """Builds the example by its build line, in a folder with nothing but the header, the library and the example."""
    build = build_line(f"{folder}/worked.c")
    alone = sorted(os.listdir(folder)) == ["libothsolve.a", "othsolve.h", "worked.c"]
    yield "the C example's folder has nothing else", None if alone else "more files"
    yield f"the C example is built: {' '.join(build)}", ran_wrong([*build, *FLAGS], cwd=folder)
    if shutil.which("c++"):
        words = ["c++", "-x", "c++", "-fsyntax-only", "-Wall", "-Wextra", "-Werror", "othsolve.h"]
        yield "the header is one of C++ too", ran_wrong(words, cwd=folder)
    with open(f"{TOP}/examples/boards.txt", encoding="ascii") as file:
        boards = file.read()
    for scoring, rows in WORKED.items():
        for cells in ("0", "1", "65536"):
            words = [f"{folder}/worked", scoring, cells]
            yield f"the worked boards in C: {scoring}, {cells} cells", ran_wrong(words, boards, text_of(rows.split("|")))


def shown(folder):
    """Tests that the program that docs/LIBRARY.md shows, by the line that it shows, writes what the page says."""
    with open(f"{TOP}/docs/LIBRARY.md", encoding="utf-8") as file:
        page = file.read().split("### The score of every move\n")[1].split("\n### ")[0]
    code, told = page.split("```c\n")[1].split("```\n\n")
    with open(f"{folder}/scores.c", "w", encoding="ascii") as file:
        file.write(code)
    build, run = told.split("`")[1].split(" && ")
    yield f"the program that docs/LIBRARY.md shows is built: {build}", ran_wrong([*build.split(), *FLAGS], cwd=folder)
    yield "what it writes", ran_wrong([f"{folder}/{run}"], wanted=textwrap.dedent(told.split(" prints\n\n")[1]))


def build_line(source):
    """Returns the words behind `Build line:` in the example."""
    with open(source, encoding="ascii") as file:
        return file.read().split("Build line: ")[1].split("*/")[0].split()


def board_lines():
    return [minimax.board_line(*board) for board in minimax.boards(SEED, BOARDS, MOST_EMPTIES)]


def against_program(program, calls, lines):
    """Tests that C replies as the program does: by one thread, by four at once, and by eight over one table."""
    text = text_of([*lines, *faulty_lines()])
    for scoring in ("winner", "discs"):
        for cells in ("0", "4096"):
            wanted = printed([program, "solve", "--scoring", scoring, "--cells", cells], text)
            for threads in ("1", "4"):
                name = f"{BOARDS} boards in C as by the program: {scoring}, {cells} cells, {threads} threads at once"
                yield name, ran_wrong([calls, "solve", scoring, cells, threads], text, wanted)
        for cells in ("1", "4096"):
            name = f"{BOARDS} boards in C as by the program: {scoring}, eight threads over one table of {cells} cells"
            yield name, ran_wrong([calls, "share", scoring, cells, "8"], text, printed([program, "solve", "--scoring", scoring], text))
    more = text + text_of(deeper_lines())
    for scoring in ("winner", "discs"):
        name = f"{BOARDS} boards and deeper ones in C by calls that are ended, with true bounds: {scoring}, four threads over one table"
        yield name, ran_wrong([calls, "within", scoring, "4096", "4"], more, printed([program, "solve", "--scoring", scoring], more))
    yield f"the moves of {BOARDS} boards in C as by the program", ran_wrong([calls, "moves"], text, printed([program, "moves"], text))
    games = text_of(transcripts())
    yield f"{GAMES} games in C as by the program", ran_wrong([calls, "transcript"], games, printed([program, "transcript"], games))


def scores(program, calls):
    """Tests the scores of all moves: as a small solver tells them, and as the program answers the boards after the moves."""
    few = minimax.boards(SEED + 1, SCORED, MOST_EMPTIES_SCORED)
    values = [[minimax.value(*child) for _, child in boards_after(board)] for board in few]
    many = minimax.boards(SEED, BOARDS, MOST_EMPTIES)
    faulty = text_of(faulty_lines())
    for at, scoring in enumerate(("winner", "discs")):
        wanted = [scores_line(board, [value[at] for value in each]) for board, each in zip(few, values, strict=True)]
        told = by_children(program, many, scoring)
        refused = printed([program, "solve"], faulty)
        for cells in ("0", "64"):
            text = text_of(minimax.board_line(*board) for board in few)
            name = f"the score of every move of {SCORED} boards in C as by a small solver: {scoring}, {cells} cells"
            yield name, ran_wrong([calls, "scores", scoring, cells, "1"], text, text_of(wanted))
            text = text_of(minimax.board_line(*board) for board in many)
            name = f"the score of every move of {BOARDS} boards in C as the program answers the boards after them: {scoring}, {cells} cells"
            yield name, ran_wrong([calls, "scores", scoring, cells, "4"], text + faulty, text_of(told) + refused)
        name = f"the same by eight threads over one table: {scoring}"
        yield name, ran_wrong([calls, "share-scores", scoring, "4096", "8"], text + faulty, text_of(told) + refused)


def boards_after(board):
    """Returns the legal squares of a board with the boards after a move there, by rising squares; or None and the board itself."""
    cells, side = board
    moves = [(square, (minimax.after(cells, side, square, turned), minimax.other(side))) for square, turned in minimax.moves(cells, side)]
    return moves or [(None, board)]


def scores_line(board, scores):
    """Returns the moves with their scores, the greatest first and equal ones by rising squares; else the score, and `pass` or `end`.

    Given are the scores of the boards behind the moves, in their order and for who is to move there."""
    behind = zip(boards_after(board), scores, strict=True)
    found = [(score, square) if square is None else (-score, square) for (square, _), score in behind]
    found.sort(key=lambda each: -each[0])
    word = "pass" if minimax.moves(board[0], minimax.other(board[1])) else "end"
    return " ".join(minimax.report(score, word if square is None else minimax.name(square)) for score, square in found)


def by_children(program, boards, scoring):
    """Returns the scores line of each board, by what the program answers of the boards after its moves."""
    lines = text_of(minimax.board_line(*child) for board in boards for _, child in boards_after(board))
    told = (int(line.split()[0]) for line in printed([program, "solve", "--scoring", scoring], lines).splitlines())
    return [scores_line(board, [next(told) for _ in boards_after(board)]) for board in boards]


def moves_on_boards(calls):
    """Tests that random moves on boards lead to the boards, or have the faults, that the small solver's rules give."""
    draw = random.Random(SEED)
    games = [differential.some_moves(draw, *board) for board in minimax.boards(SEED, PLAYED, differential.MOST_EMPTIES_PLAYED)]
    lines, wanted = zip(*games, strict=True)
    yield f"moves on {PLAYED} boards in C as by the small solver's rules", ran_wrong([calls, "play"], text_of(lines), text_of(wanted))


def deeper_lines():
    """Returns boards of 6 to 15 empty squares, two of each."""
    return [minimax.board_line(*board) for board in minimax.boards(SEED, 10 * 16, 15)[-20:]]


def faulty_lines():
    """Returns board lines with each fault."""
    start = minimax.board_line(minimax.START, "X")
    return [start, start[:-1], f"{start}X", f"x{start[1:]}", f"{start[:63]}x{start[64:]}", f"{start[:64]}XX", f"{start[:65]}x", " "]


def transcripts():
    """Returns beginnings of random games, with and without a fault."""
    draw = random.Random(SEED)
    games = ["", "f5d", "F5", "f5f5", "e6f4e3f6g5d6e7f5c5a1", "f5i1"]
    while len(games) < GAMES:
        cells, side, names = list(minimax.START), "X", ""
        for _ in range(draw.randrange(60)):
            legal = minimax.moves(cells, side)
            if legal:
                square, turned = draw.choice(legal)
                cells, names = minimax.after(cells, side, square, turned), names + minimax.name(square)
            side = minimax.other(side)
        games.append(names + draw.choice(["", "", "a1", "a9", "z"]))
    return games


def without_memory(program, calls, lines):
    """Tests that being out of memory changes no answer, whichever request of a call is refused."""
    text = text_of(lines)
    for cells in ("0", "64"):
        wanted = printed([program, "solve", "--cells", cells], text)
        for request in range(1, MOST_REQUESTS + 1):
            name = f"{len(lines)} boards in C where request {request} of a call for memory is refused, {cells} cells"
            yield name, ran_wrong([calls, "solve", "winner", cells, "1"], text, wanted, env={**os.environ, "REFUSED": str(request)})
        scored = printed([calls, "scores", "winner", cells, "1"], text)
        for request in range(1, MOST_REQUESTS + 1):
            name = f"the scores of {len(lines)} boards in C where request {request} of a call for memory is refused, {cells} cells"
            yield name, ran_wrong([calls, "scores", "winner", cells, "1"], text, scored, env={**os.environ, "REFUSED": str(request)})
    for request in (1, 2):
        name = f"{len(lines)} boards in C over one table where request {request} of a solving call for memory is refused"
        yield name, ran_wrong([calls, "share", "winner", "64", "4"], text, wanted, env={**os.environ, "REFUSED": str(request)})


def has_thread_sanitizer():
    """Tells whether the compiler here has ThreadSanitizer."""
    found = subprocess.run(["cc", "-print-file-name=libtsan.so"], stdout=subprocess.PIPE, text=True, check=False)
    return os.path.isabs(found.stdout.strip())


def under_thread_sanitizer(program, tests, flags, lines):
    """Tests that ThreadSanitizer finds no race in a C program whose threads share a table and end each other's calls."""
    words = ["cc", *flags, "-fsanitize=thread", "c_calls.c", "libothsolve.a", "-pthread", "-o", "c_calls_tsan"]
    unbuilt = ran_wrong(words, cwd=tests)
    yield "ThreadSanitizer: the C calls are built", unbuilt
    if unbuilt:
        return
    calls, how = f"{tests}/c_calls_tsan", {"env": {**os.environ, "TSAN_OPTIONS": "exitcode=99"}}
    text = text_of(lines)
    wanted = printed([program, "solve"], text)
    yield "ThreadSanitizer: each refusal, and a call that another thread ends", ran_wrong([calls, "refusals"], **how)
    for command in ("solve", "share", "within"):
        name = f"ThreadSanitizer: {command} of {len(lines)} boards, eight threads"
        yield name, ran_wrong([calls, command, "winner", "64", "8"], text, wanted, **how)


def under_valgrind(program, calls, lines):
    """Tests that valgrind finds no error, and nothing lost."""
    yield "valgrind: each refusal of a C call", ran_wrong([*VALGRIND, calls, "refusals"])
    text = text_of([*lines, *faulty_lines()])
    for cells in ("0", "64"):
        wanted = printed([program, "solve", "--cells", cells], text)
        words = [*VALGRIND, calls, "solve", "winner", cells, "4"]
        yield f"valgrind: {len(lines)} boards, {cells} cells, four threads", ran_wrong(words, text, wanted)
    wanted = printed([program, "solve"], text)
    words = [*VALGRIND, calls, "within", "winner", "64", "1"]
    yield f"valgrind: {len(lines)} boards by calls that are ended, over one table", ran_wrong(words, text, wanted)
    words = [*VALGRIND, calls, "share", "winner", "64", "4"]
    yield f"valgrind: {len(lines)} boards, four threads over one table", ran_wrong(words, text, wanted)
    scored = printed([calls, "scores", "winner", "64", "1"], text)
    for command in ("scores", "share-scores"):
        yield f"valgrind: {command} of {len(lines)} boards", ran_wrong([*VALGRIND, calls, command, "winner", "64", "4"], text, scored)
    yield "valgrind: moves", ran_wrong([*VALGRIND, calls, "moves"], text, printed([program, "moves"], text))
    games = text_of(transcripts()[:50])
    yield "valgrind: games", ran_wrong([*VALGRIND, calls, "transcript"], games, printed([program, "transcript"], games))
