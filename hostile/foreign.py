"""Turns other formats by examples/to_lines.py: what is written by hand, with faults too, and made games, which have to come back.

A made game is random play to its end, and one of its boards. It is written in each format, in one of several ways, as programs and people
write it. Besides, damaged files are turned: nothing but lines and `?` may be written, and each `?` has to be told.
"""
import random
import re
import struct
import sys
import tempfile
from typing import NamedTuple

import foreign_rows
import minimax
from running import TOP, file_of, ran, text_of

SCRIPT = f"{TOP}/examples/to_lines.py"
GAMES, SEED = 10_000, 20261201
DAMAGED_FILES, DAMAGED_GAMES = 200, 6
BOM = b"\xef\xbb\xbf"
COMMANDS = ("solve", "scores", "moves", "transcript", "play", "analyse")
# Lines that take for ever where each of their bytes is looked at again for each other one.
LONG_LINES = [
    start + middle * 200_000 + end
    for start, middle, end in (
        (b"", b" ", b"!"),
        (b"", b"-", b"!"),
        (b"", b"x |", b"!"),
        (b"x x x x x x x x", b" ", b"x"),
        (b"to", b" ", b"move"),
        (b"", b"1 ", b"9"),
        (b"", b"f5", b"!"),
        (b"(;BO[8", b"\\]", b""),
        (b"", b"(;", b""),
    )
]
# What an output may have, by format.
BOARD = r"[-XO]{64} [XO]"
SHAPES = {
    "games": r"([a-h][1-8])*|\?",
    "obf": rf"{BOARD}|\?",
    "diagram": rf"{BOARD}|\?",
    "ggf": rf"{BOARD} ([a-h][1-8])*|\?",
    "wthor": r"([a-h][1-8])*|\?",
}


class Game(NamedTuple):
    """A game: its moves, a pass as an empty text; how many come before the board, and that board's line; the line of the last board."""

    moves: list
    before: int
    board: str
    last: str


def made_game(draw):
    """Returns a game of random moves."""
    cells, side, moves, boards = list(minimax.START), "X", [], []
    left = [square for square in minimax.SQUARES if cells[square] == "-"]
    while True:
        boards.append(minimax.board_line(cells, side))
        draw.shuffle(left)
        turned = next(((square, turned) for square in left if (turned := minimax.flips(cells, side, square))), None)
        if not turned and moves and not moves[-1]:
            # Nobody can move: the pass is taken back, so that the opponent of who moved last is the mover.
            before = draw.randrange(len(moves))
            return Game(moves[:-1], before, boards[before], boards[-2])
        if turned:
            left.remove(turned[0])
            for square in (turned[0], *turned[1]):
                cells[square] = side
        moves.append(minimax.name(turned[0]) if turned else "")
        side = minimax.other(side)


def written_transcript(draw, game):
    """Returns the moves of a game on a line, as people write them."""
    kind = draw.randrange(4)
    if kind == 0:
        return "".join(game.moves)
    if kind == 1:
        return "".join(move.upper() or draw.choice(("PS", "PA")) for move in game.moves)
    if kind == 2:
        return " ".join(move or "pass" for move in game.moves)
    pairs = [[move or "--" for move in game.moves[at : at + 2]] for at in range(0, len(game.moves), 2)]
    return " ".join(f"{number}. {' '.join(pair)}" for number, pair in enumerate(pairs, 1))


def written_obf(draw, game):
    """Returns the board of a game on a line, with fields, a comment, or a line without a board behind it."""
    line = game.board[:65].translate(draw.choice(({}, str.maketrans("XO-", "xo."), str.maketrans("X", "*"))))
    mover = draw.choice("Xx*" if game.board[-1] == "X" else "Oo")
    between = draw.choice((" ", " ", "", "  "))
    behind = draw.choice(("", ";", " ; d3:+12; b6:-6; % one of X and O", " % a game", "; bm a1\n\n% X moves"))
    return f"{draw.choice(('', ' '))}{line[:64]}{between}{mover}{behind}"


def written_diagram(draw, game, told):
    """Returns the board of a game as a diagram; the mover is told there where `told` says so: within, above, below or not."""
    rows = [game.board[at : at + 8] for at in range(0, 64, 8)]
    black = game.board[-1] == "X"
    if told == "within":
        rows = [f"{at} {' '.join(row).replace('X', '*')} {at} " for at, row in enumerate(rows, 1)]
        rows[1] += f"{'*' if black else 'O'} to move"
        rows[3] += f"*: discs = {game.board[:64].count('X'):2}    moves = 12"
        return text_of(["  A B C D E F G H", *rows, "  A B C D E F G H", ""])
    if told in ("above", "below"):
        text = text_of(f"{at}|{'|'.join(row.lower())}|\n +-+-+-+-+-+-+-+-+" for at, row in enumerate(rows, 1))
        mover = f"{'Black' if black else 'White'} to play\n\n"
        return f"  a b c d e f g h\n{mover}{text}" if told == "above" else f"  a b c d e f g h\n{text}\n{mover}"
    digits = text_of(" ".join(row.translate(str.maketrans("XO-", "120"))) for row in rows)
    return draw.choice((text_of(rows), text_of([*rows, ""]).lower().replace("-", "."), f"{digits}\n"))


def written_ggf(draw, game):
    """Returns a game from its board on in GGF, on one line or on several."""
    rows = " ".join(game.board[at : at + 8] for at in range(0, 64, 8)).replace("X", "*")
    blacks = game.board[-1] == "X"
    name = draw.choice(("one", "a[b\\]c", "(;)"))
    parts = [f"GM[Othello]PC[GGS/os]PB[{name}]PW[w]TY[8r]RE[+2.00]", f"BO[8 {rows} {'*' if blacks else 'O'}]"]
    for number, move in enumerate(game.moves[game.before :]):
        name = draw.choice((move.upper(), move)) or draw.choice(("PA", "pass", "PASS"))
        side = "B" if blacks == (number % 2 == 0) else "W"
        parts.append(f"{side}[{name}{draw.choice(('', '//1.50', '/-12.00/3.25', '/0.5'))}]")
    if draw.random() < 0.1:
        parts.append("C[a word; d3 and \\] B[a1]")
    return f"(;{draw.choice(('', '', chr(10))).join(parts)};)"


def written_wthor(draw, games):
    """Returns the games as a file of WTHOR."""
    moves = [bytes(10 * int(move[1]) + "abcdefgh".index(move[0]) + 1 for move in game.moves if move) for game in games]
    heads = (struct.pack("<3HBB", draw.randrange(99), draw.randrange(9999), 7, draw.randrange(65), draw.randrange(65)) for _ in games)
    return foreign_rows.head(len(games)) + b"".join(head + each.ljust(60, b"\0") for head, each in zip(heads, moves, strict=True))


def turned(words, given):
    """Tells how the script ends over these bytes."""
    return ran([sys.executable, "-B", SCRIPT, *words], given)


def differs(words, given, wanted):
    """Tells what is wrong with a run that is to turn all into these lines, if anything."""
    done = turned(words, given)
    if (done.status, done.said) != (0, b""):
        return f"status {done.status}, {done.said[:300]!r}"
    found, lines = done.wrote.decode(errors="backslashreplace").split("\n"), [*wanted, ""]
    place = next((at for at, (one, other) in enumerate(zip(found, lines, strict=False)) if one != other), None)
    if place is not None:
        return f"line {place + 1} is {found[place]!r} in place of {lines[place]!r}"
    return None if len(found) == len(lines) else f"{len(found)} lines in place of {len(lines)}"


def steps(program, count=GAMES):
    """Yields a step for each thing that is asked: its name, and what is wrong, if anything."""
    yield from example_steps()
    yield from written_steps()
    yield from ended_steps()
    draw = random.Random(SEED)
    games = [made_game(draw) for _ in range(count)]
    passes = sum("" in game.moves for game in games)
    yield f"{count} made games, some with passes", None if count // 5 < passes < count else f"{passes} have passes"
    yield from round_trips(draw, games)
    yield "each command answers `?` by error 1", refused_by(program)
    yield from played(program, games)
    yield from damaged(draw, games[:DAMAGED_GAMES])


def example_steps():
    """Tests the examples whose lines are known."""
    with open(f"{TOP}/examples/games.txt", encoding="ascii") as file:
        games = file.read().splitlines()
    begun = [f"{foreign_rows.START} X {game}" for game in games[:2]]
    yield "games.wtb", differs(["wthor", f"{TOP}/examples/games.wtb"], b"", games)
    third = "------------------XOX------OO------XXX-------------------------- O e6f6"
    yield "games.ggf", differs(["ggf", f"{TOP}/examples/games.ggf"], b"", [*begun, third])


def written_steps():
    """Tests what was written by hand."""
    for words, given, wrote, said in foreign_rows.TURNED:
        given, wrote = (text if isinstance(text, bytes) else text.encode() for text in (given, wrote))
        done = turned(words.split(), given)
        wanted = ["-" + (told if told.startswith(":") else f", {told}") for told in said.split("|") if told]
        found = done.said.decode().splitlines()
        is_said = len(found) == len(wanted) and all(one.startswith(told) for one, told in zip(found, wanted, strict=True))
        right = done.wrote == wrote and is_said and done.status == (4 if wanted else 0)
        yield f"{words}: {given[:40]}", None if right else f"{done} in place of {wrote}, {wanted}"


def ended_steps():
    """Tests how the script ends over files and words with faults."""
    with tempfile.TemporaryDirectory() as folder:
        one, two = file_of(folder, "one", b"F5"), file_of(folder, "two", b"d3\nx\n")
        both = turned(["games", one, f"{folder}/none", folder, "-", two], b"C4")
        wanted = [f"{folder}/none: No such file or directory", f"{folder}: Is a directory"]
        wanted.append(f"{two}, line 2: character 1, 'x', begins no move")
        right = (both.status, both.wrote, both.said.decode().splitlines()) == (1, b"f5\nc4\nd3\n?\n", wanted)
        yield "files, of which some can't be read", None if right else f"{both}"
        for words in (["edax"], [], ["ggf", "--side", "X"], ["diagram", "--side", "Y"]):
            done = turned(words, b"")
            yield f"words {words}", None if done.status == 2 and done.said and not done.wrote else f"{done}"
        done = ran(["bash", "-c", 'yes f5 | head -n 100000 | "$@" | head -n 1; echo "${PIPESTATUS[2]}"', "bash", SCRIPT, "games"])
        yield "a closed reader", None if (done.wrote, done.said) == (b"f5\n1\n", b"") else f"{done}"
        for form in SHAPES:
            done = turned([form], b"\n".join(LONG_LINES))
            yield f"long lines: {form}", None if done.status == 4 and b"Traceback" not in done.said else f"{done.status}, {done.said[-300:]}"
        done = ran(["bash", "-c", '"$@" > /dev/full', "bash", SCRIPT, "games", one])
        yield "a full device", None if done.status == 1 and b"standard output: No space left" in done.said else f"{done}"


def round_trips(draw, games):
    """Tests that the games come back from each format."""
    texts = ["".join(game.moves) for game in games]
    boards = [game.board for game in games]
    mark = BOM.decode()
    for ends, front in (("\n", ""), ("\r\n", mark)):
        lines = front + "".join(written_transcript(draw, game) + ends for game in games)
        yield f"games that end by {ends!r}", differs(["games"], lines.encode(), texts)
        lines = front + "".join(written_obf(draw, game) + "\n" for game in games).replace("\n", ends)
        yield f"OBF whose lines end by {ends!r}", differs(["obf"], lines.encode(), boards)
    for told in ("within", "above", "below"):
        lines = "".join(written_diagram(draw, game, told) for game in games)
        yield f"diagrams that tell the mover {told}", differs(["diagram"], lines.encode(), boards)
    for side in "XO":
        own = [game for game in games if game.board[-1] == side]
        lines = "".join(written_diagram(draw, game, "not") for game in own).replace("\n", "\r\n")
        yield f"diagrams where {side} moves", differs(["diagram", "--side", side], lines.encode(), [game.board for game in own])
    parts = (f"{draw.choice(('', '1 ', chr(10)))}{written_ggf(draw, game)}" for game in games)
    wanted = [f"{game.board} {''.join(game.moves[game.before:])}" for game in games]
    yield "games in GGF", differs(["ggf"], "".join(parts).encode(), wanted)
    yield "games of WTHOR", differs(["wthor"], written_wthor(draw, games), texts)
    for coding, front in (("utf-8", ""), ("utf-8", mark), ("utf-16-le", mark), ("utf-16-be", mark)):
        lines = (front + "".join(f"{text}\r\n" for text in texts)).encode(coding)
        yield f"lines from Windows in {coding}{' with a mark' if front else ''}", differs(["windows"], lines, texts)


def played(program, games):
    """Tests that the program plays the turned games to their last boards."""
    last = text_of(game.last for game in games)
    done = ran([program, "transcript"], turned(["wthor"], written_wthor(random.Random(SEED), games)).wrote)
    yield "othsolve plays the games of WTHOR", None if done.wrote.decode() == last else f"{done.status} {done.said[:300]!r}"
    given = "".join(written_ggf(random.Random(SEED), game) for game in games).encode()
    done = ran([program, "play"], turned(["ggf"], given).wrote)
    yield "othsolve plays the games in GGF", None if done.wrote.decode() == last else f"{done.status} {done.said[:300]!r}"


def refused_by(program):
    """Tells which command doesn't answer what can't be turned by `error 1`, if any."""
    answers = {command: ran([program, command], b"?\n").wrote for command in COMMANDS}
    return None if all(b"error 1\n" in wrote for wrote in answers.values()) else f"{answers}"


def damaged(draw, games):
    """Tests that damaged files are turned as far as they can be: what can't be is told, and nothing but lines and `?` is written."""
    whole = {
        "games": text_of(written_transcript(draw, game) for game in games).encode(),
        "obf": text_of(written_obf(draw, game) for game in games).encode(),
        "diagram": "".join(written_diagram(draw, game, "within") for game in games).encode(),
        "ggf": "".join(written_ggf(draw, game) for game in games).encode(),
        "wthor": written_wthor(draw, games),
    }
    with tempfile.TemporaryDirectory() as folder:
        for form, text in whole.items():
            files = [file_of(folder, f"{form}{number}", with_damage(draw, text)) for number in range(DAMAGED_FILES)]
            done = turned([form, *files], b"")
            lines, told = done.wrote.decode().splitlines(), done.said.decode().splitlines()
            other = [line for line in lines if not re.fullmatch(SHAPES[form], line)]
            other += [line for line in told if not line.startswith(folder)]
            right = done.status == 4 and not other and 0 < lines.count("?") <= len(told)
            yield f"damaged files: {form}", None if right else f"status {done.status}, {other[:5]}"


def with_damage(draw, text):
    """Returns the bytes with others at one to three places."""
    given = bytearray(text)
    for _ in range(draw.randrange(1, 4)):
        at = draw.randrange(len(given))
        given[at : at + draw.choice((0, 1, 9))] = draw.choice((b"", b"\0", b"\n", b"]", b"(;GM[", b"\xff", b"oxo", b"X to move"))
    return bytes(given)
