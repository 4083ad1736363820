"""Compares the built program with the small solver: the same answers and scores by both scorings, any number of workers, any table, answers
from a book too, and the same boards after moves."""
import random
import tempfile

import minimax
from running import ran, text_of

SEED = 20261123
BOARDS = 2000
BOOKED = 500
MOST_EMPTIES = 7
GAMES = 1000
MOST_EMPTIES_PLAYED = 30
WAITING = 1000
MOST_EMPTIES_WAITING = 12
TOGETHER = 40
EMPTIES_TOGETHER = (13, 14)
PATIENCE = 150
WORKERS = (1, 2, 16)
CELLS = (0, 1, 65536)
SCORINGS = ("winner", "discs")


def steps(program):
    """Yields a step for each scoring, number of workers and table, then for longer boards: its name, and what is wrong, if anything."""
    yield from small_steps(program)
    yield from side_by_side(program)
    yield from together(program)
    yield from book_side_by_side(program)


def small_steps(program):
    """Yields the steps of boards that take no time."""
    boards = minimax.boards(SEED, BOARDS, MOST_EMPTIES)
    lines = [minimax.board_line(*board) for board in boards]
    wanted = [minimax.reports(*board) for board in boards]
    scored = [minimax.scores(*board) for board in boards]
    for at, scoring in enumerate(SCORINGS):
        for workers in WORKERS:
            for cells in CELLS:
                words = [program, "solve", "--workers", str(workers), "--cells", str(cells), "--scoring", scoring]
                yield (
                    f"{BOARDS} boards of 0 to {MOST_EMPTIES} empty squares: {' '.join(words[1:])}",
                    difference(words, lines, [line[at] for line in wanted]),
                )
        for workers in WORKERS:
            words = [program, "scores", "--workers", str(workers), "--scoring", scoring]
            name = f"every move of {BOARDS} boards of 0 to {MOST_EMPTIES} empty squares: {' '.join(words[1:])}"
            yield name, difference(words, lines, [line[at] for line in scored])
        name = f"a book of {BOOKED} boards, added to, verified and asked: {scoring}"
        yield name, by_book(program, scoring, lines, [line[at] for line in wanted])
    yield moves_on_boards(program)


def moves_on_boards(program):
    """Returns a step: random moves on boards lead to the boards, or have the faults, that the small solver's rules give."""
    draw = random.Random(SEED + 3)
    games = [some_moves(draw, *board) for board in minimax.boards(SEED + 3, GAMES, MOST_EMPTIES_PLAYED)]
    lines, wanted = map(list, zip(*games, strict=True))
    name = f"{GAMES} boards of 0 to {MOST_EMPTIES_PLAYED} empty squares with moves played on them"
    return name, difference([program, "play"], lines, wanted)


def some_moves(draw, cells, side):
    """Returns a board line with some moves behind it, of which one may be faulty, and the line that answers it."""
    line, names, faulty_at = minimax.board_line(cells, side), [], draw.randrange(2 * MOST_EMPTIES_PLAYED)
    for at in range(draw.randrange(MOST_EMPTIES_PLAYED + 1)):
        cells, side = minimax.awake(cells, side)
        legal = minimax.moves(cells, side)
        others = [square for square in range(64) if square not in dict(legal)]
        if not legal or at == faulty_at:
            bad = minimax.name(draw.choice(others))
            return f"{line} {''.join(names)}{bad}", f"error {23 if legal else 24} at {at + 1}"
        move = draw.choice(legal)
        names.append(minimax.name(move[0]))
        cells, side = minimax.after(cells, side, *move), minimax.other(side)
    reached = minimax.board_line(*minimax.awake(cells, side))
    return f"{line} {''.join(names)}" if names else line, reached


def side_by_side(program):
    """Tests that boards that are searched side by side by several workers have the answers and the scores that one worker gives."""
    boards = minimax.boards(SEED + 1, WAITING, MOST_EMPTIES_WAITING)
    lines = [minimax.board_line(*board) for board in boards]
    text = text_of(lines)
    for command in ("solve", "scores"):
        alone = printed([program, command], text)[1]
        for workers in ("2", "4", "16"):
            name = f"{WAITING} boards of 0 to {MOST_EMPTIES_WAITING} empty squares side by side by {workers} workers as by one, {command}"
            yield name, difference([program, command, "--workers", workers], lines, alone)


def together(program):
    """Tests that boards that come alone, each of which several workers search together, have the answers that one worker gives."""
    draw = random.Random(SEED + 2)
    boards = [minimax.game_board(draw, EMPTIES_TOGETHER[at % 2]) for at in range(TOGETHER)]
    lines = [minimax.board_line(*board) for board in boards]
    alone = printed([program, "solve"], text_of(lines))[1]
    name = f"{TOGETHER} boards of {' or '.join(map(str, EMPTIES_TOGETHER))} empty squares, each by 4 workers together as by one"
    words = [program, "solve", "--workers", "4"]
    wrong = [difference(words, [line], [answer]) for line, answer in zip(lines, alone, strict=False)]
    yield name, next(filter(None, wrong), None) if len(alone) == TOGETHER else f"{len(alone)} answers by one"


def book_side_by_side(program):
    """Tests that a book that several workers add to and verify is that of one worker, and so is the wrong entry that they name."""
    boards = minimax.boards(SEED + 1, WAITING, MOST_EMPTIES_WAITING)
    text = text_of(minimax.board_line(*board) for board in boards).encode()
    with tempfile.NamedTemporaryFile() as empty, tempfile.NamedTemporaryFile() as wrong:
        empty.write(b"OBOOK2 W\nEND 000000\n")
        empty.flush()
        books = {workers: output([program, "book-add", "--workers", workers, empty.name], text) for workers in ("1", "2", "4", "16")}
        lines = books["1"][1].splitlines(True)
        for workers in ("2", "4", "16"):
            name = f"a book of {len(lines) - 2} boards, solved side by side by {workers} workers as by one"
            yield name, None if len(lines) > WAITING // 2 and books[workers] == books["1"] else f"another text, or {books[workers][::2]}"
        at = len(lines) * 2 // 3
        wrong.write(b"".join([*lines[:at], with_another_score(lines[at]), *lines[at + 1 :]]))
        wrong.flush()
        for workers in ("1", "2", "4", "16"):
            told = output([program, "solve", "--workers", workers, "--book", wrong.name], b"")
            name = f"a book with entry {at} wrong, verified by {workers}"
            yield name, None if told == (3, b"", f"book wrong 1 at {at}\n".encode()) else f"{told}"


def output(words, text):
    """Returns the status, and what was written on standard output and on standard error."""
    return tuple(ran(words, text, PATIENCE))


def printed(words, text):
    """Returns the status, and the lines that were written."""
    done = ran(words, text.encode(), PATIENCE)
    return done.status, done.wrote.decode(errors="replace").splitlines()


def with_another_score(entry):
    """Returns the line of an exact entry, with bounds that are another number."""
    score = int(entry[65:68])
    other = f"{score - 2 if score > 0 else score + 2:+03d}".encode()
    return entry[:65] + other + b" " + other + entry[72:]


def by_book(program, scoring, lines, wanted):
    """Tells what is wrong with a book that the first boards were added to, if anything: it is verified, and all boards are asked of it."""
    with tempfile.NamedTemporaryFile() as empty, tempfile.NamedTemporaryFile() as book:
        empty.write(f"OBOOK2 {scoring[0].upper()}\nEND 000000\n".encode())
        empty.flush()
        text = text_of(lines[:BOOKED])
        added = ran([program, "book-add", empty.name], text.encode(), PATIENCE, stdout=book)
        if added.status != 0 or added.said:
            return f"book-add: status {added.status}, {added.said[:200]!r}"
        verified = ran([program, "book-verify", book.name], patience=PATIENCE)
        if verified.status != 0 or not verified.wrote.startswith(b"book ok "):
            return f"book-verify: status {verified.status}, {verified.wrote!r}"
        return difference([program, "solve", "--scoring", scoring, "--book", book.name], lines, wanted)


def difference(words, lines, wanted):
    """Returns the first board that the program answers otherwise, or None."""
    text = text_of(lines)
    status, answers = printed(words, text)
    for line, answer, want in zip(lines, answers, wanted, strict=False):
        if answer != want:
            return f"{line}: {answer}, and not {want}"
    if len(answers) != len(lines) or status != 0:
        return f"{len(answers)} answers to {len(lines)} lines, status {status}"
    return None
