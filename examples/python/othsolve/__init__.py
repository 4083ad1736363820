"""Othello's rules, its solver and its texts for Python, by `ctypes` over the shared object that `./install` makes. Nothing else is needed.

    from othsolve import Board

    board = Board.of_line("--OXOOO-OOOOOOOOOOOOOOOOOOOOOOOOOOOOOOOOOOOOOOOOOOOOOOOOOOOOOOOO X")
    answer = board.solve()
    print(answer.score, answer.best)
    for move, score in board.scores().items():
        print(move, score)

This prints

    -50 ('h1',)
    b1 -64
    h1 -50

Squares are names, "a1" to "h8". What is refused is a `Refused`, which is a `ValueError`. The library is the file that the variable
OTHSOLVE_LIBRARY names, or else the `libothsolve.so.0` that the system finds (in /usr/local/lib once `ldconfig` has run, or in a folder of
LD_LIBRARY_PATH). While a call lasts, other threads of Python run. A thread that solves needs 1 MB of stack, which it has unless
`threading.stack_size` asked for less. A process with threads that is forked makes no call in its child: of `multiprocessing` use the start
method "spawn". It needs Python 3.10 or later.
"""
from __future__ import annotations

import contextlib
import ctypes
import enum
import os
import re
import threading
import weakref
from collections import deque
from collections.abc import Callable, Iterable, Iterator
from concurrent.futures import Future, ThreadPoolExecutor
from dataclasses import dataclass, field
from typing import TypeVar

__all__ = [
    "Answer", "Board", "Bounds", "Ended", "Kind", "LIBRARY_VERSION", "MOST_EMPTIES", "Refused", "Scoring", "Side", "Table", "solve_all"
]

__version__ = "0.2.0"

MOST_EMPTIES = 30
"""A board with more empty squares is not solved."""

_BOARD_LINE, _MOVES_LINE, _VERSION_LINE = 66, 191, 64
_WAITING_PER_THREAD = 4
# Up to so many empty squares a call takes some hundredths of a second, and Ctrl-C waits for it.
_SOON_DONE = 14
_NO_LIMIT = (1 << 64) - 1
_Found = TypeVar("_Found")

# The number of each refusal, and what it says, as in othsolve.h.
_WORDS = {
    1: "a square has discs of both sides",
    2: "the number of the square is 64 or more",
    3: "the move is illegal",
    4: "the scoring is neither 0 nor 1",
    5: "more than 30 squares are empty",
    6: "the cells are neither 0 nor one of 1, 2, 4 .. 262144",
    7: "the buffer is too short",
    8: "the mover is neither 0 nor 1",
    11: "a board line has 66 bytes",
    12: "byte `place`, 1 to 64, is none of 'X', 'O' and '-'; it is the leftmost such byte",
    13: "byte 65 is no space",
    14: "byte 66 is neither 'X' nor 'O'",
    21: "the number of bytes is odd",
    22: "pair `place`, counted from 1, is no letter from a to h and a digit from 1 to 8",
    23: "the move of pair `place` is illegal",
    24: "the game is over before pair `place`",
    31: "there is no seat",
    32: "there is a seat already",
    33: "there is no memory for the table or the seat",
}
_CELLS = 6
_NO_SEAT = 31
# What a call answers that was ended.
_STOPPED = 41
# What stands for the place in these words, with what is said of it.
_PLACE = "`place`(, (1 to 64|counted from 1),)?"


class Refused(ValueError):
    """A call was refused: `code` is the number of the refusal in othsolve.h, `place` the byte or the pair that is at fault, or None."""

    def __init__(self, code: int, place: int | None = None) -> None:
        self.code = code
        self.place = place or None
        super().__init__(re.sub(_PLACE, str(self.place), _WORDS.get(code, f"refusal {code}")))

    def __reduce__(self) -> tuple[type[Refused], tuple[int, int | None]]:
        """What `pickle` makes it of again: the number and the place, and not the words."""
        return Refused, (self.code, self.place)


class Ended(Exception):
    """A search was ended by `Table.stop` before it was done: `bounds` is what is known of the board's score."""

    def __init__(self, bounds: Bounds) -> None:
        self.bounds = bounds
        super().__init__(f"the search was ended; the score is {bounds.lower:+d} to {bounds.upper:+d}")

    def __reduce__(self) -> tuple[type[Ended], tuple[Bounds]]:
        return Ended, (self.bounds,)


class Scoring(enum.IntEnum):
    """What a finished game is worth: by WINNER the squares that stay empty go to the winner, by DISCS to nobody."""

    WINNER = 0
    DISCS = 1


class Kind(enum.IntEnum):
    """What the side to move does: it moves, it passes, or the game is over."""

    MOVE = 0
    PASS = 1
    END = 2


class Side(enum.IntEnum):
    """Black is X in a board line, White is O."""

    BLACK = 0
    WHITE = 1

    @property
    def other(self) -> Side:
        return Side(1 - self)


class _Board(ctypes.Structure):
    _fields_ = [("own", ctypes.c_uint64), ("opp", ctypes.c_uint64)]


class _Position(ctypes.Structure):
    _fields_ = [("board", _Board), ("mover", ctypes.c_uint8)]


class _Answer(ctypes.Structure):
    _fields_ = [("best", ctypes.c_uint64), ("score", ctypes.c_int8), ("kind", ctypes.c_uint8)]


class _Scores(ctypes.Structure):
    _fields_ = [("answer", _Answer), ("moves", ctypes.c_uint64), ("scores", ctypes.c_int8 * 64)]

    def by_name(self) -> dict[str, int]:
        return {move: self.scores[_number(move)] for move in _names(self.moves)}


class _Bounds(ctypes.Structure):
    _fields_ = [("lower", ctypes.c_int8), ("upper", ctypes.c_int8)]


class _Known(ctypes.Structure):
    _fields_ = [
        ("bounds", _Bounds),
        ("first", ctypes.c_uint8),
        ("moves", ctypes.c_uint64),
        ("lower", ctypes.c_int8 * 64),
        ("upper", ctypes.c_int8 * 64),
    ]

    def as_bounds(self) -> Bounds:
        moves = {move: (self.lower[_number(move)], self.upper[_number(move)]) for move in _names(self.moves)}
        first = _names(1 << self.first)[0] if self.first < 64 else None
        return Bounds(self.bounds.lower, self.bounds.upper, first, moves)


class _Seat(ctypes.Structure):
    _fields_ = [("at", ctypes.c_void_p)]


def _library() -> ctypes.CDLL:
    """Returns the library, with the types of its calls. `ctypes.CDLL` lets other threads of Python run while a call lasts."""
    try:
        library = ctypes.CDLL(os.environ.get("OTHSOLVE_LIBRARY") or "libothsolve.so.0")
    except OSError as error:
        raise ImportError(f"{error} (./install makes the library; OTHSOLVE_LIBRARY names it where the system doesn't find it)") from error
    words, place, seat = ctypes.POINTER(ctypes.c_uint64), ctypes.POINTER(ctypes.c_uint8), ctypes.POINTER(_Seat)
    calls = {
        "oth_moves": [_Board, words],
        "oth_flips": [_Board, ctypes.c_uint8, words],
        "oth_play": [_Board, ctypes.c_uint8, ctypes.POINTER(_Board)],
        "oth_solve_alone": [_Board, ctypes.c_uint8, ctypes.c_uint32, ctypes.POINTER(_Answer)],
        "oth_scores": [_Board, ctypes.c_uint8, ctypes.c_uint32, ctypes.POINTER(_Scores)],
        "oth_table_new": [ctypes.c_uint32, ctypes.c_uint8, seat],
        "oth_seat_new": [seat, seat],
        "oth_solve_over": [seat, _Board, ctypes.POINTER(_Answer)],
        "oth_solve_until": [seat, _Board, ctypes.c_uint64, ctypes.POINTER(_Answer), ctypes.POINTER(_Known)],
        "oth_null_window": [seat, _Board, ctypes.c_int8, ctypes.POINTER(_Bounds)],
        "oth_scores_over": [seat, _Board, ctypes.POINTER(_Scores)],
        "oth_stop_set": [seat],
        "oth_stop_clear": [seat],
        "oth_seat_free": [seat],
        "oth_read_board": [ctypes.c_char_p, ctypes.c_size_t, ctypes.POINTER(_Position), place],
        "oth_read_transcript": [ctypes.c_char_p, ctypes.c_size_t, ctypes.POINTER(_Position), place],
        "oth_play_game": [_Position, ctypes.c_char_p, ctypes.c_size_t, ctypes.POINTER(_Position), place],
        "oth_print_board": [_Position, ctypes.c_char_p, ctypes.c_size_t],
        "oth_print_moves": [_Board, ctypes.c_char_p, ctypes.c_size_t, ctypes.POINTER(ctypes.c_size_t)],
        "oth_version": [ctypes.c_char_p, ctypes.c_size_t, ctypes.POINTER(ctypes.c_size_t)],
    }
    for name, types in calls.items():
        call = getattr(library, name, None)
        if call is None:
            raise ImportError(f"{library._name} has no {name}: it is older than this module, {__version__}")
        call.argtypes, call.restype = types, None if name == "oth_seat_free" else ctypes.c_uint32
    return library


_LIB = _library()


def _done(code: int, place: int | None = None) -> None:
    if code:
        raise Refused(code, place)


def _heard(call: Callable[[], _Found], end: Callable[[], None] | None = None) -> _Found:
    """Returns what the call does, made in a thread of its own where this is the main thread, which hears Ctrl-C meanwhile.

    Then `end` ends the call; where there is none, it goes on by itself, and nobody waits for it.
    """
    if threading.current_thread() is not threading.main_thread():
        return call()
    found: Future[_Found] = Future()

    def make() -> None:
        try:
            found.set_result(call())
        except BaseException as error:
            found.set_exception(error)

    thread = threading.Thread(target=make, daemon=True)
    thread.start()
    try:
        return found.result()
    except BaseException:
        if end is not None and not found.done():
            end()
            thread.join()
        raise


def _version() -> str:
    """Returns what the library says of its version."""
    line, written = ctypes.create_string_buffer(_VERSION_LINE), ctypes.c_size_t()
    _done(_LIB.oth_version(line, _VERSION_LINE, ctypes.byref(written)))
    return line.raw[: written.value].decode()


LIBRARY_VERSION: str = _version()
"""The version of the library, and the toolchain's logic that its proofs are of: `othsolve --version` prints this behind its name."""


def _cells(cells: int) -> int:
    """Returns a number of cells that the library can be asked for."""
    if not 0 <= cells < 1 << 32:
        raise Refused(_CELLS)
    return cells


def _text(text: str) -> str:
    """Returns the line without the newline behind it."""
    if not isinstance(text, str):
        raise TypeError(f"a line is a str, not {type(text).__name__}")
    return text.removesuffix("\n")


def _names(squares: int) -> tuple[str, ...]:
    """Returns the names of the squares of a word, rising from a1 along the rows."""
    return tuple(f"{'abcdefgh'[square % 8]}{square // 8 + 1}" for square in range(64) if squares >> square & 1)


def _number(square: str) -> int:
    """Returns the number of a square, which is told by its name."""
    if len(square) != 2 or square[0] not in "abcdefgh" or square[1] not in "12345678":
        raise ValueError(f"{square!r} is no square: it is a letter from a to h and a digit from 1 to 8")
    return 8 * (ord(square[1]) - ord("1")) + ord(square[0]) - ord("a")


@dataclass(frozen=True)
class Answer:
    """What a board is worth to its side to move, -64 to 64, where both sides play best; all best moves; and what that side does."""

    score: int
    best: tuple[str, ...]
    kind: Kind

    def __str__(self) -> str:
        """Returns the report line, as `othsolve solve` writes it."""
        return f"{self.score:+d} {' '.join(self.best) or self.kind.name.lower()}"


@dataclass(frozen=True)
class Bounds:
    """What is known of a board's score where its search was ended: it is neither less than `lower` nor more than `upper`.

    `moves` has such a pair for what each legal move gives, and `first` is the move to play, None where there is none: no move is known to give
    more, and of several such moves it is the one that seemed best.
    """

    lower: int
    upper: int
    first: str | None = None
    moves: dict[str, tuple[int, int]] = field(default_factory=dict, repr=False, compare=False)


@dataclass(frozen=True)
class Board:
    """A board as its side to move sees it: `own` has that side's discs and `opp` the other's, bit n for square n.

    Square a1 is 0, h1 is 7, h8 is 63. Any two words of 64 bits that share none are a board, whether or not a game reaches it.
    """

    own: int
    opp: int
    mover: Side = Side.BLACK

    def __post_init__(self) -> None:
        if not (0 <= self.own < 1 << 64 and 0 <= self.opp < 1 << 64):
            raise ValueError("discs are a word of 64 bits")
        if self.own & self.opp:
            raise Refused(1)
        object.__setattr__(self, "mover", Side(self.mover))

    @classmethod
    def start(cls) -> Board:
        """Returns the start of a game."""
        return cls.of_transcript("")

    @classmethod
    def of_line(cls, text: str) -> Board:
        """Returns the board of a board line: 64 cells row by row from a1 (X, O or -), a space, and who moves. A newline may follow."""
        return cls._read(_LIB.oth_read_board, _text(text))

    @classmethod
    def of_transcript(cls, text: str) -> Board:
        """Returns the board that moves lead to from the start of a game, as "f5d6c3". Forced passes are not written, and are put in."""
        return cls._read(_LIB.oth_read_transcript, _text(text))

    @classmethod
    def _read(cls, call, text: str, *given: _Position) -> Board:
        line = text.encode("utf-8", "replace")
        position, place = _Position(), ctypes.c_uint8()
        code = call(*given, line, len(line), ctypes.byref(position), ctypes.byref(place))
        _done(code, place.value)
        return cls(position.board.own, position.board.opp, Side(position.mover))

    @property
    def _words(self) -> _Board:
        return _Board(self.own, self.opp)

    @property
    def _position(self) -> _Position:
        return _Position(self._words, self.mover)

    @property
    def empties(self) -> int:
        """Tells how many squares are empty."""
        return 64 - (self.own | self.opp).bit_count()

    def moves(self) -> tuple[str, ...]:
        """Returns the legal moves, rising. There are none where the side passes or the game is over."""
        moves = ctypes.c_uint64()
        _done(_LIB.oth_moves(self._words, ctypes.byref(moves)))
        return _names(moves.value)

    def kind(self) -> Kind:
        """Tells what the side to move does."""
        if self.moves():
            return Kind.MOVE
        return Kind.PASS if self._passed().moves() else Kind.END

    def flips(self, square: str) -> tuple[str, ...]:
        """Returns the discs that a move to the square flips: none exactly where it is illegal."""
        flips = ctypes.c_uint64()
        _done(_LIB.oth_flips(self._words, _number(square), ctypes.byref(flips)))
        return _names(flips.value)

    def play(self, square: str) -> Board:
        """Returns the board after a move to the square, as the other side sees it. An illegal move is refused."""
        after = _Board()
        _done(_LIB.oth_play(self._words, _number(square), ctypes.byref(after)))
        return Board(after.own, after.opp, self.mover.other)

    def play_game(self, text: str) -> Board:
        """Returns the board that moves lead to from this one, as "f5d6c3". Forced passes, the first one too, are put in and not written."""
        return self._read(_LIB.oth_play_game, _text(text), self._position)

    def pass_turn(self) -> Board:
        """Returns the board after a pass. It is a ValueError where the side has a move, or the game is over."""
        kind = self.kind()
        if kind is not Kind.PASS:
            raise ValueError("the side to move has a move" if kind is Kind.MOVE else "the game is over")
        return self._passed()

    def _passed(self) -> Board:
        return Board(self.opp, self.own, self.mover.other)

    def solve(self, scoring: Scoring = Scoring.WINNER, cells: int = 65_536) -> Answer:
        """Returns the score, all best moves and the kind of a board of at most MOST_EMPTIES empty squares.

        The search makes a table of `cells` cells of 32 bytes, and frees it: 0 for none, or 1, 2, 4 .. 262144. It changes the time alone.
        Ctrl-C ends it. Some tenths of a second at 18 empty squares become five to six times as much with every two more.
        """
        if _SOON_DONE < self.empties <= MOST_EMPTIES and threading.current_thread() is threading.main_thread():
            with Table(cells or 1, scoring) as table:
                return table.solve(self)
        answer = _Answer()
        _done(_LIB.oth_solve_alone(self._words, Scoring(scoring), _cells(cells), ctypes.byref(answer)))
        return Answer(answer.score, _names(answer.best), Kind(answer.kind))

    def scores(self, scoring: Scoring = Scoring.WINNER, cells: int = 65_536) -> dict[str, int]:
        """Returns the score of each legal move, rising: what the board after it is worth to the mover. The best moves have the greatest.

        There are none where the side passes or the game is over. It takes longer than `solve`, and less than a `solve` for each move.
        Ctrl-C is heard at once, but the search goes on unheeded, until it is done or Python ends.
        """
        found, scoring, cells = _Scores(), Scoring(scoring), _cells(cells)

        def score() -> dict[str, int]:
            _done(_LIB.oth_scores(self._words, scoring, cells, ctypes.byref(found)))
            return found.by_name()

        return _heard(score) if self.empties > _SOON_DONE else score()

    def line(self) -> str:
        """Returns the board line."""
        line = ctypes.create_string_buffer(_BOARD_LINE)
        _done(_LIB.oth_print_board(self._position, line, _BOARD_LINE))
        return line.raw.decode()

    def moves_line(self) -> str:
        """Returns the names of the legal moves with a space between them, or "pass", or "end"."""
        line, written = ctypes.create_string_buffer(_MOVES_LINE), ctypes.c_size_t()
        _done(_LIB.oth_print_moves(self._words, line, _MOVES_LINE, ctypes.byref(written)))
        return line.raw[: written.value].decode()

    def __str__(self) -> str:
        """Returns eight rows, X black and O white, below the letters of the columns."""
        cells = self.line()
        rows = (f"{row + 1} {' '.join(cells[8 * row : 8 * row + 8])}" for row in range(8))
        return "\n".join(["  a b c d e f g h", *rows])


class _Seats:
    """The seats of a table: one for each call that is under way, and those that wait for another call."""

    def __init__(self, cells: int, scoring: Scoring) -> None:
        self._lock = threading.Lock()
        self._closed = False
        # Of this one the others are made. No call has it, and it is freed with the table.
        self._first = _Seat()
        self._free: list[_Seat] = []
        _done(_LIB.oth_table_new(_cells(cells), Scoring(scoring), ctypes.byref(self._first)))

    def take(self) -> _Seat:
        """Returns a seat that no other call has. Refused once the table is closed."""
        with self._lock:
            if self._closed:
                raise Refused(_NO_SEAT)
            if self._free:
                return self._free.pop()
            seat = _Seat()
            _done(_LIB.oth_seat_new(ctypes.byref(self._first), ctypes.byref(seat)))
            return seat

    def leave(self, seat: _Seat) -> None:
        """Frees the seat for another call, or for good once the table is closed."""
        with self._lock:
            if self._closed:
                _LIB.oth_seat_free(ctypes.byref(seat))
            else:
                self._free.append(seat)

    def tell(self, call: Callable[[_Seat], int]) -> None:
        """Makes a call of a flag with the first seat, unless the table is closed."""
        with self._lock:
            if not self._closed:
                _done(call(ctypes.byref(self._first)))

    def close(self) -> None:
        """Frees each seat but those of calls that are under way, which are freed as these end; the last one frees the table."""
        with self._lock:
            if not self._closed:
                self._closed = True
                for seat in [self._first, *self._free]:
                    _LIB.oth_seat_free(ctypes.byref(seat))
                self._free.clear()


class Table:
    """A table for many boards and several threads, which find in it what all have stored: an answer is the same, and comes sooner.

        with Table() as table, ThreadPoolExecutor(4) as pool:
            for answer in pool.map(table.solve, boards):
                print(answer)

    `cells` is 1, 2, 4 .. 262144, of 32 bytes each. The table is freed by `close`, or where the `with` ends, or when nothing refers to it any
    more, once no call is under way. `stop`, by any thread, ends the calls of `solve` and `solve_within` that are under way, and those that
    are made before `go_on`. Ctrl-C does so too, while the main thread has a call of them.
    """

    def __init__(self, cells: int = 65_536, scoring: Scoring = Scoring.WINNER) -> None:
        self._seats = _Seats(cells, scoring)
        self._close = weakref.finalize(self, self._seats.close)

    def solve(self, board: Board) -> Answer:
        """Returns the score, all best moves and the kind of a board of at most MOST_EMPTIES empty squares, under the table's scoring.

        It raises Ended where `stop` ended the search.
        """
        found = self.solve_within(board, _NO_LIMIT)
        if isinstance(found, Bounds):
            raise Ended(found)
        return found

    def scores(self, board: Board) -> dict[str, int]:
        """Returns the score of each legal move, rising, under the table's scoring, as `Board.scores`."""
        found = _Scores()

        def score() -> dict[str, int]:
            with self._seat() as seat:
                _done(_LIB.oth_scores_over(seat, board._words, ctypes.byref(found)))
            return found.by_name()

        return _heard(score) if board.empties > _SOON_DONE else score()

    def solve_within(self, board: Board, most: int) -> Answer | Bounds:
        """Solves as `solve` does, but looks up about `most` boards, 0 to 2**64 - 1; if these are too few, returns what is known by then.

        A further call goes on with what the last one found, so it may be asked again until there is no more time, and then there is a move to
        play, `Bounds.first`. `stop` ends it as too small a number does.
        """
        if not 0 <= most <= _NO_LIMIT:
            raise ValueError(f"`most` is {most}, and 0 to 2**64 - 1 can be asked for")
        answer, known = _Answer(), _Known()

        def solve() -> Answer | Bounds:
            with self._seat() as seat:
                code = _LIB.oth_solve_until(seat, board._words, most, ctypes.byref(answer), ctypes.byref(known))
            if code == _STOPPED:
                return known.as_bounds()
            _done(code)
            return Answer(answer.score, _names(answer.best), Kind(answer.kind))

        try:
            return _heard(solve, self.stop) if board.empties > _SOON_DONE else solve()
        except KeyboardInterrupt:
            self.go_on()
            raise

    def is_at_least(self, board: Board, score: int) -> bool:
        """Tells whether the board is worth at least `score` under the table's scoring, sooner than `solve` tells its score.

        Ctrl-C is heard at once, but the search goes on unheeded, until it is done or Python ends.
        """
        alpha, bounds = max(-65, min(64, score - 1)), _Bounds()

        def decide() -> bool:
            with self._seat() as seat:
                _done(_LIB.oth_null_window(seat, board._words, alpha, ctypes.byref(bounds)))
            return bounds.lower > alpha

        return _heard(decide) if board.empties > _SOON_DONE else decide()

    def stop(self) -> None:
        """Ends the searches of `solve` and `solve_within` over the table, in all threads, and those that begin before `go_on`.

        A board where the game is over is answered all the same, and one of up to 10 empty squares whose search is under way.
        """
        self._seats.tell(_LIB.oth_stop_set)

    def go_on(self) -> None:
        """Lets searches over the table go on to their end again that begin from now on."""
        self._seats.tell(_LIB.oth_stop_clear)

    @contextlib.contextmanager
    def _seat(self) -> Iterator[ctypes.pointer]:
        """Lends a seat to one call."""
        seat = self._seats.take()
        try:
            yield ctypes.byref(seat)
        finally:
            self._seats.leave(seat)

    def close(self) -> None:
        """Frees the table, once no call is under way. From now on a call is refused. Closing it again does nothing."""
        self._close()

    def __enter__(self) -> Table:
        return self

    def __exit__(self, *_: object) -> None:
        self.close()


def solve_all(
    boards: Iterable[Board], threads: int | None = None, scoring: Scoring = Scoring.WINNER, cells: int = 65_536
) -> Iterator[Answer]:
    """Yields the answers of many boards in their order, each solved by one of `threads` threads (as many as there are processors if None).

    The threads share a table of `cells` cells, as `Table`. Boards are taken a few ahead of the answers, so an endless iterable is no harm. A
    board that is refused raises its Refused in its turn. Ctrl-C ends all searches, and so does whoever takes no more answers.
    """
    if threads is None:
        threads = len(os.sched_getaffinity(0))
    if threads < 1:
        raise ValueError(f"`threads` is {threads}, and has to be 1 or more")
    waiting: deque[Future[Answer]] = deque()
    with Table(cells or 1, scoring) as table, ThreadPoolExecutor(threads) as pool:
        try:
            for board in boards:
                waiting.append(pool.submit(table.solve, board))
                if len(waiting) >= _WAITING_PER_THREAD * threads:
                    yield waiting.popleft().result()
            while waiting:
                yield waiting.popleft().result()
        finally:
            for future in waiting:
                future.cancel()
            table.stop()
