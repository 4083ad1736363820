#!/usr/bin/env python3
"""Tells what each move of a game's end lost.

    examples/python/analyse.py [--empties N] [--threads N] < examples/games.txt

Each line of standard input is a game, as "f5d6c3..", in small letters or capitals, also with spaces between the moves. Of each move from N empty
squares on (12 if not told, at most 30) a line has the empty squares, who moved (X is Black) and where, what the move is worth to that side, and,
where it lost something, how much and what was best. A pass has no line. The last line of a game is what each side lost, or, where a move has a
fault, what is wrong with it: the moves before it are analysed.
"""
from __future__ import annotations

import argparse
import os
import sys
from collections.abc import Iterator
from dataclasses import dataclass

from othsolve import MOST_EMPTIES, Answer, Board, Refused, Side, solve_all


@dataclass(frozen=True)
class Ply:
    """A move of a game, and the boards before and after it."""

    before: Board
    move: str
    after: Board


def plies(game: str, empties: int) -> Iterator[Ply]:
    """Yields the moves of a game from `empties` empty squares on."""
    board = Board.start()
    for at in range(0, len(game), 2):
        move = game[at : at + 2]
        if board.empties <= empties:
            yield Ply(board, move, board.play(move))
        board = board.play_game(move)


def ply_line(ply: Ply, best: Answer, worth: int) -> str:
    """Returns the line of a move that is worth `worth` to its side."""
    told = f"{ply.before.empties:2} {letter(ply.before.mover)} {ply.move} {worth:+d}"
    lost = best.score - worth
    return f"{told}, lost {lost}: {best}" if lost else told


def letter(side: Side) -> str:
    """The side as a board line has it."""
    return "X" if side is Side.BLACK else "O"


def until_fault(game: str) -> tuple[str, Refused | None]:
    """Returns the moves before the first one with a fault, and that fault; all of them where there is none."""
    try:
        Board.of_transcript(game)
    except Refused as refused:
        return game[: 2 * (refused.place - 1)] if refused.place else "", refused
    return game, None


def analysis(line: str, empties: int, threads: int | None) -> Iterator[str]:
    """Yields the lines of a game."""
    game, fault = until_fault("".join(line.split()).lower())
    moves = list(plies(game, empties))
    answers = solve_all([board for ply in moves for board in (ply.before, ply.after)], threads)
    lost = {Side.BLACK: 0, Side.WHITE: 0}
    for ply, best, reply in zip(moves, answers, answers, strict=False):
        lost[ply.before.mover] += best.score + reply.score
        yield ply_line(ply, best, -reply.score)
    yield f"refused: {fault}" if fault else f"X lost {lost[Side.BLACK]}, O lost {lost[Side.WHITE]}"


def at_least_one(word: str) -> int:
    """Returns the number of a word that is 1 or more."""
    number = int(word)
    if number < 1:
        raise argparse.ArgumentTypeError(f"{number} is less than 1")
    return number


def main() -> int:
    """Reads games from standard input; returns 1 where one of them had a fault."""
    words = argparse.ArgumentParser(description=__doc__, formatter_class=argparse.RawDescriptionHelpFormatter)
    squares = range(1, MOST_EMPTIES + 1)
    words.add_argument("--empties", type=int, default=12, choices=squares, metavar="N", help="from N empty squares on (12)")
    words.add_argument("--threads", type=at_least_one, default=None, metavar="N", help="by N threads (as many as there are processors)")
    given = words.parse_args()
    status = 0
    for number, line in enumerate(sys.stdin, 1):
        print(f"game {number}")
        for told in analysis(line, given.empties, given.threads):
            print(told, flush=True)
            status = 1 if told.startswith("refused: ") else status
    return status


if __name__ == "__main__":
    try:
        sys.exit(main())
    except BrokenPipeError:
        # Nobody reads on, as with `head`. What is still to be written goes nowhere.
        os.dup2(os.open(os.devnull, os.O_WRONLY), sys.stdout.fileno())
        sys.exit(1)
    except KeyboardInterrupt:
        sys.exit(130)
