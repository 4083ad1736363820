#!/usr/bin/env python3
"""Turns boards and games of other formats into lines for othsolve.

    examples/to_lines.py FORMAT [--side X|O] [FILE]..    where FORMAT is

    windows    any lines, in UTF-16 too: takes carriage returns and byte-order marks away
    games      a transcript a line, with capitals, spaces, move numbers or passes    for transcript and analyse
    obf        a board a line, as OBF and Edax text have it                          for solve, scores, moves and play
    diagram    boards of eight rows, with a frame or without                         for solve, scores, moves and play
    ggf        games in GGF                                                          for play and analyse
    wthor      a file of games of the WTHOR database                                 for transcript and analyse

It reads the files one after the other, `-` and no file being standard input. Each board or game becomes one line. One that can't be
turned becomes the line `?`, which each command answers by `error 1`; standard error says where it stands and why, and the rest goes on.
What stands around them is passed over: comments of OBF, fields, frames, names and times. Passes are left out, since othsolve puts in those
that a position forces (that one was not forced is not seen); it also tells whether the moves are legal.

A diagram says who moves by `* to move`, `Black to move` or `to move: X`: in one file all in front of their last row, or all behind it.
With --side no diagram is asked. The status is 0, 1 where a file can't be read or nobody reads what is written, 2 where the command line has
a fault, 4 where something couldn't be turned.
"""
from __future__ import annotations

import argparse
import codecs
import io
import os
import re
import struct
import sys
from collections.abc import Callable, Iterable, Iterator
from dataclasses import dataclass
from typing import BinaryIO

UNTURNED, DONE, NOT_DONE, NOT_ALL_TURNED = "?", 0, 1, 4
CELLS = r"\-_.*xXoObBwW"
CELL, DISC = f"[{CELLS}]", "[*xXoObBwW]"
TO_CELL = str.maketrans("*xbB1owW2._0", "XXXXXOOOO---")


class Unturned(Exception):
    """Why a board, a game or a file can't be turned; of those that are yielded, also where they stand."""


Records = Iterator["str | Unturned"]


def by_line(turn: Callable[[str], str | None], lines: Iterable[str]) -> Records:
    """Turns all lines by a function that turns a line, or passes it over by None."""
    for number, line in enumerate(lines, 1):
        try:
            record = turn(line)
            if record is not None:
                yield record
        except Unturned as why:
            yield Unturned(f"line {number}: {why}")


# Moves, and what may stand between them: passes, numbers that touch no move, signs.
MOVES = re.compile(r"(?:[a-h][1-8]|pass|pa|ps|(?<![a-z\d])\d{1,2}(?![a-z\d])|[-\s.,:;)])*")


def transcript(line: str) -> str:
    """Returns the moves of a line."""
    end = MOVES.match(line.lower()).end()
    if end < len(line):
        raise Unturned(f"character {end + 1}, {line[end]!r}, begins no move")
    return "".join(re.findall("[a-h][1-8]", line.lower()))


OBF = re.compile(rf"((?:{CELL}|[012]){{64}})\s*({DISC}|[12]|[Bb]lack|[Ww]hite)(?![^\s;%])")


def board_of_obf(line: str) -> str | None:
    """Returns the board of a line of OBF, or of 64 cells and who moves; None for an empty line and a comment."""
    text = line.strip()
    if not text or text.startswith("%"):
        return None
    found = OBF.match(text)
    if found:
        return f"{found[1]} {found[2][0]}".translate(TO_CELL)
    count = re.match(rf"(?:{CELL}|[012])*", text).end()
    raise Unturned("behind its 64 cells no side to move stands" if count == 64 else f"a board has 64 cells, and it begins with {count}")


# Eight cells, whose row may be numbered on both sides, and behind them nothing, or what can't be a further cell.
REMARK = rf"(?:{DISC}(?: to |:).*|(?:Black|White)\b.*|[^\s{CELLS}].*)"
EIGHT = rf"(?P<cells>(?:{CELL}[\s|]*){{8}})"
ROW = re.compile(rf"[\s|]*(?:(?P<number>[1-8])[\s|]*)?{EIGHT}(?:[1-8]\s*)?(?:(?<=[\s|\d])(?P<remark>{REMARK}))?$")
# Cells of any number, or digits for them. And what stands between the rows of some frames.
ROW_OF_CELLS = re.compile(rf"[\s|]*(?:\d{{1,2}}[\s|]+)?(?P<cells>(?:{CELL}[\s|]*){{4,}})(?:\d{{1,2}})?$")
ROW_OF_DIGITS = re.compile(r"[\s|]*(?P<cells>(?:[012][\s|]*){6,})$")
FRAME = re.compile(r"\s*[+|=_.-][\s+|=_.-]*$")
SIDES = r"([*xXoO]|[Bb]lack|[Ww]hite)(?!\w)"
MOVER = re.compile(rf"(?<!\w){SIDES} +to +(?:move|play)|(?:[Tt]o +(?:move|play)|[Mm]over|[Tt]urn) *[:=] *{SIDES}")


@dataclass
class Diagram:
    """A diagram: the line where it begins, its rows, the sides that texts behind its rows tell to move, and what is wrong, if anything."""

    first: int
    rows: list[str]
    told: set[str]
    fault: str = ""

    def add(self, row: re.Match[str]) -> None:
        """Adds a row."""
        told, cells = row.groupdict(), re.sub(r"[\s|]", "", row["cells"])
        self.rows.append(cells.translate(TO_CELL))
        self.told.update(sides_of(told.get("remark") or ""))
        if len(cells) != 8:
            self.fault = self.fault or f"its row {len(self.rows)} has {len(cells)} cells"
        elif int(told.get("number") or len(self.rows)) != len(self.rows):
            self.fault = self.fault or f"its row {len(self.rows)} has the number {told['number']}"

    def board(self, movers: set[str]) -> str:
        """Returns the board, of which these sides are told to move."""
        if self.fault or len(self.rows) < 8:
            raise Unturned(self.fault or f"a board has eight rows, and it has {len(self.rows)}")
        if len(movers) != 1:
            raise Unturned("both sides are told to move" if movers else "who moves isn't told (--side tells it for all)")
        return f"{''.join(self.rows)} {''.join(movers)}"


def sides_of(text: str) -> list[str]:
    """Returns the side that moves, if the text tells it."""
    found = MOVER.search(text)
    return [(found[1] or found[2])[0].translate(TO_CELL)] if found else []


def diagrams_and_sides(lines: Iterable[str]) -> Iterator[Diagram | str]:
    """Yields the diagrams of a file, whole or not, and the sides that are told between them."""
    diagram = None
    for number, line in enumerate(map(str.rstrip, lines), 1):
        row = ROW.match(line)
        if not row and FRAME.match(line):
            continue
        row = row or ROW_OF_CELLS.match(line) or ROW_OF_DIGITS.match(line)
        if row:
            diagram = diagram or Diagram(number, [], set())
            diagram.add(row)
        if diagram and (not row or len(diagram.rows) == 8):
            yield diagram
            diagram = None
        if not row:
            yield from sides_of(line)
    if diagram:
        yield diagram


def boards_of_diagrams(lines: Iterable[str], side: str | None = None) -> Records:
    """Turns diagrams. What tells the sides between them stands behind its diagram, if the first one has none before its end."""
    parts = list(diagrams_and_sides(lines))
    step = 1 if parts and isinstance(parts[0], Diagram) and not parts[0].told else -1
    for at, diagram in enumerate(parts):
        if isinstance(diagram, str):
            continue
        movers, beside = set(diagram.told), at + step
        while 0 <= beside < len(parts) and isinstance(parts[beside], str):
            movers.add(parts[beside])
            beside += step
        try:
            yield diagram.board({side} if side else movers)
        except Unturned as why:
            yield Unturned(f"line {diagram.first}: {why}")
    if all(isinstance(part, str) for part in parts):
        raise Unturned("no diagram stands there")


GAME = re.compile(r"(?=\(\s*;\s*[A-Za-z]+\s*\[)")
PROPERTY = re.compile(r"[\s;]*([A-Za-z]+)\s*\[([^\]\\]*(?:\\.[^\]\\]*)*)\]", re.DOTALL)
END = re.compile(r"[\s;]*\)")
BOARD_OF_GGF = re.compile(rf"8({CELL}{{64}})({DISC})")
MOVE_OF_GGF = re.compile(r"\s*(?:([a-h][1-8])|pa|pass|ps|--|)\s*(?:/|$)")


def move_of_ggf(value: str) -> str:
    """Returns the move that a value names in front of its evaluation and time; nothing for a pass."""
    found = MOVE_OF_GGF.match(value.lower())
    if not found:
        raise Unturned(f"{value!r} is no move")
    return found[1] or ""


def game_of_ggf(properties: Iterable[tuple[str, str]]) -> str:
    """Returns the board and the moves of a game, for play."""
    boards = ["".join(value.split()) for name, value in properties if name == "BO"]
    moves = [move_of_ggf(value) for name, value in properties if name in ("B", "W")]
    if len(boards) != 1:
        raise Unturned(f"it has {len(boards)} boards to begin with")
    found = BOARD_OF_GGF.fullmatch(boards[0])
    if not found:
        raise Unturned("its board is not one of 8 by 8 with a side to move")
    return f"{found[1]} {found[2]} ".translate(TO_CELL) + "".join(moves)


def properties_of(text: str) -> tuple[list[tuple[str, str]], str]:
    """Returns the properties of the game with which a text begins, and what stands behind it."""
    properties, at = [], text.index(";")
    while found := PROPERTY.match(text, at):
        properties.append((found[1], found[2]))
        at = found.end()
    end = END.match(text, at)
    if not end:
        raise Unturned(f"the game that begins here breaks off behind {len(properties)} properties")
    return properties, text[end.end() :]


def games_of_ggf(lines: Iterable[str]) -> Records:
    """Turns games in GGF, one or several on a line, or on several lines. What stands between them has no board."""
    line, parts = 1, GAME.split("\n".join(lines))
    for number, part in enumerate(parts):
        rest = "" if number else part
        try:
            if number:
                properties, rest = properties_of(part)
                yield game_of_ggf(properties)
        except Unturned as why:
            yield Unturned(f"line {line}: {why}")
        if "BO[" in rest:
            yield Unturned(f"line {line}: behind this a game has no beginning")
        line += part.count("\n")
    if len(parts) == 1 and parts[0].strip():
        raise Unturned("no game stands there")


HEAD, GAME_LEN, NAMES_LEN = struct.Struct("<4xI4xBB2x"), 68, 8
SQUARES = {10 * row + column: f"{'abcdefgh'[column - 1]}{row}" for row in range(1, 9) for column in range(1, 9)}


def game_of_wthor(game: bytes) -> str:
    """Returns the moves of a game, of which those behind its end are 0."""
    if len(game) < GAME_LEN:
        raise Unturned(f"it is cut off after {len(game)} of {GAME_LEN} bytes")
    moves = game[NAMES_LEN:].rstrip(b"\0")
    for at, byte in enumerate(moves, 1):
        if byte not in SQUARES:
            raise Unturned(f"its move {at} has the number {byte}, which is no square")
    return "".join(SQUARES[byte] for byte in moves)


def games_of_wthor(file: bytes) -> Records:
    """Turns the games of a WTHOR file, behind a head that has their number and the size of the board."""
    if len(file) < HEAD.size:
        raise Unturned(f"it ends within its head of {HEAD.size} bytes")
    count, size, has_solitaires = HEAD.unpack(file[: HEAD.size])
    if size not in (0, 8) or has_solitaires:
        raise Unturned("its games are solitaires" if has_solitaires else f"its games are on a board of {size} by {size}")
    games = [file[at : at + GAME_LEN] for at in range(HEAD.size, len(file), GAME_LEN)]
    for number, game in enumerate(games, 1):
        try:
            yield game_of_wthor(game)
        except Unturned as why:
            yield Unturned(f"game {number}: {why}")
    if count != len(games):
        raise Unturned(f"its head counts {count} games, and it has {len(games)}")


OF_A_LINE = {"windows": str, "games": transcript, "obf": board_of_obf}
FORMATS = [*OF_A_LINE, "diagram", "ggf", "wthor"]


def lines_of(file: BinaryIO) -> Iterator[str]:
    """Yields the lines of a file, in UTF-16 where that begins with its mark, without what ends them."""
    is_wide = file.peek(2)[:2] in (codecs.BOM_UTF16_LE, codecs.BOM_UTF16_BE)
    for line in io.TextIOWrapper(file, *("utf-16", "replace") if is_wide else ("utf-8", "surrogateescape"), newline="\n"):
        yield line.lstrip("\ufeff").rstrip("\r\n")


def records_of(file: BinaryIO, given: argparse.Namespace) -> Records:
    """Turns a file."""
    if given.format == "wthor":
        return games_of_wthor(file.read())
    if given.format == "diagram":
        return boards_of_diagrams(lines_of(file), given.side)
    return games_of_ggf(lines_of(file)) if given.format == "ggf" else by_line(OF_A_LINE[given.format], lines_of(file))


def write_file(name: str, given: argparse.Namespace) -> int:
    """Writes what a file is turned into; returns the status."""
    status = DONE
    try:
        with open(0 if name == "-" else name, "rb", closefd=name != "-") as file:
            for record in records_of(file, given):
                if isinstance(record, Unturned):
                    status = NOT_ALL_TURNED
                    print(f"{name}, {record}", file=sys.stderr)
                print(UNTURNED if isinstance(record, Unturned) else record)
            sys.stdout.flush()
    except Unturned as why:
        print(f"{name}: {why}", file=sys.stderr)
        return NOT_ALL_TURNED
    return status


def words() -> argparse.Namespace:
    """Reads the command line."""
    parser = argparse.ArgumentParser(description=__doc__, formatter_class=argparse.RawDescriptionHelpFormatter)
    parser.add_argument("format", metavar="FORMAT", choices=FORMATS, help="what is read")
    parser.add_argument("--side", choices=["X", "O"], help="who moves in each diagram: X is Black, O White")
    parser.add_argument("files", metavar="FILE", nargs="*", help="a file that is read (standard input)")
    given = parser.parse_intermixed_args()
    return given if given.format == "diagram" or not given.side else parser.error("--side is for diagrams alone")


def main() -> int:
    """Turns each file; one that can't be read doesn't hold up the others."""
    given, statuses = words(), {DONE}
    sys.stdout.reconfigure(encoding="utf-8", errors="surrogateescape")
    for name in given.files or ["-"]:
        try:
            statuses.add(write_file(name, given))
        except BrokenPipeError:
            raise
        except OSError as error:
            print(f"{error.filename or f'{name}, or standard output'}: {error.strerror}", file=sys.stderr)
            statuses.add(NOT_DONE)
    return NOT_DONE if NOT_DONE in statuses else max(statuses)


if __name__ == "__main__":
    try:
        sys.exit(main())
    except BrokenPipeError:
        # Nobody reads on, as with `head`. What is still to be written goes nowhere.
        os.dup2(os.open(os.devnull, os.O_WRONLY), sys.stdout.fileno())
        sys.exit(NOT_DONE)
    except KeyboardInterrupt:
        sys.exit(130)
