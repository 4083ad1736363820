"""A small solver to compare with: plain minimax over a list of 64 cells. It shares nothing with the program but the rules.

A board is a list of 64 of the letters X, O and -, row by row from a1, and the letter of the side to move. A value is a pair:
the score where the winner gets the squares that stay empty, and the bare difference of discs.
"""
import random

SQUARES = range(64)
START = list("---------------------------OX------XO---------------------------")


def ray(square, right, down):
    """Returns the squares from a square to the edge, in one direction."""
    column, row = square % 8 + right, square // 8 + down
    squares = []
    while 0 <= column < 8 and 0 <= row < 8:
        squares.append(8 * row + column)
        column, row = column + right, row + down
    return squares


DIRECTIONS = [(right, down) for right in (-1, 0, 1) for down in (-1, 0, 1) if (right, down) != (0, 0)]
RAYS = [[ray(square, *direction) for direction in DIRECTIONS] for square in SQUARES]


def other(side):
    return "O" if side == "X" else "X"


def flips(cells, side, square):
    """Returns the discs that a move of the side to the empty square turns over; none where the move is illegal."""
    turned = []
    for squares in RAYS[square]:
        line = []
        for at in squares:
            if cells[at] == "-":
                break
            if cells[at] == side:
                turned += line
                break
            line.append(at)
    return turned


def moves(cells, side):
    """Returns the legal moves of the side with the discs that each turns over, by rising squares."""
    found = ((square, flips(cells, side, square)) for square in SQUARES if cells[square] == "-")
    return [(square, turned) for square, turned in found if turned]


def final(cells, side):
    """Returns the value of a finished game for the side."""
    mine, theirs = cells.count(side), cells.count(other(side))
    left = 64 - mine - theirs
    difference = mine - theirs
    winner = difference + (left if difference > 0 else -left if difference < 0 else 0)
    return winner, difference


def after(cells, side, square, turned):
    """Returns the cells after the move."""
    child = list(cells)
    for at in (square, *turned):
        child[at] = side
    return child


def awake(cells, side):
    """Returns the board after a pass, where the side has to pass and the other side can move."""
    passes = not moves(cells, side) and moves(cells, other(side))
    return cells, other(side) if passes else side


def value(cells, side):
    """Returns the value of a board for the side to move, by the whole tree of the game."""
    legal = moves(cells, side)
    if legal:
        values = [value(after(cells, side, *move), other(side)) for move in legal]
        return -min(winner for winner, _ in values), -min(discs for _, discs in values)
    if moves(cells, other(side)):
        winner, discs = value(cells, other(side))
        return -winner, -discs
    return final(cells, side)


def name(square):
    return "abcdefgh"[square % 8] + "12345678"[square // 8]


def report(score, best):
    return f"{'-' if score < 0 else '+'}{abs(score)} {best}"


def reports(cells, side):
    """Returns the report lines of a board, by winner and by discs."""
    legal = moves(cells, side)
    if not legal:
        word = "pass" if moves(cells, other(side)) else "end"
        return tuple(report(score, word) for score in value(cells, side))
    values = [(square, value(after(cells, side, square, turned), other(side))) for square, turned in legal]
    lines = []
    for scoring in (0, 1):
        least = min(scores[scoring] for _, scores in values)
        lines.append(report(-least, " ".join(name(square) for square, scores in values if scores[scoring] == least)))
    return tuple(lines)


def scores(cells, side):
    """Returns the scores lines of a board, by winner and by discs: of equal moves that of the lesser square comes first."""
    legal = moves(cells, side)
    if not legal:
        return reports(cells, side)
    values = [(square, value(after(cells, side, square, turned), other(side))) for square, turned in legal]
    ranked = [sorted(values, key=lambda move: move[1][scoring]) for scoring in (0, 1)]
    return tuple(" ".join(report(-found[scoring], name(square)) for square, found in ranked[scoring]) for scoring in (0, 1))


def board_line(cells, side):
    return f"{''.join(cells)} {side}"


def game_board(draw, empties):
    """Returns a board with `empties` empty squares that a game of random moves leads to; a game that ends before is begun anew."""
    while True:
        cells, side = list(START), "X"
        while cells.count("-") > empties:
            legal = moves(cells, side)
            if legal:
                cells = after(cells, side, *draw.choice(legal))
            elif not moves(cells, other(side)):
                break
            side = other(side)
        else:
            return cells, side


def scattered_board(draw, empties):
    """Returns a board with `empties` empty squares and discs thrown on the others."""
    cells = [draw.choice("XO") for _ in SQUARES]
    for square in draw.sample(SQUARES, empties):
        cells[square] = "-"
    return cells, draw.choice("XO")


def boards(seed, count, most_empties):
    """Returns `count` boards of 0, 1, .. empty squares in turn, met by games and scattered in turn."""
    draw = random.Random(seed)
    kinds = (game_board, scattered_board)
    return [kinds[at % 2](draw, at // 2 % (most_empties + 1)) for at in range(count)]
