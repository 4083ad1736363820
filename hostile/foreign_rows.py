"""Has what is turned by examples/to_lines.py, written by hand: words, bytes, and what has to become of them."""
import struct

START = "---------------------------OX------XO---------------------------"
ROWS = [START[at : at + 8] for at in range(0, 64, 8)]
GGF = f"BO[8 {' '.join(ROWS).replace('X', '*')} *]"
TEN = "----------"
DIGITS = START.translate(str.maketrans("XO-", "120"))


def diagram(rows, *behind):
    """Returns rows as lines, and further lines behind them."""
    return "".join(f"{line}\n" for line in (*rows, *behind))


def head(count, size=8, solitaires=0):
    """Returns the first 16 bytes of a file of WTHOR: its day, two counts, its year, the size of the board, whether it has solitaires."""
    return struct.pack("<4BIHH4B", 20, 26, 12, 1, count, 0, 2026, size, solitaires, 24, 0)


def game(*moves):
    """Returns a game of WTHOR: three names, two scores, sixty moves."""
    return struct.pack("<3H2B60s", 1, 2, 3, 33, 31, bytes(moves))


# The format, with its options; what is given; what has to be written, `?` for what can't be turned; and what has to be said of that.
TURNED = [
    ("windows", "a\r\n\r\nb\r\r\nc", "a\n\nb\nc\n", ""),
    ("windows", "", "", ""),
    ("windows", b"\xef\xbb\xbfa\n\xef\xbb\xbfb\n\xe4\0\n", b"a\nb\n\xe4\0\n", ""),
    ("windows", b"\xff\xfea\0\r\0\n\0b\0", "a\nb\n", ""),
    ("games", "F5 d6,C3;\td3. c4 \r\n", "f5d6c3d3c4\n", ""),
    ("games", "1.f5 2.d6 3) c3 10. d3 33-31\n\n", "f5d6c3d3\n\n", ""),
    ("games", "f5-d6-c3 PASS pa Ps -- c4", "f5d6c3c4\n", ""),
    ("games", "f5\nf5 i9\nf5 resigns\nd6\n", "f5\n?\n?\nd6\n", "line 2: character 4, 'i', begins no move|line 3: character 4, 'r', b"),
    ("games", "f5d66c3\n1f5\nf\n", "?\n?\n?\n", "line 1: character 5, '6'|line 2: character 1, '1'|line 3: character 1, 'f'"),
    ("games", "f5 \xe9\nf5 \u0130\n", "?\n?\n", "line 1: character 4, '\xe9', b|line 2: character 4, '\u0130', b"),
    ("obf", f"% X\n\n {START} X;\n{START}*\n{START} o % O\n", f"{START} X\n{START} X\n{START} O\n", ""),
    ("obf", f"{START} White\n{START} black;\n", f"{START} O\n{START} X\n", ""),
    ("obf", f"{DIGITS} 2\n{START.lower().replace('-', '.')} x", f"{START} O\n{START} X\n", ""),
    ("obf", f"{START[1:]} X\n{START} X\n", f"?\n{START} X\n", "line 1: a board has 64 cells, and it begins with 63"),
    ("obf", f"{START}-- X\n{START}\n", "?\n?\n", "line 1: a board has 64 cells, and it begins with 66|line 2: behind its 64 cells"),
    ("obf", f"{START} ?\n{START} -\n{START} XO\n{START} Xd3\n", "?\n" * 4, "|".join(f"line {line}: behind its 64" for line in range(1, 5))),
    ("obf", "f5d6\n", "?\n", "line 1: a board has 64 cells, and it begins with 0"),
    ("diagram", diagram(ROWS, "* to move"), f"{START} X\n", ""),
    ("diagram", diagram(["White to move", *ROWS, TEN + TEN, "Black to play", *ROWS]), f"{START} O\n{START} X\n", ""),
    ("diagram", diagram([*ROWS, "", "to move: o", *ROWS, "", "Turn: Black"]), f"{START} O\n{START} X\n", ""),
    ("diagram --side O", diagram([*ROWS, *ROWS, "X to move"]), f"{START} O\n{START} O\n", ""),
    ("diagram", diagram(["X to move", *ROWS, *ROWS, "O to move", *ROWS]), f"{START} X\n?\n{START} O\n", "line 10: who moves isn't told"),
    ("diagram", diagram([*ROWS, "X to move", *ROWS, "", *ROWS, "O to move"]), f"{START} X\n?\n{START} O\n", "line 10: who moves"),
    ("diagram", diagram(["X to move", "O to move", *ROWS]), "?\n", "line 3: both sides are told to move"),
    ("diagram", diagram(["X to move", *ROWS[:7], "", *ROWS, "O to move"]), "?\n?\n", "line 2: a board has eight rows, and it has 7|line 1"),
    ("diagram --side X", diagram([*ROWS[:3], f"{ROWS[3]}O", *ROWS[4:], *ROWS]), f"?\n{START} X\n", "line 1: its row 4 has 9 cells"),
    ("diagram", diagram([*ROWS, "X to move", *ROWS[:3]]), f"{START} X\n?\n", "line 10: a board has eight rows, and it has 3"),
    ("diagram --side X", diagram([*ROWS[:3], f"{ROWS[3]}O: 9", *ROWS[4:]]), "?\n?\n", "line 1: a board has eight rows|line 5"),
    ("diagram --side X", diagram(f"{8 - at} {row}" for at, row in enumerate(ROWS)), "?\n", "line 1: its row 1 has the number 8"),
    ("diagram --side X", diagram(" ".join("-O" * 5) for _ in range(8)), "?\n", "line 1: its row 1 has 10 cells"),
    ("diagram --side X", diagram("1 2 0 1 2 0 1 2 0 1".split("\n") * 8), "?\n", "line 1: its row 1 has 10 cells"),
    ("diagram", "no board, and O to move\n", "", ": no diagram stands there"),
    ("diagram", "", "", ": no diagram stands there"),
    ("ggf", f"2 (;GM[Othello]{GGF}B[f5//1.5]W[D6/2]B[];)(;{GGF};) 3\n", f"{START} X f5d6\n{START} X \n", ""),
    ("ggf", f"(;GM[Othello]PB[a\\]]C[(;) ;) B\\[a1\\]\\\n]{GGF}KB[a1/1]B[f5];W[pass])", f"{START} X f5\n", ""),
    ("ggf", f"(;GM[Othello]BO[10 {TEN * 10} *]B[e5];)\n(;{GGF}B[f5];)\n", f"?\n{START} X f5\n", "line 1: its board is not one of 8 by 8"),
    ("ggf", f"(;{GGF.replace('8', '6')};)", "?\n", "line 1: its board is not one of 8 by 8"),
    ("ggf", f"(;GM[Othello]B[f5];)\n(;{GGF}{GGF};)\n", "?\n?\n", "line 1: it has 0 boards to begin with|line 2: it has 2 boards"),
    ("ggf", f"(;{GGF}B[f9];)\n(;{GGF}B[resign];)\n", "?\n?\n", "line 1: 'f9' is no move|line 2: 'resign' is no move"),
    ("ggf", f"(;{GGF}B[f5]\n(;{GGF}B[f5\n(;{GGF}B[d3];)", f"?\n?\n{START} X d3\n", "line 1: the game that begins here|line 2"),
    ("ggf", f"(;{GGF}B f5];)\n\n(;{GGF}W[d3];)\n{GGF};)", f"?\n{START} X d3\n?\n", "line 1: the game|line 3: behind this a game has"),
    ("ggf", "f5d6\n", "", ": no game stands there"),
    ("ggf", "", "", ""),
    ("wthor", head(0), "", ""),
    ("wthor", head(2, size=0) + game(56, 64, 33) + game(), "f5d6c3\n\n", ""),
    ("wthor", head(3) + game(56) + game(56, 99) + game(56, 0, 64), "f5\n?\n?\n", "game 2: its move 2 has the number 99|game 3: its move 2"),
    ("wthor", head(2) + game(56), "f5\n", ": its head counts 2 games, and it has 1"),
    ("wthor", head(1) + game(56) + game(64), "f5\nd6\n", ": its head counts 1 games, and it has 2"),
    ("wthor", head(2) + game(56) + game(64)[:67], "f5\n?\n", "game 2: it is cut off after 67 of 68 bytes"),
    ("wthor", head(1, size=10) + game(56), "", ": its games are on a board of 10 by 10"),
    ("wthor", head(1, solitaires=1) + game(56), "", ": its games are solitaires"),
    ("wthor", head(1)[:15], "", ": it ends within its head of 16 bytes"),
    ("wthor", b"", "", ": it ends within its head of 16 bytes"),
]
