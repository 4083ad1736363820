#!/usr/bin/env python3
"""Makes the tables and the plot of the measured figures in bench/figures.txt.

    bench/plot.py            writes docs/speed.svg, and the tables between the marks `<!-- figures -->`, `<!-- ratios -->` and their ends
                             of README.md and docs/SPEED.md
    bench/plot.py --check    writes nothing, and ends with status 1 and a line where one of them is another

It needs no packages. The plot has seconds upwards, each line ten times the one below, and empty squares to the right.
"""
import argparse
import math
import pathlib
import sys

ROOT = pathlib.Path(__file__).resolve().parent.parent
FIGURES = ROOT / "bench/figures.txt"
PLOT = ROOT / "docs/speed.svg"
TEXTS = (ROOT / "README.md", ROOT / "docs/SPEED.md")
ONE_WORKER = "1 worker"

WIDTH, HEIGHT = 830, 460
LEFT, RIGHT, TOP, BOTTOM = 80, 590, 50, 400
COLOURS = ("#888888", "#0072b2", "#009e73", "#d55e00", "#cc79a7", "#7a5195", "#000000", "#e69f00")
DASHES = ("5 4", "", "", "", "2 3", "8 3 2 3", "", "5 2")


def read_figures():
    """Returns the columns and the rows, each a list of texts."""
    rows = [line for line in FIGURES.read_text(encoding="utf-8").split("\n") if line.strip() and not line.startswith("#")]
    columns, *rows = [[cell.strip() for cell in row.split(";")] for row in rows]
    for row in rows:
        assert len(row) == len(columns), row
    return columns, rows


def table(rows):
    """Returns the rows as a table of a document, the first one its head."""
    shown = [rows[0], ["---"] * len(rows[0])] + rows[1:]
    return "".join("|" + "|".join(f" {cell} " if cell else " " for cell in row) + "|\n" for row in shown)


def figures(columns, rows):
    return table([columns] + [[cell if cell != "-" else "" for cell in row] for row in rows])


def ratios(columns, rows):
    """Returns a table of how many times as fast each number of workers was as one."""
    one = columns.index(ONE_WORKER)
    chosen = [i for i, column in enumerate(columns) if column.endswith(" workers")]

    def ratio(row, i):
        return "" if "-" in (row[one], row[i]) else f"{float(row[one]) / float(row[i]):.1f}"

    shown = [[row[0]] + [ratio(row, i) for i in chosen] for row in rows]
    return table([[columns[0]] + [columns[i] for i in chosen]] + [row for row in shown if any(row[1:])])


def with_table(text, mark, new):
    """Returns the text with this table between the marks, where it has them."""
    begin, end = f"<!-- {mark} -->\n", f"<!-- end of {mark} -->\n"
    if begin not in text:
        return text
    head, rest = text.split(begin, 1)
    return head + begin + "\n" + new + "\n" + end + rest.split(end, 1)[1]


def plot(columns, rows):
    """Returns the figures as a drawing."""
    empties = [int(row[0]) for row in rows]
    series = [[(int(row[0]), float(row[i])) for row in rows if row[i] != "-"] for i in range(1, len(columns))]
    seconds = [value for points in series for _, value in points]
    low, high = math.floor(math.log10(min(seconds))), math.ceil(math.log10(max(seconds)))

    def across(squares):
        return LEFT + (RIGHT - LEFT) * (squares - min(empties)) / (max(empties) - min(empties))

    def down(value):
        return BOTTOM - (BOTTOM - TOP) * (math.log10(value) - low) / (high - low)

    def text(x, y, words, more=""):
        return f'<text x="{x:.1f}" y="{y:.1f}"{more}>{words}</text>'

    parts = [
        f'<svg xmlns="http://www.w3.org/2000/svg" viewBox="0 0 {WIDTH} {HEIGHT}" font-family="sans-serif" font-size="13">',
        "<title>Seconds for ten boards against empty squares</title>",
        f'<rect width="{WIDTH}" height="{HEIGHT}" fill="#ffffff"/>',
        text(LEFT, 26, "Wall-clock seconds for ten boards", ' font-size="15"'),
        text((LEFT + RIGHT) / 2, BOTTOM + 44, "empty squares", ' text-anchor="middle"'),
    ]
    for power in range(low, high + 1):
        y = down(10.0 ** power)
        parts.append(f'<line x1="{LEFT}" y1="{y:.1f}" x2="{RIGHT}" y2="{y:.1f}" stroke="#dddddd"/>')
        parts.append(text(LEFT - 10, y + 4, f"{10.0 ** power:g} s", ' text-anchor="end"'))
    for squares in empties:
        parts.append(text(across(squares), BOTTOM + 20, squares, ' text-anchor="middle"'))
    parts.append(f'<path d="M{LEFT} {TOP}V{BOTTOM}H{RIGHT}" fill="none" stroke="#444444"/>')
    for number, points in enumerate(series):
        colour, dash = COLOURS[number % len(COLOURS)], DASHES[number % len(DASHES)]
        style = f'stroke="{colour}" stroke-width="2" fill="none"' + (f' stroke-dasharray="{dash}"' if dash else "")
        parts.append(f'<polyline points="{" ".join(f"{across(x):.1f},{down(y):.1f}" for x, y in points)}" {style}/>')
        parts += [f'<circle cx="{across(x):.1f}" cy="{down(y):.1f}" r="3.5" fill="{colour}"/>' for x, y in points]
        y = TOP + 20 + 24 * number
        parts.append(f'<line x1="{RIGHT + 20}" y1="{y - 4}" x2="{RIGHT + 50}" y2="{y - 4}" {style}/>')
        parts.append(text(RIGHT + 58, y, columns[number + 1]))
    return "\n".join(parts + ["</svg>", ""])


def main():
    parser = argparse.ArgumentParser(description=__doc__, formatter_class=argparse.RawDescriptionHelpFormatter)
    parser.add_argument("--check", action="store_true", help="write nothing, and test that all is made of the figures")
    given = parser.parse_args()
    columns, rows = read_figures()
    wanted = {PLOT: plot(columns, rows)}
    for path in TEXTS:
        text = with_table(path.read_text(encoding="utf-8"), "figures", figures(columns, rows))
        wanted[path] = with_table(text, "ratios", ratios(columns, rows))
    stale = [path for path, text in wanted.items() if not path.exists() or path.read_text(encoding="utf-8") != text]
    if given.check:
        if stale:
            print("not made of bench/figures.txt: " + ", ".join(str(path.relative_to(ROOT)) for path in stale))
        return 1 if stale else 0
    for path in stale:
        path.write_text(wanted[path], encoding="utf-8")
    return 0


if __name__ == "__main__":
    sys.exit(main())
