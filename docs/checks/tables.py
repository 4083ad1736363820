"""Tests rows of tables against the code, the length of board lines, and the titles of docs/DECISIONS.md."""
import functools
import re

from checks.shared import ROOT, lines_of, shown, source_files, text_of, unless

VALUE = re.compile(r"^\| `([A-Z_]+)` \| `([^`]+)` \|")
CONSTANT = re.compile(r"(?m)^(?:pub(?:\([a-z]+\))? )?const ([A-Z][A-Z0-9_]*):(?:[^=\n]*= (.*);$)?")
PART = re.compile(r"^\| `([^`]*[^`A-Z_][^`]*)` \| `(crates/[^`]+\.rt)` \|")


def value_faults(document, number, line):
    """Tests that the code gives the constant of a row its value, and that a file has the expression of a row."""
    row = VALUE.match(line)
    if row:
        name, value = row.groups()
        found = [other for _, other in constants().get(name, [])]
        yield unless(found == [value], f"{shown(document)}:{number}: {name} isn't {value}")
    part = PART.match(line)
    if part:
        expression, path = part.groups()
        yield unless(expression in text_of(ROOT / path), f"{shown(document)}:{number}: {path} has no {expression}")


@functools.cache
def constants():
    """Returns by the name of each constant its files and their values, but for those of crates of tests and of types."""
    found = {}
    for path in source_files():
        if not path.relative_to(ROOT / "crates").parts[0].endswith("_tests"):
            for name, value in CONSTANT.findall(text_of(path)):
                found.setdefault(name, []).append((shown(path), value))
    return found


def board_faults(document, number, line):
    """Tests that each board line has 64 cells."""
    for cells in re.findall(r"(?<![\w-])([-XO]{32,}) [XO]\b", line.replace("\\-", "-")):
        yield unless(len(cells) == 64, f"{shown(document)}:{number}: a board of {len(cells)} cells")


def constant_faults():
    """Tests that each constant of the code has a name of its own, and that a comment above each of a `tuning.rt` says what it does.

    Crates of tests and associated constants of types may take the name of another one."""
    for name, places in constants().items():
        yield unless(len(places) == 1, f"{' and '.join(path for path, _ in places)}: constants of the name {name}")
    for path in sorted(ROOT.glob("crates/*/src/tuning.rt")):
        lines = lines_of(path)
        for above, line in zip(lines, lines[1:], strict=False):
            constant = CONSTANT.match(line)
            if constant:
                yield unless(above.startswith("/// "), f"{shown(path)}: no comment above {constant.group(1)}")


def decision_faults():
    """Tests that each entry of docs/DECISIONS.md, a section or an item of a list, has a title that no other entry has."""
    titles = []
    for line in lines_of(ROOT / "docs/DECISIONS.md"):
        if re.match(r"#|- ", line):
            title = re.match(r"(?:#+ |- \*\*)([^*]+)", line)
            yield unless(title, f"docs/DECISIONS.md: an entry without a title: {line[:40]}")
            titles += [title.group(1)] if title else []
    twice = sorted({title for title in titles if titles.count(title) > 1})
    yield unless(not twice, f"docs/DECISIONS.md: more than one entry {', '.join(twice)}")
