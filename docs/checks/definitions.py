"""Finds what the calls that docs/THEOREM.md names rest on, in an order in which each stands behind what it names."""
import functools
import re

from checks import statements
from checks.shared import HEADING, ROOT, ROW, declared, documents, lines_of, shown, unless
from crates import names

# The parts of the theorem, with what the heading of each in docs/THEOREM.md begins with.
PARTS = {"solve": "The first half", "table": "The second half", "seats": "One history for all seats", "bytes": "From bytes to bytes"}
# The heading of both halves.
HALVES = "What has to be read"
THEOREM = ROOT / "docs/THEOREM.md"
COUNT = re.compile(r"\b(\d+) (?:further )?definitions\b")


@functools.cache
def parts():
    """Returns of each part its calls, types and definitions, each as path, name and line, but for those of the parts before it."""
    found, known = {}, set()
    for part, roots in roots_of_parts().items():
        needed = reached(roots, known)
        found[part] = in_order(needed)
        known |= needed.keys()
    return found


def roots_of_parts():
    """Returns what docs/THEOREM.md names of the code below the heading of each part, each as path and name."""
    roots = {part: [] for part in PARTS}
    part = None
    for line in lines_of(THEOREM):
        heading, row = HEADING.match(line), ROW.match(line)
        if heading:
            part = next((each for each, begin in PARTS.items() if heading.group(2).startswith(begin)), None)
        elif part and row:
            roots[part].append((row.group(2), row.group(1).split("::")[-1]))
    return roots


def reached(roots, known):
    """Returns what the roots rest on, and they themselves, but for what is known: of each the line, and what it names."""
    found, left = {}, list(roots)
    while left:
        target = whole(left.pop())
        at = line_of(target)
        if target in known or target in found or at is None:
            continue
        named = {whole(each) for each in statements.named_by(target[1], target[0], at) if each[1] is not None} - {target}
        found[target] = (at, named)
        left += named
    return found


def in_order(needed):
    """Returns each with its line behind what it names, from the lowest crate on, those of a file together as far as that goes."""
    rows, left = [], dict(needed)
    crates = names()
    while left:
        ready = [target for target, (_, named) in left.items() if not any(each in left for each in named)]
        last = rows[-1][0] if rows else None
        path, name = min(ready or left, key=lambda each: (each[0] != last, crates.index(each[0].split("/")[1]), each[0], left[each][0]))
        rows.append((path, name, left.pop((path, name))[0]))
    return rows


def whole(target):
    """Returns the type of a constructor or a field, and else the target itself."""
    path, name = target
    if not path.endswith(".antt") or line_of(target) is not None:
        return target
    file = ROOT / path
    for at, line in enumerate(lines_of(file) if file.exists() else [], 1):
        owner = declared(file, line)
        if owner and any(re.match(rf" +(?:pub +)?{re.escape(name)}\b", each) for each in statements.definition(file, at)[1:]):
            return path, owner
    return target


def line_of(target):
    """Tells which line of the file declares the name, if one does."""
    file = ROOT / target[0]
    text = lines_of(file) if file.exists() else []
    return next((at for at, line in enumerate(text, 1) if declared(file, line) == target[1]), None)


def count(rows):
    """Returns how many of these are definitions of `specs/`."""
    return sum(path.endswith(".antt") for path, _, _ in rows)


def lines_of_row(row):
    """Returns the lines that are read of a call, a type or a definition: where it stands, what comments say of it, and its statement."""
    path, name, at = row
    statement = [line for line in statements.statement(name, path, at) if line.strip()]
    if path.endswith(".antt"):
        return [f"-- {path}:{at}", *said_of(path, name, at), *statement]
    first = lines_of(ROOT / path)[at - 1]
    return [f"-- {path}:{at}", *said_of(path, name, at), *([] if first in statement[:1] else [first]), *statement]


def said_of(path, name, at):
    """Returns what comments say of the name that this line declares: at the head of a file of `specs/`, and right above the line."""
    return [*said_at_head(path, name), *comment_above(path, at, "--")] if path.endswith(".antt") else comment_above(path, at, "///")


def said_at_head(path, name):
    """Returns what the comment at the head of a file of `specs/` says of the name."""
    found, is_of_it = [], False
    for line in lines_of(ROOT / path):
        if not line.startswith("--"):
            break
        if re.match(r"--     \S", line):
            is_of_it = re.match(rf"--     {re.escape(name)}(?: |$)", line) is not None
        if is_of_it:
            found.append(line)
    return found


def comment_above(path, at, mark):
    """Returns the lines of the comment that stands right above this line."""
    text = lines_of(ROOT / path)
    begin = at - 1
    while begin > 0 and text[begin - 1].strip().startswith((mark, "#[")):
        begin -= 1
    return [line for line in text[begin:at - 1] if line.strip().startswith(mark)]


def count_faults():
    """Tests that docs/THEOREM.md names in each heading how many definitions there are, and no page another number of definitions."""
    found = {part: count(rows) for part, rows in parts().items()}
    wanted = {begin: found[part] for part, begin in PARTS.items()} | {HALVES: found["solve"] + found["table"]}
    for at, line in enumerate(lines_of(THEOREM), 1):
        heading = HEADING.match(line)
        for begin, number in wanted.items():
            if heading and heading.group(2).startswith(begin):
                told = COUNT.findall(line)
                yield unless(told == [f"{number}"], f"{shown(THEOREM)}:{at}: it rests on {number} definitions")
    for document in documents():
        for at, line in enumerate(lines_of(document), 1):
            for number in COUNT.findall(line):
                yield unless(int(number) in wanted.values(), f"{shown(document)}:{at}: no part rests on {number} definitions")


def order_faults():
    """Tests that each call, type and definition stands behind what it names, in its own part or in one before it."""
    above = set()
    for part, rows in parts().items():
        for path, name, at in rows:
            for named in {whole(each) for each in statements.named_by(name, path, at) if each[1] is not None} - {(path, name)}:
                there = named in above or line_of(named) is None
                yield unless(there, f"{path}:{at}: {name} names {named[1]}, which stands behind it in the part {part}")
            above.add((path, name))


def words_faults():
    """Tests that each call, type and definition has words of its own, right above it or at the head of its file."""
    for rows in parts().values():
        for path, name, at in rows:
            yield unless(said_of(path, name, at), f"{path}:{at}: {name} has no words of its own, above it or at the head of its file")


def standard_faults():
    """Tests that docs/THEOREM.md, outside the rows, says something of each word of the kit that these name."""
    said = [line for line in lines_of(THEOREM) if not ROW.match(line)]
    explained = set(statements.WORD.findall(" ".join(re.findall(r"`([^`]+)`", "\n".join(said)))))
    for rows in parts().values():
        for path, name, at in rows:
            for word in sorted(statements.words_of_the_kit(name, path, at)):
                yield unless(word in explained, f"{path}:{at}: {name} names {word} of the kit, of which {shown(THEOREM)} says nothing")
