"""Tests that links and paths in documents lead somewhere."""
import re

from checks.shared import HEADING, ROOT, lines_of, shown, unless

FOLDERS = r"crates|docs|bench|examples|hostile|completions|include|\.ci"


def link_faults(document, number, line):
    """Tests that each link of the line leads to a file of this repository, and to a heading of it where it names one."""
    for target in re.findall(r"\]\(([^)\s]+)\)", re.sub(r"`[^`]*`", "``", line)):
        if re.match(r"[a-z]+:", target):
            continue
        name, _, anchor = target.partition("#")
        path = (document.parent / name).resolve() if name else document
        there = path.exists() and (not anchor or re.fullmatch(r"L\d+", anchor) or anchor in anchors(path))
        yield unless(there, f"{shown(document)}:{number}: no {target}")


def anchors(path):
    """Returns the anchors of the headings of a page."""
    return {anchor(match.group(2)) for match in map(HEADING.match, lines_of(path)) if match}


def anchor(heading):
    """Returns the anchor that a heading has on a page of the web."""
    return re.sub(r"[^\w\- ]", "", heading.strip().lower()).replace(" ", "-")


def path_faults(document, number, line):
    """Tests that each path of this repository stands in it, also one that is told from the folder of a crate."""
    line = re.sub(r"\]\([^)]*\)", "]", line)
    for match in re.finditer(rf"(?<![\w/.$-])(?:\.\./)*((?:{FOLDERS})/[\w./*$-]*)", line):
        name = re.sub(r"\$\w*", "*", match.group(1).rstrip("."))
        if "/out/" not in name:
            yield unless(stands(ROOT, name), f"{shown(document)}:{number}: no {name}")
    for name in re.findall(r"`((?:src|specs|proofs|must-fail)/[\w./*-]+)", line):
        if document.parent.parent.name == "crates":
            there = stands(document.parent, name)
        else:
            there = stands(ROOT / "crates", "*/" + name) or any(stands(crate, name) for crate in (ROOT / "crates").iterdir())
        yield unless(there, f"{shown(document)}:{number}: no {name}")


def stands(base, name):
    """Tells whether something of this name stands below the folder; NAME, CRATE, FILE and `*` stand for anything."""
    pattern = re.sub(r"\b(NAME|CRATE|FILE)\b", "*", name)
    if "*" in pattern:
        return any(base.glob(pattern))
    return any((base / (pattern + suffix)).exists() for suffix in ("", ".antt", ".rt"))
