"""Tests that each `PATH:LINE` of a document declares what is named beside it, and puts the lines of tables right."""
import os
import re

from checks.shared import ROOT, ROW, declared, declared_at, documents, lines_of, shown, unless


def place_faults(document, number, line):
    """Tests that each place declares a name that stands on its line, and in a row of a table just the name of the row."""
    names = {name.split("::")[-1] for name in re.findall(r"`([^`\s]+)`", line)}
    for name, at in re.findall(r"`([^`:\s]+\.\w+):(\d+)`", line):
        there = declared_at(ROOT / name, int(at)) in names
        yield unless(there, f"{shown(document)}:{number}: {name}:{at} declares nothing that this line names")
    row = ROW.match(line)
    if row:
        name, path, at, link = row.groups()
        there = declared_at(ROOT / path, int(at)) == name.split("::")[-1]
        yield unless(there, f"{shown(document)}:{number}: {path}:{at} doesn't declare {name}")
        leads = not link or link == link_to(document, ROOT / path, at)
        yield unless(leads, f"{shown(document)}:{number}: {link} isn't {path}:{at}")


def link_to(document, path, line):
    """Returns the target by which the document leads to a line of the file."""
    return f"{os.path.relpath(path, document.parent)}#L{line}"


def correct_lines():
    """Writes the file and the line of each row of a table anew, where its name has moved."""
    for document in documents():
        corrected = [corrected_line(document, line) for line in lines_of(document)]
        document.write_text("\n".join(corrected), encoding="utf-8")


def corrected_line(document, line):
    """Returns the line with the place at which the name of its row is declared now: of several the nearest one."""
    row = ROW.match(line)
    if not row:
        return line
    old = (ROOT / row.group(2), int(row.group(3)))
    found = places(row.group(1), old[0])
    if not found or old in found:
        return line
    path, at = min(found, key=lambda place: (place[0] != old[0], abs(place[1] - old[1])))
    place = f"`{shown(path)}:{at}`"
    cell = f"[{place}]({link_to(document, path, at)})" if row.group(4) else place
    return f"| `{row.group(1)}` | {cell} |{line[row.end():]}"


def places(name, path):
    """Tells where the file declares the name, or else where other files of the same kind do."""
    own = [path] if path.exists() else []
    folder = "specs" if path.suffix == ".antt" else "src"
    word = name.split("::")[-1]
    for group in (own, sorted(ROOT.glob(f"crates/*/{folder}/**/*{path.suffix}"))):
        found = [(file, at) for file in group for at, line in enumerate(lines_of(file), 1) if declared(file, line) == word]
        if found:
            return found
    return []
