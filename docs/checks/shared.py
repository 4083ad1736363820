"""Finds and reads the files of this repository, and tells what a line of them declares."""
import pathlib
import re

ROOT = pathlib.Path(__file__).resolve().parent.parent.parent
DOCUMENTS = ("*.md", "docs/*.md", "docs/*.1", "crates/*/*.md", "bench/*.md", "hostile/*.md", "examples/*.md")
HEADING = re.compile(r"^(#+) (.*)$")
# A row of a table that places a name: `| `NAME` | `PATH:LINE` |`, where the place may be a link.
ROW = re.compile(r"^\| `([^`]+)` \| \[?`([^`:]+):(\d+)`(?:\]\(([^)]*)\))? \|")
SPEC = re.compile(r"^ *(?:(?:unfoldable|abbrev) +(?:pub +)?|pub +(?=data|record))(?:data +|record +)?([^\s:(){}]+)")
CODE = re.compile(r"\b(?:fn|struct|enum|trait|type|const) +(\w+)")


def unless(holds, fault):
    """Returns the fault, unless the test holds."""
    return None if holds else fault


def documents():
    """Returns the pages of this repository."""
    return sorted(path for pattern in DOCUMENTS for path in ROOT.glob(pattern))


def source_files():
    """Returns the files of code of all crates."""
    return sorted(ROOT.glob("crates/*/src/**/*.rt"))


def crate_folders():
    """Returns the folders of the crates."""
    return sorted(path for path in (ROOT / "crates").iterdir() if path.is_dir())


def shown(path):
    """Returns the path as it is told: from the top of this repository."""
    return str(path.relative_to(ROOT))


def text_of(path):
    """Returns the text of a file, empty where there is no such file."""
    return path.read_text(encoding="utf-8") if path.exists() else ""


def lines_of(path):
    """Returns the lines of a file that is there."""
    return path.read_text(encoding="utf-8").split("\n")


def declared(path, line):
    """Returns the name that this line of the file declares, if there is one."""
    match = (SPEC.match if path.suffix == ".antt" else CODE.search)(line)
    return match.group(1) if match else None


def declared_at(path, number):
    """Returns the name that the line of this number declares, if the file is there, has such a line, and it declares one."""
    text = lines_of(path) if path.exists() else []
    return declared(path, text[number - 1]) if 1 <= number <= len(text) else None


def cells_below(document, heading):
    """Yields the cell below this heading of each row of the tables that have it, with the number of its line."""
    at = None
    for number, line in enumerate(lines_of(document), 1):
        cells = [cell.strip() for cell in line.strip().strip("|").split(" |")]
        if not line.startswith("|"):
            at = None
        elif heading in cells:
            at = cells.index(heading)
        elif at is not None and not line.startswith("|---"):
            yield number, cells[at]
