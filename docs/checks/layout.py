"""Tests how files of code, specs and proofs are laid out: their heads, and the length of their lines."""
from checks.shared import ROOT, lines_of, shown, source_files, unless

WIDTH = 120
LOGIC_WIDTHS = {"specs": 140, "proofs": 200}


def layout_faults():
    """Tests that each file of code begins with a head (`//!`), and that no line is longer than its kind of file allows."""
    for path in source_files():
        yield unless(lines_of(path)[0].startswith("//! "), f"{shown(path)}:1: no head")
        yield width_fault(path, WIDTH)
    for folder, width in LOGIC_WIDTHS.items():
        for path in sorted(ROOT.glob(f"crates/*/{folder}/**/*.antt")):
            yield width_fault(path, width)


def width_fault(path, width):
    """Tells which lines of the file are longer than that, if any."""
    long = [str(number) for number, line in enumerate(lines_of(path), 1) if len(line) > width]
    return unless(not long, f"{shown(path)}: more than {width} characters in line {', '.join(long)}")
