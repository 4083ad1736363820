#!/usr/bin/env python3
"""Prints the tests, crate by crate: the module of each, what it shows in words, which is its name, and the comment above it.

    docs/tests.py [CRATE ..]

CRATE is a crate of tests, or one that they test; without one all are printed. The last line counts the tests. docs/TESTED.md says
what no clause says, and which tests show it.
"""
import argparse
import re
import sys

from checks.shared import ROOT, lines_of

FUNCTION = re.compile(r"fn (\w+)")


def tests_of(file):
    """Yields the name of each test of the file, and the lines of the comment above it."""
    comment, is_test = [], False
    for line in lines_of(file):
        if line.startswith("//") and not line.startswith("//!"):
            comment.append(line.lstrip("/ "))
        elif line.startswith("#["):
            is_test |= line == "#[test]"
        else:
            if is_test:
                yield FUNCTION.match(line).group(1), comment
            comment, is_test = [], False


def listed(crate):
    """Yields a line for each test of this crate."""
    source = ROOT / "crates" / crate / "src"
    for file in sorted(source.rglob("*.rt")):
        module = "::".join(file.relative_to(source).with_suffix("").parts)
        for name, comment in tests_of(file):
            told = f" ({' '.join(comment)})" if comment else ""
            yield f"{crate} {module}: {name.replace('_', ' ')}{told}"


def main():
    parser = argparse.ArgumentParser(description=__doc__, formatter_class=argparse.RawDescriptionHelpFormatter)
    parser.add_argument("crates", metavar="CRATE", nargs="*", help="a crate of tests, or one that is tested (all)")
    known = sorted(folder.name for folder in (ROOT / "crates").iterdir() if folder.name.endswith("_tests"))
    named = parser.parse_args().crates
    for name in named:
        if name not in known and f"{name}_tests" not in known:
            parser.error(f"no tests of {name}; these have some: {', '.join(known)}")
    count = 0
    for crate in known:
        if not named or crate in named or crate.removesuffix("_tests") in named:
            for line in listed(crate):
                print(line)
                count += 1
    print(f"{count} tests")
    return 0


if __name__ == "__main__":
    sys.exit(main())
