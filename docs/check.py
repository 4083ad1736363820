#!/usr/bin/env python3
"""Tests that what the documents name is there.

    docs/check.py            tests, prints a line for each fault, and ends with `N passed, M failed`; status 1 where a test failed
    docs/check.py --lines    first puts the file and line of each row `| `NAME` | `PATH:LINE` |` right, where NAME has moved

It tests, in each document and, where it says so, in the code:
- that each link leads to a file of this repository, and to a heading of it where it has one;
- that each path of this repository stands in it, also one relative to a crate (`src/`, `specs/`, `proofs/`, `must-fail/`, `mutants/`);
  NAME and `*` stand for anything, and what lies in `out/` is made by `rt`;
- that each name that stands alone between backquotes on a page, and each call of the tour of docs/ARCHITECTURE.md, stands in the tree: a
  name that the code, specs, proofs or scripts declare, a word of the command line or of a format, a file, an option, or an edit
  (`CRATE/NAME`); what is named of other trees stands in `OUTSIDE` of docs/checks/named.py;
- that each `PATH:LINE` declares a name that stands beside it, and in a row `| `NAME` | `PATH:LINE` |` of a table just NAME;
- of docs/THEOREM.md: that each heading of a part has the number of definitions that the part rests on, and no page another number; that each
  of them, as `docs/definitions.py` prints them, has words of its own and names only what stands before it; and that the page says of each
  word of the kit that these name what it is;
- that each board line has 64 cells;
- that in each row `| `CONSTANT` | `VALUE` |` of a table the code gives the constant that value, and that in each row
  `| `EXPRESSION` | `PATH` |` the file has this text, that each constant of a `tuning.rt` has a comment above it, and that no two
  constants of the code have one name;
- that no page, nor the C header, says one of the phrases that docs/GLOSSARY.md replaces, that no comment of the code begins with "The
  same", nor a line of one, and that no code, specification, proof or script says "so many";
- of docs/GLOSSARY.md: that each identifier of the column `In the code` is a word of the code or of `specs/`;
- of docs/ARCHITECTURE.md: that the lemmas which it lists for a crate are those that proofs of other crates import;
- that each lemma and each definition is named somewhere else than at its own statement, but those of `Examples`;
- of docs/DECISIONS.md: that each entry has a title, which no other one has;
- of docs/TESTED.md: that each test stands in the crate and the module that are named with it;
- of docs/WRONG_BODIES.md: that each name of the column of what refuses a body at each gate is a test of the crate that is named before
  it, or an edit in must-fail/ of it, and each other name with an underscore an edit, a function or a part of a crate;
- of each edit of must-fail/ and mutants/: that each of its old texts stands just once in the file that it names, that it changes
  something, and that no other edit of the crate has its name;
- that the headline is word for word the same wherever it stands, that README.md has at most 1,500 words and no line of more than 300
  characters, and that all Markdown together has no more words than `MOST_WORDS` of docs/checks/words.py, which it tells;
- of each file of code: that its first line is a head (`//!`), and that no line is longer than 120 characters; of `specs/`, that none is
  longer than 140, and of `proofs/`, than 200;
- that the tables and the plot of the measured figures are those of bench/figures.txt (`bench/plot.py --check`), and that a plain Rust
  copy of the search can be made (`bench/plain.py --check`);
- that the version is that of the C header in the code, the man page, the Python module, CHANGELOG.md and wherever else it stands, and the
  logic that of the README, and of the kit where `rt` is there;
- that groff, where there is one, shows the man page without a warning.

The tests stand in docs/checks/, a module for each kind.
"""
import argparse
import sys

from checks import definitions, layout, links, logic, made, named, places, tables, words
from checks.shared import documents, lines_of

# The tests of a line of a document, and those of the whole tree.
OF_A_LINE = (links.link_faults, links.path_faults, places.place_faults, tables.board_faults, tables.value_faults)
OF_THE_TREE = (
    definitions.count_faults,
    definitions.order_faults,
    definitions.words_faults,
    named.name_faults,
    named.test_faults,
    named.wrong_body_faults,
    words.glossary_faults,
    words.phrase_faults,
    logic.lemma_faults,
    logic.unused_faults,
    named.edit_faults,
    tables.decision_faults,
    definitions.standard_faults,
    layout.layout_faults,
    tables.constant_faults,
    words.headline_faults,
    words.length_faults,
    made.version_faults,
    made.made_faults,
    made.man_page_faults,
)


def faults():
    """Yields for each thing that is tested what is wrong with it, or None."""
    for document in documents():
        for number, line in enumerate(lines_of(document), 1):
            for test in OF_A_LINE:
                yield from test(document, number, line)
    for test in OF_THE_TREE:
        yield from test()


def main():
    parser = argparse.ArgumentParser(description=__doc__, formatter_class=argparse.RawDescriptionHelpFormatter)
    parser.add_argument("--lines", action="store_true", help="first put the rows that place a name right")
    if parser.parse_args().lines:
        places.correct_lines()
    found = list(faults())
    told = [fault for fault in found if fault is not None]
    for fault in told:
        print(fault)
    print(f"{words.words_of_all()} words of Markdown, of {words.MOST_WORDS} at most")
    print(f"{len(found) - len(told)} passed, {len(told)} failed")
    return 1 if told else 0


if __name__ == "__main__":
    sys.exit(main())
