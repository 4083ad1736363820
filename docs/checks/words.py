"""Tests the words of documents and comments: phrases that are replaced, terms of the glossary, and the headline."""
import re

from checks.shared import ROOT, documents, lines_of, shown, source_files, text_of, unless

# What the documents said before, or said of themselves, and what docs/GLOSSARY.md says for it. A pattern is of a line without `code`.
OLD = {
    r"[Ww]ant of memory": "out of memory",
    r"by the clock": "wall-clock",
    r"processor time": "CPU time",
    r"waits for nobody": "non-blocking",
    r"does nothing undefined": "has no undefined behaviour",
    r"comes? to (?:no more|few|fewer|the same) boards": "visits .. nodes",
    r"work done twice": "search overhead",
    r"eldest": "elder brother, or first",
    r"(?<!table )\bprob(?:e|es|ed|ing)\b": "null-window search; a look into the table is a table probe",
    r"some hours before|within the hour|in an earlier run|was learned": "a line of bench/log.csv",
}
# Of README.md, and of all pages together.
MOST_WORDS_OF_README, MOST_OF_A_LINE, MOST_WORDS = 1_500, 300, 44_000
HEADLINE = re.compile(r"\*\*For every board.*?\*\*", re.DOTALL)
TREES_THAT_COUNT = ("crates/*/specs/**/*.antt", "crates/*/proofs/**/*.antt", "hostile/*.[cp]*", "bench/*.py")


def phrase_faults():
    """Tests that no page says a phrase that the glossary replaces, nor the C header, that no comment begins with "The same", and that none
    says "so many" for a number."""
    for page in [*documents(), *sorted(ROOT.glob("include/*.h"))]:
        text = [re.sub(r"`[^`]*`|\]\([^)]*\)", "``", line) for line in lines_of(page)]
        for old, new in OLD.items():
            found = numbers_of(text, re.compile(old).search)
            yield unless(not found, f"{shown(page)}: line {found} says {old}: {new}")
    for path in source_files():
        found = numbers_of(lines_of(path), re.compile(r" *//[/!]? The same\b").match)
        yield unless(not found, f"{shown(path)}: line {found} begins with The same: say what differs, as `As NAME, of ..`")
    for path in [*source_files(), *(path for tree in TREES_THAT_COUNT for path in sorted(ROOT.glob(tree)))]:
        found = numbers_of(lines_of(path), re.compile(r"\bso many\b").search)
        yield unless(not found, f"{shown(path)}: line {found} says so many: name the number")


def numbers_of(text, is_meant):
    """Returns the numbers of the lines that are meant, as a text."""
    return ", ".join(str(number) for number, line in enumerate(text, 1) if is_meant(line))


def glossary_faults():
    """Tests that each identifier of the column `In the code` of docs/GLOSSARY.md is a word of the code or of `specs/`."""
    document = ROOT / "docs/GLOSSARY.md"
    files = [*source_files(), *ROOT.glob("crates/*/specs/**/*.antt")]
    words = set().union(*(re.findall(r"\w+", text_of(path)) for path in files))
    for number, line in enumerate(lines_of(document), 1):
        cells = line.split(" | ")
        for name in re.findall(r"`(\w+)`", cells[1]) if len(cells) == 3 else ():
            yield unless(name in words, f"{shown(document)}:{number}: the code has no word {name}")


def headline_faults():
    """Tests that the headline is the same wherever it stands."""
    said = {" ".join(headline.split()) for document in documents() for headline in HEADLINE.findall(text_of(document))}
    yield unless(len(said) == 1, f"the headline is said in {len(said)} ways")


def length_faults():
    """Tests that README.md can be read at one sitting, and that all pages together have no more words than they may."""
    readme = lines_of(ROOT / "README.md")
    long = [f"{number}" for number, line in enumerate(readme, 1) if len(line) > MOST_OF_A_LINE]
    yield unless(not long, f"README.md: more than {MOST_OF_A_LINE} characters in line {', '.join(long)}")
    own = len(" ".join(readme).split())
    yield unless(own <= MOST_WORDS_OF_README, f"README.md has {own} words")
    yield unless(words_of_all() <= MOST_WORDS, f"the pages have {words_of_all()} words")


def words_of_all():
    """Returns the number of words of all Markdown."""
    return sum(len(text_of(page).split()) for page in documents() if page.suffix == ".md")
