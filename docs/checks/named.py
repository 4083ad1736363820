"""Tests the edits, that each edit and each test that docs/WRONG_BODIES.md and docs/TESTED.md name is where they say, and that each
name of a page stands in the tree."""
import functools
import re

import edits
from checks import tree
from checks.shared import ROOT, cells_below, crate_folders, documents, lines_of, shown, text_of, unless

SNAKE = re.compile(r"[a-z]\w*_\w*")
TEST = re.compile(r"#\[test\]\s*(?:#\[[^\]]*\]\s*)*fn (\w+)")
# The column of docs/WRONG_BODIES.md that names edits, and the folder in which these stand.
COLUMN, TIER = "Tests that refuse it", "must-fail"
# What a page may name that stands alone between backquotes: a word, a file, an option, or an edit with its crate. A letter is a variable.
NAMED = re.compile(
    r"(?P<word>[A-Za-z_]\w+(?:::[A-Za-z_]\w*)*)(?:\(\))?|(?P<file>[\w.-]+\.(?:antt|c|edit|h|md|obf|py|rt|sh|toml|txt))"
    r"|--(?P<option>[a-z-]+)|(?P<crate>oth\w+)/(?P<edit>\w+)"
)
# The page with the way of a line through the calls, which stands in blocks of it.
TOUR = ROOT / "docs/ARCHITECTURE.md"
# What pages name that isn't of this tree, by whose it is.
OUTSIDE = {
    "Rattle": "assumption data ensures ghost ground let omega requires std::simd Sync u16 u64::MAX u8 unsafe",
    "the kit's crates and its allocator": "join_seat rattle_alloc split_seat ValueValidation",
    "C and Python": "calloc ctypes malloc",
    "tools": "ar awk cc cp flock gzip ldconfig lintian nm parallel paste pip readelf rustc tar",
    "files and words of other programs": "pa scores.c",
}


class Crate:
    """The edits of a crate by their folder, its functions, its tests by their module, and its files."""

    def __init__(self, path):
        self.tiers = {tier: {edit.stem for edit in edits.edits_of(path, [tier])} for tier in edits.TIERS}
        self.edits = set().union(*self.tiers.values())
        self.functions, self.modules, self.files = set(), {}, {path.name}
        for file in path.glob("src/**/*.rt"):
            text = text_of(file)
            module = "::".join(file.relative_to(path / "src").with_suffix("").parts)
            self.files.add(file.stem)
            self.functions.update(re.findall(r"\bfn (\w+)", text))
            self.modules[module] = set(TEST.findall(text))
        self.tests = set().union(*self.modules.values())


@functools.cache
def crates():
    """Returns the crates by their names."""
    return {path.name: Crate(path) for path in crate_folders()}


def name_faults():
    """Tests that each name that stands alone between backquotes on a page, and each call of the tour, stands in the tree: a word that is
    declared there, a text of one word, a file, an option, or an edit."""
    known, folders = tree.Names(), crates()
    outside, used = set(" ".join(OUTSIDE.values()).split()), set()
    for document in (page for page in documents() if page.suffix == ".md"):
        for number, name in lone_names(document):
            used.add(name)
            there = name in outside or stands(NAMED.fullmatch(name), known, folders)
            yield unless(there, f"{shown(document)}:{number}: the tree has no {name}")
    for name in sorted(outside - used):
        yield f"docs/checks/named.py: no page names {name}, which stands in OUTSIDE"


def lone_names(document):
    """Yields each name that stands alone between backquotes, but in blocks of code, and each call of the tour, with its line's number."""
    is_code = False
    for number, line in enumerate(lines_of(document), 1):
        is_code ^= line.lstrip().startswith("```")
        if line.startswith("    "):
            found = re.findall(r"[\w:]+(?= >)|(?<=> )[\w:]+", line) if document == TOUR else ()
        else:
            found = () if is_code else re.findall(r"`([^`]+)`", line)
        yield from ((number, name) for name in found if NAMED.fullmatch(name))


def stands(name, known, folders):
    """Tells whether a name stands in the tree, and each part of it in the one before."""
    if name["word"]:
        parts = name["word"].split("::")
        pairs = zip(parts, parts[1:], strict=False)
        return all(has(known.words, part) for part in parts) and all(part in known.owned.get(owner, ()) for owner, part in pairs)
    if name["edit"]:
        return name["crate"] in folders and name["edit"] in folders[name["crate"]].edits
    return name["file"] in known.files or name["option"] in known.options


def has(words, word):
    """Tells whether this is one of the words. One that ends with `_` is the beginning of some, and NAME_ stands for any beginning."""
    if word.endswith("_"):
        return any(other.startswith(word) for other in words)
    if word.startswith("NAME_"):
        return any(other.endswith(word.removeprefix("NAME")) for other in words)
    return word in words


def test_faults():
    """Tests that each test of docs/TESTED.md stands in the crate and the module that are named with it."""
    known = crates()
    document = ROOT / "docs/TESTED.md"
    for number, cell in cells_below(document, "Test"):
        crate, module = None, None
        for name in re.findall(r"`([^`]+)`", cell):
            if name in known:
                crate, module = known[name], None
            elif crate and name in crate.modules:
                module = name
            elif re.fullmatch(r"[\w:]+", name):
                there = crate and name in crate.modules.get(module, ())
                fault = f"{shown(document)}:{number}: no test {name} in the crate and module that are named before it"
                yield unless(there, fault)


def wrong_body_faults():
    """Tests that each name of docs/WRONG_BODIES.md is an edit of the folder of its column, or a test or a part of the code."""
    known = crates()
    document = ROOT / "docs/WRONG_BODIES.md"
    for number, cell in cells_below(document, COLUMN):
        yield from cell_faults(f"{shown(document)}:{number}", cell, known)
    every = set().union(*(crate.edits | crate.functions | crate.files for crate in known.values()))
    for number, line in enumerate(lines_of(document), 1):
        place = f"{shown(document)}:{number}"
        for name in re.findall(r"`([^`/]+)`", line):
            if SNAKE.fullmatch(name):
                yield unless(name in every, f"{place}: no edit, function or part of a crate {name}")
        if "test" in line:
            for name, owner in re.findall(r"`([a-z]\w*_\w*)` of `(\w+)`", line):
                there = owner in known and name in known[owner].tests
                yield unless(there, f"{place}: no test {name} in {owner}")


def cell_faults(place, cell, known):
    """Tests that each edit that this cell names is one that the gate tries, and each test one of its crate."""
    crate = None
    for name in re.findall(r"`([^`]+)`", cell):
        owner, _, edit = name.rpartition("/")
        if name in known:
            crate = known[name]
        elif owner in known:
            crate = known[owner]
            yield unless(edit in crate.tiers[TIER], f"{place}: no edit {edit} in {TIER}/ of {owner}")
        elif crate and SNAKE.fullmatch(name):
            there = name in crate.tiers[TIER] | crate.tests
            yield unless(there, f"{place}: no edit of {TIER}/ and no test {name} in the crate named before it")


def edit_faults():
    """Tests that each edit can be applied, changes something, and has a name that no other one of its crate has."""
    for crate in crate_folders():
        found = edits.edits_of(crate)
        for edit in found:
            if edits.NAME.fullmatch(edit.name):
                wrong = edits.applied(edit, crate)[1]
            else:
                wrong = "its name isn't one of small letters, digits and _ that ends in .edit"
            yield unless(not wrong, f"{shown(edit)}: {wrong}")
            alone = sum(other.name == edit.name for other in found) == 1
            yield unless(alone, f"{shown(edit)}: another edit of the crate has this name")
