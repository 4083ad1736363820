"""Edits of both tiers: the mutants of the gate, `crates/NAME/must-fail/*.edit`, and the others, `crates/NAME/mutants/*.edit`.

An edit is a text with a line `file: PATH` and pairs of lines `old: TEXT` and `new: TEXT`; `old` stands in that file just once.
"""
import re

TIERS = ("must-fail", "mutants")
NAME = re.compile(r"[a-z]\w*\.edit")


def edits_of(crate, tiers=TIERS):
    """Returns the paths of the edits of the crate's folder."""
    return [edit for tier in tiers for edit in sorted((crate / tier).glob("*"))]


def pairs_of(edit):
    """Yields each file, old text and new text that the edit names, in their order."""
    path = old = None
    for line in edit.read_text(encoding="utf-8").split("\n"):
        if line.startswith("file: "):
            path = line.removeprefix("file: ").strip()
        elif line.startswith("old: "):
            old = line.removeprefix("old: ")
        elif line.startswith("new:"):
            yield path, old, line.removeprefix("new:").removeprefix(" ")
            old = None


def applied(edit, crate):
    """Returns the texts of the crate's files with the edit, by their paths, and why it can't be applied, or None."""
    texts = {}
    for path, old, new in pairs_of(edit):
        if not path or not old or not path.startswith(("src/", "specs/", "proofs/")) or not (crate / path).is_file():
            return texts, "a new text that belongs to no file of src/, specs/ or proofs/, or to no old text"
        text = texts.setdefault(path, (crate / path).read_text(encoding="utf-8"))
        if text.count(old) != 1:
            return texts, f"an old text stands {text.count(old)} times in {path}, and not once"
        texts[path] = text.replace(old, new)
    same = all(text == (crate / path).read_text(encoding="utf-8") for path, text in texts.items())
    return texts, "it changes nothing" if same else None
