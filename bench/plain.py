#!/usr/bin/env python3
"""Makes a plain Rust copy of the search, in which an idea takes seconds to try, and builds it.

    bench/plain.py OUT [TREE]     puts the copy of TREE (default: this repository) into OUT/src and builds OUT/plain
    bench/plain.py --build OUT    builds OUT/plain of what stands in OUT/src
    bench/plain.py --check        tests that a copy can be made and has what bench/plain uses, and builds nothing

The copy has the code of the crates below without what is there for the prover: contracts, ghost items, models. What they
take from the toolchain's libraries stands in bench/plain. It is for measuring alone: nothing of it is proved, and what
pays there is then brought into the crates. It needs `rustc`; the levels of the processor and of the optimizer are those
of the program.

TREE may be an earlier commit, as `git worktree add /tmp/before COMMIT` lays it out: the copy takes those of the crates that
it has. Where it has no oth_walk, as commit d59b2f3, the copy counts no boards. `bench/beside.py` compares such copies.

    OUT/plain WORKERS CELLS FILE [RUNS]    as `OUT/plain 1,2,4 65536 bench/game-16.txt 5`; see bench/plain/counting.rs
    OUT/plain played SEED COUNT EMPTIES    makes boards of good play; see bench/plain/played.rs
    OUT/plain forms FORM                   calls one form of moves or of flips; see bench/plain/forms.rs
"""
import argparse
import os
import pathlib
import re
import subprocess
import sys

ROOT = pathlib.Path(__file__).resolve().parent.parent
CRATES = ["oth_history", "oth_rules", "oth_search", "oth_table", "oth_pieces", "oth_walk", "oth_pool"]
LIBRARIES = ["shim", "arrayvec", "atomic_table", "crossbeam_deque", "oth_book", "counting", "played", "forms"]
FROM_SHIM = r"std::(?:(?:alloc|thread)::|(?=thread;))"

MAIN = """fn main() {
    match std::env::args().nth(1).as_deref() {
        Some("played") => played::main(),
        Some("forms") => forms::main(),
        _ => counting::main(),
    }
}
"""

# Where the copy counts: a file, a line (or a part of one) that stands in it once, and what takes its place.
COUNTS = [
    ("oth_search/nws/deep.rs", " = by_local_table(&node.board, cells, scoring);\n",
     " = by_local_table(&node.board, cells, scoring);\n    crate::counting::count(&node.board);\n"),
    ("oth_search/root/guess.rs", "    let mut bracket = Bracket::from(likely);\n",
     "    let _guess = crate::counting::For::part(crate::counting::Part::Guess);\n"
     "    let mut bracket = Bracket::from(likely);\n"),
]


def end_of_braces(text, start):
    """Returns the place behind the brace that closes the one at `start`."""
    depth = 0
    for place in range(start, len(text)):
        if text[place] == "{":
            depth += 1
        elif text[place] == "}":
            depth -= 1
            if depth == 0:
                return place + 1
    raise SystemExit(f"bench/plain.py: a brace is not closed: {text[start:start + 60]!r}")


def without_blocks(text, head, behind=""):
    """Returns the text without what matches `head`, which ends with a brace, up to the brace that closes it and what is behind."""
    pattern = re.compile(head, re.M)
    while match := pattern.search(text):
        end = end_of_braces(text, match.end() - 1)
        if behind and text[end:end + 1] in behind:
            end += 1
        text = text[:match.start()] + text[end:]
    return text


def plain(text, crate, crates):
    """Returns the code of a file of one of the crates without what is there for the prover."""
    text = re.sub(r"^ *//.*\n", "", text, flags=re.M)
    text = re.sub(r"^ *ghost use [^;]*;\n", "", text, flags=re.M)
    text = without_blocks(text, r"^impl(?:<[^{]*?>)? Model for [^{]*\{")
    text = without_blocks(text, r"\n *(?:requires|ensures)(?: \w+)? \{")
    text = without_blocks(text, r"^ *(?:pub(?:\(crate\))? )?ghost \w+(?::| =) \{", behind=",;")
    text = re.sub(r"^ *#!?\[(?:tactic|cycle|error)\(.*\)\]\n|^#\[cfg\(test\)\]\nmod tests;\n", "", text,
                  flags=re.M)
    text = re.sub(r"\bDrop, |, Drop\b|\bDrop\b(?=\)\])", "", text)
    text = re.sub(r"^#\[derive\(\)\]\n", "", text, flags=re.M)
    text = re.sub(r"(?<=[<,])( ?\w+): Drop\b|(: [^,>]*) \+ Drop\b", r"\1\2", text)
    text = re.sub(r"(#\[derive\([^)]*), Error\b", r"\1", text)
    text = re.sub(r"^use (?:std::marker::Model|thiserror::Error);\n", "", text, flags=re.M)
    # What the kit's prelude of vectors has, and Rust's has not.
    text = text.replace("use std::simd::prelude::*;\n", "use std::simd::{Select, ToBytes};\nuse std::simd::prelude::*;\n")
    # What makes boards looks into the rooms of the search.
    text = re.sub(r"^mod ", "pub mod ", text, flags=re.M)
    text = re.sub(r"\bcrate::", f"crate::{crate}::", text)
    text = re.sub(rf"^use {FROM_SHIM}", "use crate::shim::", text, flags=re.M)
    names = "|".join(crates + LIBRARIES)
    text = re.sub(rf"(?<!::)\b({names})::", r"crate::\1::", text)
    needed = [name for name in ("Box", "Vec", "vec") if re.search(rf"\b{name}(?:<|::|!)", text)]
    if needed:
        text = f"use crate::shim::{{{', '.join(needed)}}};\n" + text
    return text


def copy_of(tree):
    """Returns the files of the copy: a text for each path."""
    files = {}
    crates = [crate for crate in CRATES if (tree / "crates" / crate / "src").is_dir()]
    for crate in crates:
        source = tree / "crates" / crate / "src"
        for path in sorted(source.rglob("*.rt")):
            name = path.relative_to(source)
            if name.parts[0] in ("tests", "tests.rt"):
                continue
            place = f"{crate}/mod.rs" if str(name) == "lib.rt" else f"{crate}/{name.with_suffix('.rs')}"
            files[place] = plain(path.read_text(encoding="utf-8"), crate, crates)
    for path, old, new in COUNTS if "oth_walk" in crates else []:
        if files[path].count(old) != 1:
            raise SystemExit(f"bench/plain.py: where the copy counts has changed: {path}: {old.strip()!r}")
        files[path] = files[path].replace(old, new)
    for library in LIBRARIES:
        files[f"{library}.rs"] = (ROOT / "bench" / "plain" / f"{library}.rs").read_text(encoding="utf-8")
    modules = "".join(f"mod {name};\n" for name in LIBRARIES + crates)
    files["main.rs"] = ("#![feature(portable_simd)]\n#![allow(dead_code, unused)]\n"
                        + modules + "\n" + MAIN)
    return files


def wanting(files):
    """Yields the names that the parts in bench/plain use and that the copy does not have."""
    for library in LIBRARIES:
        for module, names in re.findall(r"^use crate::([\w:]+)::(\{[^}]*\}|\w+);", files[f"{library}.rs"], re.MULTILINE):
            place = module.replace("::", "/")
            text = files.get(f"{place}.rs", "") + files.get(f"{place}/mod.rs", "")
            for name in re.findall(r"\w+", names):
                if not re.search(rf"\b{name}\b", text):
                    yield f"{module}::{name} (for {library}.rs)"


def build(out):
    """Builds what stands in OUT/src, and gives the compiler's status."""
    # The copy needs `std::simd`, which a stable compiler takes only so.
    environment = dict(os.environ, RUSTC_BOOTSTRAP="1")
    flags = ["--edition", "2024", "-C", "opt-level=3", "-C", "codegen-units=1", "-C", "panic=abort",
             "-C", "target-cpu=x86-64-v2"]
    built = subprocess.run(["rustc", *flags, "-o", str(out / "plain"), str(out / "src" / "main.rs")], env=environment)
    if built.returncode == 0:
        print(f"{out / 'plain'} WORKERS CELLS FILE [RUNS]")
    return built.returncode


def write_copy(out, tree):
    """Writes the copy of the tree into OUT/src."""
    for name, text in copy_of(tree).items():
        path = out / "src" / name
        path.parent.mkdir(parents=True, exist_ok=True)
        path.write_text(text, encoding="utf-8")


def words():
    """Reads the command line."""
    parser = argparse.ArgumentParser(description=__doc__, formatter_class=argparse.RawDescriptionHelpFormatter)
    parser.add_argument("out", metavar="OUT", nargs="?", type=pathlib.Path, help="the folder of the copy")
    parser.add_argument("tree", metavar="TREE", nargs="?", type=pathlib.Path, help="the tree that is copied (this repository)")
    kinds = parser.add_mutually_exclusive_group()
    kinds.add_argument("--build", action="store_true", help="copy nothing, and build what stands in OUT/src")
    kinds.add_argument("--check", action="store_true", help="test that a copy can be made and has what bench/plain uses, and build nothing")
    given = parser.parse_args()
    if given.check and given.out:
        parser.error("--check takes no OUT")
    if given.build and given.tree:
        parser.error("--build takes no TREE")
    if not given.check and not given.out:
        parser.error("OUT is missing")
    return given


def main():
    given = words()
    if given.check:
        missing = ", ".join(wanting(copy_of(ROOT)))
        if missing:
            raise SystemExit(f"bench/plain.py: the copy has not: {missing}")
        return 0
    if not given.build:
        write_copy(given.out, given.tree or ROOT)
    return build(given.out)


if __name__ == "__main__":
    sys.exit(main())
