#!/usr/bin/env python3
"""Gives goals at which mutants fail an answer that only says how to search.

    bench/answers.py CRATE LOG

LOG is what `rt ci` or `rt must-fail CRATE` printed. A mutant that fails at a goal without an answer in `proofs/` is dear
(docs/GATE.md). For each such goal of the crate that LOG tells, this adds `search rules` to the `Answers.antt` of its function or
cycle, and checks the crate. Where the prover refuses that, it tries `grind (arith, common_steps)`, and takes the answer out again
where it refuses that too: the goal is proved by other means, or is there with the mutant alone. Then see whether the edit can keep
the names of the goals, as `a == a && b` does for `b` where the code has `a == c && b`. It prints a line for each goal. Then
`rt must-fail CRATE` must name no edit that is refused only because a proof file names what it took away: such an answer has to go.
"""
import argparse
import pathlib
import re
import subprocess
import sys

ROOT = pathlib.Path(__file__).resolve().parent.parent
# How an answer says to search, each tried where those before it are refused, and the names that it needs, by module.
WAYS = {
    "search rules": {"Rattle.std.proofs.Common": ["rules"]},
    "grind (arith, common_steps)": {"Rattle.std.proofs.Common": ["arith"], "Rattle.std.proofs.lemmas.Grind": ["common_steps"]},
}
# The crate is checked at most so often.
CHECKS = 6


def inside(text, start):
    """Tells what stands between the angle brackets that open at `start`, if they do."""
    if text[start:start + 1] != "<":
        return ""
    depth = 0
    for place in range(start, len(text)):
        depth += text[place] == "<"
        depth -= text[place] == ">" and text[place - 1] != "-"
        if depth == 0:
            return text[start + 1:place]
    return ""


def has_types(parameters):
    """Tells whether one of the parameters is a type, and not a lifetime."""
    flat = re.sub(r"[<(].*?[>)]", "", parameters)
    return any(part.strip() and not part.strip().startswith("'") for part in flat.split(","))


def cycle_of(lines):
    """Returns the cycle that the last of the lines, the head of a function, is said to be of by the attributes above it."""
    for line in reversed(lines[:-1]):
        if found := re.match(r"\s*#\[cycle\((\w+)\)\]", line):
            return found[1]
        if not line.strip().startswith(("#[", "//")):
            return None
    return None


def function_at(lines, number):
    """Returns the folder in `proofs/` of the function that has the line of this number, or of its cycle, and what its goals are given."""
    for first in range(number - 1, -1, -1):
        if found := re.search(r"\bfn (\w+)", lines[first].split("//")[0]):
            break
    else:
        return None
    generic = has_types(inside(lines[first], found.end()))
    folder = found[1]
    for line in reversed(lines[:first]):
        if line == "}":
            break
        if line.startswith("impl"):
            parameters = inside(line, 4)
            head = line[4 + (len(parameters) + 2 if parameters else 0):].strip()
            of_trait = re.match(r"(\w+).* for (\w+)", head)
            owner = of_trait[2] + of_trait[1] if of_trait else re.match(r"\w+", head)[0]
            folder, generic = f"{owner}/{found[1]}", generic or has_types(parameters)
            break
    if cycle := cycle_of(lines[:first + 1]):
        return f"+{cycle}", "g t c" if generic else "t c"
    return folder, "g c" if generic else "c"


def goals_without_answer(crate, log):
    """Yields the goals that the log tells: of each the folder in `proofs/`, its name, and what it is given."""
    told = re.compile(rf"must-fail {crate}/\S+\.edit: refused.*?: note: src/(\S+)\.rt:(\d+):\d+: .*?\(`([^`]+)`\)")
    for line in log.split("\n"):
        if found := told.search(line):
            source = ROOT / "crates" / crate / "src" / f"{found[1]}.rt"
            function = function_at(source.read_text(encoding="utf-8").split("\n"), int(found[2]))
            if function:
                yield f"{found[1]}/{function[0]}", found[3], function[1]


def imports(module):
    """Returns a `use` line of this module."""
    return re.compile(rf"^use {re.escape(module)}\.\{{([^}}]*)\}}\n", re.M)


def with_names(text, needed):
    """Returns the file with these names imported."""
    for module, names in needed.items():
        found = imports(module).search(text)
        had = found[1].split(", ") if found else []
        line = f"use {module}.{{{', '.join(had + [name for name in names if name not in had])}}}\n"
        text = text.replace(found[0], line) if found else line + text
    return text


def without_names(text, needed):
    """Returns the file without the imports of those of these names that it no longer uses."""
    for module, names in needed.items():
        found = imports(module).search(text)
        rest = re.sub(r"^use .*\n", "", text, flags=re.M)
        if found:
            left = [name for name in found[1].split(", ") if name not in names or re.search(rf"\b{name}\b", rest)]
            text = text.replace(found[0], f"use {module}.{{{', '.join(left)}}}\n" if left else "")
    return text


def add(path, module, goal, given, way):
    """Adds the answer to the file, and says whether it could: the goal has no other one."""
    text = path.read_text(encoding="utf-8") if path.exists() else f"use {module} as goal\n"
    alias = re.search(rf"^use {re.escape(module)} as (\S+)$", text, re.M)
    if not alias or re.search(rf"^pub {re.escape(goal)} :", text, re.M):
        return False
    path.parent.mkdir(parents=True, exist_ok=True)
    answer = f"\npub {goal} : {alias[1]}.{goal}\n{goal} {given} = {way}\n"
    path.write_text(with_names(text, WAYS[way]) + answer, encoding="utf-8")
    return True


def take_out(path, goal, way):
    """Takes the answer out of the file, and what it alone needed."""
    text = path.read_text(encoding="utf-8")
    text = re.sub(rf"\npub {re.escape(goal)} : \S+\n{re.escape(goal)} [gtc ]+ = {re.escape(way)}\n", "", text)
    text = without_names(text, WAYS[way])
    if "pub " in text:
        path.write_text(text, encoding="utf-8")
    else:
        path.unlink()
        folder = path.parent
        while not any(folder.iterdir()):
            folder.rmdir()
            folder = folder.parent


def words():
    """Reads the command line."""
    parser = argparse.ArgumentParser(description=__doc__, formatter_class=argparse.RawDescriptionHelpFormatter)
    parser.add_argument("crate", metavar="CRATE", help="the crate that gets the answers")
    parser.add_argument("log", metavar="LOG", type=pathlib.Path, help="the file of what was printed")
    return parser.parse_args()


def main():
    told = words()
    crate, log = told.crate, told.log.read_text(encoding="utf-8", errors="replace")
    top = ROOT / "crates" / crate
    # What was added: of each answer what `add` and `take_out` are given, and the ways that were not tried yet.
    added = {}

    def attempt(place, goal, module, given, ways):
        """Adds the answer by the first of the ways, if there is one."""
        if ways and add(top / place, module, goal, given, ways[0]):
            added[place, goal] = module, given, ways
        else:
            print(f"left: {place} {goal}")

    for folder, goal, given in sorted(set(goals_without_answer(crate, log))):
        module = f"Rattle.{crate}.proofs.{folder.replace('/', '.')}.Goals"
        attempt(f"proofs/{folder}/Answers.antt", goal, module, given, list(WAYS))
    for _ in range(CHECKS):
        ran = subprocess.run(["rt", "check"], cwd=top, stdout=subprocess.PIPE, stderr=subprocess.STDOUT, text=True)
        refused = set(re.findall(r"^\./(proofs/\S+):\d+:\d+: error: `([^`]+)`", ran.stdout, re.M)) & set(added)
        whole = set(re.findall(r"^\./(proofs/\S+): error:", ran.stdout, re.M))
        refused |= {one for one in added if one[0] in whole}
        for place, goal in sorted(refused):
            module, given, ways = added.pop((place, goal))
            take_out(top / place, goal, ways[0])
            attempt(place, goal, module, given, ways[1:])
        if ran.returncode == 0 or not refused:
            break
    for (place, goal), (_, _, ways) in sorted(added.items()):
        print(f"added: {place} {goal}: {ways[0]}")
    if ran.returncode:
        print(f"rt check in crates/{crate} fails:\n{ran.stdout[-2000:]}")
    return ran.returncode


if __name__ == "__main__":
    sys.exit(main())
