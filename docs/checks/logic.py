"""Tests what is named of lemmas and definitions: from other crates, and at all."""
import re

from checks.shared import ROOT, cells_below, lines_of, text_of, unless

IMPORT = re.compile(r"\bRattle\.(oth_\w+)\.proofs\.(?:[A-Z]\w*\.)*([A-Z]\w*)")
DECLARED = re.compile(r" *(?:(?:pub|abbrev|unfoldable|data|record) +)*([^\s:(){}=]+)(?: [({].*?)? :(?: |$)")
USE = re.compile(r"(?m)^ *(?:ghost )?(?:pub )?use Rattle\.([^\s{};]+?)(?:\.\{([^}]*)\})?(?: as (\w+))?;?$")
# A lemma that an attribute of a function hands to its proof.
HANDED = re.compile(r"\b(crate|oth_\w+)::proofs::([\w:]+)::(\w+)")
NAME = re.compile(r"(?<![^\s(){}\[\],;`⟦⟧])[^\s(){}\[\],;.`⟦⟧]+")


class Logic:
    """A file of specs, proofs or code: its lines with neither imports nor comments, and the words that it imports, with their modules."""

    def __init__(self, path):
        text = text_of(path)
        self.lines = [line for line in USE.sub("", text).split("\n") if not line.strip().startswith(("--", "//"))]
        self.names = NAME.findall("\n".join(self.lines))
        self.module = ".".join(path.relative_to(ROOT / "crates").with_suffix("").parts)
        self.imported = set()
        for crate, modules, name in HANDED.findall(text):
            owner = self.module.split(".")[0] if crate == "crate" else crate
            self.imported.add((f"{owner}.proofs.{modules.replace('::', '.')}", name))
        for module, names, local in USE.findall(text):
            for name in names.split(",") if names else ():
                original, _, other = name.strip().partition(" as ")
                if (other or original) in self.names:
                    self.imported.add((module, original))
            if local:
                parts = re.findall(rf"(?<![\w.]){local}\.([^\s(){{}},;.]+)", "\n".join(self.lines))
                self.imported.update((module, name) for name in parts)

    def has_statements(self):
        """Tells whether its lemmas and definitions have to be named somewhere; those of `Examples` are there to be read."""
        return bool(re.search(r"\.(specs|proofs)\.[A-Z]\w*$", self.module)) and not self.module.endswith(".Examples")

    def statements(self):
        """Returns the lemmas and definitions that are declared here, without fields and constructors: of each its name and its lines."""
        found, bodies = [], [0]
        for at, line in enumerate(self.lines):
            depth = len(line) - len(line.lstrip())
            while line and depth < bodies[-1]:
                bodies.pop()
            match = depth == bodies[-1] and DECLARED.match(line)
            if line.lstrip().startswith("module _"):
                bodies.append(depth + 2)
                found.append((None, at))
            elif match:
                found.append((match.group(1), at))
        ends = [*(at for _, at in found), len(self.lines)][1:]
        return [(name, "\n".join(self.lines[at:end])) for (name, at), end in zip(found, ends, strict=True) if name]


def lemma_faults():
    """Tests that the lemmas which docs/ARCHITECTURE.md lists for a crate are those that proofs of other crates import."""
    used, listed = lemmas_used(), lemmas_listed()
    for owner in sorted(used.keys() | listed.keys()):
        differ = sorted(used.get(owner, set()) ^ listed.get(owner, set()))
        yield unless(not differ, f"docs/ARCHITECTURE.md: the lemmas of {owner} that are used above it: {', '.join(differ)}")


def lemmas_used():
    """Returns the files of lemmas that proofs and specs of other crates import, by their crate."""
    used = {}
    for file in ROOT.glob("crates/*/*/**/*.antt"):
        crate, folder = file.relative_to(ROOT / "crates").parts[:2]
        if folder in ("proofs", "specs"):
            for owner, lemmas in IMPORT.findall(text_of(file)):
                if owner != crate:
                    used.setdefault(owner, set()).add(lemmas)
    return used


def lemmas_listed():
    """Returns the files of lemmas that docs/ARCHITECTURE.md lists, by their crate."""
    page = ROOT / "docs/ARCHITECTURE.md"
    listed = {}
    for number, cell in cells_below(page, "Lemmas"):
        owner = re.match(r"\| `(\w+)`", lines_of(page)[number - 1]).group(1)
        listed[owner] = set(re.findall(r"`(\w+)`", cell))
    return listed


def unused_faults():
    """Tests that each lemma and definition is named somewhere else than at its own statement."""
    places = ("specs/**/*.antt", "proofs/**/*.antt", "src/**/*.rt")
    files = [Logic(path) for place in places for path in sorted(ROOT.glob(f"crates/*/{place}"))]
    imported = set().union(*(file.imported for file in files))
    for file in files:
        for name, statement in file.statements() if file.has_statements() else ():
            named = (file.module, name) in imported or file.names.count(name) > NAME.findall(statement).count(name)
            yield unless(named, f"crates/{file.module.replace('.', '/')}.antt: nothing names {name}")
