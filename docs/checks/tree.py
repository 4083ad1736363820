"""Collects the names that stand in the tree: those that its code, specs and proofs declare or import, those of scripts and of C, and
those of files."""
import ast
import os
import re

from checks.shared import ROOT, text_of

WORD = re.compile(r"[A-Za-z_]\w*")
# What a line of code declares: an item (of tests these alone), a ghost member, the label of a clause, a field or a parameter, a variant.
CODE = (
    re.compile(r"\b(?:fn|struct|enum|trait|type|const|static|mod) +([A-Za-z_]\w*)"),
    re.compile(r"\bghost +([a-z]\w*) *[:=]"),
    re.compile(r"\b(?:requires|ensures) +([a-z]\w*) *\{"),
    re.compile(r"(?m)(?:^|[(,{|<])[ ]*(?:(?:pub(?:\([a-z]+\))?|ghost|mut) +)*([A-Za-z_]\w*) *:(?!:)"),
    re.compile(r"(?m)^ +([A-Z]\w*)(?:\(.*\)| *\{.*\}| *=.*)?,?$"),
)
# A text that is one word, with a space or the end of a line behind it: a word of the command line or of a format.
TEXT = re.compile(r'"([A-Za-z_][\w-]*) ?(?:\\n)?"')
OWNER = re.compile(r"(?m)\b(?:struct|enum|trait|type) +([A-Z]\w*)|^(?:unsafe )?impl(?:<[^{]*?>)? +(?:[\w:<>, ]+? for )?([A-Z]\w*)")
IMPORTED = re.compile(r"\buse ([^;]*);")
# What a line of specs declares: a definition, a field or a constructor, a type; and what one of proofs does, but for what is local.
LOGIC = (
    re.compile(r"(?m)^ *(?:(?:pub|abbrev|unfoldable|data|record) +)*([^\s:(){}=;]+)(?: [({].*?)? :(?: |$)"),
    re.compile(r"(?m)^ *(?:pub +)?(?:data|record) +(?:pub +)?([^\s:(){}]+)"),
)
LEMMA = re.compile(r"(?m)^(?:(?:pub|abbrev|unfoldable) +)*([^\s:(){}=;]+)(?: [({].*?)? :(?: |$)")
IMPORTED_IN_LOGIC = re.compile(r"(?m)^ *use (.*)$")
SHELL = (re.compile(r"(?m)^ *(?:local )?([A-Za-z_]\w*)(?:\(\)|=)"), re.compile(r"\$\{?([A-Za-z_]\w*)"))
C_COMMENT = re.compile(r"/\*.*?\*/|//[^\n]*", re.DOTALL)
C_TEXT = re.compile(r'"(?:\\.|[^"\\])*"')
# Scripts that have no suffix.
SHELL_SCRIPTS = ("check", "install", "package")
# Folders of scripts and of C, and those that hold no source.
FOLDERS, LEFT_OUT = ("bench", "completions", "docs", "examples", "hostile", "include"), {".git", "out", "__pycache__"}


class Names:
    """The words that stand in the tree, those that stand in each type or module (`OWNER::WORD`), its files, and options of its programs."""

    def __init__(self):
        self.words, self.owned, self.files, self.options = set(), {}, set(), options()
        for _, folders, files in os.walk(ROOT):
            folders[:] = [each for each in folders if each not in LEFT_OUT]
            self.files.update(files)
            self.words.update(folders, files, (name.partition(".")[0] for name in files))
        for path in sorted(ROOT.glob("crates/*/src/**/*.rt")):
            patterns = CODE[:1] if "_tests/src/" in str(path) else CODE
            self.add_module(path, code_names(text_of(path), (*patterns, TEXT)), owners(text_of(path)))
        for path in sorted(ROOT.glob("crates/*/specs/**/*.antt")):
            self.add_module(path, logic_names(text_of(path), LOGIC), set())
        for path in sorted(ROOT.glob("crates/*/proofs/**/*.antt")):
            self.add_module(path, logic_names(text_of(path), (LEMMA,)), set())
        self.words.update(WORD.findall(text_of(ROOT / "crates.txt")))
        for path in [*found_as("*.py"), ROOT / "mutants"]:
            self.words.update(python_names(text_of(path)))
        for path in [*found_as("*.sh"), *(ROOT / name for name in SHELL_SCRIPTS)]:
            self.words.update(name for pattern in SHELL for name in pattern.findall(text_of(path)))
        for path in [*found_as("*.c"), *found_as("*.h")]:
            self.words.update(c_names(text_of(path)))

    def add_module(self, path, names, types):
        """Adds what a file declares, as the crate, each of its modules and each of its types have it."""
        parts = [part for part in path.relative_to(ROOT / "crates").with_suffix("").parts if part not in ("src", "specs", "proofs")]
        self.words.update(names, parts)
        for at, part in enumerate(parts):
            self.owned.setdefault(part, set()).update(names, parts[at + 1:])
        for owner in types:
            self.owned.setdefault(owner, set()).update(names)


def found_as(pattern):
    """Returns the files of this name in the folders of scripts and of C."""
    return [path for folder in FOLDERS for path in sorted(ROOT.glob(f"{folder}/**/{pattern}"))]


def options():
    """Returns the options of the program, and those of scripts."""
    words = "\n".join(without_comments(text_of(path), "//") for path in ROOT.glob("crates/oth_words/src/**/*.rt"))
    scripts = "\n".join(text_of(path) for path in [*found_as("*.py"), *(ROOT / name for name in (*SHELL_SCRIPTS, "mutants"))])
    return {*TEXT.findall(words), *re.findall(r"[\"' \[]--([a-z-]+)", scripts)}


def without_comments(text, mark):
    """Returns the text without the lines that are comments."""
    return "\n".join(line for line in text.split("\n") if not line.lstrip().startswith(mark))


def code_names(text, patterns):
    """Returns what a file of code declares or writes by these patterns, and imports."""
    code = without_comments(text, "//")
    found = {name for pattern in patterns for name in pattern.findall(code)}
    return found.union(*(WORD.findall(names) for names in IMPORTED.findall(code)))


def owners(text):
    """Returns the types and traits that a file of code declares, or has an `impl` of."""
    return {name for pair in OWNER.findall(without_comments(text, "//")) for name in pair if name}


def logic_names(text, declared):
    """Returns what a file of specs or proofs declares, by these patterns, and imports, and the words of the texts that it names."""
    logic = without_comments(text, "--")
    found = {name for pattern in (*declared, TEXT) for name in pattern.findall(logic)}
    return found.union(*(re.findall(r"[^\s.,{}]+", names) for names in IMPORTED_IN_LOGIC.findall(logic)))


def python_names(text):
    """Returns the functions, classes, fields and constants of a script, and the texts that are a word in capitals or an option."""
    found = set()
    tree = ast.parse(text)
    for node in ast.walk(tree):
        if isinstance(node, ast.FunctionDef | ast.ClassDef):
            found.add(node.name)
        elif isinstance(node, ast.Attribute):
            found.add(node.attr)
        elif isinstance(node, ast.Constant) and isinstance(node.value, str) and re.fullmatch(r"[A-Z][A-Z_]+|--[a-z-]+", node.value):
            found.add(node.value.lstrip("-"))
    for node in (each for body in (tree, *ast.walk(tree)) if isinstance(body, ast.Module | ast.ClassDef) for each in body.body):
        targets = node.targets if isinstance(node, ast.Assign) else [node.target] if isinstance(node, ast.AnnAssign) else []
        found.update(name.id for target in targets for name in ast.walk(target) if isinstance(name, ast.Name))
    return found


def c_names(text):
    """Returns the identifiers of a file of C, and the texts that are one word."""
    code = C_COMMENT.sub("", text)
    return {*WORD.findall(C_TEXT.sub("", code)), *TEXT.findall(code)}
