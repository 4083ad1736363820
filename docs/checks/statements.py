"""Reads contracts, models and definitions: the lines of each, and the words of this repository and of the kit that they name."""
import re

from checks.shared import ROOT, declared, declared_at, lines_of, shown

WORD = re.compile(r"[^\W\d][\w'-]*")
# The words that a file takes from the standard library and from the crates of the kit.
OF_THE_KIT = re.compile(r"use Rattle\.(?!oth_)[\w.]+\.\{([^}]*)\}")


def words_of_the_kit(name, path, at):
    """Returns the words of the kit that are named where this line declares the name."""
    taken = {}
    for names in OF_THE_KIT.findall("\n".join(lines_of(ROOT / path))):
        for each in names.split(","):
            original, _, local = each.strip().partition(" as ")
            taken[(local or original).strip()] = original
    return {taken[word] for word in words_in(statement(name, path, at)) if word in taken}


def named_by(name, path, at):
    """Returns the words of this repository that are named where this line declares the name, each as its file and its name there."""
    file = ROOT / path
    text = statement(name, path, at)
    known = {**imports("\n".join(lines_of(file))), **own_words(file)} if text else {}
    return {known[word] for word in words_in(text) if word in known}


def statement(name, path, at):
    """Returns the contract, the model or the definition of a name as lines; none where this line doesn't declare it."""
    file = ROOT / path
    if declared_at(file, at) != name:
        return []
    if file.suffix == ".antt":
        return definition(file, at)
    return contract(file, at) if re.search(r"\bfn\b", lines_of(file)[at - 1]) else model(file, name)


def words_in(text):
    """Returns the words of these lines, but for comments."""
    return set(WORD.findall("\n".join(line for line in text if not line.strip().startswith(("--", "//")))))


def imports(text):
    """Returns the imported words of this repository: of each the file of specs or the Rust type that it stands for, and its name there."""
    found = {}
    for module, names in re.findall(r"use Rattle\.(oth_[\w.]+)\.\{([^}]*)\}", text):
        for name in names.split(","):
            original, _, local = name.strip().partition(" as ")
            found[(local or original).strip()] = meant(module.split("."), original.strip())
    for module, local in re.findall(r"use Rattle\.(oth_[\w.]+) as (\w+)", text):
        found[local] = meant(module.split("."), None)
    return found


def meant(parts, name):
    """Returns the file and the name that are meant by the parts of an imported module and a name of it."""
    crate, rest = parts[0], parts[2:]
    if rest[:1] != ["declared"]:
        file = f"crates/{crate}/specs/{'/'.join(rest)}.antt"
        return (file if (ROOT / file).exists() else f"crates/{crate}/specs/{rest[0]}.antt", name)
    rest = rest[1:rest.index("TheVariants")] if "TheVariants" in rest else rest[1:]
    return (f"crates/{crate}/src/{'/'.join(rest[:-1])}.rt", rest[-1])


def own_words(path):
    """Returns the words that a file of specs declares itself."""
    if path.suffix != ".antt":
        return {}
    return {name: (shown(path), name) for name in (declared(path, line) for line in lines_of(path)) if name}


def definition(path, at):
    """Returns the lines of the definition that begins at this line."""
    text = lines_of(path)
    end = at
    while end < len(text) and not declared(path, text[end]):
        end += 1
    while text[end - 1].strip().startswith("--") or text[end - 1].strip().startswith("module "):
        end -= 1
    return text[at - 1:end]


def contract(path, at):
    """Returns the clauses of the function that begins at this line."""
    text = lines_of(path)
    end = at
    while end < len(text) and not re.match(r" *\{\}?$", text[end]):
        end += 1
    return text[at:end]


def model(path, name):
    """Returns the ghost lines of a type: of its declaration, and of its `impl Model` or of its `impl TableRule`."""
    found = []
    text = lines_of(path)
    for begin in (rf"(?:pub )?(?:struct|enum) {name}\b", rf"impl(?:<[^>]*>)? (?:Model|TableRule<[^>]*>) for {name}\b"):
        at = next((i for i, line in enumerate(text) if re.match(begin, line)), None)
        if at is not None:
            ends = (i for i in range(at, len(text)) if text[i].rstrip() in ("}", ");") or text[i].endswith(";") and i == at)
            found += text[at:next(ends, at)]
    return found
