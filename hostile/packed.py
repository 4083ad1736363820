"""Packs what is built twice, in two folders and under other circumstances, and tries what is in the packages.

Where dpkg-deb, pkg-config or lintian isn't installed, what needs it is passed over, and a step says so.
"""
import gzip
import os
import re
import shutil
import sys
import tarfile
import tempfile
import time

import c_library
import installed
import recipes
from running import TOP, VERSION, ran, text_of, version_line

PACKAGE = f"{TOP}/package"
FOLDER, FILE = f"pahkrin-{VERSION}", f"pahkrin_{VERSION}_amd64"
DEB, TAR = f"{FILE}.deb", f"{FILE}.tar.gz"
DEBIAN_LIB = "lib/x86_64-linux-gnu"
DOC = "share/doc/pahkrin"
# What of the repository is packed, the pages by themselves, and what that was built of its crates.
SOURCES = "CHANGELOG.md completions crates.txt docs/othsolve.1 examples include install package".split()
PAGES = ("FORMATS", "LIBRARY", "RECIPES", "RULES")
BUILT = ("othsolve/out/othsolve", "oth_c/out/liboth_c.a")
# What is in a package below its prefix, without the libraries, the completion for zsh and, for Debian, what lintian is told.
FILES = f"""bin/othsolve
include/othsolve.h
share/bash-completion/completions/othsolve
share/man/man1/othsolve.1.gz
{DOC}/CHANGELOG.md.gz
{DOC}/FORMATS.md
{DOC}/LIBRARY.md
{DOC}/RECIPES.md
{DOC}/RULES.md
{DOC}/changelog.gz
{DOC}/copyright
{DOC}/examples/boards.txt
{DOC}/examples/diagram.txt
{DOC}/examples/games.ggf
{DOC}/examples/games.txt
{DOC}/examples/games.wtb
{DOC}/examples/problems.obf
{DOC}/examples/python/analyse.py
{DOC}/examples/python/othsolve/__init__.py
{DOC}/examples/python/othsolve/py.typed
{DOC}/examples/python/pyproject.toml
{DOC}/examples/python/wheel_of_this.py
{DOC}/examples/to_lines.py
{DOC}/examples/worked.book
{DOC}/examples/worked.c
""".split()
LIBRARIES = ("libothsolve.a", "libothsolve.so", installed.SONAME, f"libothsolve.so.{VERSION}", "pkgconfig/othsolve.pc")
OF_DEBIAN = ["share/zsh/vendor-completions/_othsolve", "share/lintian/overrides/pahkrin"]
MODES = ["-rw-r--r--", "-rwxr-xr-x", "drwxr-xr-x", "lrwxrwxrwx"]
# A link of a page, behind its text.
LINK = re.compile(r"\]\(([A-Za-z_./#0-9-]+)\)")
# A time for sources that are in no clone.
SOME_TIME = "1700000000"


def steps(crates):
    """Yields a step for each thing that is asked: its name, and what is wrong, if anything."""
    if not shutil.which("dpkg-deb"):
        yield "dpkg-deb isn't installed: nothing is packed", None
        return
    with tempfile.TemporaryDirectory() as folder:
        here, there, copy = f"{folder}/here", f"{folder}/there", f"{folder}/other folder/of sources"
        yield from installed.library(folder, crates)
        told, seconds = commit_time()
        yield "what is built is packed", wrong_with([PACKAGE, here, crates], SOURCE_DATE_EPOCH=told)
        make_copy(crates, copy)
        around = {"SOURCE_DATE_EPOCH": seconds, "TZ": "Pacific/Apia", "LIBDIR": "lib64", "DESTDIR": f"{folder}/nowhere"}
        words = ["sh", "-c", 'umask 077 && exec "$@"', "sh", f"{copy}/package", there]
        yield "a copy in another folder is packed, under another umask and another time zone", wrong_with(words, **around)
        for name in (DEB, TAR):
            same = bytes_of(f"{here}/{name}") == bytes_of(f"{there}/{name}") is not None
            yield f"{name} is the same, byte for byte", None if same else "the two differ, or there is none"
        yield from refused(folder, copy)
        yield from debian(f"{folder}/root", f"{here}/{DEB}", seconds)
        yield from archive(f"{folder}/any where", f"{here}/{TAR}", seconds)


def commit_time():
    """Returns the seconds of the commit: as the clone's package is told them, empty where git tells them, and as a copy's is."""
    told = ran(["git", "-C", TOP, "log", "-1", "--format=%ct"])
    return ("", told.wrote.decode().strip()) if told.status == 0 else (SOME_TIME, SOME_TIME)


def make_copy(crates, to):
    """Copies what is packed into this folder; the time of each copy is the present."""
    for name in (*SOURCES, *(f"docs/{page}.md" for page in PAGES)):
        os.makedirs(os.path.dirname(f"{to}/{name}"), exist_ok=True)
        if os.path.isdir(f"{TOP}/{name}"):
            shutil.copytree(f"{TOP}/{name}", f"{to}/{name}", copy_function=shutil.copy)
        else:
            shutil.copy(f"{TOP}/{name}", f"{to}/{name}")
    for name in BUILT:
        os.makedirs(os.path.dirname(f"{to}/crates/{name}"))
        shutil.copy(f"{crates}/{name}", f"{to}/crates/{name}")


def wrong_with(words, **around):
    """Tells what is wrong with a run that is to succeed, if anything."""
    found = ran(words, env={**os.environ, **around}, patience=c_library.BUILD_PATIENCE)
    return None if found.status == 0 else f"{found}"


def bytes_of(path):
    """Returns the bytes of a file, or None where there is no such file."""
    if not os.path.isfile(path):
        return None
    with open(path, "rb") as file:
        return file.read()


def refused(folder, copy):
    """Tests that what can't be packed leaves nothing, and says why."""
    none = f"{folder}/none"
    rows = [
        ("no OUT", [], SOME_TIME, 2, "OUT is missing"),
        ("an option that isn't there", ["--out"], SOME_TIME, 2, "there is no option --out"),
        ("too many words", [none, "b", "c"], SOME_TIME, 2, "too many words"),
        ("an OUT that can't be made", ["/proc/othsolve"], SOME_TIME, 1, "/proc/othsolve can't be written to"),
        ("nothing built", [none, none], SOME_TIME, 1, "this is not built yet"),
        ("no time", [none], "", 1, "neither git nor SOURCE_DATE_EPOCH"),
        ("a time that is none", [none], "today", 1, "neither git nor SOURCE_DATE_EPOCH"),
    ]
    for name, words, seconds, status, said in rows:
        found = ran([f"{copy}/package", *words], env={**os.environ, "SOURCE_DATE_EPOCH": seconds, "GIT_CEILING_DIRECTORIES": folder})
        right = found.status == status and found.wrote == b"" and said in found.said.decode() and not os.path.exists(none)
        yield f"package is refused: {name}", None if right else f"{found}"


def debian(root, deb, seconds):
    """Tests the package for Debian: what it is called, what is in it and whose that is, and that it works."""
    fields = ran(["dpkg-deb", "--field", deb, "Package", "Version", "Architecture"]).wrote.decode()
    yield "what the package is called", installed.differs(fields, f"Package: pahkrin\nVersion: {VERSION}\nArchitecture: amd64\n")
    listed = [line.split() for line in ran(["dpkg-deb", "--contents", deb], env={**os.environ, "TZ": "UTC"}).wrote.decode().splitlines()]
    minute = time.strftime("%Y-%m-%d %H:%M", time.gmtime(int(seconds)))
    found = sorted({line[0] for line in listed}), {line[1] for line in listed}, {f"{line[3]} {line[4]}" for line in listed}
    yield "modes, owner and times", installed.differs(found, (MODES, {"root/root"}, {minute}))
    yield "the package is unpacked", wrong_with(["dpkg-deb", "-x", deb, root])
    wanted = [*FILES, *OF_DEBIAN, *(f"{DEBIAN_LIB}/{name}" for name in LIBRARIES)]
    yield "what is in it", installed.differs(installed.files(f"{root}/usr"), sorted(wanted))
    sums = ran(["sh", "-c", 'dpkg-deb --ctrl-tarfile "$1" | tar -xO ./md5sums', "sh", deb]).wrote
    checked = ran(["md5sum", "--quiet", "--check"], sums, cwd=root)
    yield "its sums", None if sums.count(b"\n") == len(wanted) - 2 and checked.status == 0 else f"{sums}, {checked}"
    yield from works(f"{root}/usr", DEBIAN_LIB, [f"--define-variable=prefix={root}/usr"])
    if shutil.which("lintian"):
        yield "lintian finds no fault", wrong_with(["lintian", "--allow-root", "--fail-on", "error,warning", deb])
    else:
        yield "lintian isn't installed", None


def dead_links(page, source):
    """Tells which links of a page lead nowhere, or what else of its source the page lacks, if anything."""
    text = installed.read(page)
    names = [target.partition("#")[0] for target in LINK.findall(text)]
    dead = [name for name in names if name and not os.path.isfile(f"{os.path.dirname(page)}/{name}")]
    return installed.differs((dead, LINK.sub("", text).replace("[", "")), ([], LINK.sub("", source).replace("[", "")))


def archive(folder, file, seconds):
    """Tests the archive: what is in it and whose that is, and that it works wherever it is unpacked."""
    with tarfile.open(file) as members:
        every = members.getmembers()
    found = {(each.uid, each.gid, each.mtime) for each in every}, sorted({f"{each.mode:o}" for each in every})
    yield "modes, owner and times in the archive", installed.differs(found, ({(0, 0, int(seconds))}, ["644", "755", "777"]))
    os.mkdir(folder)
    yield "the archive is unpacked", wrong_with(["tar", "-xzf", file, "-C", folder])
    wanted = sorted([*FILES, "share/zsh/site-functions/_othsolve", *(f"lib/{name}" for name in LIBRARIES)])
    yield "what is in the archive", installed.differs(installed.files(f"{folder}/{FOLDER}"), wanted)
    yield from works(f"{folder}/{FOLDER}", "lib", [])


def works(prefix, lib, how):
    """Tests what was unpacked: the program, its page, the C example by pkg-config, the module for Python; and that it names no path."""
    kind = lib.replace("lib/", "")
    program, doc = f"{prefix}/bin/othsolve", f"{prefix}/{DOC}"
    boards = installed.read(f"{doc}/examples/boards.txt")
    rows = c_library.WORKED["winner"].split("|")
    wanted = text_of(["error 5 60" if row == "refused: 5" else row for row in rows])
    yield f"the worked boards by the program of {kind}", c_library.ran_wrong([program, "solve"], boards, wanted)
    yield f"its version in {kind}", c_library.ran_wrong([program, "--version"], "", version_line(program))
    with gzip.open(f"{prefix}/share/man/man1/othsolve.1.gz", "rt", encoding="utf-8") as page:
        yield f"its page in {kind}", installed.differs(page.read(), installed.read(f"{TOP}/docs/othsolve.1"))
    for page in PAGES:
        yield f"links of {page} in {kind}", dead_links(f"{doc}/{page}.md", installed.read(f"{TOP}/docs/{page}.md"))
    begin = "".join(code for code, _ in recipes.recipes()[recipes.BEGIN])
    words = ["bash", "-c", f"{begin}examples/to_lines.py wthor examples/games.wtb | cmp - examples/games.txt"]
    yield f"recipes begin in {kind}", c_library.ran_wrong(words, cwd=doc, env={**os.environ, "TMPDIR": os.path.dirname(prefix)})
    paths = [path.encode() for path in (TOP, prefix, "/tmp/")]
    inside = [name for name in installed.files(prefix) if any(path in bytes_of(f"{prefix}/{name}") for path in paths)]
    yield f"no path of this machine in {kind}", installed.differs(inside, [])
    shared = f"{prefix}/{lib}/{installed.SONAME}"
    module = {**os.environ, "OTHSOLVE_LIBRARY": shared, "PYTHONPATH": f"{doc}/examples/python"}
    words = [sys.executable, "-B", "-c", "import othsolve; print('othsolve', othsolve.LIBRARY_VERSION)"]
    yield f"the module for Python of {kind}", c_library.ran_wrong(words, "", version_line(shared), env=module)
    if not shutil.which("pkg-config"):
        yield "pkg-config isn't installed", None
        return
    told = {**os.environ, "PKG_CONFIG_PATH": f"{prefix}/{lib}/pkgconfig", "LD_LIBRARY_PATH": f"{prefix}/{lib}"}
    build = 'eval "cc $1 worked.c $(pkg-config $2 --cflags --libs othsolve) -o worked"'
    words = ["sh", "-c", build, "sh", " ".join(c_library.FLAGS), " ".join(how)]
    yield f"the C example of {kind} is built by pkg-config", c_library.ran_wrong(words, env=told, cwd=f"{doc}/examples")
    yield f"it answers over the library of {kind}", c_library.ran_wrong([f"{doc}/examples/worked"], boards, text_of(rows), env=told)
