#!/usr/bin/env python3
"""Makes the WebAssembly module of crates/oth_web, once it is proved, and puts it beside the page.

    examples/web/build.py [FOLDER]

FOLDER gets othsolve.wasm; if not given, examples/web does. `rt lib` proves the crate and the four below it, in minutes from nothing, and else in
seconds, unless `rt ci` has left these four; the kit's `rattle build` proves it once more for WebAssembly and compiles it, and `rattle-link` links it.
Nothing is installed.
"""
import argparse
import os
import pathlib
import subprocess
import sys

HERE = pathlib.Path(__file__).resolve().parent
CRATES = HERE.parent.parent / "crates"
CRATE = CRATES / "oth_web"
TARGET = "wasm64-unknown-unknown"
# What the crate names, of the kit and of the repository, and what these stand on.
KIT = ("std", "arrayvec")
USED = ("oth_text", "oth_search", "oth_rules")
BELOW = (*USED, "oth_device")
# Bytes: in tests twice as few were enough. What a search remembers is 500 KB, of which the compiled code may keep copies.
STACK = 4_194_304


def left_by_ci(crate):
    """Tells whether the library of a crate was left by `rt ci`, which puts no stamp beside it."""
    library = CRATES / crate / "out/rlib"
    return (library / f"{crate}.rlib/format").is_file() and not (library / "stamp").exists()


def build_words(kit, archive):
    """Returns the words by which the kit compiles the crate for WebAssembly."""
    words = [kit / "bin/rattle", "build", "--crate-name", "oth_web", "src/lib.rt", "--crate-type", "staticlib"]
    words += [word for crate in KIT for word in ("--extern", f"{crate}={kit}/rlibs/{crate}.rlib")]
    words += ["-L", f"dependency={kit}/rlibs", "--antt-project", f"{kit}/rattle/logic/antt-project.json"]
    words += ["--logic-built", f"{kit}/logic_built"]
    words += [word for crate in USED for word in ("--extern", f"{crate}={CRATES}/{crate}/out/rlib/{crate}.rlib")]
    words += [word for crate in BELOW for word in ("-L", f"dependency={CRATES}/{crate}/out/rlib")]
    words += ["--target", TARGET, "--toolchain", f"{kit}/toolchain", "--jobs", str(min(2, len(os.sched_getaffinity(0)))), "-o", archive]
    return words


def told(words, **how):
    """Runs the words; where they fail, tells what they said and ends."""
    ran = subprocess.run(words, cwd=CRATE, stdout=subprocess.PIPE, stderr=subprocess.STDOUT, text=True, check=False, **how)
    if ran.returncode:
        print(ran.stdout, file=sys.stderr)
        sys.exit(ran.returncode)
    return ran.stdout


def main():
    parser = argparse.ArgumentParser(description=__doc__, formatter_class=argparse.RawDescriptionHelpFormatter)
    parser.add_argument("folder", nargs="?", default=HERE, type=pathlib.Path)
    folder = parser.parse_args().folder.resolve()
    kit = pathlib.Path(told(["rt", "doc"]).strip()).parent
    if not all(map(left_by_ci, BELOW)):
        told(["rt", "lib"])
    (CRATE / "out").mkdir(exist_ok=True)
    archive = "out/liboth_web.wasm64.a"
    told(build_words(kit, archive))
    module = folder / "othsolve.wasm"
    told([kit / "bin/rattle-link", "--target", TARGET, "--toolchain", f"{kit}/toolchain", "--stack", str(STACK), "-o", module, archive])
    print(f"{module}: {module.stat().st_size} bytes")


if __name__ == "__main__":
    main()
