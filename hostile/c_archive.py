#!/usr/bin/env python3
"""Makes crates/oth_c/out/liboth_c.a, the C library that the hostile runs need.

    hostile/c_archive.py

`rt ci` proves oth_c and keeps no library of it, and what it keeps of the crates below is no work of its own to `rt lib`, which would
prove them all from nothing once more. So this does what `rt lib` does last, over the libraries that `rt ci` left: the kit's `rattle
build` proves oth_c alone and compiles it. Where an earlier `rt check` has left libraries of its own, which know whether they are still
up to date, and where that build fails, `rt lib` makes everything that is missing.
"""
import argparse
import os
import pathlib
import subprocess
import sys

CRATE = pathlib.Path(__file__).resolve().parent.parent / "crates/oth_c"
KIT = ("std", "std_alloc", "core")
USED = ("oth_rules", "oth_search", "oth_table", "oth_text")
BELOW = ("oth_history", "oth_device", *USED)
ARCHIVE = "out/liboth_c.a"


def library_of(crate):
    """Tells where the library of a crate lies."""
    return CRATE.parent / crate / "out/rlib"


def left_by_ci(crate):
    """Tells whether the library that lies there was left by `rt ci`, which puts no stamp beside it."""
    return (library_of(crate) / f"{crate}.rlib/format").is_file() and not (library_of(crate) / "stamp").exists()


def built_over():
    """Proves and compiles oth_c over the libraries that lie there, and tells whether that succeeded."""
    kit = pathlib.Path(subprocess.run(["rt", "doc"], stdout=subprocess.PIPE, check=True, text=True).stdout.strip()).parent
    words = ["build", "--crate-name", "oth_c", "src/lib.rt", "--crate-type", "staticlib"]
    words += [word for crate in KIT for word in ("--extern", f"{crate}={kit}/rlibs/{crate}.rlib")]
    words += ["-L", f"dependency={kit}/rlibs", "--antt-project", f"{kit}/rattle/logic/antt-project.json"]
    words += ["--logic-built", f"{kit}/logic_built"]
    words += [word for crate in USED for word in ("--extern", f"{crate}={library_of(crate)}/{crate}.rlib")]
    words += [word for crate in BELOW for word in ("-L", f"dependency={library_of(crate)}")]
    words += ["--toolchain", f"{kit}/toolchain", "--jobs", str(len(os.sched_getaffinity(0))), "-o", ARCHIVE]
    (CRATE / "out").mkdir(exist_ok=True)
    ran = subprocess.run([kit / "bin/rattle", *words], cwd=CRATE, stdout=subprocess.PIPE, stderr=subprocess.STDOUT, text=True)
    said = ran.stdout.rstrip().split("\n")
    print("\n".join(line for line in said if not line.startswith("fn ")) if ran.returncode else said[-1], flush=True)
    return ran.returncode == 0


def main():
    argparse.ArgumentParser(description=__doc__, formatter_class=argparse.RawDescriptionHelpFormatter).parse_args()
    if all(map(left_by_ci, BELOW)) and built_over():
        return 0
    return subprocess.run(["rt", "lib"], cwd=CRATE, stdout=subprocess.DEVNULL).returncode


if __name__ == "__main__":
    sys.exit(main())
