#!/usr/bin/env python3
"""Runs the gate, or a part of it, and prints what each crate took of it: its proof, its tests and its edits.

    bench/times.py [COMMAND ..]

The command, `./check` if none is given, is run at the top of this repository, and what it prints goes through, each line behind the
minutes since the start. Meanwhile the prover's processes are looked at each second. The table at the end tells the CPU seconds that
they took, by crate: its own proof, the proof of its tests, the second proof that its must-fail edits begin with, how many edits there
are, and what they took. Then come the edits that took most, and the wall-clock minutes of the whole. What a process takes after it
was last looked at is not seen, so a row is short by up to a second a process. Leave the machine alone meanwhile. The exit status is
the command's.
"""
import argparse
import collections
import os
import pathlib
import subprocess
import sys
import threading
import time

import crates
import edits

ROOT = pathlib.Path(__file__).resolve().parent.parent
PARTS = ("proof", "tests", "second proof", "edits")
TICKS = os.sysconf("SC_CLK_TCK")
# How many edits are shown.
DEAREST = 40


class Seen:
    """What the prover's processes took so far: of each the crate and the part that it works for, and its seconds."""

    def __init__(self):
        self.taken = {}
        self.edits = {}

    def look(self):
        for process in os.listdir("/proc"):
            if not process.isdigit():
                continue
            try:
                words = pathlib.Path(f"/proc/{process}/cmdline").read_bytes().decode(errors="replace").split("\0")
                if not words[0].endswith("bin/rattle") or "--crate-name" not in words:
                    continue
                folder = os.readlink(f"/proc/{process}/cwd")
                fields = pathlib.Path(f"/proc/{process}/stat").read_text(errors="replace").rsplit(")", 1)[1].split()
            except OSError:
                continue
            crate = words[words.index("--crate-name") + 1]
            seconds = (int(fields[11]) + int(fields[12])) / TICKS
            # A process is told by its number and by when it started.
            key = process, fields[19]
            self.taken[key] = (crate, part(crate, words, folder), seconds)
            if self.taken[key][1] == "edits" and key not in self.edits:
                self.edits[key] = edit_of(crate, folder)

    def table(self):
        """Returns the seconds by crate and part, and how many edits of each crate took them."""
        sums = collections.defaultdict(collections.Counter)
        for key, (crate, name, seconds) in self.taken.items():
            sums[crate]["second proof" if name == "edits" and not self.edits[key] else name] += seconds
        for edit in set(self.edits.values()) - {None}:
            sums[edit.split("/")[0]]["count"] += 1
        return sums

    def dearest(self):
        """Returns the edits with the seconds that each took, the dearest first; the second proofs of whole crates are none."""
        sums = collections.Counter()
        for key, edit in self.edits.items():
            if edit:
                sums[edit] += self.taken[key][2]
        return sums.most_common()


def edit_of(crate, folder):
    """Returns the edit of either tier that was made in this copy of the crate, if any."""
    whole = ROOT / "crates" / crate
    for edit in edits.edits_of(whole):
        try:
            texts, wrong = edits.applied(edit, whole)
            if not wrong and all(pathlib.Path(folder, path).read_text(encoding="utf-8") == text for path, text in texts.items()):
                return f"{crate}/{edit.stem}"
        except OSError:
            continue
    return None


def part(crate, words, folder):
    """Tells what a process of the prover works for: a part of the gate in this repository, or something beside it."""
    if os.path.basename(folder).startswith("rt-edit-"):
        return "edits"
    if not folder.startswith(f"{ROOT}/"):
        return "beside"
    return "tests" if any(word.endswith(f"{crate}_tests.o") for word in words) else "proof"


def show(sums):
    """Prints the table, and what was made beside the gate."""
    columns = (*PARTS[:-1], "count", PARTS[-1])
    print("| Crate | Proof | Tests | Second proof | Mutants | Seconds of them |\n|---|---|---|---|---|---|")
    for crate in crates.names():
        print(f"| `{crate}` | " + " | ".join(f"{sums[crate][name]:.0f}" if sums[crate][name] else "" for name in columns) + " |")
    whole = {name: sum(row[name] for row in sums.values()) / (1 if name == "count" else 60) for name in (*columns, "beside")}
    print("| all, in minutes | " + " | ".join(f"{whole[name]:.0f}" for name in columns) + " |")
    print(f"beside the gate: {whole['beside']:.1f} minutes")


def words():
    """Reads the command line: a command with its words."""
    how = {"description": __doc__, "formatter_class": argparse.RawDescriptionHelpFormatter}
    parser = argparse.ArgumentParser(usage="%(prog)s [-h] [COMMAND ..]", **how)
    parser.add_argument("command", metavar="COMMAND", nargs=argparse.REMAINDER, help="a command with its words (./check)")
    return parser.parse_args().command or ["./check"]


def main():
    command = words()
    began = time.monotonic()
    seen = Seen()
    ran = subprocess.Popen(command, cwd=ROOT, stdout=subprocess.PIPE, stderr=subprocess.STDOUT, text=True, errors="replace")

    def pass_on():
        for line in ran.stdout:
            print(f"{(time.monotonic() - began) / 60:6.2f} {line}", end="", flush=True)

    printing = threading.Thread(target=pass_on)
    printing.start()
    while ran.poll() is None:
        seen.look()
        time.sleep(1)
    printing.join()
    show(seen.table())
    dearest = seen.dearest()
    print(f"{len(dearest)} edits, seconds of the dearest:")
    for edit, seconds in dearest[:DEAREST]:
        print(f"{seconds:6.0f} {edit}")
    print(f"{' '.join(command)}: status {ran.returncode} after {(time.monotonic() - began) / 60:.1f} minutes")
    return ran.returncode


if __name__ == "__main__":
    sys.exit(main())
