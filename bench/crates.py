"""Reads crates.txt: a line `NAME [SETTING ..]: NAME ..` for each crate, with the crates on which it stands, the lowest first."""
import pathlib
from typing import NamedTuple

ROOT = pathlib.Path(__file__).resolve().parent.parent


class Crate(NamedTuple):
    """A line of crates.txt: the name of the crate, what it stands on (libraries of the toolchain too), and the line itself."""

    name: str
    below: tuple[str, ...]
    line: str


def read():
    """Returns the crates, in their order."""
    lines = (ROOT / "crates.txt").read_text(encoding="utf-8").split("\n")
    return [crate_of(line) for line in lines if line.strip() and not line.startswith("#")]


def crate_of(line):
    """Returns the crate of this line."""
    head, below = line.split(":")
    return Crate(head.split()[0], tuple(below.split()), line)


def names():
    """Returns the names of the crates, in their order."""
    return [crate.name for crate in read()]


def with_those_below(wanted):
    """Returns the crates of these names and all below them, in their order."""
    below = {crate.name: crate.below for crate in read()}
    found, to_follow = set(), list(wanted)
    while to_follow:
        name = to_follow.pop()
        if name in below and name not in found:
            found.add(name)
            to_follow += below[name]
    return [crate for crate in read() if crate.name in found]
