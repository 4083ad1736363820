"""Holds the tests of docs/check.py, a module for each kind of thing that they look at.

A test is a generator: for each thing that it looks at it gives what is wrong with it, a line of text, or None. Some look at
one line of a document and are given the document, the number of the line and the line; the others look at the whole tree.
"""
import pathlib
import sys

# What reads edits stands with the scripts that measure.
sys.path.insert(0, str(pathlib.Path(__file__).resolve().parent.parent.parent / "bench"))
