#!/usr/bin/env python3
"""Copies crates and all that they stand on into a repository of its own, with the libraries that are built already, so that
a figure's program is proved over them at once.

Usage: bench/copy_crates.py FOLDER CRATE..
"""
import os
import shutil
import sys

TOP = os.path.join(os.path.dirname(os.path.abspath(__file__)), "..")
PARTS = "src", "specs", "proofs", "out/rlib"


def lines_of(path):
    """The line of each crate, in their order, and what it stands on."""
    with open(path) as file:
        lines = [line for line in file if line.strip() and not line.startswith("#")]
    return {name: (line, below.split()) for line in lines for name, below in [line.split(":")]}


def add(crate, lines, wanted):
    if crate in lines and crate not in wanted:
        for below in lines[crate][1]:
            add(below, lines, wanted)
        wanted.add(crate)


def main(folder, crates):
    lines = lines_of(os.path.join(TOP, "crates.txt"))
    wanted = set()
    for crate in crates:
        add(crate, lines, wanted)
    for crate in wanted:
        for part in PARTS:
            source = os.path.join(TOP, "crates", crate, part)
            if os.path.isdir(source):
                shutil.copytree(source, os.path.join(folder, "crates", crate, part))
    with open(os.path.join(folder, "crates.txt"), "w") as out:
        out.writelines(line for name, (line, _) in lines.items() if name in wanted)


main(sys.argv[1], sys.argv[2:])
