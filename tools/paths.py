#!/usr/bin/env python3
"""Tells what rt's own stamps cost: how often it reads the files of crates to see which libraries are stale.

    python3 tools/paths.py

`rt` sums up the files of a crate with those of each library that its line in crates.txt names, and of each library that these name, along every
PATH and without remembering any. So a library that a crate names beside another one that stands on it is read twice as often, and so on
upwards: the work doubles with each layer. What a library passes on (`pub use` in its src/lib.rt and specs/Lib.antt) needs no name. Printed are the
crates with most paths, and the sum of files that a gate reads, twice for each library. The status is 1 where that sum is above 12 million, some
eight minutes of one processor.
"""
import functools
import os
import pathlib
import sys

TOP = pathlib.Path(__file__).resolve().parent.parent
MOST = 12_000_000


def libraries():
    """The crates of crates.txt, each with the crates that its line names."""
    found = {}
    for line in (TOP / "crates.txt").read_text(encoding="utf-8").split("\n"):
        name, is_crate, names = line.partition("#")[0].partition(":")
        if is_crate:
            found[name.split()[0]] = names.split()
    return {name: [it for it in names if it in found] for name, names in found.items()}


def files_of(name):
    return sum(len(files) for part in ("src", "specs", "proofs") for _, _, files in os.walk(TOP / "crates" / name / part))


def main():
    below = libraries()

    @functools.cache
    def walked(name):
        """How many paths lead down from a crate, and how many files are read along them."""
        each = [walked(it) for it in below[name]]
        return 1 + sum(paths for paths, _ in each), files_of(name) + sum(files for _, files in each)

    named = sorted(below, key=lambda name: -walked(name)[1])
    print(f"{'crate':24}{'paths':>10}{'files read':>14}")
    for name in named[:12]:
        print(f"{name:24}{walked(name)[0]:10}{walked(name)[1]:14}")
    is_library = lambda name: not (TOP / "crates" / name / "src" / "main.rt").exists()
    read = 2 * sum(walked(name)[1] for name in below if is_library(name))
    print(f"paths: a gate reads {read:,} files for the stamps of {sum(map(is_library, below))} libraries, {MOST:,} at most")
    return 0 if read <= MOST else 1


if __name__ == "__main__":
    sys.exit(main())
