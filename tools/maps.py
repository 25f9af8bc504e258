#!/usr/bin/env python3
"""Checks that the head of each crate's root file is its map: it names each of the crate's modules.

    python3 tools/maps.py

A root file is crates/NAME/src/lib.rt or main.rt, its head the comment `//!` at its top. A module is named there in backquotes, as `words`.
Each module that isn't named is printed, with its file; the status is then 1.
"""
import pathlib
import re
import sys

TOP = pathlib.Path(__file__).resolve().parent.parent


def unnamed(file):
    """The modules of a root file that its head doesn't name."""
    text = file.read_text(encoding="utf-8")
    head = "\n".join(line for line in text.split("\n") if line.startswith("//!"))
    named = set(re.findall(r"`(\w+)`", head))
    return [it for it in re.findall(r"(?m)^(?:pub(?:\(crate\))? )?mod (\w+);", text) if it not in named]


def main():
    roots = sorted(TOP.glob("crates/*/src/lib.rt")) + sorted(TOP.glob("crates/*/src/main.rt"))
    lost = [(file, unnamed(file)) for file in roots]
    for file, modules in lost:
        if modules:
            print(f"{file.relative_to(TOP)}: its head doesn't name {', '.join(modules)}")
    whole = sum(not modules for _, modules in lost)
    print(f"maps: {whole} of {len(roots)} root files name each of their modules")
    return 0 if whole == len(roots) else 1


if __name__ == "__main__":
    sys.exit(main())
