#!/usr/bin/env python3
"""Seconds and peak memory of `show` and `encode` at 1, 4, 16 and 64 MiB, beside Python's google.protobuf: forms.py [PROGRAM].

    apt-get install protobuf-compiler python3-protobuf; /usr/bin/python3 bench/forms.py

The program is crates/rt_command/out/rt_command by default, as `rt run` in crates/rt_command builds it. Python writes the
JSON of its own (`json_format`) for the same snapshot, and reads that back. Memory is the greatest resident size. The
program's rows are the best of three runs; Python's are one run.
"""
import os, sys, tempfile
from measuring import HERE, best, make, program


def main():
    print("%8s %10s %10s %10s %10s" % ("MiB", "command", "seconds", "peak MiB", "ok"))
    with tempfile.TemporaryDirectory() as folder:
        snapshot, text, again = (os.path.join(folder, name) for name in ("snapshot", "text", "again"))
        for mib in (1, 4, 16, 64):
            make("snapshot.py", str(mib << 20), snapshot)
            row(mib, "show", best([program(), "show", snapshot], output=text))
            row(mib, "encode", best([program(), "encode", text], output=again), same(snapshot, again))
            script = [sys.executable, os.path.join(HERE, "forms_python.py")]
            row(mib, "python to", best(script + ["to", snapshot], 1, text))
            row(mib, "python from", best(script + ["from", text], 1, again), same(snapshot, again))


def row(mib, command, taken, ok=True):
    print("%8d %10s %10.3f %10.0f %10s" % (mib, command, taken[0], taken[1], taken[2] == 0 and ok), flush=True)


def same(one, other):
    """Whether two files hold the same bytes."""
    with open(one, "rb") as a, open(other, "rb") as b:
        return a.read() == b.read()


main()
