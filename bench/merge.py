#!/usr/bin/env python3
"""Seconds and peak memory of `rt_command merge`: merge.py [PROGRAM].

Sixteen ordinary snapshots of one size: of 1 and of 3.9 MiB each, whose union fits a snapshot, and of 4 MiB, whose union doesn't. The
program is crates/rt_command/out/rt_command by default. Each row is the best of three runs.
"""
import os, tempfile
from measuring import best, make, program


def main():
    print("%-24s %10s %10s %10s %8s" % ("", "seconds", "peak MiB", "union MiB", "status"))
    with tempfile.TemporaryDirectory() as folder:
        name, union = os.path.join(folder, "snapshot"), os.path.join(folder, "union")
        for size in (1, 3.9, 4):
            make("snapshot.py", str(round(size * 2**20)), name)
            seconds, peak, status = best([program(), "merge", *[name] * 16], output=union)
            print("%-24s %10.3f %10.0f %10.1f %8d" % ("16 of %s MiB" % size, seconds, peak, os.path.getsize(union) / 2**20, status))


if __name__ == "__main__":
    main()
