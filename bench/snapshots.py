#!/usr/bin/env python3
"""Seconds and peak memory of `rt_command check` at 1, 4, 16 and 64 MiB: snapshots.py [PROGRAM].

The program is crates/rt_command/out/rt_command by default, as `rt run` in crates/rt_command builds it. Each row is the
best of three runs; memory is the greatest resident size.
"""
import os, tempfile
from measuring import best, make, program


def main():
    print("%8s %10s %10s %8s" % ("MiB", "seconds", "peak MiB", "status"))
    with tempfile.TemporaryDirectory() as folder:
        for mib in (1, 4, 16, 64):
            name = os.path.join(folder, "snapshot")
            make("snapshot.py", str(mib << 20), name)
            print("%8d %10.3f %10.0f %8d" % (mib, *best([program(), "check", name])))


main()
