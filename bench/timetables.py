#!/usr/bin/env python3
"""Seconds and peak memory of `rt_command check --timetable` at 0.1, 0.5, 2 and 12 million stop times: timetables.py [PROGRAM].

The program is crates/rt_command/out/rt_command by default, as `rt run` in crates/rt_command builds it. The snapshot is
examples/header.pb. Each row is the best of three runs; memory is the greatest resident size. The last rows are of a single
trip whose stop times stand in falling order.
"""
import os, tempfile
from measuring import HERE, best, make, program

SNAPSHOT = os.path.join(HERE, "../examples/header.pb")
ROWS = [(100_000, ""), (500_000, ""), (2_000_000, ""), (12_000_000, ""), (100_000, "falling"), (500_000, "falling"), (2_000_000, "falling")]


def main():
    print("%12s %8s %12s %10s %10s %8s" % ("stop times", "order", "file MiB", "seconds", "peak MiB", "status"))
    for count, order in ROWS:
        with tempfile.TemporaryDirectory() as folder:
            make("timetable.py", str(count), folder, *order.split())
            size = os.path.getsize(os.path.join(folder, "stop_times.txt")) / 2**20
            words = [program(), "check", "--timetable", folder, "--now", "1700034600", SNAPSHOT]
            print("%12d %8s %12.1f %10.3f %10.0f %8d" % (count, order or "rising", size, *best(words)))


main()
