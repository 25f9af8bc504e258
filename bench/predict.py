#!/usr/bin/env python3
"""Seconds and peak memory of `rt_command predict`: predict.py [PROGRAM].

3,000 trips of 20 stops and four times as many. First each trip update has an update for each of its stops, with an arrival and a
departure delay; then one alone, for the third stop, whose delay goes on to the last. The timetable has these trips and no others, and
its times are those of New York. The program is crates/rt_command/out/rt_command by default. Each row is the best of three runs.
"""
import os, tempfile
from measuring import best, make, program
from snapshot import number, payload

ZONE = ["--zone-rule", "EST5EDT,M3.2.0,M11.1.0"]


def delayed(sequence):
    """An update with a delay of its own at its stop."""
    return number(1, sequence) + payload(2, number(1, 30 + sequence)) + payload(3, number(1, 40 + sequence)) + number(5, 0)


def snapshot(trips, sequences):
    """A snapshot of a trip update for each trip, with an update at each of these stops."""
    out = bytearray(payload(1, payload(1, b"2.0") + number(2, 0) + number(3, 1700000000)))
    updates = b"".join(payload(2, delayed(n)) for n in sequences)
    for i in range(trips):
        trip = payload(1, payload(1, b"T%07d" % i) + payload(3, b"20231114") + number(4, 0))
        out += payload(2, payload(1, b"trip%07d" % i) + payload(3, trip + updates))
    return bytes(out)


def main():
    print("%-36s %10s %10s %10s %8s" % ("", "seconds", "peak MiB", "table MiB", "status"))
    with tempfile.TemporaryDirectory() as folder:
        name, table = os.path.join(folder, "snapshot"), os.path.join(folder, "table.csv")
        for trips in (3000, 12000):
            timetable = os.path.join(folder, "tt%d" % trips)
            make("timetable.py", str(20 * trips), timetable)
            for kind, sequences in (("an update at each stop", range(1, 21)), ("one update", [3])):
                with open(name, "wb") as file:
                    file.write(snapshot(trips, sequences))
                seconds, peak, status = best([program(), "predict", "--timetable", timetable, *ZONE, "--now", "1700000010", name], output=table)
                print("%-36s %10.3f %10.0f %10.1f %8d" % ("%d trips, %s" % (trips, kind), seconds, peak, os.path.getsize(table) / 2**20, status))


if __name__ == "__main__":
    main()
