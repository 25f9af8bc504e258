#!/usr/bin/env python3
"""Seconds and peak memory of `rt_command check` where rules are judged: judging.py [PROGRAM].

First snapshots of 1, 4 and 16 MiB in which no rule breaks, and in which W009 breaks at each update, beside `show`, which decodes
the same bytes and writes their form. Then trips with 20 updates each, and vehicles of three of ten, with a timetable of twice as many
trips, with 20 stop times each. The program is crates/rt_command/out/rt_command by default. Each row is the best of three runs.
"""
import os, tempfile
from measuring import best, make, program
from snapshot import number, payload, stop

NOW = ["--now", "1700000010"]


def trips_and_vehicles(count):
    """A snapshot of known trips, and of a vehicle for three of ten."""
    out = bytearray(payload(1, payload(1, b"2.0") + number(2, 0) + number(3, 1700000000)))
    for i in range(count):
        begin = 18000 + i * 37 % 64800
        trip = payload(1, b"T%07d" % i) + number(4, 0)
        stops = [number(1, k + 1) + payload(2, number(1, 60) + number(2, 1700000000 + begin + 90 * k))
                 + payload(4, b"S%05d" % ((i % 400) * 7 + k)) + number(5, 0) for k in range(20)]
        update = payload(1, trip) + b"".join(payload(2, s) for s in stops) + payload(3, payload(1, b"bus%05d" % i)) + number(4, 1700000000)
        out += payload(2, payload(1, b"trip%07d" % i) + payload(3, update))
        if i % 10 < 3:
            vehicle = payload(1, trip) + number(5, 1700000000) + payload(8, payload(1, b"bus%05d" % i))
            out += payload(2, payload(1, b"vehicle%07d" % i) + payload(4, vehicle))
    return bytes(out)


def main():
    print("%-44s %10s %10s %8s" % ("", "seconds", "peak MiB", "status"))
    row = lambda name, words: print("%-44s %10.3f %10.0f %8d" % (name, *best([program()] + words)))
    with tempfile.TemporaryDirectory() as folder:
        name = os.path.join(folder, "snapshot")
        for mib in (1, 4, 16):
            for kind, what in ((), "check, nothing breaks"), (("unrelated",), "check, W009 at each update"):
                make("snapshot.py", str(mib << 20), name, *kind)
                row("%2d MiB, %s" % (mib, what), ["check", *NOW, name])
            row("%2d MiB, show" % mib, ["show", name])
        for trips in (3000, 12000):
            table = os.path.join(folder, "tt%d" % trips)
            make("timetable.py", str(40 * trips), table)
            with open(name, "wb") as file:
                file.write(trips_and_vehicles(trips))
            row("%d trips, check" % trips, ["check", *NOW, name])
            row("%d trips, check --timetable" % trips, ["check", "--timetable", table, *NOW, name])


if __name__ == "__main__":
    main()
