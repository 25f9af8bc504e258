#!/usr/bin/env python3
"""Seconds and peak memory of a timetable that takes the place of another while `follow` runs: exchange.py [PROGRAM [STOP_TIMES]].

The program is crates/rt_command/out/rt_command by default, as `rt run` in crates/rt_command builds it. Three shapes, each in a temporary folder:

- an alert with a million selectors of one trip of 1,000 stops, which all have to be held against both timetables;
- an ordinary snapshot of 12 million stop times (STOP_TIMES), of which a publication changes one trip;
- the same snapshot, and a publication that changes nothing.

Of each it prints what loading the first timetable alone takes (`check` of a header), what following the snapshot with it takes, and what it takes where the list then has the other
timetable: so what the exchange takes is the third row less the second, and it loads the other timetable too. Each row is the best of three runs; memory is the greatest resident size.
"""
import json, os, shutil, subprocess, sys, tempfile

from measuring import HERE, best, make, program
from snapshot import number, payload

HEADER = os.path.join(HERE, "../examples/header.pb")
SELECTORS, STOPS = 1_000_000, 1_000
STOP_TIMES = int(sys.argv[2]) if len(sys.argv) > 2 else 12_000_000
MOMENT = 1700000000


def write(path, data):
    with open(path, "wb") as file:
        file.write(data)


def header():
    return payload(1, payload(1, b"2.0") + number(2, 0) + number(3, MOMENT))


def selectors():
    """An alert whose selectors all name one trip."""
    one = payload(5, payload(4, payload(1, b"T")))
    return header() + payload(2, payload(1, b"a") + payload(5, one * SELECTORS))


def one_trip(folder, last):
    """A timetable of one trip, whose last stop has this arrival."""
    os.makedirs(folder)
    clock = lambda n: "%02d:%02d:00" % (n // 60, n % 60)
    times = ["T,%s,%s,S%d,%d" % (clock(n), clock(n), n, n) for n in range(1, STOPS)] + ["T,%s,%s,S%d,%d" % (last, last, STOPS, STOPS)]
    files = {
        "agency.txt": ["agency_id", "A"], "routes.txt": ["route_id", "R"], "trips.txt": ["route_id,service_id,trip_id", "R,WK,T"],
        "stops.txt": ["stop_id", *("S%d" % n for n in range(1, STOPS + 1))],
        "stop_times.txt": ["trip_id,arrival_time,departure_time,stop_id,stop_sequence", *times],
    }
    for name, lines in files.items():
        write(os.path.join(folder, name), "".join(line + "\n" for line in lines).encode())


def ordinary(folder, trips=3000):
    """Trip updates of the first trips that timetable.py makes, with twenty updates each, and no rule that breaks."""
    out = [header()]
    for trip in range(trips):
        updates = b"".join(payload(2, number(1, k + 1) + payload(2, number(1, 60)) + payload(4, b"S%05d" % ((trip % 400) * 7 + k)) + number(5, 0)) for k in range(20))
        named = payload(1, b"T%07d" % trip) + number(4, 0) + payload(5, b"R%d" % (trip % 400))
        out.append(payload(2, payload(1, b"e%05d" % trip) + payload(3, payload(1, named) + updates + payload(3, payload(1, b"v%05d" % trip)) + number(4, MOMENT))))
    write(os.path.join(folder, "snapshot"), b"".join(out))


def changed(folder, old, new):
    """A copy of a timetable in which the trip that the first entity names arrives elsewhere at another time.

    It is changed in its place: the system tells as the size of a program at least that of the script that starts it, so no whole file is held here."""
    shutil.copytree(old, new)
    with open(os.path.join(new, "stop_times.txt"), "r+b") as file:
        at = file.read(1 << 20).index(b"T0000000,05:01:30,05:01:30,")
        file.seek(at)
        file.write(b"T0000000,05:01:31,05:01:31,")


def rows(folder, what, first, others):
    """Prints the rows of a shape: of its first timetable alone, with the snapshot, and with each other one behind it."""
    snapshot = "0,%d,%s\n" % (MOMENT, os.path.join(folder, "snapshot"))
    plain = os.path.join(folder, "plain")
    write(plain, snapshot.encode())
    print("%-46s %10.3f %10.0f %8d" % (what + ", loaded", *best([program(), "check", "--timetable", first, "--now", str(MOMENT), HEADER])), flush=True)
    print("%-46s %10.3f %10.0f %8d" % (what + ", followed", *best([program(), "follow", "--timetable", first, "--list", plain])), flush=True)
    for name, other in others:
        listed = os.path.join(folder, "listed")
        write(listed, (snapshot + "timetable,,%s\n" % other).encode())
        words = [program(), "follow", "--timetable", first, "--list", listed]
        print("%-46s %10.3f %10.0f %8d" % (what + ", " + name, *best(words)), flush=True)
        told = [json.loads(line) for line in subprocess.run(words, stdout=subprocess.PIPE, check=False).stdout.splitlines() if b'"line":"timetable"' in line]
        print("    " + ", ".join("%d of %d judged again" % (line["retested"], line["entities"]) for line in told), flush=True)


def main():
    print("%-46s %10s %10s %8s" % ("", "seconds", "peak MiB", "status"))
    with tempfile.TemporaryDirectory() as folder:
        write(os.path.join(folder, "snapshot"), selectors())
        for name, last in (("old", "23:00:00"), ("same", "23:00:00"), ("new", "23:30:00")):
            one_trip(os.path.join(folder, name), last)
        rows(folder, "a million selectors", os.path.join(folder, "old"), [("nothing changed", os.path.join(folder, "same")), ("the trip changed", os.path.join(folder, "new"))])
    with tempfile.TemporaryDirectory() as folder:
        old, new = os.path.join(folder, "old"), os.path.join(folder, "new")
        make("timetable.py", str(STOP_TIMES), old)
        ordinary(folder)
        changed(folder, old, new)
        rows(folder, "%d stop times" % STOP_TIMES, old, [("nothing changed", old), ("one trip changed", new)])


if __name__ == "__main__":
    main()
