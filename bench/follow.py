#!/usr/bin/env python3
"""Seconds and peak memory of `rt_command follow`: follow.py [PROGRAM].

Lists of snapshots of two feeds in turn, 30 seconds apart: trip updates of known trips with 20 updates each, and vehicles for three
of ten of them, of which a few change each time; then 2,000 entities in each feed, of which 20 change; then a trip update
with 300,000 updates that each break a rule, twice in a row; and last 10,000 and 40,000 rows over three small snapshots. The lists of 40 and 160 snapshots show what a history costs. The
program is crates/rt_command/out/rt_command by default. Each row is the best of three runs, with how many findings opened and
how many rules closed at places.

`follow.py PROGRAM each` counts instructions (by callgrind, of valgrind): what it costs that one more snapshot comes of each of two feeds, of whose entities one in a
hundred has changed, and then of feeds of vehicles that all move, where they have their ids in the same order, and where they come the other way round. It is the
difference of two lists. Its first rows are those of an agency's own feeds, in which nothing breaks: trip updates of 845 bytes and vehicles of 133, without a timetable, of which
one in a hundred or one in ten changed.

`follow.py PROGRAM memory` tells the peak of such feeds in bytes for each byte of their two snapshots, and how it grows where one in ten entities has a new id each time.
"""
import os, struct, subprocess, sys, tempfile
from measuring import best, program
from snapshot import number, payload
from timetable import ordinary, write

BEGIN = 1700000000
STOPS = 20


def header(time):
    return payload(1, payload(1, b"2.0") + number(2, 0) + number(3, time))


def trip(i):
    return payload(1, b"T%07d" % i)


def trip_update(i, late):
    """Entity i of a feed of trips, its last departure so many seconds late. Nothing says a relationship."""
    begin = BEGIN + 600
    stops = [payload(2, number(1, k + 1) + payload(2, number(2, begin + 60 * k))
                     + payload(3, number(2, begin + 60 * k + (late if k == STOPS - 1 else 0)))
                     + payload(4, b"S%05d" % ((i % 400) * 7 + k))) for k in range(STOPS)]
    return payload(2, payload(1, b"trip%07d" % i) + payload(3, payload(1, trip(i)) + b"".join(stops) + number(4, BEGIN - 10)))


def vehicle(i, late):
    """Entity i of a feed of vehicles, its timestamp so many seconds late."""
    position = payload(1, trip(i)) + number(5, BEGIN - 10 + late) + payload(8, payload(1, b"bus%05d" % i))
    return payload(2, payload(1, b"vehicle%07d" % i) + payload(4, position))


def small_update(i, late):
    """A trip update with one update, whose delay grows."""
    descriptor = payload(1, b"T%07d" % i) + number(4, 0)
    stop = number(1, 1) + payload(2, number(1, i % 600 + late)) + number(5, 0)
    update = payload(1, descriptor) + payload(2, stop) + payload(3, payload(1, b"v%d" % i)) + number(4, BEGIN)
    return payload(2, payload(1, b"u%d" % i) + payload(3, update))


def small_vehicle(i, late):
    """Its vehicle, which goes on by a stop."""
    position = payload(1, payload(1, b"T%07d" % i) + number(4, 0)) + number(3, 1 + late) + number(5, BEGIN) + payload(8, payload(1, b"v%d" % i))
    return payload(2, payload(1, b"p%d" % i) + payload(4, position))


def fixed32(slot, value):
    return bytes([slot * 8 + 5]) + struct.pack("<f", value)


def full_trip(i):
    """A descriptor of some 50 bytes."""
    return (payload(1, b"trip%07d" % i) + payload(2, b"08:%02d:00" % (i % 60)) + payload(3, b"20231114") + number(4, 0)
            + payload(5, b"route%03d" % (i % 400)) + number(6, i % 2))


def full_update(i, late):
    """A trip update of 845 bytes in which nothing breaks, its last stop so many seconds late."""
    stops = b"".join(
        payload(2, number(1, k) + payload(2, number(1, 60 + by) + number(2, BEGIN + 120 * k + by)) + payload(3, number(1, 60) + number(2, BEGIN + 120 * k + 30 + by))
                + payload(4, b"stop%06d" % (k * 37)) + number(5, 0))
        for k in range(1, STOPS + 1) for by in [late if k == STOPS else 0])
    return payload(2, payload(1, b"tu%08d" % i) + payload(3, payload(1, full_trip(i)) + stops + payload(3, payload(1, b"bus%05d" % i)) + number(4, BEGIN - 10)))


def full_vehicle(i, late):
    """A vehicle of 133 bytes in which nothing breaks, which goes on by a stop."""
    position = fixed32(1, 52.1 + i * 1e-5 + late) + fixed32(2, 13.3 + i * 1e-5) + fixed32(3, i % 360) + fixed32(5, 12.5)
    named = payload(1, b"bus%05d" % i) + payload(2, b"Bus %05d" % i)
    return payload(2, payload(1, b"veh%07d" % i) + payload(4, payload(1, full_trip(i)) + payload(2, position) + number(3, (i + late) % 20 + 1) + number(4, 2)
                                                           + number(5, BEGIN - 10) + payload(7, b"stop%06d" % (i % 3000)) + payload(8, named)))


def in_turn(folder, rows, feeds, changing, turned=False):
    """Writes a list of rows of two feeds in turn. A feed is how many entities it has and what makes one; so many of them change
    each time, or one in a hundred. Where they are turned, each snapshot has them in the other order."""
    entities = [[make(i, 0) for i in range(count)] for count, make in feeds]
    with open(os.path.join(folder, "list"), "w") as file:
        for row in range(rows):
            feed, turn = row % 2, row // 2
            for i in range((changing or feeds[feed][0] // 100) if turn else 0):
                entities[feed][i] = feeds[feed][1](i, turn)
            put(folder, file, row, feed, BEGIN + 30 * turn, b"".join(entities[feed][::-1 if turned and turn % 2 else 1]))


def put(folder, file, row, feed, moment, entities):
    name = os.path.join(folder, "row%d" % row)
    with open(name, "wb") as snapshot:
        snapshot.write(header(moment) + entities)
    file.write("%d,%d,%s\n" % (feed, moment, name))


def one_entity(folder, updates):
    """Writes a list of two rows, each a trip update with so many updates, of which none says a relationship."""
    with open(os.path.join(folder, "list"), "w") as file:
        for row in range(2):
            stops = b"".join(payload(2, number(1, k + 1) + payload(2, number(1, row))) for k in range(updates))
            put(folder, file, row, 0, BEGIN + 30 * row, payload(2, payload(1, b"t") + payload(3, payload(1, trip(0)) + stops)))


def many_rows(folder, rows):
    """Writes a list of so many rows, which name three small snapshots of 16 feeds in turn."""
    names = [os.path.join(folder, "small%d" % k) for k in range(3)]
    for k, name in enumerate(names):
        with open(name, "wb") as snapshot:
            snapshot.write(header(BEGIN + k) + b"".join(small_vehicle(i, k) for i in range(2)))
    with open(os.path.join(folder, "list"), "w") as file:
        for row in range(rows):
            file.write("%d,%d,%s\n" % (row % 16, BEGIN + row // 16, names[row % 3]))


def table(folder, count):
    """A timetable of so many trips, with 20 stop times each."""
    trips, times = ordinary(count * STOPS)
    write(folder, "agency.txt", "agency_id", ["A1"])
    write(folder, "stops.txt", "stop_id", ["S%05d" % k for k in range(3000)])
    write(folder, "routes.txt", "route_id", ["R%d" % k for k in range(400)])
    write(folder, "trips.txt", "route_id,service_id,trip_id,direction_id", trips)
    write(folder, "stop_times.txt", "trip_id,arrival_time,departure_time,stop_id,stop_sequence", times)


def measured(name, words, folder):
    out = os.path.join(folder, "out")
    seconds, size, status = best([program(), "follow", *words, "--list", os.path.join(folder, "list")], output=out)
    with open(out, "rb") as file:
        lines = file.read().splitlines()
    opened, closed = (sum(b'"line":"%s"' % word in line for line in lines) for word in (b"opened", b"closed"))
    print("%-52s %8.2f %9.0f %7d %9d %9d" % (name, seconds, size, status, opened, closed), flush=True)


def instructions(folder, *words):
    words = ["valgrind", "--tool=callgrind", "--callgrind-out-file=/dev/null", program(), "follow", *words, "--list", os.path.join(folder, "list")]
    told = subprocess.run(words, stdout=subprocess.DEVNULL, stderr=subprocess.PIPE, text=True).stderr
    return int([line for line in told.splitlines() if "Collected" in line][0].split(":")[1])


def pair(folder, feeds, changing, turned, *words):
    """The instructions of one more snapshot of each of two feeds."""
    in_turn(folder, 4, feeds, changing, turned)
    less = instructions(folder, *words)
    in_turn(folder, 6, feeds, changing, turned)
    return instructions(folder, *words) - less


def each():
    print("%-52s %9s %26s" % ("", "order", "instructions of a pair"))
    for count in (1000, 2000, 10000):
        for changing, turned in ((count // 100, False), (count // 10, False), (count // 100, True)):
            with tempfile.TemporaryDirectory() as folder:
                name = "%d full trips and vehicles, %d changed" % (count, changing)
                print("%-52s %9s %26d" % (name, "other" if turned else "same", pair(folder, [(count, full_update), (count, full_vehicle)], changing, turned)), flush=True)
    for name, trips, feeds, changing in (("2 x 2000 small entities", 2000, [(2000, small_update), (2000, small_vehicle)], None),
                                         ("3000 trips of 20 updates and 900 vehicles", 6000, [(3000, trip_update), (900, vehicle)], None),
                                         ("2 x 1000 vehicles that all move", 2000, [(1000, vehicle), (1000, vehicle)], 1000)):
        with tempfile.TemporaryDirectory() as folder:
            table(folder, trips)
            for order, turned in (("same", False), ("other", True)):
                print("%-52s %9s %26d" % (name, order, pair(folder, feeds, changing, turned, "--timetable", folder)), flush=True)


def memory():
    print("%-52s %9s %14s" % ("", "peak MiB", "bytes a byte"))
    for count in (2000, 10000):
        with tempfile.TemporaryDirectory() as folder:
            in_turn(folder, 6, [(count, full_update), (count, full_vehicle)], count // 100)
            size = sum(os.path.getsize(os.path.join(folder, "row%d" % feed)) for feed in range(2))
            peak = best([program(), "follow", "--list", os.path.join(folder, "list")])[1]
            print("%-52s %9.1f %14.1f" % ("%d full trips and vehicles" % count, peak, peak * 2**20 / size), flush=True)
    for rows in (10, 100, 1000):
        with tempfile.TemporaryDirectory() as folder:
            ever_new(folder, rows)
            peak = best([program(), "follow", "--list", os.path.join(folder, "list")])[1]
            print("%-52s %9.1f" % ("2000 small entities, 200 new each time, %d rows" % rows, peak), flush=True)


def ever_new(folder, rows):
    """A list of so many rows of a feed of 2,000 small trip updates, of which 200 have ids that never came before."""
    with open(os.path.join(folder, "list"), "w") as file:
        for row in range(rows):
            put(folder, file, row, 0, BEGIN + 30 * row, b"".join(small_update(i, 0) for i in range(200 * row, 200 * row + 2000)))


def main():
    if sys.argv[2:] == ["each"]:
        return each()
    if sys.argv[2:] == ["memory"]:
        return memory()
    print("%-52s %8s %9s %7s %9s %9s" % ("", "seconds", "peak MiB", "status", "opened", "closed"))
    for times in (1, 4):
        with tempfile.TemporaryDirectory() as folder:
            table(folder, 6000 * times)
            for rows in (10, 40):
                in_turn(folder, rows, [(3000 * times, trip_update), (900 * times, vehicle)], 100 * times)
                measured("%d trips and %d vehicles, %d rows" % (3000 * times, 900 * times, rows), ["--timetable", folder], folder)
    with tempfile.TemporaryDirectory() as folder:
        table(folder, 2000)
        for rows in (40, 160):
            in_turn(folder, rows, [(2000, small_update), (2000, small_vehicle)], 20)
            measured("2000 entities, %d rows" % rows, ["--timetable", folder], folder)
    for updates in (75_000, 300_000):
        with tempfile.TemporaryDirectory() as folder:
            one_entity(folder, updates)
            measured("one entity with %d updates, 2 rows" % updates, [], folder)
    for rows in (10_000, 40_000):
        with tempfile.TemporaryDirectory() as folder:
            many_rows(folder, rows)
            measured("2 entities a snapshot, %d rows" % rows, [], folder)


if __name__ == "__main__":
    main()
