#!/usr/bin/env python3
"""Seconds and memory of the two indexes: indexes.py [PROGRAM] [WORK..].

Runs `index_run` at 100,000, 300,000 and 1,000,000 rows, spread over a quarter as many trips and vehicles and then all under
one trip and one vehicle. The time to make the rows and their texts is measured by itself and taken off; memory is the
greatest resident size less that of a run with no row, by row, with the ids in it.

Then 2,000, 4,000 and 8,000 vehicle positions that share a trip come in one snapshot, each with a vehicle of its own, and the keys are
found that they touch, less what decoding them takes. And rows whose ids never come again pass through an index that holds 1,000 at a time,
from ten to ten thousand times as many in all: memory is to stay. It needs nothing but Python.

`indexes.py PROGRAM held` counts instructions (by callgrind, of valgrind): what it costs for each entity that a snapshot comes which is the one that is
held, with its entities in the same order and the other way round, beyond splitting it.
"""
import os, subprocess, sys, time

HERE = os.path.dirname(os.path.abspath(__file__))
PROGRAM = os.path.abspath(sys.argv[1] if len(sys.argv) > 1 else os.path.join(HERE, "../crates/index_run/out/index_run"))


def run(work, rows, trips):
    begin = time.monotonic()
    child = subprocess.Popen([PROGRAM, work, str(rows), str(trips)], stdout=subprocess.DEVNULL)
    _, status, usage = os.wait4(child.pid, 0)
    assert status == 0, (work, rows, trips)
    return usage.ru_utime + usage.ru_stime, usage.ru_maxrss * 1024


def instructions(work, rows, times):
    out = subprocess.run(["valgrind", "--tool=callgrind", "--callgrind-out-file=/dev/null", PROGRAM, work, str(rows), str(times)], capture_output=True, text=True)
    return int([line for line in out.stderr.splitlines() if "Collected" in line][0].split(":")[1])


def held():
    rows = 10000
    print("%9s %9s %14s" % ("entities", "order", "instructions"))
    splitting = instructions("split", rows, 3) - instructions("split", rows, 2)
    for work, order in (("again", "same"), ("turned", "other")):
        print("%9d %9s %14d" % (rows, order, (instructions(work, rows, 3) - instructions(work, rows, 2) - splitting) / rows))


def main():
    if sys.argv[2:] == ["held"]:
        return held()
    works = sys.argv[2:] or ["add", "take", "ask", "name", "stamp", "unstamp"]
    empty = run("add", 0, 1)[1]
    print("%9s %9s %9s %9s %9s" % ("rows", "trips", "work", "seconds", "bytes/row"))
    for rows in (100000, 300000, 1000000):
        for trips in (rows // 4, 1):
            make, _ = run("make", rows, trips)
            for work in works:
                if work == "name" and trips == 1:
                    continue
                seconds, size = run(work, rows, trips)
                parts = 2 if work in ("take", "unstamp") else 1
                print("%9d %9d %9s %9.2f %9d" % (rows, trips, work, seconds - parts * make, (size - empty) / rows))
    if sys.argv[2:]:
        return
    print("%9s %9s %9s" % ("sharing", "work", "seconds"))
    for rows in (2000, 4000, 8000):
        print("%9d %9s %9.2f" % (rows, "touch", run("touch", rows, 1)[0] - run("come", rows, 1)[0]))
    print("%9s %9s %9s %9s" % ("held", "passed", "seconds", "MiB"))
    for times in (10, 100, 1000, 10000):
        seconds, size = run("pass", 1000, times)
        print("%9d %9d %9.2f %9.1f" % (1000, 1000 * times, seconds, (size - empty) / 1048576))


main()
