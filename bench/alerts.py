#!/usr/bin/env python3
"""Seconds and peak memory of `rt_command alerts` beside `check` of the same two files, which the same engine takes: alerts.py [PROGRAM].

100,000 alerts in 9 MB, each with a period and two selectors, and a feed that is a header alone. Asked for is a route that one alert in four hundred names, a
stop that all name, and one that none names. No rule breaks without a timetable. The program is crates/rt_command/out/rt_command by
default. Each row is the best of five runs, taken in turn.
"""
import os, tempfile
from measuring import program, run
from snapshot import number, payload

START = 1700000000


def alert(i):
    period = payload(1, number(1, START + i % 1000) + number(2, START + 100000 + i % 977))
    route = payload(5, payload(2, b"route%03d" % (i % 400)))
    stop = payload(5, payload(5, b"stop"))
    headline = payload(10, payload(1, payload(1, b"Works at the stop %06d" % i) + payload(2, b"en")))
    return payload(2, payload(1, b"alert%06d" % i) + payload(5, period + route + stop + headline))


def main():
    header = payload(1, payload(1, b"2.0") + number(2, 0) + number(3, START))
    with tempfile.TemporaryDirectory() as folder:
        names = [os.path.join(folder, name) for name in ("alerts", "header")]
        for name, data in zip(names, (header + b"".join(map(alert, range(100000))), header)):
            with open(name, "wb") as file:
                file.write(data)
        print("%d bytes, 100000 alerts" % os.path.getsize(names[0]))
        now = ["--now", str(START + 50000)]
        rows = [("check", ["check", *now]), ("alerts of a route, 250", ["alerts", *now, "--route", "route007"]),
                ("alerts of a stop, all", ["alerts", *now, "--stop", "stop"]), ("alerts of another stop, none", ["alerts", *now, "--stop", "other"])]
        taken = [[run([program(), *words, *names]) for _, words in rows] for _ in range(5)]
        print("%-32s %10s %10s %10s %8s" % ("", "seconds", "to check", "peak MiB", "status"))
        first = min(runs[0][0] for runs in taken)
        for i, (name, _) in enumerate(rows):
            seconds = min(runs[i][0] for runs in taken)
            print("%-32s %10.3f %10.2f %10.0f %8d" % (name, seconds, seconds / first, max(runs[i][1] for runs in taken), taken[0][i][2]))


if __name__ == "__main__":
    main()
