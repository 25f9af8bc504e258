#!/usr/bin/env python3
"""What pieces cost: pieces.py [PROGRAM [CASES]].

Peak memory of `rt_command check` of a small snapshot, and of 60 MiB that are refused near their front; and seconds of snapshots that are fed byte by
byte, half a million bytes to two million, in one group and in many fields. PROGRAM and CASES are crates/rt_command/out/rt_command and
crates/feed_cases/out/feed_cases by default, as `rt run` there builds them.
"""
import os, sys, tempfile
from measuring import HERE, best, program

HEADER = bytes.fromhex("0a0d0a03322e3010001880e2cfaa06")
REST = 60 << 20


def refused(folder):
    small, large = os.path.join(folder, "small"), os.path.join(folder, "large")
    with open(small, "wb") as file:
        file.write(HEADER)
    with open(large, "wb") as file:
        file.write(HEADER + b"\x7c")
        file.truncate(len(HEADER) + 1 + REST)
    for name, path in (("a header alone", small), ("60 MiB, refused at byte 15", large)):
        seconds, peak, status = best([program(), "check", path])
        print(f"{name:34} {seconds:8.3f} s {peak:8.1f} MiB   status {status}")


def fed(folder, cases):
    for name, front, back in (("one group", "7b", "7c"), ("fields of the snapshot", "", "")):
        for fields in (250_000, 500_000, 1_000_000):
            path = os.path.join(folder, "bytes.cases")
            with open(path, "w") as file:
                file.write(f"== fed\ndrip\n+ {HEADER.hex()} {front} {fields}*0801 {back}\n= kept as it came\n")
            seconds, peak, status = best([cases, path], runs=1)
            print(f"{2 * fields:9} bytes one by one, {name:22} {seconds:8.3f} s {peak:8.1f} MiB")


def main():
    cases = sys.argv[2] if len(sys.argv) > 2 else os.path.join(HERE, "../crates/feed_cases/out/feed_cases")
    with tempfile.TemporaryDirectory() as folder:
        refused(folder)
        if os.path.exists(cases):
            fed(folder, os.path.abspath(cases))


main()
