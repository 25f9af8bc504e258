#!/usr/bin/env python3
"""What `rt_summary` takes for a million lines from a pipe: summary.py [SUMMARY [LINES]].

The first report is one of `check`: four rules at each of so many entities, lines of some 340 bytes. Of the others, of `follow`, one opens a hundred
thousand places and opens them again with other facts in each snapshot, and one opens a new place by each line, so its places are all held.
Printed are lines, MiB, processor seconds and the greatest resident size; a report of `check` is to take at most 15 seconds and 64 MiB.
"""
import json, os, subprocess, sys, tempfile

HERE = os.path.dirname(os.path.abspath(__file__))
SUMMARY = os.path.abspath(sys.argv[1] if len(sys.argv) > 1 else os.path.join(HERE, "../crates/rt_summary/out/rt_summary"))
LINES = int(sys.argv[2]) if len(sys.argv) > 2 else 1_000_000
START = 1700000000


def text(**keys):
    return json.dumps(keys, sort_keys=True, separators=(",", ":")) + "\n"


def accepted(snapshot):
    return text(line="accepted", row=snapshot, feed=0, snapshot=snapshot, moment=START + 30 * snapshot, entities=3000, tested=1, paired=1, bounded=1, peaked=1)


def fact(ask, *keys, value):
    return {"ask": ask, "keys": list(keys), "value": value}


def found(number, rule, kind, since):
    id, path = f"trip_update_of_line_17_run_{number:07}", f"trip_update.stop_time_update[{number % 40}].schedule_relationship"
    facts = [fact("cell", "trip_update.stop_time_update[%d]" % (number % 40), value=1), fact("cell", path, value=None),
             fact("trip_route", f"trip_of_line_17_run_{number:07}", value="line_17")]
    return text(line=kind, rule=rule, level=rule[0], path=path, feed=0, since=since, id=id, occurrence=0, facts=facts)


def checked(lines):
    yield accepted(0)
    for number in range(lines - 1):
        yield found(number // 4, ("E003", "E035", "W002", "W009")[number % 4], "finding", 0)


def followed(lines, places):
    snapshot = -1
    for number in range(lines):
        if number % (places + 1) == 0:
            snapshot += 1
            yield accepted(snapshot)
        else:
            yield found(number % (places + 1), "W009", "opened", 0)


def run(name, lines):
    with tempfile.NamedTemporaryFile("w", suffix=".report") as file:
        file.writelines(lines)
        file.flush()
        size = os.path.getsize(file.name)
        pipe = subprocess.Popen(["cat", file.name], stdout=subprocess.PIPE)
        child = subprocess.Popen([SUMMARY, "--json"], stdin=pipe.stdout, stdout=subprocess.PIPE)
        pipe.stdout.close()
        said = json.loads(child.stdout.read())
        _, _, usage = os.wait4(child.pid, 0)
        pipe.wait()
    seconds, memory = usage.ru_utime + usage.ru_stime, usage.ru_maxrss / 1024
    print(f"{name}: {said['lines']:,} lines, {size / 1048576:.0f} MiB: {seconds:.2f} s, {memory:.1f} MiB", flush=True)
    return seconds, memory


def main():
    seconds, memory = run("check", checked(LINES))
    run("follow, 100,000 places", followed(LINES, 100_000))
    run("follow, all places its own", followed(LINES, LINES))
    return 1 if seconds > 15 or memory > 64 else 0


sys.exit(main())
