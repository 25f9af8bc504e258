#!/usr/bin/env python3
"""Whether `alerts` tells which alerts are in force over random feeds: alerts.py [PROGRAM] [RUNS].

It makes 1 to 16 feeds of alerts and of entities without one, some of which aren't there, asks for each kind of id at moments at, beside and
between the bounds of periods, and compares all that is written with what it finds by itself, from what it made and not from bytes. At a moment
before the next change it asks again, and the alerts have to be the same. The program is crates/rt_command/out/rt_command by default; 100 runs are
made.
"""
import json, pathlib, random, subprocess, sys, tempfile

here = pathlib.Path(__file__).parent
sys.path.insert(0, str(here / "../bench"))
from snapshot import number, payload

program = sys.argv[1] if len(sys.argv) > 1 else str(here / "../crates/rt_command/out/rt_command")
IDS = ["a", "b", "0:a", "", "é", "日本", "a b", "\"", "x" * 100]
NAMES = ["A1", "R1", "T1", "S1", "1", "é", "x y"]  # one id may be of an agency, a route, a trip and a stop
BOUNDS = [0, 1, 1700000000, 1700000001, 1700000100, 2**63, 2**64 - 2, 2**64 - 1]
HEADER = payload(1, payload(1, b"2.0") + number(2, 0) + number(3, 1700000000))


def maybe(chance, values):
    return chance.choice(values) if chance.random() < 0.4 else None


def selector(chance):
    trip = {"trip": maybe(chance, NAMES), "route": maybe(chance, NAMES)} if chance.random() < 0.4 else {}
    return {"agency": maybe(chance, NAMES), "route": maybe(chance, NAMES), "kind": maybe(chance, [0, 3]), "in": trip, "stop": maybe(chance, NAMES)}


def alert(chance):
    periods = [(maybe(chance, BOUNDS), maybe(chance, BOUNDS)) for _ in range(chance.choice([0, 0, 1, 1, 2, 3]))]
    return {"periods": periods, "selectors": [selector(chance) for _ in range(chance.choice([0, 1, 1, 2, 4]))]}


def text(field, given):
    return b"" if given is None else payload(field, given.encode())


def count(field, given):
    return b"" if given is None else number(field, given)


def spelled(entity):
    """The bytes of an entity."""
    id, of = entity
    if of is None:
        return payload(2, payload(1, id.encode()))
    body = b"".join(payload(1, count(1, start) + count(2, end)) for start, end in of["periods"])
    for it in of["selectors"]:
        trip = payload(4, text(1, it["in"]["trip"]) + text(5, it["in"]["route"])) if it["in"] else b""
        body += payload(5, text(1, it["agency"]) + text(2, it["route"]) + count(3, it["kind"]) + trip + text(5, it["stop"]))
    return payload(2, payload(1, id.encode()) + payload(5, body))


def feed(chance):
    """The entities of a feed, or None where there is none."""
    if chance.random() < 0.1:
        return None
    return [(chance.choice(IDS), alert(chance) if chance.random() < 0.8 else None) for _ in range(chance.randrange(8))]


def is_shown(of, moment):
    if not of["periods"]:
        return True
    return any((start is None or start <= moment) and (end is None or moment < end) for start, end in of["periods"])


def is_for(of, kind, name):
    for it in of["selectors"]:
        given = {"agency": [it["agency"]], "route": [it["route"], it["in"].get("route")], "trip": [it["in"].get("trip")], "stop": [it["stop"]]}[kind]
        if name in given:
            return True
    return False


def line(**members):
    return json.dumps(members, sort_keys=True, separators=(",", ":"), ensure_ascii=False) + "\n"


def report(feeds, kind, name, moment):
    """The status, the lines of snapshots, and the others."""
    first, keys, bounds, taken = "", [], [], 0
    for number, entities in enumerate(feeds):
        if entities is None:
            first += line(at=0, line="refused", reason="NoFile", row=number)
            continue
        size = len(entities)
        first += line(bounded=size, entities=size, feed=number, line="accepted", moment=moment, paired=size, peaked=size, row=number, snapshot=taken, tested=size)
        taken += 1
        seen = {}
        for id, of in entities:
            occurrence = seen[id] = seen.get(id, -1) + 1
            if of is None:
                continue
            bounds += [bound for period in of["periods"] for bound in period if bound is not None and bound > moment]
            if is_shown(of, moment) and is_for(of, kind, name):
                keys.append((number, id.encode(), occurrence))
    rest = "".join(line(feed=feed, id=id.decode(), line="alert", occurrence=occurrence) for feed, id, occurrence in sorted(keys))
    return (1 if None in feeds else 0), first, rest, line(alerts=len(keys), line="alerts", next=min(bounds, default=None)), min(bounds, default=None)


def main():
    asked = others = 0
    with tempfile.TemporaryDirectory() as folder:
        for seed in range(int(sys.argv[2]) if len(sys.argv) > 2 else 100):
            chance = random.Random(seed)
            feeds = [feed(chance) for _ in range(chance.choice([1, 1, 2, 3, 16]))]
            names = [pathlib.Path(folder) / str(number) for number in range(len(feeds))]
            for name, entities in zip(names, feeds):
                name.unlink(missing_ok=True)
                if entities is not None:
                    name.write_bytes(HEADER + b"".join(map(spelled, entities)))
            for kind in ("agency", "route", "trip", "stop"):
                name = chance.choice(NAMES)
                moment = min(max(chance.choice(BOUNDS) + chance.choice([-1, 0, 1]), 0), 2**64 - 1)
                found = report(feeds, kind, name, moment)
                moments = [moment] + ([chance.randrange(moment, found[4])] if found[4] is not None else [2**64 - 1])
                for at in moments:
                    status, first, rest, total, _ = report(feeds, kind, name, at)
                    words = [program, "alerts", "--now", str(at), "--" + kind, name, *map(str, names)]
                    ran = subprocess.run(words, stdout=subprocess.PIPE, stderr=subprocess.PIPE)
                    asked += 1
                    if (ran.returncode, ran.stdout.decode(), ran.stderr) != (status, first + rest + total, b"") or rest != found[2]:
                        others += 1
                        print("seed %d: %s at %d" % (seed, kind, at))
    print("%d questions, %d with another answer" % (asked, others))
    sys.exit(1 if others else 0)


main()
