#!/usr/bin/env python3
"""Whether `merge` writes the union of random feeds: merge.py [PROGRAM] [RUNS].

It makes 1 to 16 feeds whose entities' canonical bytes are known, joins them by itself, by the encoding guide, and compares byte by byte.
Ids come again within a feed and in others, have colons and digits, are empty or no ASCII. The program is
crates/rt_command/out/rt_command by default; 200 runs are made.
"""
import pathlib, random, subprocess, sys, tempfile

here = pathlib.Path(__file__).parent
sys.path.insert(0, str(here / "../bench"))
from snapshot import number, payload

program = sys.argv[1] if len(sys.argv) > 1 else str(here / "../crates/rt_command/out/rt_command")
IDS = ["", "a", "0:a", "1:a", "a:", ":", "10", "é", "日本", "a b", "\"", "x" * 200]
# What an entity holds behind its id, in canonical bytes.
BODIES = [
    b"",
    number(2, 1),
    payload(3, payload(1, payload(1, b"T1")) + payload(2, number(1, 3) + payload(2, number(1, 2**64 - 60))) + number(4, 1700000000)),
    payload(4, payload(2, b"\x0d\x00\x00\x80\x3f\x15\x00\x00\x00\x40") + number(4, 2)),
    payload(5, payload(1, number(1, 1) + number(2, 2)) + payload(5, payload(2, b"R1")) + number(6, 3)),
    number(2, 0) + payload(15, b"\xff\xfe") + number(700, 2**64 - 1),
]


def header(chance):
    """The bytes of a header, and its timestamp."""
    stamp = chance.choice([None, 0, 1700000000, chance.randrange(2**64)])
    other = chance.choice([b"", payload(9, b"x")])
    mode = chance.choice([b"", number(2, 0)])
    return payload(1, payload(1, chance.choice([b"1.0", b"2.0"])) + mode + (b"" if stamp is None else number(3, stamp)) + other), stamp


def feed(chance):
    """The bytes of a feed, its timestamp, and its entities."""
    first, stamp = header(chance)
    entities = [(chance.choice(IDS).encode(), chance.choice(BODIES)) for _ in range(chance.randrange(6))]
    parts = [first] + [payload(2, payload(1, id) + body) for id, body in entities]
    if chance.random() < 0.3:
        parts.append(payload(20, b"left out"))
    return b"".join(parts), stamp, entities


def union(feeds):
    stamps = [stamp for _, stamp, _ in feeds if stamp is not None]
    first = payload(1, b"2.0") + number(2, 0) + (number(3, max(stamps)) if stamps else b"")
    return payload(1, first) + b"".join(
        payload(2, payload(1, b"%d:%s" % (i, id)) + body) for i, (_, _, entities) in enumerate(feeds) for id, body in entities)


def main():
    same = others = 0
    with tempfile.TemporaryDirectory() as folder:
        for seed in range(int(sys.argv[2]) if len(sys.argv) > 2 else 200):
            chance = random.Random(seed)
            feeds = [feed(chance) for _ in range(chance.randint(1, 16))]
            names = [pathlib.Path(folder) / str(i) for i in range(len(feeds))]
            for name, (data, _, _) in zip(names, feeds):
                name.write_bytes(data)
            ran = subprocess.run([program, "merge", *map(str, names)], stdout=subprocess.PIPE, stderr=subprocess.PIPE)
            if (ran.returncode, ran.stdout, ran.stderr) == (0, union(feeds), b""):
                same += 1
            else:
                others += 1
                print("seed %d: status %d" % (seed, ran.returncode))
    print("%d the same, %d others" % (same, others))
    sys.exit(1 if others else 0)


main()
