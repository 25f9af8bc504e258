#!/usr/bin/env python3
"""What hostile but valid inputs take: hostile.py [PROGRAM [MIB..]].

The first table has a row for each shape of a snapshot, and for each command the processor seconds and the bytes of memory for a byte of input, beyond
what the program takes for a header alone, at each size (1 and 4 MiB by default). `follow` has the file twice. `encode` reads what `show` wrote, and its bytes
are those of that text. The second table has inputs that are as large as they may be, or have a thing a million times, other inputs among them. A run has 4 GiB of
addresses; one that wants more ends with status 5, and the cell says so. Output goes to nowhere: some shapes break a rule at every other byte,
and their reports are longer than they are by a factor of hundreds.

The last lines tell where time or memory grew faster than n log n may: where a size took more than its share of the one before it by half.
"""
import os, resource, subprocess, sys, tempfile
from measuring import HERE, make, program
from snapshot import number, payload, varint

HEADER = payload(1, payload(1, b"2.0") + number(2, 0) + number(3, 1700000000))
LIMIT = 4 << 30
TIMETABLE = os.path.join(HERE, "../examples/timetable")


def many(one):
    """Copies of a few bytes."""
    return lambda size: HEADER + one * ((size - len(HEADER)) // len(one))


def each(one):
    """Entities, each made of its number."""

    def made(size):
        out, i = bytearray(HEADER), 0
        while len(out) < size:
            out += one(i)
            i += 1
        return bytes(out)

    return made


def within(slot, one, needed=b""):
    """One entity whose message in a slot has copies of a few bytes."""
    return lambda size: HEADER + payload(2, payload(1, b"a") + payload(slot, needed + one * (size // len(one))))


def long_id(size):
    """An id of half of the size, and as many bytes of empty updates."""
    return HEADER + payload(2, payload(1, b"x" * (size // 2)) + payload(3, payload(1, b"") + payload(2, b"") * (size // 4)))


def within_entity(count):
    """One entity with so many unknown fields."""
    return HEADER + payload(2, payload(1, b"a") + number(15, 1) * count)


def nested(size):
    """Groups in groups, 100 deep."""
    one = varint(16000 * 8 + 3) * 100 + varint(16000 * 8 + 4) * 100
    return HEADER + one * (size // len(one))


TRIP = payload(1, b"")
SHAPES = {
    "bare entities, one id": many(payload(2, payload(1, b""))),
    "bare entities, own ids": each(lambda i: payload(2, payload(1, b"%x" % i))),
    "bare vehicles": many(payload(2, payload(1, b"") + payload(4, b""))),
    "bare trip updates": many(payload(2, payload(1, b"") + payload(3, TRIP))),
    "bare alerts": many(payload(2, payload(1, b"") + payload(5, b""))),
    "empty selectors": within(5, payload(5, b"")),
    "selectors, an empty trip": within(5, payload(5, payload(4, b""))),
    "empty updates": within(3, payload(2, b""), TRIP),
    "updates, sequence and arrival": within(3, payload(2, number(1, 1) + payload(2, number(1, 0))), TRIP),
    "one id repeated": many(payload(2, payload(1, b"same"))),
    "unknown fields of the snapshot": many(number(1000, 1)),
    "unknown fields of an entity": lambda size: within_entity(size // 2),
    "unknown fields of an update": within(3, number(15, 1), TRIP),
    "groups 100 deep": nested,
    "groups, flat": many(varint(16000 * 8 + 3) + varint(16000 * 8 + 4)),
    "a header in parts": lambda size: HEADER + payload(1, b"") * (size // 2),
}
LONG = "a long id, empty updates (a sixteenth)"
COMMANDS = ("check", "follow", "show", "encode", "predict", "merge")


def words_of(command, folder, paths):
    if command == "follow":
        rows = os.path.join(folder, "list")
        with open(rows, "w") as file:
            for moment in (1700000000, 1700000030):
                file.writelines(f"{feed},{moment},{path}\n" for feed, path in enumerate(paths))
        return ["follow", "--list", rows]
    if command == "predict":
        return ["predict", "--timetable", TIMETABLE, "--zone-rule", "UTC0", "--now", "1700000000", *paths]
    return [command, *paths]


def limited():
    resource.setrlimit(resource.RLIMIT_AS, (LIMIT, LIMIT))


class Cost:
    """Processor seconds, the greatest resident size in bytes, and the status of a run."""

    def __init__(self, words, output=os.devnull):
        with open(output, "wb") as out:
            child = subprocess.Popen([program(), *words], stdout=out, stderr=subprocess.DEVNULL, preexec_fn=limited)
            _, status, usage = os.wait4(child.pid, 0)
        self.seconds, self.peak, self.status = usage.ru_utime + usage.ru_stime, usage.ru_maxrss * 1024, os.waitstatus_to_exitcode(status)
        self.size = 0


class Shapes:
    def __init__(self, folder):
        self.folder, self.path, self.shown = folder, os.path.join(folder, "snapshot"), os.path.join(folder, "shown")
        self.put(HEADER)
        self.floors = {command: Cost(self.words(command)).peak for command in COMMANDS}
        self.grown = []

    def put(self, data, name="snapshot"):
        path = os.path.join(self.folder, name)
        with open(path, "wb") as file:
            file.write(data)
        return path

    def words(self, command):
        return words_of("show" if command == "encode" else command, self.folder, [self.path])

    def cost(self, command):
        """What a command takes for the snapshot, or nothing where its JSON can't be made."""
        path = self.path
        if command == "encode":
            if Cost(["show", self.path], self.shown).status == 5:
                return None
            path = self.shown
        cost = Cost(words_of(command, self.folder, [path]))
        cost.size = os.path.getsize(path)
        return cost

    def cell(self, name, command, costs):
        said, last = [], None
        for cost in costs:
            if cost is None or cost.status == 5:
                said.append("no JSON" if cost is None else "more than 4 GiB")
                continue
            held = max(0, cost.peak - self.floors[command])
            said.append(f"{cost.seconds:.2f} s, {held / cost.size:.0f}" if cost.size > 65536 else f"{cost.seconds:.2f} s")
            if last and last.seconds > 0.1 and cost.seconds / last.seconds > 1.5 * cost.size / last.size:
                self.grown.append(f"{name}, {command}: {last.seconds:.2f} s for {last.size} bytes, {cost.seconds:.2f} s for {cost.size}")
            if last and last.peak > 2 * self.floors[command] and cost.peak / last.peak > 1.5 * cost.size / last.size:
                self.grown.append(f"{name}, {command}: {last.peak >> 20} MiB for {last.size} bytes, {cost.peak >> 20} MiB for {cost.size}")
            last = cost
        return "; ".join(said)

    def row(self, name, shape, sizes):
        costs = {command: [] for command in COMMANDS}
        for size in sizes:
            self.put(shape(int(size * (1 << 20))))
            for command in COMMANDS:
                costs[command].append(self.cost(command))
        print(f"| {name} | " + " | ".join(self.cell(name, command, costs[command]) for command in COMMANDS) + " |", flush=True)


LARGEST = 1 << 26
# Inputs that are as large as they may be, or have a thing a million times: how many files of what, and the commands that read them.
LARGE = {
    "one entity, 8 million empty updates": (1, lambda: within(3, payload(2, b""), TRIP)(1 << 24), ["check", "show", "predict"]),
    "one id, a million times": (1, lambda: many(payload(2, payload(1, b"same")))(1 << 23), ["check", "follow", "show"]),
    "a million unknown fields of the snapshot": (1, lambda: many(number(1000, 1))(3_000_000), ["check", "follow", "show"]),
    "a million unknown fields of an entity": (1, lambda: within_entity(1_000_000), ["check", "follow", "show"]),
    "groups 100 deep, 64 MiB": (1, lambda: nested(LARGEST - 500), ["check", "follow", "show", "predict"]),
    "one field of 64 MiB": (1, lambda: one_field(LARGEST), ["check", "follow", "show", "merge"]),
    "16 feeds of one field of 64 MiB": (16, lambda: one_field(LARGEST), ["check", "follow", "merge"]),
    "16 feeds of groups, 64 MiB each": (16, lambda: nested(LARGEST - 500), ["check", "follow"]),
    "ordinary trip updates, 64 MiB": (1, lambda: ordinary(LARGEST), ["check", "follow", "show", "predict"]),
    "16 feeds of ordinary trip updates, 4 MiB each": (16, lambda: ordinary(LARGEST >> 4), ["check", "follow", "merge"]),
}


def one_field(size):
    """An unknown field that fills a snapshot."""
    return HEADER + payload(15, b"x" * (size - len(HEADER) - 5))


def ordinary(size):
    with tempfile.NamedTemporaryFile() as file:
        make("snapshot.py", str(size), file.name)
        return file.read()


def cells_of(cost):
    return f"{cost.seconds:.1f} | {cost.peak >> 20} | {cost.status} |"


def put_large(shapes):
    print("| Input | MiB | Command | Seconds | Memory, MiB | Status |\n|---|---|---|---|---|---|")
    for name, (files, shape, commands) in LARGE.items():
        paths = [shapes.put(shape(), f"snapshot{i}") for i in range(files)]
        size = sum(map(os.path.getsize, paths)) / (1 << 20)
        for command in commands:
            print(f"| {name} | {size:.0f} | {command} | {cells_of(Cost(words_of(command, shapes.folder, paths)))}", flush=True)


# Other inputs: their bytes, in which `@` stands for the path of a header, and the words before their file.
OTHERS = {
    "a list of a million rows, of a file that isn't there": (lambda: b"0,1700000000,none\n" * 1_000_000, ["follow", "--list"]),
    "a list of a million rows, of a header": (lambda: b"0,1700000000,@\n" * 1_000_000, ["follow", "--list"]),
    "a report of empty objects": (lambda: b"{}\n" * (1 << 22), ["verify"]),
    "a report of one line, a text": (lambda: b'{"line":"' + b"x" * (1 << 24) + b'"}\n', ["verify"]),
    "a report of one line, empty arrays": (lambda: b"[" + b"[]," * (1 << 22) + b"[]]\n", ["verify"]),
    "JSON of empty arrays": (lambda: b"[" + b"[]," * (1 << 22) + b"[]]\n", ["encode"]),
    "JSON of empty entities": (lambda: b'{"entity":[' + b'{"id":""},' * (1 << 20) + b'{"id":""}],"header":{"gtfs_realtime_version":""}}', ["encode"]),
}


def put_others(shapes):
    header = shapes.put(HEADER).encode()
    for name, (made, words) in OTHERS.items():
        path = shapes.put(made().replace(b"@", header), "other")
        print(f"| {name} | {os.path.getsize(path) / (1 << 20):.0f} | {words[0]} | {cells_of(Cost([*words, path]))}", flush=True)


def put_beside(shapes):
    """A snapshot of one large entity, and the next one of its feed, of many small ones that don't stand there."""
    large = shapes.put(within_entity(1_000_000), "large")
    small = shapes.put(HEADER + b"".join(payload(2, payload(1, b"e%d" % i)) for i in range(100_000)), "small")
    listed = shapes.put(f"0,1700000000,{large}\n0,1700000030,{small}\n".encode(), "listed")
    size = (os.path.getsize(large) + os.path.getsize(small)) / (1 << 20)
    print(f"| a million unknown fields of an entity, then 100,000 others | {size:.0f} | follow | {cells_of(Cost(['follow', '--list', listed]))}")


def main():
    sizes = [float(mib) for mib in sys.argv[2:]] or [1, 4]
    with tempfile.TemporaryDirectory() as folder:
        shapes = Shapes(folder)
        print("| Shape | " + " | ".join(COMMANDS) + " |\n|---|" + "---|" * len(COMMANDS))
        for name, shape in SHAPES.items():
            shapes.row(name, shape, sizes)
        shapes.row(LONG, long_id, [size / 16 for size in sizes])
        print()
        put_large(shapes)
        put_others(shapes)
        put_beside(shapes)
        print("\nfaster than n log n: " + ("; ".join(shapes.grown) or "nothing"))


main()
