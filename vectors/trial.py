#!/usr/bin/env python3
"""Makes the snapshots and the timetable of `trial N` on its own, with Debian's protobuf-compiler.

    apt-get install protobuf-compiler; python3 vectors/trial.py [N]

Each snapshot is written as text and encoded by `protoc --encode`, fields in the order of their numbers. Printed are, for
the five files and then the 40 snapshots, how many bytes they have and their Adler-32; the rows for N = 7 stand in
crates/run_cases/data/trial.cases. Behind them stand the sums `tested` and `peaked` of the summary line, counted here a second
time from the texts of the entities; `--counts` prints these alone, and needs no protoc. With --write FOLDER the files and the snapshots are written too, with a list for
`rt_command follow --timetable trial --list list.txt`, to be run in that folder.
"""
import argparse, pathlib, subprocess, zlib

here = pathlib.Path(__file__).parent
ENTITIES = 2000
TRIPS = ENTITIES - 1
START = 1_700_000_000


class Draws:
    def __init__(self, seed):
        self.state = seed

    def below(self, limit):
        self.state = (self.state * 6364136223846793005 + 1442695040888963407) % 2**64
        return self.state // 2**33 % limit


def files():
    trips = "".join("R1,WK,T%d\n" % k for k in range(TRIPS))
    times = "".join("T%d,08:00:00,08:00:00,S1,1\n" % k for k in range(TRIPS))
    return {
        "agency.txt": "agency_id\nA1\n",
        "stops.txt": "stop_id\nS1\n",
        "routes.txt": "route_id\nR1\n",
        "trips.txt": "route_id,service_id,trip_id\n" + trips,
        "stop_times.txt": "trip_id,arrival_time,departure_time,stop_id,stop_sequence\n" + times,
    }


def trip(k):
    return 'trip { trip_id: "T%d" schedule_relationship: SCHEDULED }' % k


def update(k, letter, delay):
    return ('entity { id: "u%d" trip_update { %s stop_time_update { stop_sequence: 1 arrival { delay: %d } '
            'schedule_relationship: SCHEDULED } vehicle { id: "%s%d" } timestamp: %d } }'
            % (k, trip(k), delay, letter, k, START))


def position(k, letter, sequence):
    return ('entity { id: "p%d" vehicle { %s current_stop_sequence: %d timestamp: %d vehicle { id: "%s%d" } } }'
            % (k, trip(k), sequence, START, letter, k))


def encode(text):
    run = subprocess.run(
        ["protoc", "--encode=realtime.FeedMessage", "-I", str(here), "gtfs-realtime.proto"],
        input=text.encode(), stdout=subprocess.PIPE, check=True)
    return run.stdout


def snapshots(seed):
    draws = Draws(seed)
    numbers = [[k % 600 for k in range(ENTITIES)], [1] * ENTITIES]
    letters = [["v"] * ENTITIES, ["v"] * ENTITIES]
    for s in range(40):
        feed = s % 2
        if s >= 2:
            first = draws.below(ENTITIES)
            for j in range(20):
                k = (first + j) % ENTITIES
                if draws.below(4) == 0:
                    letters[feed][k] = "w" if letters[feed][k] == "v" else "v"
                else:
                    numbers[feed][k] += 1
        entity = (update, position)[feed]
        header = 'header { gtfs_realtime_version: "2.0" incrementality: FULL_DATASET timestamp: %d }' % (START + 15 * s)
        yield feed, START + 15 * s, header, [entity(k, letters[feed][k], numbers[feed][k]) for k in range(ENTITIES)], letters[feed][:]


def counts(seed):
    """`tested`: entities with another text than before. `peaked`: those, and positions of a vehicle whose peak came. All timestamps
    are START, so no peak rises; it comes with the snapshot behind the first one that has the vehicle."""
    last, peaks, tested, peaked = {}, set(), 0, 0
    for feed, _, _, entities, letters in snapshots(seed):
        texts, vehicles = last.get(feed, ([None] * ENTITIES, set()))
        came = vehicles - peaks if feed == 1 else set()
        peaks |= came
        changed = [entities[k] != texts[k] for k in range(ENTITIES)]
        tested += sum(changed)
        peaked += sum(changed[k] or feed == 1 and (letters[k], k) in came for k in range(ENTITIES))
        last[feed] = entities, {(letters[k], k) for k in range(ENTITIES)}
    return tested, peaked


def row(name, data):
    return "(%s, %d, 0x%08X)," % (name, len(data), zlib.adler32(data))


parser = argparse.ArgumentParser(description=__doc__.splitlines()[0])
parser.add_argument("seed", nargs="?", type=int, default=7)
parser.add_argument("--write", type=pathlib.Path)
parser.add_argument("--counts", action="store_true")
asked = parser.parse_args()
if asked.counts:
    print("tested %d, peaked %d" % counts(asked.seed))
    raise SystemExit

if asked.write:
    (asked.write / "trial").mkdir(parents=True, exist_ok=True)
for name, text in files().items():
    print(row('"trial/%s"' % name, text.encode()))
    if asked.write:
        (asked.write / "trial" / name).write_text(text)
listed = []
for number, (feed, moment, header, entities, _) in enumerate(snapshots(asked.seed)):
    data = encode("\n".join([header] + entities))
    print(row(number, data))
    listed.append("%d,%d,%d.pb\n" % (feed, moment, number))
    if asked.write:
        (asked.write / ("%d.pb" % number)).write_bytes(data)
print("tested %d, peaked %d" % counts(asked.seed))
if asked.write:
    (asked.write / "list.txt").write_text("".join(listed))
