#!/usr/bin/env python3
"""Judges snapshots by all 53 rules a second time, in Python, and compares the reports of `check` and `follow` with it, byte for byte.

    python3 vectors/rules.py [PROGRAM] [COUNT]

PROGRAM is crates/rt_command/out/rt_command by default. COUNT random feeds (300 by default) are made in the JSON form of
docs/json.md, from a few ids, times and numbers, so that rules break often; `encode` writes their bytes, and `check` judges them,
with and without the small timetable below. A third as many histories of one feed are followed, for the rules that look back and for
what an accepted line counts; in every other one timetables are published between the snapshots, some of which are refused. It ends with how many reports were the same and how often
each rule was found.

The rules stand here as one reads them in docs/rules.md: a function each, with no table and no code of the program.
"""
import collections, json, os, random, re, shutil, subprocess, sys, tempfile

MOMENT = 1700000010
TOWN = {
    "agency.txt": "agency_id\nA1\n",
    "stops.txt": "stop_id,location_type\nS1,\nS2,0\nS3,\nP1,1\n",
    "routes.txt": "route_id\nR1\nR2\n",
    "trips.txt": "route_id,service_id,trip_id,direction_id\nR1,WK,T1,0\nR1,WK,T2,\nR2,WK,F1,\nR2,WK,L1,1\nR1,WK,G1,\n",
    "stop_times.txt": "trip_id,arrival_time,departure_time,stop_id,stop_sequence\nT1,08:00:00,08:00:00,S1,1\nT1,08:10:00,08:11:00,S2,2\n"
    "T1,08:20:00,08:20:00,S3,3\nT2,24:50:00,24:50:00,S1,1\nT2,25:10:00,,S2,2\nF1,08:00:00,08:00:00,S1,1\nF1,08:05:00,08:05:00,S2,2\n"
    "L1,,09:00:00,S1,5\nL1,09:10:00,09:10:00,S2,7\nL1,09:20:00,,S1,9\nG1,07:00:00,07:00:00,S1,1\n",
    "calendar.txt": "service_id,monday,tuesday,wednesday,thursday,friday,saturday,sunday,start_date,end_date\nWK,1,1,1,1,1,0,0,20231101,20231231\n",
    "frequencies.txt": "trip_id,start_time,end_time,headway_secs,exact_times\nF1,08:00:00,09:00:00,600,1\nF1,10:00:00,10:30:00,900,0\n"
    "G1,07:00:00,09:00:00,600,0\nG1,10:00:00,11:00:00,600,1\n",
}


# What a publication changes, where the text is there: a file, a text in it, and what stands in its place.
EDITS = [
    ("trips.txt", "R1,WK,T1,0\n", "R2,WK,T1,0\n"), ("trips.txt", "WK,T1,0\n", "WK,T1,1\n"), ("trips.txt", "R1,WK,T2,\n", ""), ("trips.txt", "R2,WK,F1,\n", ""),
    ("trips.txt", "R1,WK,G1,\n", "R1,WK,X9,0\nR1,WK,G1,\n"), ("stop_times.txt", "T1,08:10:00,08:11:00,S2,2\n", "T1,08:12:00,08:13:00,S2,2\n"),
    ("stop_times.txt", "T1,08:10:00,08:11:00,S2,2\n", "T1,08:10:00,08:11:00,S3,2\n"), ("stop_times.txt", "T2,25:10:00,,S2,2\n", "T2,25:10:00,25:10:00,S2,3\n"),
    ("stop_times.txt", "L1,,09:00:00,S1,5\n", "L1,09:00:00,09:00:00,S3,5\n"), ("stop_times.txt", "T1,08:00:00,08:00:00,S1,1\n", "T1,08:10:00,08:10:00,S1,1\n"),
    ("frequencies.txt", "F1,08:00:00,09:00:00,600,1\n", "F1,08:00:00,09:00:00,600,0\n"), ("frequencies.txt", "G1,07:00:00,09:00:00,600,0\n", ""),
    ("stops.txt", "location_type\n", "location_type\nA0,\nZ,1\n"), ("stops.txt", "P1,1\n", "P1,0\n"), ("stops.txt", "S2,0\nS3,\n", "S3,\nS2,\n"), ("stops.txt", "S1,\n", "S1,2\n"),
    ("routes.txt", "R2\n", "R9\n"), ("routes.txt", "R2\n", ""), ("agency.txt", "A1\n", "A1\nA2\n"), ("agency.txt", "A1\n", "A2\n"), ("calendar.txt", "20231231", "20241231"),
]
# A publication that is refused: the same, and its first fault. Without a text the file isn't there.
FAULTS = [
    ("stop_times.txt", "T1,08:10:00,08:11:00", "T1,08:61:00,08:11:00", "row 3: bad value in arrival_time"), ("agency.txt", "A1\n", "A1\nA1\n", "row 3: repeated key"),
    ("routes.txt", "route_id\n", "route\n", "missing column route_id"), ("trips.txt", None, None, "missing file"), ("frequencies.txt", ",900,0", ",0,0", "row 3: bad value in headway_secs"),
]


# ---- the timetable
def rows(files, name):
    lines = files[name].splitlines()
    return [dict(zip(lines[0].split(","), line.split(","))) for line in lines[1:]]


def seconds(text):
    """A time of a service day, one to three digits of hours, or None."""
    found = re.fullmatch(r"([0-9]{1,3}):([0-5][0-9]):([0-5][0-9])", text or "")
    return int(found[1]) * 3600 + int(found[2]) * 60 + int(found[3]) if found else None


def is_date(text):
    if not re.fullmatch(r"[0-9]{8}", text):
        return False
    year, month, day = int(text[:4]), int(text[4:6]), int(text[6:])
    leap = year % 4 == 0 and (year % 100 != 0 or year % 400 == 0)
    days = [31, 29 if leap else 28, 31, 30, 31, 30, 31, 31, 30, 31, 30, 31]
    return 1 <= month <= 12 and 1 <= day <= days[month - 1]


class Table:
    """The timetable of these files. Rows whose trip isn't in trips.txt have no effect."""

    def __init__(self, files):
        self.agencies = {r["agency_id"] for r in rows(files, "agency.txt")}
        self.stops = {r["stop_id"]: int(r["location_type"] or 0) for r in rows(files, "stops.txt")}
        self.routes = {r["route_id"] for r in rows(files, "routes.txt")}
        self.trips = {r["trip_id"]: r for r in rows(files, "trips.txt")}
        self.times = collections.defaultdict(dict)
        for r in rows(files, "stop_times.txt"):
            if r["trip_id"] in self.trips:
                self.times[r["trip_id"]][int(r["stop_sequence"])] = r
        self.frequencies = collections.defaultdict(list)
        for r in rows(files, "frequencies.txt"):
            if r["trip_id"] in self.trips:
                self.frequencies[r["trip_id"]].append(r)

    def said_of_trip(self, trip):
        """Its route, its direction, its stop times and its headways, or none where it isn't known."""
        if trip not in self.trips:
            return None
        times = [(n, r["stop_id"], seconds(r["arrival_time"]), seconds(r["departure_time"])) for n, r in sorted(self.times.get(trip, {}).items())]
        headways = [(seconds(r["start_time"]), seconds(r["end_time"]), int(r["headway_secs"]), int(r["exact_times"] or 0)) for r in self.frequencies.get(trip, [])]
        return self.trip_route(trip), self.trip_direction(trip), times, headways

    def trip_known(self, trip): return int(trip in self.trips)
    def route_known(self, route): return int(route in self.routes)
    def agency_known(self, agency): return int(agency in self.agencies)
    def stop_kind(self, stop): return self.stops.get(stop)
    def trip_route(self, trip): return self.trips[trip]["route_id"] if trip in self.trips else None

    def trip_direction(self, trip):
        text = self.trips[trip]["direction_id"] if trip in self.trips else ""
        return int(text) if text else None

    def trip_exact(self, trip):
        found = self.frequencies.get(trip)
        return int(found[0]["exact_times"] or 0) if found else None

    def on_grid(self, trip, text):
        time = seconds(text)
        for r in self.frequencies.get(trip, []):
            first, last, step = seconds(r["start_time"]), seconds(r["end_time"]), int(r["headway_secs"])
            if time is not None and first <= time <= last and (time - first) % step == 0:
                return 1
        return 0

    def visits_twice(self, trip):
        stops = [r["stop_id"] for r in self.times.get(trip, {}).values()]
        return int(len(stops) != len(set(stops)))

    def first_arrival(self, trip):
        times = self.times.get(trip)
        return seconds(times[min(times)]["arrival_time"]) if times else None

    def stop_at(self, trip, n): return self.times.get(trip, {}).get(n, {}).get("stop_id")
    def arrival_at(self, trip, n): return seconds(self.times.get(trip, {}).get(n, {}).get("arrival_time"))
    def departure_at(self, trip, n): return seconds(self.times.get(trip, {}).get(n, {}).get("departure_time"))


# ---- cells
SLOTS = """1 header.gtfs_realtime_version;2 header.incrementality;3 header.timestamp;4 header.feed_version;10 id;11 is_deleted;20 trip_update;21 trip_update.trip.trip_id
22 trip_update.trip.start_time;23 trip_update.trip.start_date;24 trip_update.trip.schedule_relationship;25 trip_update.trip.route_id
26 trip_update.trip.direction_id;27 trip_update.stop_time_update;28 trip_update.vehicle.id;29 trip_update.timestamp;30 trip_update.delay;31 U;32 U.stop_sequence
33 U.stop_id;34 U.schedule_relationship;35 U.arrival;36 U.arrival.delay;37 U.arrival.time;38 U.departure;39 U.departure.delay;40 U.departure.time;41 U.stop_time_properties.assigned_stop_id
42 trip_update.trip_properties.trip_id;43 trip_update.trip_properties.start_date;44 trip_update.trip_properties.start_time;50 vehicle
51 vehicle.trip;52 vehicle.trip.trip_id;53 vehicle.trip.start_time;54 vehicle.trip.start_date;55 vehicle.trip.schedule_relationship;56 vehicle.trip.route_id
57 vehicle.trip.direction_id;58 vehicle.vehicle.id;59 vehicle.timestamp;60 vehicle.stop_id;70 alert;71 P.start;72 P.end;73 alert.informed_entity;74 N;75 N.agency_id
76 N.route_id;77 N.route_type;78 N.trip;79 N.trip.trip_id;80 N.trip.start_time;81 N.trip.start_date;82 N.trip.schedule_relationship;83 N.trip.route_id
84 N.trip.direction_id;85 N.stop_id"""
LISTS = {"U": ("trip_update", "stop_time_update"), "P": ("alert", "active_period"), "N": ("alert", "informed_entity")}
NUMBER = {text.split()[1]: int(text.split()[0]) for text in SLOTS.replace("\n", ";").split(";")}


def printed(path, i):
    front, _, rest = path.partition(".")
    if front in LISTS:
        return ".".join(LISTS[front]) + "[%d]" % i + ("." + rest if rest else "")
    return path


def walk(value, names):
    for name in names:
        value = value.get(name) if isinstance(value, dict) else None
        if value is None:
            return None
    if isinstance(value, bool): return int(value)
    if isinstance(value, dict): return 1
    return len(value) if isinstance(value, list) else value


def cell(entity, path, i=0):
    front, _, rest = path.partition(".")
    if front in LISTS:
        holder, name = LISTS[front]
        items = entity.get(holder, {}).get(name, [])
        return walk(items[i], rest.split(".") if rest else []) if 0 <= i < len(items) else None
    if path in ("trip_update.stop_time_update", "alert.informed_entity"):
        holder, name = path.split(".")
        return len(entity[holder].get(name, [])) if holder in entity else None
    return walk(entity, path.split("."))


def count(entity, path):
    front = path.partition(".")[0]
    if front not in LISTS: return 1
    holder, name = LISTS[front]
    return len(entity.get(holder, {}).get(name, []))


# ---- rules
def fact(ask, keys, value): return {"ask": ask, "keys": [str(k) for k in keys], "value": value}


class Judge:
    """A snapshot with its timetable, its moment and the snapshots of its feed before it, the oldest first."""

    def __init__(self, feed, table, moment, earlier=()):
        self.header, self.table, self.moment = feed["header"], table, moment
        self.last = earlier[-1] if earlier else None
        self.changed = int(bool(earlier) and self.last.get("entity", []) != feed.get("entity", []))
        self.peaks = {}
        for e in (e for old in earlier for e in old.get("entity", [])):
            vehicle, time = cell(e, "vehicle.vehicle.id"), cell(e, "vehicle.timestamp")
            if vehicle is not None and time is not None:
                self.peaks[vehicle] = max(time, self.peaks.get(vehicle, 0))
        seen, self.entities = collections.Counter(), []
        for entity in feed.get("entity", []):
            self.entities.append((entity["id"], seen[entity["id"]], entity))
            seen[entity["id"]] += 1
        self.entities.sort(key=lambda e: (e[0].encode(), e[1]))
        self.rows = []
        for id_, occurrence, e in self.entities:
            for kind in ("trip_update", "vehicle"):
                if kind in e:
                    self.rows.append((kind, id_, occurrence, cell(e, kind + ".trip.trip_id"), cell(e, kind + ".vehicle.id")))

    # facts of the place that is judged
    def c(self, path, i=None): return fact("cell", [printed(path, self.i if i is None else i)], cell(self.e, path, self.i if i is None else i))
    def head(self, path): return fact("head_now", [path], walk(self.header, [path.split(".")[1]]))
    def before(self, path): return fact("head_before", [path], walk(self.last["header"], [path.split(".")[1]]) if self.last else None)
    def asked(self, name, *keys): return fact(name, keys, getattr(self.table, name)(*keys)) if self.table else None

    def ids(self, kind, part): return [r[part] for r in self.rows if r[0] == kind]

    def judge(self):
        lines = []
        for rule in RULES:
            for number, path, places, facts in rule.get("head", []):
                got = facts(self, path)
                if got is not None and rule["head_test"]([f["value"] for f in got]):
                    lines.append(self.line(rule["name"], path, got, None))
        for id_, occurrence, self.e in self.entities:
            self.key = id_, occurrence
            for rule in RULES:
                for path in rule["paths"]:
                    for self.i in range(rule["from"], count(self.e, path)) if path.partition(".")[0] in LISTS else [0]:
                        self.path = path
                        got = rule["facts"](self, path)
                        if got is not None and None not in got and rule["test"](*[f["value"] for f in got]):
                            lines.append(self.line(rule["name"], printed(path, self.i), got, self.key))
        return lines

    def line(self, rule, path, facts, key):
        found = {"facts": facts, "feed": 0, "level": rule[0], "line": "finding", "path": path, "rule": rule, "since": 0}
        if key: found.update(id=key[0], occurrence=key[1])
        return json.dumps(found, sort_keys=True, separators=(",", ":"), ensure_ascii=False)


RULES = []


def rule(name, paths, facts, test, first=0, head=None, head_test=None):
    RULES.append({"name": name, "paths": paths, "facts": facts, "test": test, "from": first, "head": head or [], "head_test": head_test})


D2 = ["trip_update.trip", "vehicle.trip"]
D3 = D2 + ["N.trip"]
under = lambda front, name: [d + "." + name for d in front]
beside = lambda path, name: path.rsplit(".", 1)[0] + "." + name
TRIP, SEQ = "trip_update.trip.trip_id", "U.stop_sequence"


def keyed(j, name, *values):
    """A fact of the timetable, where all its keys are given."""
    return None if any(v is None for v in values) else j.asked(name, *values)


def with_(j, facts, name, *values):
    last = keyed(j, name, *values)
    return None if last is None else facts + [last]


def head(path, facts): return [(3, path, 1, facts)]


given = lambda *vs: all(v is not None for v in vs)
stamps = ["trip_update.timestamp", "vehicle.timestamp"]
STAMP = "header.timestamp"
outside = lambda x: given(x) and not 1104537600 <= x <= 4294967295
rule("E001", ["trip_update.timestamp", "U.arrival.time", "U.departure.time", "vehicle.timestamp", "P.start", "P.end"], lambda j, p: [j.c(p)], outside,
     head=head(STAMP, lambda j, p: [j.head(STAMP)]), head_test=lambda v: outside(v[0]))
rule("E002", [SEQ], lambda j, p: [j.c(p, j.i - 1), j.c(p)], lambda a, b: given(a, b) and a >= b, first=1)
def known(j, p): return with_(j, [j.c(p), j.c(beside(p, "schedule_relationship"))], "trip_known", j.c(p)["value"])
rule("E003", under(D3, "trip_id"), known, lambda t, r, k: k == 0 and r != 1)
rule("E004", under(D2, "route_id") + ["N.route_id", "N.trip.route_id"], lambda j, p: with_(j, [j.c(p)], "route_known", j.c(p)["value"]), lambda p, k: k == 0)
rule("E006", under(D2, "trip_id"), lambda j, p: with_(j, [j.c(p), j.c(beside(p, "start_time")), j.c(beside(p, "start_date"))], "trip_exact", j.c(p)["value"]),
     lambda p, t, d, x: x == 0 and (t is None or d is None))
rule("E009", [SEQ], lambda j, p: with_(j, [j.c("U"), j.c(TRIP), j.c(p)], "visits_twice", j.c(TRIP)["value"]), lambda u, t, p, v: given(u) and p is None and v == 1)
kind = lambda j, p: with_(j, [j.c(p)], "stop_kind", j.c(p)["value"])
ASSIGNED = "U.stop_time_properties.assigned_stop_id"
rule("E011", ["U.stop_id", ASSIGNED, "vehicle.stop_id", "N.stop_id"], kind, lambda p, k: k is None)
rule("E012", stamps, lambda j, p: [j.c(p), j.head(STAMP)], lambda p, h: given(p, h) and p > h)
exact = lambda j, p: with_(j, [j.c(beside(p, "trip_id")), j.c(p)], "trip_exact", j.c(beside(p, "trip_id"))["value"])
rule("E013", under(D2, "schedule_relationship"), exact, lambda t, p, x: x == 0 and given(p) and p != 2)
rule("E015", ["U.stop_id", ASSIGNED, "vehicle.stop_id"], kind, lambda p, k: given(k) and k != 0)
rule("E016", under(D3, "trip_id"), known, lambda t, r, k: k == 1 and r == 1)
rule("E017", [], None, None, head=head(STAMP, lambda j, p: [j.before(STAMP), j.head(STAMP), fact("entities_changed", [], j.changed)]), head_test=lambda v: given(v[0], v[1]) and v[0] == v[1] and v[2] == 1)
rule("E018", [], None, None, head=head(STAMP, lambda j, p: [j.before(STAMP), j.head(STAMP)]), head_test=lambda v: given(v[0], v[1]) and v[1] < v[0])
def grid(j, p):
    facts = exact(j, p)
    return None if facts is None else with_(j, facts, "on_grid", facts[0]["value"], facts[1]["value"])
rule("E019", under(D2, "start_time"), grid, lambda t, p, x, g: x == 1 and seconds(p) is not None and g == 0)
rule("E020", under(D3, "start_time") + ["trip_update.trip_properties.start_time"], lambda j, p: [j.c(p)], lambda p: given(p) and not re.fullmatch("[0-9]{2,3}:[0-5][0-9]:[0-5][0-9]", p))
rule("E021", under(D3, "start_date") + ["trip_update.trip_properties.start_date"], lambda j, p: [j.c(p)], lambda p: given(p) and not is_date(p))
def late(a, b, c, d):
    last, first = b if b is not None else a, c if c is not None else d
    return given(last, first) and first <= last
rule("E022", ["U"], lambda j, p: [j.c("U.arrival.time", j.i - 1), j.c("U.departure.time", j.i - 1), j.c("U.arrival.time"), j.c("U.departure.time")], late, first=1)
def arrives(j, p):
    facts = exact(j, p)
    return None if facts is None else with_(j, facts, "first_arrival", facts[0]["value"])
rule("E023", under(D2, "start_time"), arrives, lambda t, p, x, a: x is None and given(p) and seconds(p) is not None and given(a) and seconds(p) != a)
of_trip = lambda name: lambda j, p: with_(j, [j.c(beside(p, "trip_id")), j.c(p)], name, j.c(beside(p, "trip_id"))["value"])
rule("E024", under(D3, "direction_id"), of_trip("trip_direction"), lambda t, p, d: given(p, d) and p != d)
rule("E025", ["U.departure.time"], lambda j, p: [j.c("U.arrival.time"), j.c(p)], lambda a, p: given(a, p) and p < a)
rule("E030", ["N.route_id"], lambda j, p: with_(j, [j.c(p), j.c("N.trip.trip_id")], "trip_route", j.c("N.trip.trip_id")["value"]), lambda p, t, r: given(p, r) and p != r)
rule("E031", ["N.route_id"], lambda j, p: [j.c(p), j.c("N.trip.route_id")], lambda p, r: given(p, r) and p != r)
rule("E032", ["alert.informed_entity"], lambda j, p: [j.c(p)], lambda p: p == 0)
rule("E033", ["N"], lambda j, p: [j.c(p)] + [j.c("N." + n) for n in ("agency_id", "route_id", "route_type", "trip", "stop_id")], lambda p, *five: given(p) and not any(given(x) for x in five))
rule("E034", ["N.agency_id"], lambda j, p: with_(j, [j.c(p)], "agency_known", j.c(p)["value"]), lambda p, k: k == 0)
rule("E035", under(D3, "route_id"), of_trip("trip_route"), lambda t, p, r: given(p, r) and p != r)
rule("E036", [SEQ], lambda j, p: [j.c(p, j.i - 1), j.c(p)], lambda a, b: given(a, b) and a == b, first=1)
rule("E037", ["U.stop_id"], lambda j, p: [j.c(p, j.i - 1), j.c(p)], lambda a, b: given(a, b) and a == b, first=1)
VERSION = "header.gtfs_realtime_version"
rule("E038", [], None, None, head=head(VERSION, lambda j, p: [j.head(VERSION)]), head_test=lambda v: v[0] not in ("1.0", "2.0"))
rule("E039", ["is_deleted"], lambda j, p: [j.c(p)], lambda p: given(p))
rule("E040", ["U"], lambda j, p: [j.c("U"), j.c(SEQ), j.c("U.stop_id")], lambda u, n, s: given(u) and n is None and s is None)
rule("E041", ["trip_update.stop_time_update"], lambda j, p: [j.c(p), j.c("trip_update.trip.schedule_relationship")], lambda p, r: p == 0 and r != 3)
rule("E042", ["U.arrival", "U.departure"], lambda j, p: [j.c("U.schedule_relationship"), j.c(p)], lambda r, p: r == 2 and given(p))
rule("E043", ["U"], lambda j, p: [j.c("U"), j.c("U.schedule_relationship"), j.c("U.arrival"), j.c("U.departure")], lambda u, r, a, d: given(u) and r not in (1, 2) and a is None and d is None)
rule("E044", ["U.arrival", "U.departure"], lambda j, p: [j.c(p), j.c(p + ".delay"), j.c(p + ".time")], lambda p, d, t: given(p) and d is None and t is None)
def at_stop(j, facts): return with_(j, facts, "stop_at", j.c(TRIP)["value"], j.c(SEQ)["value"])
rule("E045", ["U.stop_id"], lambda j, p: at_stop(j, [j.c(TRIP), j.c(SEQ), j.c(p)]), lambda t, n, p, s: given(p, s) and p != s)
def event(j, p):
    facts = at_stop(j, [j.c(TRIP), j.c(SEQ), j.c(p + ".delay"), j.c(p + ".time")])
    return None if facts is None else with_(j, facts, "arrival_at" if p == "U.arrival" else "departure_at", j.c(TRIP)["value"], j.c(SEQ)["value"])
rule("E046", ["U.arrival", "U.departure"], event, lambda t, n, d, x, s, e: given(d) and x is None and given(s) and e is None)
OTHER = {"trip_update": "vehicle", "vehicle": "trip_update"}
def pairs(j, p):
    mine = p.split(".")[0]
    trip, vehicle, other = j.c(mine + ".trip.trip_id"), j.c(p), OTHER[mine]
    if not given(trip["value"], vehicle["value"]): return None
    first = next((r[4] for r in j.rows if r[0] == other and r[3] == trip["value"] and r[4] is not None), None)
    has = any(r[0] == other and r[3] == trip["value"] and r[4] == vehicle["value"] for r in j.rows)
    return [trip, vehicle, fact("first_vehicle", [other, trip["value"]], first), fact("has_pair", [other, trip["value"], vehicle["value"]], int(has))]
rule("E047", ["trip_update.vehicle.id", "vehicle.vehicle.id"], pairs, lambda t, p, f, h: given(f) and h == 0)
version2 = lambda v: v[0] == "2.0" and v[1] is None
rule("E048", [], None, None, head=head(STAMP, lambda j, p: [j.head(VERSION), j.head(STAMP)]), head_test=version2)
rule("E049", [], None, None, head=head("header.incrementality", lambda j, p: [j.head(VERSION), j.head("header.incrementality")]), head_test=version2)
moment = lambda j: fact("moment", [], j.moment)
ahead = lambda p, m: given(p) and p > m + 60
rule("E050", stamps, lambda j, p: [j.c(p), moment(j)], ahead, head=head(STAMP, lambda j, p: [j.head(STAMP), moment(j)]), head_test=lambda v: ahead(*v))
def unknown_stop(j, p):
    facts = with_(j, [j.c(TRIP), j.c(p)], "trip_known", j.c(TRIP)["value"])
    return None if facts is None else at_stop(j, facts)
rule("E051", [SEQ], unknown_stop, lambda t, p, k, s: k == 1 and s is None)
def firsts(j, p):
    vehicle = j.c(p)["value"]
    if vehicle is None: return None
    found = next(((r[1], r[2]) for r in j.rows if r[0] == "vehicle" and r[4] == vehicle), (None, None))
    j.first_is_itself = found == j.key
    return [j.c(p), fact("first_id", [0, vehicle], found[0]), fact("first_occurrence", [0, vehicle], found[1])]
rule("E052", ["vehicle.vehicle.id"], firsts, lambda *facts: not JUDGE[0].first_is_itself)
holder = lambda path: path.split(".")[0]
lacks = lambda h, p: given(h) and p is None
rule("W001", stamps, lambda j, p: [j.c(holder(p)), j.c(p)], lacks, head=head(STAMP, lambda j, p: [j.head(VERSION), j.head(STAMP)]), head_test=lambda v: v[0] != "2.0" and v[1] is None)
rule("W002", ["trip_update.vehicle.id", "vehicle.vehicle.id"], lambda j, p: [j.c(holder(p)), j.c(p)], lacks)
def others(j, p):
    mine, value = holder(p), j.c(p)["value"]
    if value is None: return None
    other, is_trip = OTHER[mine], p.endswith("trip_id")
    return [j.c(p), fact("any_row", [other], int(bool(j.ids(other, 0)))), fact("has_trip" if is_trip else "has_vehicle", [other, value], int(value in j.ids(other, 3 if is_trip else 4)))]
rule("W003", ["trip_update.trip.trip_id", "trip_update.vehicle.id", "vehicle.trip.trip_id", "vehicle.vehicle.id"], others, lambda p, a, h: a == 1 and h == 0)
rule("W005", ["trip_update.vehicle.id"], lambda j, p: with_(j, [j.c(TRIP), j.c(p)], "trip_exact", j.c(TRIP)["value"]), lambda t, p, x: x == 0 and p is None)
rule("W006", [TRIP], lambda j, p: [j.c("trip_update"), j.c(p)], lacks)
rule("W007", [], None, None, head=head(STAMP, lambda j, p: [j.before(STAMP), j.head(STAMP)]), head_test=lambda v: given(*v) and v[1] > v[0] + 35)
rule("W008", [], None, None, head=head(STAMP, lambda j, p: [j.head(STAMP), moment(j)]), head_test=lambda v: given(v[0]) and v[1] > v[0] + 65)
rule("W009", ["trip_update.trip.schedule_relationship", "U.schedule_relationship", "vehicle.trip.schedule_relationship"],
     lambda j, p: [j.c({"trip_update.trip.schedule_relationship": "trip_update", "U.schedule_relationship": "U"}.get(p, "vehicle.trip")), j.c(p)], lacks)
def back(j, p):
    vehicle = j.c("vehicle.vehicle.id")
    return None if vehicle["value"] is None else [vehicle, j.c(p), fact("peak", [0, vehicle["value"]], j.peaks.get(vehicle["value"]))]
rule("X001", ["vehicle.timestamp"], back, lambda v, p, k: given(p, k) and p < k)
rule("X002", ["id"], lambda j, p: [j.c(p), fact("occurrence", [], j.key[1])], lambda p, o: o >= 1)
JUDGE = [None]
for r in RULES:
    r["paths"].sort(key=NUMBER.get)


def told(**keys): return json.dumps(keys, sort_keys=True, separators=(",", ":"), ensure_ascii=False)


def report(feed, table, moment):
    n = len(feed.get("entity", []))
    JUDGE[0] = Judge(feed, table, moment)
    return [told(bounded=n, entities=n, feed=0, line="accepted", moment=moment, paired=n, peaked=n, row=0, snapshot=0, tested=n)] + JUDGE[0].judge()


# ---- another timetable
def ids_of(entity):
    """The ids that an entity gives: of trips, of routes, of stops and of agencies."""
    descriptors = [entity.get(holder_, {}).get("trip", {}) for holder_ in ("trip_update", "vehicle")]
    selectors = entity.get("alert", {}).get("informed_entity", [])
    descriptors += [it.get("trip", {}) for it in selectors]
    updates = entity.get("trip_update", {}).get("stop_time_update", [])
    stops = [it.get("stop_id") for it in updates + selectors + [entity.get("vehicle", {})]] + [it.get("stop_time_properties", {}).get("assigned_stop_id") for it in updates]
    found = [it.get("trip_id") for it in descriptors], [it.get("route_id") for it in descriptors + selectors], stops, [it.get("agency_id") for it in selectors]
    return [{it for it in ids if it is not None} for ids in found]


def agree(old, new, entity):
    """Whether two timetables say the same of each id of an entity. Where there is none, no other one agrees with it."""
    if old is None or new is None:
        return old is new
    trips, routes, stops, agencies = ids_of(entity)
    return (all(old.said_of_trip(it) == new.said_of_trip(it) for it in trips) and all(old.route_known(it) == new.route_known(it) for it in routes)
            and all(old.stop_kind(it) == new.stop_kind(it) for it in stops) and all(old.agency_known(it) == new.agency_known(it) for it in agencies))


def published(draw, files):
    """The files of a publication, and its first fault, if it has one."""
    files = dict(files)
    for file, text, other in draw.sample(EDITS, draw.choice([0, 1, 1, 2, 3])):
        if not other or other not in files[file]:  # no key comes twice
            files[file] = files[file].replace(text, other)
    file, text, other, why = draw.choice(FAULTS)
    if draw.random() < 0.3 and (text is None or text in files[file]):
        files[file] = None if text is None else files[file].replace(text, other)
        return files, file + ": " + why
    return files, None


# ---- histories of one feed
def key_of(found): return found.get("id"), found.get("occurrence")
def place_of(found): return key_of(found) + (found["rule"], found["path"])


def touched(old, now, stood, stand):
    """The four counts: new or other entities, and these with those that pairs, bounds and peaks touch. `old` is none at first."""
    entities = {(id_, occurrence): e for id_, occurrence, e in now.entities}
    were = {(id_, occurrence): e for id_, occurrence, e in old.entities} if old else {}
    tested = {key for key, e in entities.items() if were.get(key) != e}
    rows, were_rows = set(now.rows), set(old.rows if old else ())
    other = rows ^ were_rows
    trips, vehicles = ({row[part] for row in other} - {None} for part in (3, 4))
    whole = [kind for kind in OTHER if any(row[0] == kind for row in rows) != any(row[0] == kind for row in were_rows)]
    paired = {row[1:3] for row in rows if row[3] in trips or row[4] in vehicles or OTHER[row[0]] in whole}
    moved = old is None or (old.header.get("timestamp"), old.moment) != (now.header.get("timestamp"), now.moment)
    bounded = {key_of(found) for found in stood + stand if found["rule"] in ("E012", "E050")} & set(entities) if moved else set()
    peaks = {vehicle for vehicle, time in now.peaks.items() if (old.peaks if old else {}).get(vehicle) != time}
    peaked = {key for key, e in entities.items() if cell(e, "vehicle.vehicle.id") in peaks}
    return dict(tested=len(tested), paired=len(tested | paired), bounded=len(tested | bounded), peaked=len(tested | peaked))


def changed(stood, stand):
    """The lines of what opened and closed."""
    opened = [told(**found) for place, found in stand.items() if place not in stood or stood[place]["facts"] != found["facts"]]
    return opened + [told(line="closed", **{key: found[key] for key in ("feed", "id", "occurrence", "path", "rule") if key in found})
                     for place, found in stood.items() if place not in stand]


def follow_report(steps, table):
    """Of a list, whose rows are a snapshot and its moment, or a timetable and why it is refused."""
    lines, stood, old, feeds = [], {}, None, []

    def judged(feed, moment, earlier, number):
        JUDGE[0] = now = Judge(feed, table, moment, earlier)
        stand = {place_of(found): found for found in map(json.loads, now.judge())}
        for place, found in stand.items():
            found.update(line="opened", since=stood[place]["since"] if place in stood else number)
        return now, stand

    for row, (what, other) in enumerate(steps):
        if isinstance(other, str):
            lines.append(told(line="refused_timetable", row=row, text=other))
        elif isinstance(what, Table):
            entities = [e for _, _, e in old.entities] if old else []
            lines.append(told(line="timetable", row=row, entities=len(entities), retested=sum(not agree(table, what, e) for e in entities)))
            table = what
            if old:
                old, stand = judged(feeds[-1], old.moment, feeds[:-1], len(feeds) - 1)
                lines += changed(stood, stand)
                stood = stand
        else:
            now, stand = judged(what, other, feeds, len(feeds))
            lines.append(told(entities=len(now.entities), feed=0, line="accepted", moment=other, row=row, snapshot=len(feeds),
                              **touched(old, now, list(stood.values()), list(stand.values()))))
            lines += changed(stood, stand)
            stood, old = stand, now
            feeds = feeds + [what]
    return lines


# ---- random feeds
def some(draw, chance, value): return value() if draw.random() < chance else None


def kept(**fields): return {k: v for k, v in fields.items() if v is not None}


def descriptor(draw):
    return kept(trip_id=some(draw, 0.85, lambda: draw.choice(["T1", "T2", "F1", "L1", "G1", "X9", "é"])),
                start_time=some(draw, 0.4, lambda: draw.choice(["08:00:00", "8:00:00", "08:10:00", "08:15:00", "24:50:00", "09:00:00", "09:10:00", "10:15:00", "08:61:00", "", "007:00:00"])),
                start_date=some(draw, 0.4, lambda: draw.choice(["20231114", "20230230", "20240229", "2023111", "99991231", "x"])),
                schedule_relationship=some(draw, 0.7, lambda: draw.choice([0, 1, 2, 3, 6])), route_id=some(draw, 0.4, lambda: draw.choice(["R1", "R2", "R9"])),
                direction_id=some(draw, 0.4, lambda: draw.randrange(3)))


def stop_event(draw):
    return kept(delay=some(draw, 0.5, lambda: draw.randrange(-60, 61)), time=some(draw, 0.5, lambda: draw.choice([1700000000 + 60 * draw.randrange(6), -1, 1104537599, 1104537600, 4294967295, 4294967296])))


def update(draw):
    return kept(stop_sequence=some(draw, 0.7, lambda: draw.choice([1, 2, 3, 5, 7, 9, 4294967295])), stop_id=some(draw, 0.5, lambda: draw.choice(["S1", "S2", "S3", "P1", "Z"])),
                schedule_relationship=some(draw, 0.7, lambda: draw.randrange(3)), arrival=some(draw, 0.6, lambda: stop_event(draw)), departure=some(draw, 0.5, lambda: stop_event(draw)),
                stop_time_properties=some(draw, 0.3, lambda: kept(assigned_stop_id=some(draw, 0.8, lambda: draw.choice(["S1", "S2", "P1", "Z", ""])))))


def stamp(draw): return draw.choice([1700000000, 1700000010, 1700000070, 1700000071, 1104537599, 4294967296, 18446744073709551615, 0])
def vehicle(draw): return kept(id=some(draw, 0.8, lambda: draw.choice(["v1", "v2", "v3"])), label=some(draw, 0.1, lambda: "x"))


def entity(draw):
    e = {"id": draw.choice(["a", "b", "c", "é", "", "a\"\n"])}
    if draw.random() < 0.1: e["is_deleted"] = draw.random() < 0.5
    if draw.random() < 0.6:
        e["trip_update"] = kept(trip=descriptor(draw), stop_time_update=some(draw, 0.85, lambda: [update(draw) for _ in range(draw.randrange(1, 5))]), vehicle=some(draw, 0.6, lambda: vehicle(draw)),
                                timestamp=some(draw, 0.6, lambda: stamp(draw)), trip_properties=some(draw, 0.3, lambda: kept(trip_id=some(draw, 0.7, lambda: "T1 again"),
                                start_date=some(draw, 0.6, lambda: draw.choice(["20231114", "20230230", "x", ""])), start_time=some(draw, 0.6, lambda: draw.choice(["08:00:00", "8:00:00", "25:10:00", ""])))))
    if draw.random() < 0.5:
        e["vehicle"] = kept(trip=some(draw, 0.8, lambda: descriptor(draw)), vehicle=some(draw, 0.8, lambda: vehicle(draw)), timestamp=some(draw, 0.6, lambda: stamp(draw)), stop_id=some(draw, 0.4, lambda: draw.choice(["S1", "P1", "Z"])))
    if draw.random() < 0.4:
        selector = lambda: kept(agency_id=some(draw, 0.3, lambda: draw.choice(["A1", "A2"])), route_id=some(draw, 0.5, lambda: draw.choice(["R1", "R2", "R9"])), route_type=some(draw, 0.2, lambda: 3),
                                trip=some(draw, 0.5, lambda: descriptor(draw)), stop_id=some(draw, 0.3, lambda: draw.choice(["S1", "Z"])))
        e["alert"] = kept(active_period=some(draw, 0.5, lambda: [kept(start=some(draw, 0.7, lambda: stamp(draw)), end=some(draw, 0.7, lambda: stamp(draw)))]),
                          informed_entity=some(draw, 0.8, lambda: [selector() for _ in range(draw.randrange(1, 4))]))
    return e


def feed(draw):
    header = kept(gtfs_realtime_version=draw.choice(["2.0", "2.0", "1.0", "9"]), incrementality=some(draw, 0.8, lambda: 0), timestamp=some(draw, 0.85, lambda: stamp(draw)), feed_version=some(draw, 0.3, lambda: draw.choice(["2023-11", ""])))
    return kept(header=header, entity=some(draw, 0.95, lambda: [entity(draw) for _ in range(draw.randrange(1, 8))]))


def history(draw):
    """Snapshots of one feed, each the one before with some entities and perhaps the header drawn anew, and their moments."""
    feeds, moments = [feed(draw)], [MOMENT]
    for _ in range(draw.randrange(2, 7)):
        last = [e if draw.random() < 0.6 else entity(draw) for e in feeds[-1].get("entity", []) if draw.random() < 0.9]
        last += [entity(draw)] if draw.random() < 0.3 else []
        header = feeds[-1]["header"] if draw.random() < 0.4 else feed(draw)["header"]
        feeds.append(kept(header=header, entity=last or None))
        moments.append(moments[-1] + draw.choice([0, 30, 30, 60]))
    return feeds, moments


def steps_of(draw, feeds, moments, write, write_table):
    """The rows of a list, with publications between its snapshots, and its text."""
    steps, text, files = [], "", TOWN
    for n, (snapshot, moment_) in enumerate(zip(feeds, moments)):
        while draw is not None and draw.random() < 0.4:
            new, why = published(draw, files)
            folder = "town%d" % len(steps)
            write_table(folder, new)
            steps.append((None, folder + "/" + why) if why else (Table(new), None))
            files = files if why else new
            text += "timetable,,%s\n" % folder
        write(snapshot, "f%d" % n)
        steps.append((snapshot, moment_))
        text += "0,%d,f%d\n" % (moment_, n)
    return steps, text


def main():
    program = os.path.abspath(sys.argv[1] if len(sys.argv) > 1 else os.path.join(os.path.dirname(os.path.abspath(__file__)), "../crates/rt_command/out/rt_command"))
    same, found, kinds = 0, collections.Counter(), collections.Counter()
    wanted = int(sys.argv[2]) if len(sys.argv) > 2 else 300
    with tempfile.TemporaryDirectory() as folder:
        def write_table(name, files):
            shutil.rmtree(folder + "/" + name, ignore_errors=True)
            os.mkdir(folder + "/" + name)
            for file, text in files.items():
                if text is not None:
                    open(folder + "/" + name + "/" + file, "w").write(text)

        write_table("town", TOWN)
        run = lambda *words: subprocess.run([program] + list(words), cwd=folder, stdout=subprocess.PIPE, stderr=subprocess.PIPE)

        def write(snapshot, name):
            open(folder + "/j", "w").write(json.dumps(snapshot))
            encoded = run("encode", "j")
            assert encoded.returncode == 0, (snapshot, encoded.stderr)
            open(folder + "/" + name, "wb").write(encoded.stdout)

        for seed in range(wanted + wanted // 3):
            draw = random.Random(seed)
            table = Table(TOWN) if seed % 3 else None
            if seed >= wanted:
                feeds, moments = history(draw)
                steps, text = steps_of(draw if seed % 2 else None, feeds, moments, write, write_table)
                open(folder + "/list", "w").write(text)
                want = follow_report(steps, table)
                got = run("follow", *(["--timetable", "town"] if table else []), "--list", "list")
            else:
                snapshot = feed(draw)
                write(snapshot, "f")
                moment_ = draw.choice([MOMENT, 1700000066, 1699999939, 0, 18446744073709551615])
                want = report(snapshot, table, moment_)
                got = run("check", *(["--timetable", "town"] if table else []), "--now", str(moment_), "f")
            lines = got.stdout.decode().splitlines()
            status = int(any(line.get("level") in ("E", "X") or line["line"] == "refused_timetable" for line in map(json.loads, want)))
            if lines != want or got.returncode != status:
                at = next((k for k, (a, b) in enumerate(zip(lines, want)) if a != b), min(len(lines), len(want)))
                print("seed %d, line %d:\n got %s\nwant %s\nstatus %d for %d" % (seed, at, lines[at:at + 1], want[at:at + 1], got.returncode, status))
                return 1
            same += 1
            found.update(line["rule"] for line in map(json.loads, want) if line["line"] in ("finding", "opened"))
            kinds.update(line["line"] + (" of some" if line.get("retested") else "") for line in map(json.loads, want))
    print("%d reports are the same; %d timetables came, %d of them refused, and %d concerned an entity" % (
        same, kinds["timetable"] + kinds["timetable of some"] + kinds["refused_timetable"], kinds["refused_timetable"], kinds["timetable of some"]))
    print(", ".join("%s %d" % (r["name"], found[r["name"]]) for r in RULES))
    return 0


if __name__ == "__main__":
    sys.exit(main())
