"""Reports for the check of the page: lines as docs/report.md says them, of made-up feeds."""
import json, random

START = 1700000000
MISSING = None


def line(**keys):
    return json.dumps(keys, sort_keys=True, separators=(",", ":"), ensure_ascii=False)


def accepted(row, feed=0, snapshot=0, moment=START, entities=0, tested=None, paired=None, bounded=None, peaked=None):
    tested, paired, bounded, peaked = (entities if count is None else count for count in (tested, paired, bounded, peaked))
    return line(line="accepted", row=row, feed=feed, snapshot=snapshot, moment=moment, entities=entities, tested=tested, paired=paired, bounded=bounded, peaked=peaked)


def accepted_before(row, entities=0):
    """The line of a snapshot as it was before there was the count `peaked`."""
    return line(line="accepted", row=row, feed=0, snapshot=row, moment=START, entities=entities, tested=entities, paired=entities, bounded=entities)


def refused(row, at, reason):
    return line(line="refused", row=row, at=at, reason=reason)


def timetable(row, entities=0, retested=0):
    return line(line="timetable", row=row, entities=entities, retested=retested)


def refused_timetable(row, text):
    return line(line="refused_timetable", row=row, text=text)


def fact(ask, *keys, value):
    return {"ask": ask, "keys": list(keys), "value": value}


def finding(rule, path, facts, id=None, feed=0, occurrence=0, since=0, kind="finding"):
    place = {} if id is None else {"id": id, "occurrence": occurrence}
    return line(line=kind, rule=rule, level=rule[0], path=path, facts=facts, feed=feed, since=since, **place)


def closed(rule, path, id=None, feed=0, occurrence=0):
    place = {} if id is None else {"id": id, "occurrence": occurrence}
    return line(line="closed", rule=rule, path=path, feed=feed, **place)


def cell(path, value):
    return fact("cell", path, value=value)


def newer(id, stamp, head=START, **more):
    return finding("E012", "trip_update.timestamp", [cell("trip_update.timestamp", stamp), fact("head_now", "header.timestamp", value=head)], id, **more)


def other_route(id, trip, said, route, **more):
    return finding("E035", "trip_update.trip.route_id", [cell("trip_update.trip.trip_id", trip), cell("trip_update.trip.route_id", said),
                                                          fact("trip_route", trip, value=route)], id, **more)


def unknown_route(id, route, **more):
    return finding("E004", "vehicle.trip.route_id", [cell("vehicle.trip.route_id", route), fact("route_known", route, value=0)], id, **more)


def no_relationship(id, **more):
    return finding("W009", "trip_update.trip.schedule_relationship", [cell("trip_update", 1), cell("trip_update.trip.schedule_relationship", MISSING)], id, **more)


def repeated(id, occurrence, **more):
    return finding("X002", "id", [cell("id", id), fact("occurrence", value=occurrence)], id, occurrence=occurrence, **more)


def gone_back(id, vehicle, stamp, peak, feed=0, **more):
    return finding("X001", "vehicle.timestamp", [cell("vehicle.vehicle.id", vehicle), cell("vehicle.timestamp", stamp), fact("peak", str(feed), vehicle, value=peak)], id, feed, **more)


def no_stamp(**more):
    return finding("E048", "header.timestamp", [fact("head_now", "header.gtfs_realtime_version", value="2.0"), fact("head_now", "header.timestamp", value=MISSING)], **more)


def only_accepted():
    return [accepted(0, entities=3)]


def of_before():
    return [accepted_before(0, entities=3), gone_back("bus-7", "7", START - 40, START - 10)]


def only_refused():
    return [refused(0, 16, "Overrun"), refused(1, 22, "MissingField(trip)"), refused(2, 0, "NoFile"), refused(3, 18446744073709551615, "Unheard")]


def all_levels():
    return [accepted(0, entities=5), refused(1, 100, "NotText"), no_stamp(), newer("trip-1042", START + 20), other_route("trip-1042", "1042", "5", "4"),
            no_relationship("trip-1042"), unknown_route("bus-7", "5"), repeated("bus-7", 1), newer("", 18446744073709551615)]


def followed(snapshots=40, feeds=2, seed=7):
    """A history in which findings open, change their facts and close."""
    chance, lines, standing = random.Random(seed), [], {}
    for snapshot in range(snapshots):
        feed = snapshot % feeds
        moment = START + 30 * (snapshot // feeds)
        lines.append(accepted(len(lines) and snapshot, feed, snapshot, moment, 20, 4, 6, 2))
        openings, closings = [], []
        for n in range(12):
            id = "trip-%d" % n
            for rule, make, path in (("E012", newer, "trip_update.timestamp"), ("W009", no_relationship, "trip_update.trip.schedule_relationship")):
                key = (feed, id, rule)
                if key in standing and chance.random() < .25:
                    del standing[key]
                    closings.append(closed(rule, path, id, feed))
                elif key in standing and rule == "E012" and chance.random() < .2:
                    openings.append(make(id, moment + 9, head=moment, feed=feed, since=standing[key], kind="opened"))
                elif key not in standing and chance.random() < (.4 if 8 < snapshot < 24 else .08):
                    standing[key] = snapshot
                    arguments = (id, moment + 5, moment) if rule == "E012" else (id,)
                    openings.append(make(*arguments, feed=feed, since=snapshot, kind="opened"))
        lines += openings + closings
    return lines, len(standing)


def exchanged():
    """A history with timetables: one before all snapshots, one that breaks trips and mends one, a refused one, one that mends all but one, and one that changes nothing."""
    return [timetable(0), accepted(1, 0, 0, START, 5), newer("trip-0", START + 9, kind="opened"), other_route("trip-1", "1", "5", "4", kind="opened"),
            timetable(2, 5, 3), other_route("trip-2", "2", "5", "4", kind="opened"), other_route("trip-3", "3", "6", "4", kind="opened"), closed("E035", "trip_update.trip.route_id", "trip-1"),
            accepted(3, 0, 1, START + 30, 5, 1, 1, 0), newer("trip-4", START + 39, since=1, kind="opened"),
            refused_timetable(4, "gtfs/new/stop_times.txt: row 3: bad value in arrival_time"), refused(5, 16, "Overrun"),
            timetable(6, 5, 2), other_route("trip-3", "3", "6", "7", kind="opened"), closed("E035", "trip_update.trip.route_id", "trip-2"),
            accepted(7, 0, 2, START + 60, 5, 0, 0, 0), timetable(8, 5, 0)]


def many(count=100000):
    lines = [accepted(0, entities=count)]
    for n in range(count):
        id = "entity-%06d" % n
        lines.append([newer(id, START + n), no_relationship(id), other_route(id, "T%d" % n, "R%d" % (n % 300), "R0")][n % 3])
    return lines


def crowd(count=12345, snapshots=6):
    """A history with counts of five digits: places that open, open again with other facts, and close."""
    lines = []
    for snapshot in range(snapshots):
        moment = START + 30 * snapshot
        lines.append(accepted(snapshot, 0, snapshot, moment, count))
        if snapshot == 0:
            lines += [no_relationship("trip-%d" % n, kind="opened") for n in range(count)]
        lines += [newer("trip-%d" % n, moment + 5, head=moment, since=1, kind="opened") for n in range(count if snapshot in (1, 3) else 0)]
        lines += [other_route("trip-%d" % n, "T%d" % n, "R%d" % (n % 40), "R0", since=2, kind="opened") for n in range(count - 200 if snapshot == 2 else 0)]
        lines += [closed("E012", "trip_update.timestamp", "trip-%d" % n) for n in range(count // 2 if snapshot == 4 else 0)]
    return lines


# Facts, and what the page is to say of each.
WORDS = [
    ("cell", ["trip_update.timestamp"], 1700000000, "trip_update.timestamp is 1700000000 (2023-11-14 22:13:20 UTC)"),
    ("cell", ["trip_update.timestamp"], 99999999999999, "trip_update.timestamp is 99999999999999"),
    ("cell", ["trip_update.timestamp"], None, "trip_update.timestamp is missing"),
    ("cell", ["vehicle"], 1, "vehicle is there"),
    ("cell", ["trip_update.stop_time_update[3]"], 1, "trip_update.stop_time_update[3] is there"),
    ("cell", ["trip_update.stop_time_update[3].arrival"], 1, "trip_update.stop_time_update[3].arrival is there"),
    ("cell", ["trip_update.stop_time_update[3].stop_sequence"], 1, "trip_update.stop_time_update[3].stop_sequence is 1"),
    ("cell", ["trip_update.stop_time_update[3].arrival.delay"], -60, "trip_update.stop_time_update[3].arrival.delay is -60 s"),
    ("cell", ["trip_update.stop_time_update[3].schedule_relationship"], 2, "trip_update.stop_time_update[3].schedule_relationship is 2 (NO_DATA)"),
    ("cell", ["vehicle.trip.schedule_relationship"], 2, "vehicle.trip.schedule_relationship is 2 (UNSCHEDULED)"),
    ("cell", ["trip_update.trip.schedule_relationship"], 6, "trip_update.trip.schedule_relationship is 6 (DUPLICATED)"),
    ("cell", ["trip_update.stop_time_update"], 0, "trip_update.stop_time_update has 0 items"),
    ("cell", ["alert.informed_entity"], 1, "alert.informed_entity has 1 item"),
    ("cell", ["is_deleted"], 0, "is_deleted is false"),
    ("cell", ["vehicle.stop_id"], "S1", "vehicle.stop_id is “S1”"),
    ("head_now", ["header.gtfs_realtime_version"], "2.0", "header.gtfs_realtime_version is “2.0”"),
    ("head_before", ["header.timestamp"], None, "in the snapshot before, header.timestamp was missing"),
    ("moment", [], 1700000000, "the snapshot was taken at 1700000000 (2023-11-14 22:13:20 UTC)"),
    ("occurrence", [], 2, "2 entities with its id stand before it"),
    ("entities_changed", [], 1, "the entities changed"),
    ("trip_known", ["T"], 0, "the timetable has no trip “T”"),
    ("route_known", ["R"], 0, "the timetable has no route “R”"),
    ("agency_known", ["A"], 1, "the timetable has agency “A”"),
    ("stop_kind", ["S"], 1, "stop “S” has location_type 1"),
    ("stop_kind", ["S"], None, "the timetable has no stop “S”"),
    ("trip_route", ["T"], "R", "the timetable has trip “T” on route “R”"),
    ("trip_direction", ["T"], 0, "the timetable gives trip “T” the direction_id 0"),
    ("trip_exact", ["T"], 0, "trip “T” runs by headway, with exact_times 0"),
    ("trip_exact", ["T"], None, "trip “T” has no headways"),
    ("on_grid", ["T", "08:15:00"], 0, "“08:15:00” is not on the headway grid of trip “T”"),
    ("visits_twice", ["T"], 1, "trip “T” visits a stop twice"),
    ("first_arrival", ["T"], 90610, "trip “T” first arrives at 25:10:10"),
    ("stop_at", ["T", "3"], "S3", "at stop_sequence 3 of trip “T” the timetable has the stop “S3”"),
    ("stop_at", ["T", "3"], None, "at stop_sequence 3 of trip “T” the timetable has no stop"),
    ("arrival_at", ["T", "3"], 28800, "at stop_sequence 3 of trip “T” the timetable has the arrival 08:00:00"),
    ("departure_at", ["T", "3"], None, "at stop_sequence 3 of trip “T” the timetable has no departure"),
    ("first_vehicle", ["vehicle", "T"], "v2", "the first vehicle position of trip “T” that names a vehicle names “v2”"),
    ("has_pair", ["trip_update", "T", "v1"], 0, "no trip update gives trip “T” the vehicle “v1”"),
    ("any_row", ["vehicle"], 1, "there are vehicle positions"),
    ("has_trip", ["vehicle", "T"], 0, "no vehicle position is of trip “T”"),
    ("has_vehicle", ["trip_update", "v"], 0, "no trip update is of vehicle “v”"),
    ("first_id", ["0", "v"], "p", "the first position of vehicle “v” in feed 0 is entity “p”"),
    ("first_occurrence", ["0", "v"], 1, "that is its occurrence 1"),
    ("peak", ["0", "v"], 1700000000, "the latest time that vehicle “v” gave before in feed 0 is 1700000000 (2023-11-14 22:13:20 UTC)"),
    ("peak", ["0", "v"], None, "vehicle “v” gave no time before in feed 0"),
    ("new_ask", ["T"], 7, "new_ask(“T”) is 7"),
    ("cell", ["two", "keys"], None, "cell(“two”, “keys”) is null"),
]


def every_fact():
    return [accepted(0, entities=1)] + [finding("E999", "id", [fact(ask, *keys, value=value)], "n%d" % n) for n, (ask, keys, value, words) in enumerate(WORDS)]


def far_ahead():
    """Moments at the end of 64 bits, where floating-point numbers have gaps."""
    lines = []
    for snapshot in range(3):
        moment = 18446744073709543424 + 2048 * snapshot
        lines += [accepted(snapshot, 0, snapshot, moment, 1), newer("a", moment + 9, head=moment, since=0, kind="opened")]
    return lines


HOSTILE = ['<script>document.title="hit"</script>', '"><img src=x onerror=document.title="hit">', "'; document.title='hit'; '", "</script><b>bold</b>",
           "a\nb\tc", "\u202egnp.exe", "&lt;&amp;", "__proto__", "constructor", " ", "x" * 100000]


def hostile():
    lines = [accepted(0, entities=len(HOSTILE))] + [unknown_route(id, id) for id in HOSTILE]
    lines.append(finding('<b>rule</b>', '<i>path</i>', [fact('<u>ask</u>', '<s>key</s>', value='<img src="http://example.org/">')], '<script>'))
    lines.append(line(line="refused", row=1, at=3, reason='<script>document.title="hit"</script>'))
    lines.append(refused_timetable(2, '<script>document.title="hit"</script>'))
    return lines


def broken():
    return ["no JSON at all", "{", "[1,2]", "null", line(line="trial", snapshots=40), line(line="finding", rule="E012"), accepted(0, entities=1), newer("a", START + 1),
            closed("E012", "vehicle.timestamp", "b"), line(line="timetable", row=1), line(line="refused_timetable", row=-1, text="a"), '{"line":"<script>"}', "", '{"__proto__":{"line":"accepted"}}', newer("cut", START)[:40]]
