#!/usr/bin/env python3
"""What `rt_summary --json` counts, against a count by Python: summary.py [SUMMARY [PROGRAM]].

Reports of `check` and `follow` of the examples are counted line by line with Python's json, and compared whole: snapshots, findings,
entities, places, what stands at the end, and the first line with its moment, and the timetable behind which it stands, by rule; timetables that were exchanged or refused. Each report is also spoilt: lines are doubled, dropped, cut, put in another order of
keys or spaced; the last line loses its line feed; lines that are no report's come between. The screen has no line wider than 80 columns,
and the status is as `--fail-on` says.
"""
import json, os, random, re, subprocess, sys, unicodedata

sys.dont_write_bytecode = True
HERE = os.path.dirname(os.path.abspath(__file__))
TOP = os.path.join(HERE, "..")
sys.path.insert(0, os.path.join(TOP, "viewer"))
from reports import exchanged  # noqa: E402

SUMMARY = os.path.abspath(sys.argv[1] if len(sys.argv) > 1 else os.path.join(TOP, "crates/rt_summary/out/rt_summary"))
PROGRAM = os.path.abspath(sys.argv[2] if len(sys.argv) > 2 else os.path.join(TOP, "crates/rt_command/out/rt_command"))
LIMIT = 1048576
KNOWN = set(re.findall(r"(?m)^\| \[([EWX]\d{3})\]\(#", open(os.path.join(TOP, "docs/rules.md")).read()))


def whole(value):
    return type(value) is int and 0 <= value < 2**64


def refuse_constant(word):
    raise ValueError(word)


def told(line):
    """What a line says: its kind, its tree; or nothing."""
    if len(line) > LIMIT:
        return None
    try:
        tree = json.loads(line.decode("utf-8"), parse_constant=refuse_constant)
    except (ValueError, RecursionError):
        return None
    if not isinstance(tree, dict):
        return None
    kind = tree.get("line")
    if kind in ("accepted", "trial"):
        return kind, tree
    if kind == "refused":
        return (kind, tree) if whole(tree.get("row")) and whole(tree.get("at")) and isinstance(tree.get("reason"), str) else None
    if kind == "timetable":
        return (kind, tree) if whole(tree.get("row")) else None
    if kind == "refused_timetable":
        return (kind, tree) if whole(tree.get("row")) and isinstance(tree.get("text"), str) else None
    if kind in ("finding", "opened", "closed"):
        right = tree.get("rule") in KNOWN and whole(tree.get("feed")) and isinstance(tree.get("path"), str)
        if right and "id" in tree:
            right = isinstance(tree["id"], str) and whole(tree.get("occurrence"))
        return (kind, tree) if right else None
    return None


def counted(report, ignored):
    lines = report.split(b"\n")
    if lines[-1] == b"":
        lines.pop()
    moment = timetable = None
    sums = dict(exchanged=0, refused_timetables=0, timetable_refusals=[], accepted=0, refused=0, trials=0, foreign=0, ignored=0, lines=len(lines), refusals=[], foreign_lines=[])
    rules = {}
    for number, line in enumerate(lines, 1):
        said = told(line)
        if said is None:
            sums["foreign"] += 1
            sums["foreign_lines"].append(number)
            continue
        kind, tree = said
        if kind in ("accepted", "trial"):
            sums["accepted" if kind == "accepted" else "trials"] += 1
            if kind == "accepted":
                moment, timetable = tree["moment"] if whole(tree.get("moment")) else None, None
        elif kind == "timetable":
            sums["exchanged"] += 1
            timetable = tree["row"]
        elif kind == "refused_timetable":
            sums["refused_timetables"] += 1
            sums["timetable_refusals"].append((tree["row"], tree["text"]))
        elif kind == "refused":
            sums["refused"] += 1
            sums["refusals"].append((tree["row"], tree["at"], tree["reason"]))
        elif tree["rule"] in ignored:
            sums["ignored"] += 1
        else:
            rule = rules.setdefault(tree["rule"], dict(findings=0, closings=0, entities=set(), places={}, first=None, moment=None, timetable=None))
            entity = (tree["feed"], tree["id"], tree["occurrence"]) if "id" in tree else (tree["feed"],)
            rule["closings" if kind == "closed" else "findings"] += 1
            if kind != "closed":
                if rule["first"] is None:
                    rule["first"], rule["moment"], rule["timetable"] = tree, moment, timetable
                if "id" in tree:
                    rule["entities"].add(entity)
            if kind != "finding":
                rule["places"][entity + (tree["path"],)] = kind == "opened"
    sums["rules"] = {
        name: (rule["findings"], rule["closings"], len(rule["entities"]), len(rule["places"]), sum(rule["places"].values()), rule["first"], rule["moment"], rule["timetable"])
        for name, rule in rules.items()
    }
    return sums


def run(words, report):
    done = subprocess.run([SUMMARY, *words], input=report, stdout=subprocess.PIPE, stderr=subprocess.PIPE)
    return done.returncode, done.stdout


def said(report, ignored):
    words = ["--json"] + (["--ignore", ",".join(ignored)] if ignored else [])
    status, text = run(words, report)
    tree = json.loads(text)
    sums = {key: tree[key] for key in ("accepted", "refused", "trials", "foreign", "ignored", "lines", "foreign_lines")}
    sums["refusals"] = [(it["row"], it["at"], it["reason"]) for it in tree["refusals"]]
    # Where there are no timetables the line says nothing of them.
    sums.update({key: tree.get(key, 0) for key in ("exchanged", "refused_timetables")})
    sums["timetable_refusals"] = [(it["row"], it["text"]) for it in tree.get("timetable_refusals", [])]
    said_of_timetables = {"exchanged", "refused_timetables", "timetable_refusals"} & set(tree)
    assert len(said_of_timetables) == (3 if sums["exchanged"] + sums["refused_timetables"] else 0), said_of_timetables
    sums["rules"] = {it["rule"]: (it["findings"], it["closings"], it["entities"], it["places"], it["standing"], it["first"], it["moment"], it.get("timetable")) for it in tree["rules"]}
    order = [(it["level"] == "W", -it["findings"], it["rule"]) for it in tree["rules"]]
    return status, sums, order == sorted(order)


def wanted_status(sums, level):
    if level == "never":
        return 0
    broken = sums["lines"] == 0 or sums["refused"] or sums["refused_timetables"] or sums["foreign"]
    found = any(it[0] and (level == "warning" or name[0] != "W") for name, it in sums["rules"].items())
    return 1 if broken or found else 0


def width(line):
    return sum(2 if unicodedata.east_asian_width(c) in "WF" else 1 for c in line)


def reports():
    """Reports of the examples, by name."""
    def program(*words):
        return subprocess.run([PROGRAM, *words], stdout=subprocess.PIPE, cwd=TOP).stdout

    table = ["--timetable", "examples/timetable", "--now", "1700034600"]
    yield "one", program("check", *table, "examples/late_city.pb")
    yield "several", program("check", *table, "examples/city.pb", "examples/late_city.pb", "examples/cut_off.pb", "examples/no_timestamp.pb")
    yield "follow", program("follow", "--timetable", "examples/timetable", "--list", "examples/evening.csv")
    yield "follow without a timetable", program("follow", "--list", "examples/evening.csv")
    yield "follow with timetables", program("follow", "--timetable", "examples/timetable", "--list", "examples/publication.csv")
    yield "timetables, made up", "".join(line + "\n" for line in exchanged()).encode()
    many = [json.dumps({"line": "refused_timetable", "row": row, "text": "gtfs/" + "\u202e" * row + "a" * 20 * row + "/stops.txt: row 7: not text"}) for row in range(12)]
    yield "timetables refused", "".join(line + "\n" for line in many).encode()
    yield "trial", program("trial", "7")
    yield "refused", program("check", "examples/cut_off.pb")
    yield "empty", b""


def spoilt(report, draw):
    """The report with some lines changed."""
    lines = report.split(b"\n")[:-1]
    kept = []
    for line in lines:
        what = draw.randrange(12)
        if what == 0:
            kept += [line, line]
        elif what == 1:
            kept.append(line[: draw.randrange(len(line) + 1)])
        elif what == 2:
            kept.append(json.dumps(json.loads(line), sort_keys=draw.random() < 0.5).encode())
        elif what == 3:
            kept.append(draw.choice([b"", b"{}", b"[]", b"null", b'"line"', b'{"line":"verify"}', b"\xff\xfe", b"Traceback", b'{"line":"finding","rule":"E999"}', b"x" * (LIMIT + 1)]))
        elif what != 4:
            kept.append(line)
    text = b"\n".join(kept)
    return text if draw.random() < 0.5 or not kept else text + b"\n"


def main():
    draw = random.Random(7)
    tried = wrong = 0
    cases = list(reports())
    for name, report in list(cases):
        cases += [(name + ", spoilt", spoilt(report, draw)) for _ in range(12)]
    for name, report in cases:
        names = sorted(set(counted(report, [])["rules"]))
        for ignored in [[], draw.sample(names, len(names) // 2)]:
            want = counted(report, ignored)
            # Entities of `check` are counted by stretches: lines of one that stand apart count again.
            status, got, in_order = said(report, ignored)
            shown = {**want, **{key: want[key][:10] for key in ("refusals", "timetable_refusals", "foreign_lines")}}
            right = got == shown and in_order and status == wanted_status(want, "error")
            for level in ("error", "warning", "never"):
                words = ["--fail-on", level] + (["--ignore", ",".join(ignored)] if ignored else [])
                status, screen = run(words, report)
                right = right and status == wanted_status(want, level) and all(width(line) <= 80 for line in screen.decode().split("\n"))
            tried += 1
            if not right:
                wrong += 1
                print(f"{name}, without {ignored}: wanted {shown}, said {got}"[:2000])
    print(f"{tried} reports, {wrong} wrong")
    return 1 if wrong or not tried else 0


sys.exit(main())
