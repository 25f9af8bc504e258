#!/usr/bin/env python3
"""Broken inputs against the program: fuzz.py [PROGRAM [SECONDS [SEED]]].

It makes a small corpus of each kind of input (snapshots, their JSON, lists, timetables, zones, reports and words), changes what it takes from it,
and runs the commands that read it. A case is made of the seed and its number alone, so a later run comes upon it again. What counts as wrong:

- a run that ends by a signal, takes more than 20 seconds, or ends with another status than its command may: outputs can be written and 4 GiB of
  addresses are there, so write faults and want of memory are wrong too, and so is a read fault of a file that Python reads;
- lines that aren't JSON in the one form that they have, rows that aren't CSV, or a text on standard error that isn't the status's;
- a status that isn't that of the lines: 1 exactly where a line is `refused`, `refused_timetable` or a finding of an error;
- alerts that change before the moment that is told for it, or files that `alerts` takes otherwise than `check`;
- a snapshot that `show`, which reads it whole, refuses otherwise than `check`, which reads it in pieces; one that is accepted, and whose JSON is
  encoded to bytes that are refused or shown otherwise; a union without all entities of its feeds;
- a finding of `check` that `verify` doesn't confirm, and a list of the same snapshot that `follow` judges otherwise;
- a timetable that a list brings and that is refused otherwise than `--timetable` refuses it, one that concerns no entity and changes something, and findings that stand
  at the end of a list otherwise than where its last accepted timetable was in force from the start.

The program is crates/rt_command/out/rt_command by default, for 60 seconds, with the seed 1. What was wrong is printed with its case, whose files are
kept, and the status is then 1. The last line counts runs; SIGTERM ends it early.
"""
import csv, io, json, os, random, resource, shutil, signal, subprocess, sys, tempfile, time

HERE = os.path.dirname(os.path.abspath(__file__))
sys.path.insert(0, os.path.join(HERE, "../bench"))
from snapshot import number, payload, varint

EXAMPLES = os.path.join(HERE, "../examples")
PROGRAM = os.path.abspath(sys.argv[1] if len(sys.argv) > 1 else os.path.join(HERE, "../crates/rt_command/out/rt_command"))
LIMIT = 4 << 30
PATIENCE = 20
NOW = "1700034600"
NUMBERS = [0, 1, 2, 3, 5, 127, 128, 255, 2**14, 2**21 - 1, 2**28, 2**31 - 1, 2**31, 2**32 - 1, 2**32, 2**35, 2**53, 2**63 - 1, 2**63, 2**64 - 60, 2**64 - 1]
PIECES = [b"\x80" * 9, b"\xff" * 10, b"\x7b", b"\x7c", b"\x0b", b"\x0c", b"\x00", b"\x16", b"\x0f", b"\x12\x00", b"\x0a\x00", b"\x1a\x00", b"\xff\xfe", b"\xed\xa0\x80"]
WORDS = ["-1", "0", "1", "16", "00", "4294967296", "18446744073709551615", "18446744073709551616", "25:00:00", "8:61:00", "20231114", "20231131", "99991231",
         "", ",", '"', '""', "\n", "\r\n", "\ufeff", "\u2028", "é", "日本", "T1", "S1", "null", "true", "1e400", "1.0", "-0", "[" * 130, "{}", "[]", "{", "}", ":",
         "\\u0000", "\\ud800", "unknown", "header", "entity", "id", "trip_update", "refused", "finding", "facts", "E001", "X002"]


# What inputs are made of.

def everything():
    """A snapshot with every kind of message, with groups and with unknown fields."""
    trip = payload(1, payload(1, b"T1") + payload(2, b"08:00:00") + payload(3, b"20231114") + number(4, 0) + payload(5, b"R1") + number(6, 1))
    update = payload(2, number(1, 1) + payload(2, number(1, 60) + number(2, 1700000000) + number(3, 5)) + payload(3, number(1, 2**64 - 60))
                     + payload(4, b"S1") + number(5, 0) + payload(6, payload(1, b"S2"))) + payload(2, number(1, 2) + number(5, 2)) + payload(2, payload(4, b"S3") + number(5, 1))
    vehicle = payload(1, b"v1") + payload(2, b"bus") + payload(3, b"ABC")
    place = payload(2, b"\x0d\0\0\x48\x42\x15\0\0\x50\x41\x1d\0\0\xb4\x42\x21\0\0\0\0\0\0\xf0\x3f\x2d\0\0\x20\x41")
    texts = payload(1, payload(1, b"text") + payload(2, b"en")) + payload(1, payload(1, "テキスト".encode()))
    entities = [
        payload(1, b"a") + payload(3, trip + payload(3, vehicle) + update + number(4, 1700000000) + number(5, 30)
                               + payload(6, payload(1, b"T9") + payload(2, b"20231114") + payload(3, b"08:10:00"))),
        payload(1, b"b") + payload(4, payload(8, vehicle) + trip + place + number(3, 2) + number(4, 1) + number(5, 1700000000) + number(6, 1) + payload(7, b"S2") + number(9, 4)),
        payload(1, b"c") + payload(5, payload(1, number(1, 1700000000) + number(2, 1800000000)) + payload(5, payload(1, b"A1") + payload(2, b"R1") + number(3, 3) + payload(5, b"S1"))
                                   + number(6, 2) + number(7, 3) + payload(8, texts) + payload(10, texts) + payload(11, texts)),
        payload(1, b"d") + number(2, 1) + number(1000, 7) + varint(1000 * 8 + 3) + number(1, 1) + varint(1000 * 8 + 4),
    ]
    return payload(1, payload(1, b"2.0") + number(2, 0) + number(3, 1700000000) + payload(4, b"v7") + payload(15, b"x")) + b"".join(payload(2, it) for it in entities)


def nested():
    return payload(1, payload(1, b"2.0")) + b"\x7b" * 100 + b"\x7c" * 100


def longer_than_a_piece():
    """A snapshot of some 70,000 bytes, which the program reads in two pieces: groups in groups, a text, and an entity behind them."""
    group = b"\x7b" + number(1, 300) + payload(3, b"abc") + b"\x7b\x7c" + b"\x7c"
    return payload(1, payload(1, b"2.0") + number(3, 1700000000)) + group * 5000 + payload(20, b"x" * 500) + payload(2, payload(1, "ä".encode() * 400))


def zone():
    """A compiled zone without transitions, of version 2, with a rule."""
    block = b"TZif2" + b"\0" * 15 + b"".join(n.to_bytes(4, "big") for n in (0, 0, 0, 0, 1, 4)) + b"\0\0\0\0\0\0UTC\0"
    return block + block + b"\nEST5EDT,M3.2.0,M11.1.0\n"


def read(name):
    with open(os.path.join(EXAMPLES, name), "rb") as file:
        return file.read()


def corpus():
    names = os.listdir(EXAMPLES)
    snapshots = [read(name) for name in sorted(names) if name.endswith(".pb")] + [everything(), nested(), longer_than_a_piece()]
    forms = [read(name) for name in sorted(names) if name.endswith(".json")] + [b'{"header":{"gtfs_realtime_version":"2.0"},"entity":[]}']
    reports = [run(["check", "--now", NOW, put(f"seed{i}", data)]).out for i, data in enumerate(snapshots)]
    forms += [run(["show", put(f"seed{i}", data)]).out for i, data in enumerate(snapshots)]
    return {
        "snapshot": snapshots,
        "form": forms,
        "report": [b"".join(reports), *reports],
        "list": [b"0,1700000000,a\n1,1700000030,b\n0,1700000060,a\n", b'15,0,"a"\r\n15,18446744073709551615,b\r\n',
                 b"0,1700000000,a\ntimetable,,published\n1,1700000030,b\ntimetable,,none\n"],
        "zone": [zone(), b"EST5EDT,M3.2.0,M11.1.0"],
        "table": [read("timetable/" + name) for name in TABLES],
    }


TABLES = sorted(os.listdir(os.path.join(EXAMPLES, "timetable")))


# How they are changed.

def cut(chance, data, longest=64):
    at = chance.randrange(len(data) + 1)
    return at, min(len(data), at + chance.randrange(1, longest))


def change_bytes(chance, data, others):
    """One change that knows nothing of what the bytes are."""
    at, end = cut(chance, data)
    kind = chance.randrange(7)
    if kind == 0 and data:
        at = chance.randrange(len(data))
        return data[:at] + bytes([data[at] ^ 1 << chance.randrange(8)]) + data[at + 1 :]
    if kind == 1:
        return data[:at] + data[end:]
    if kind == 2:
        return data[:end] + data[at:end] * chance.choice([1, 1, 2, 50]) + data[end:]
    if kind == 3:
        return data[:at] + chance.choice(PIECES) + data[at:]
    if kind == 4:
        return data[:at] + varint(chance.choice(NUMBERS)) + data[end:]
    if kind == 5:
        return data[: chance.randrange(len(data) + 1)]
    other = chance.choice(others)
    first, last = cut(chance, other, 200)
    return data[:at] + other[first:last] + data[end:]


def fields(data):
    """The fields of a message, as number, wire type and value; None where it is none."""
    found, at = [], 0
    try:
        while at < len(data):
            tag, at = one_varint(data, at)
            if tag & 7 == 0:
                value, at = one_varint(data, at)
            elif tag & 7 in (1, 5):
                width = 8 if tag & 7 == 1 else 4
                value, at = data[at : at + width], at + width
            elif tag & 7 == 2:
                size, at = one_varint(data, at)
                value, at = data[at : at + size], at + size
            else:
                value = b""
            if at > len(data):
                return None
            found.append((tag >> 3, tag & 7, value))
    except IndexError:
        return None
    return found


def one_varint(data, at):
    value = shift = 0
    while True:
        byte, at = data[at], at + 1
        value, shift = value | (byte & 127) << shift, shift + 7
        if byte < 128 or shift >= 70:
            return value, at


def written(field):
    key, kind, value = field
    tag = varint(key << 3 | kind)
    if kind == 0:
        return tag + varint(value)
    return tag + (varint(len(value)) if kind == 2 else b"") + value


def change_message(chance, data, others, depth=0):
    """One change that leaves a message a message: of a field, or inside one."""
    found = fields(data)
    if not found:
        return change_bytes(chance, data, others)
    i = chance.randrange(len(found))
    key, kind, value = found[i]
    if kind == 2 and value and depth < 5 and chance.random() < 0.6:
        found[i] = key, kind, change_message(chance, value, others, depth + 1)
        return b"".join(map(written, found))
    what = chance.randrange(8)
    if what == 0:
        del found[i]
    elif what == 1:
        found[i:i] = [found[i]] * chance.choice([1, 1, 3, 40])
    elif what == 2:
        found[i] = chance.choice([1, 2, 3, 4, 5, 6, 8, 15, 1000, 2**29 - 1]), kind, value
    elif what == 3:
        found[i] = key, 0, chance.choice(NUMBERS)
    elif what == 4:
        found[i] = key, 2, chance.choice([b"", b"T1", b"S1", "é".encode(), b"\xff", b"x" * 300, varint(chance.choice(NUMBERS))])
    elif what == 5:
        chance.shuffle(found)
    elif what == 6:
        other = fields(chance.choice(others)) or found
        found.insert(i, chance.choice(other))
    else:
        found[i] = key, chance.choice([0, 1, 2, 5]), chance.choice(NUMBERS)
        key, kind, value = found[i]
        if kind:
            found[i] = key, kind, value.to_bytes(8, "little")[: 4 if kind == 5 else 8]
    return b"".join(map(written, found))


def change_text(chance, data, others):
    """One change of a text: of a word, a cell or a line."""
    what = chance.randrange(6)
    if what == 0:
        return change_bytes(chance, data, others)
    lines = data.split(b"\n")
    i = chance.randrange(len(lines))
    if what == 1:
        lines[i:i] = [chance.choice(lines)] * chance.choice([1, 1, 30])
    elif what == 2:
        del lines[i]
    else:
        mark = chance.choice([b",", b",", b'"', b":", b" "])
        cells = lines[i].split(mark)
        k = chance.randrange(len(cells))
        if what == 3:
            cells[k] = chance.choice(WORDS).encode()
        elif what == 4:
            cells[k] += chance.choice(WORDS).encode()
        else:
            cells[k], cells[-1] = cells[-1], cells[k]
        lines[i] = mark.join(cells)
    return b"\n".join(lines)


def changed(chance, held, kind, times=(0, 1, 1, 1, 2, 3, 8)):
    data = chance.choice(held[kind])
    change = {"snapshot": chance.choice([change_message, change_message, change_bytes]), "zone": change_bytes}.get(kind, change_text)
    for _ in range(chance.choice(times)):
        data = change(chance, data, held[kind])[:150_000]
    return data


# How a run is judged.

class Wrong(Exception):
    pass


class Run:
    def __init__(self, words, status, out, err):
        self.words, self.status, self.out, self.err = words, status, out, err


FOLDER = tempfile.mkdtemp()
RUNS = {}


def put(name, data):
    path = os.path.join(FOLDER, name)
    os.makedirs(os.path.dirname(path), exist_ok=True)
    with open(path, "wb") as file:
        file.write(data)
    return path


def limited():
    resource.setrlimit(resource.RLIMIT_AS, (LIMIT, LIMIT))


def is_unreadable(err):
    """Whether a read fault names what Python can't read either: a name with a zero byte, one that is too long, a folder."""
    name = err.removeprefix(b"read fault: ").removesuffix(b"\n")
    try:
        with open(os.path.join(os.fsencode(FOLDER), name), "rb") as file:
            file.read(1)
    except FileNotFoundError:
        return False
    except (OSError, ValueError):
        return True
    return False


def run(words):
    try:
        said = subprocess.run([PROGRAM, *words], capture_output=True, timeout=PATIENCE, preexec_fn=limited, cwd=FOLDER)
    except subprocess.TimeoutExpired:
        raise Wrong(f"{words} took more than {PATIENCE} s")
    key = (words[0] if words and words[0] in COMMANDS else "words", said.returncode)
    RUNS[key] = RUNS.get(key, 0) + 1
    if said.returncode == 3 and is_unreadable(said.stderr):
        return Run(words, 3, said.stdout, said.stderr)
    beginning = {0: b"", 1: b"", 2: b"usage: rt_command check", 6: b"refused: "}.get(said.returncode)
    if beginning is None:
        raise Wrong(f"{words} ended with {said.returncode}: {said.stderr[:200]}")
    if said.stderr != beginning if beginning == b"" else not (said.stderr.startswith(beginning) and said.stderr.endswith(b"\n")):
        raise Wrong(f"{words} ended with {said.returncode} and says {said.stderr[:200]}")
    return Run(words, said.returncode, said.stdout, said.stderr)


def lines_of(ran):
    """The lines of a report, each of which has to be JSON in the one form."""
    if ran.out and not ran.out.endswith(b"\n"):
        raise Wrong(f"{ran.words}: the last line has no end")
    found = []
    for line in ran.out.split(b"\n")[:-1]:
        try:
            tree = json.loads(line)
        except ValueError:
            raise Wrong(f"{ran.words}: this is no JSON: {line[:200]}")
        if json.dumps(tree, sort_keys=True, separators=(",", ":"), ensure_ascii=False).encode() != line:
            raise Wrong(f"{ran.words}: this isn't in the one form: {line[:200]}")
        found.append(tree)
    return found


def reported(words):
    """The lines of a run whose status has to be theirs."""
    ran = run(words)
    lines = lines_of(ran)
    is_error = any(line["line"] in ("refused", "refused_timetable") or line["line"] in ("finding", "opened") and line["level"] in "EX" for line in lines)
    if ran.status in (0, 1) and ran.status != is_error:
        raise Wrong(f"{words} ended with {ran.status}")
    return ran, lines


def check_snapshot(chance, held):
    path = put("a", changed(chance, held, "snapshot"))
    ran, lines = reported(["check", "--now", NOW, path])
    findings = [line for line in lines if line["line"] == "finding"]
    verdicts = lines_of(run(["verify", put("report", ran.out)]))[:-1]
    if [it["verdict"] for it in verdicts].count("confirmed") != len(findings):
        raise Wrong(f"not every finding of {path} is confirmed")
    if path.isascii() and len(lines) > 0:
        _, followed = reported(["follow", "--list", put("list", b"0,%s,%s\n" % (NOW.encode(), path.encode()))])
        opened = [dict(line, line="finding") if line["line"] == "opened" else line for line in followed]
        if opened != lines:
            raise Wrong(f"follow judges {path} otherwise")
    reported(["check", "--timetable", os.path.join(EXAMPLES, "timetable"), "--now", NOW, path])


def show_snapshot(chance, held):
    path = put("a", changed(chance, held, "snapshot"))
    shown = run(["show", path])
    lines = lines_of(shown)
    if shown.status == 1:
        if lines != reported(["check", "--now", NOW, path])[1]:
            raise Wrong(f"show of {path} isn't refused as check is")
        return
    encoded = run(["encode", put("form", shown.out)])
    if encoded.status != 0 or run(["show", put("b", encoded.out)]).out != shown.out:
        raise Wrong(f"what show of {path} writes isn't encoded to the same")


def encode_form(chance, held):
    encoded = run(["encode", put("form", changed(chance, held, "form"))])
    if encoded.status == 0:
        shown = run(["show", put("a", encoded.out)])
        if shown.status != 0 or run(["encode", put("form2", shown.out)]).out != encoded.out:
            raise Wrong("what encode writes isn't shown and encoded to the same")
    elif encoded.out:
        raise Wrong("a form that is refused leaves bytes")


def check_several(chance, held):
    paths = [put(f"f{i}", changed(chance, held, "snapshot", (0, 0, 0, 1))) for i in range(chance.randint(2, 4))]
    merged = run(["merge", *paths])
    counts = [line for line in reported(["check", "--now", NOW, *paths])[1] if line["line"] == "accepted"]
    if merged.status == 1:
        if len(counts) == len(paths) or not lines_of(merged):
            raise Wrong("a union of accepted snapshots is refused")
        return
    told = reported(["check", "--now", NOW, put("union", merged.out)])[1]
    if told[0]["line"] != "accepted" or told[0]["entities"] != sum(line["entities"] for line in counts):
        raise Wrong("a union hasn't all entities")


def ask_alerts(chance, held):
    paths = [put(f"f{i}", changed(chance, held, "snapshot", (0, 0, 1, 3))) for i in range(chance.randint(1, 3))]
    moment = chance.choice([int(NOW), 1700000000, 1750000000, *NUMBERS])
    query = [chance.choice(["--agency", "--route", "--trip", "--stop"]), chance.choice(["A1", "R1", "T1", "S1", "1042", "é"]), *paths]

    def asked(at):
        lines = reported(["alerts", "--now", str(at), *query])[1]
        taken = [line for line in lines if line["line"] in ("accepted", "refused")]
        alerts, last = lines[len(taken) : -1], lines[-1]
        if len(taken) != len(paths) or any(line["line"] != "alert" for line in alerts) or last["line"] != "alerts" or last["alerts"] != len(alerts):
            raise Wrong(f"alerts of {query} doesn't tell the files, the alerts and their number")
        return taken, alerts, last["next"]

    taken, alerts, next = asked(moment)
    checked = reported(["check", "--now", str(moment), *paths])[1]
    if taken != [line for line in checked if line["line"] in ("accepted", "refused")]:
        raise Wrong(f"alerts of {query} doesn't take the files as check does")
    if next is not None and (next <= moment or asked(next - 1)[1:] != (alerts, next)):
        raise Wrong(f"alerts of {query} change before {next}")


def follow_list(chance, held):
    put("a", changed(chance, held, "snapshot"))
    put("b", changed(chance, held, "snapshot"))
    folder = put_timetable(chance, held, "published")
    reported(["follow", "--timetable", os.path.join(EXAMPLES, "timetable"), "--list", put("list", changed(chance, held, "list"))])
    shutil.rmtree(os.path.join(FOLDER, folder))


def put_timetable(chance, held, folder):
    """A timetable of which one file is changed."""
    for name, data in zip(TABLES, held["table"]):
        put(f"{folder}/{name}", data)
    place = chance.randrange(len(TABLES))
    data = held["table"][place]
    for _ in range(chance.choice([1, 1, 2, 4])):
        data = change_text(chance, data, held["table"])
    put(f"{folder}/{TABLES[place]}", data)
    return folder


def standing(lines):
    """What stands at the end, by place."""
    found = {}
    for line in lines:
        place = tuple(line.get(key) for key in ("feed", "id", "occurrence", "rule", "path"))
        if line["line"] == "opened":
            found[place] = line["facts"]
        elif line["line"] == "closed":
            del found[place]
    return found


def follow_published(chance, held):
    """Timetables that come between snapshots, against the same timetables by themselves."""
    first, rows, folders = os.path.join(EXAMPLES, "timetable"), [], {}
    for row in range(chance.randrange(2, 7)):
        if chance.random() < 0.5:
            folders[row] = put_timetable(chance, held, f"t{chance.randrange(1 << 30)}")
            rows.append(f"timetable,,{folders[row]}")
        else:
            put(f"s{row}", changed(chance, held, "snapshot"))
            rows.append(f"{chance.randrange(2)},{1700000000 + 30 * row},s{row}")
    try:
        _, lines = reported(["follow", "--timetable", first, "--list", put("list", "\n".join(rows).encode())])
        told = {line["row"]: line for line in lines if line["line"] in ("timetable", "refused_timetable")}
        if sorted(told) != sorted(folders):
            raise Wrong(f"{sorted(folders)} aren't the rows of timetables")
        for row, folder in folders.items():
            alone = run(["check", "--timetable", folder, "--now", NOW, os.path.join(EXAMPLES, "header.pb")])
            text = told[row].get("text")
            if alone.err != (b"" if text is None else f"refused: {text}\n".encode()):
                raise Wrong(f"{folder} is told as {told[row]}, and by itself as {alone.err}")
            first = folder if text is None else first
        for before, line in zip(lines, lines[1:]):
            if before["line"] == "timetable" and before["retested"] == 0 and line["line"] in ("opened", "closed"):
                raise Wrong("a timetable concerns no entity and changes something")
        snapshots = [row for row in rows if not row.startswith("timetable")]
        _, again = reported(["follow", "--timetable", first, "--list", put("list", "\n".join(snapshots).encode())])
        if standing(again) != standing(lines):
            raise Wrong(f"what stands at the end of {rows} isn't what stands by {first}")
    finally:
        for folder in folders.values():
            shutil.rmtree(os.path.join(FOLDER, folder))


def read_timetable(chance, held):
    folder = put_timetable(chance, held, f"t{chance.randrange(1 << 30)}")
    path = put("a", changed(chance, held, "snapshot"))
    try:
        reported(["check", "--timetable", folder, "--now", NOW, path])
        predicted(["predict", "--timetable", folder, "--zone-rule", "EST5EDT,M3.2.0,M11.1.0", "--now", NOW, path])
    finally:
        shutil.rmtree(os.path.join(FOLDER, folder))


def predicted(words):
    ran = run(words)
    if ran.status == 1:
        if [line["line"] for line in lines_of(ran)] != ["refused"]:
            raise Wrong(f"{words} ended with 1")
        return
    rows = list(csv.reader(io.StringIO(ran.out.decode(), newline="")))
    if ran.status == 0 and (not rows or any(len(row) != 12 for row in rows)):
        raise Wrong(f"{words}: these aren't rows of twelve")


def predict_zone(chance, held):
    path = put("a", changed(chance, held, "snapshot"))
    words = ["predict", "--timetable", os.path.join(EXAMPLES, "timetable"), "--now", str(chance.choice(NUMBERS))]
    if chance.random() < 0.5:
        predicted([*words, "--zone-file", put("zone", changed(chance, held, "zone")), path])
    else:
        rule = change_text(chance, chance.choice([b"EST5EDT,M3.2.0,M11.1.0", b"<+0330>-3:30", b"UTC0", b"A25:59:59B,0/167,J365/-167"]), held["zone"])
        rule = rule.replace(b"\0", b"").decode(errors="replace")
        predicted([*words, "--zone-rule", rule, path])


def verify_report(chance, held):
    lines_of(run(["verify", put("report", changed(chance, held, "report"))]))


def random_words(chance, held):
    known = [*COMMANDS, "--timetable", "--now", "--list", "--zone-rule", "--zone-file", "--route", "--stop", "a", "none", "-", "--", "-x", "7", *WORDS]
    words = [chance.choice(known) for _ in range(chance.randrange(8))]
    run([word for word in words if "\0" not in word])


COMMANDS = ["check", "follow", "show", "encode", "predict", "merge", "verify", "alerts", "trial"]
KINDS = [check_snapshot] * 4 + [show_snapshot] * 3 + [encode_form, encode_form, check_several, follow_list, follow_list, follow_published, read_timetable, read_timetable, predict_zone, verify_report, ask_alerts, ask_alerts, random_words]


def main():
    seconds = float(sys.argv[2]) if len(sys.argv) > 2 else 60
    seed = sys.argv[3] if len(sys.argv) > 3 else "1"
    held = corpus()
    end, case, wrong, stopped = time.monotonic() + seconds, 0, 0, []
    signal.signal(signal.SIGTERM, lambda *_: stopped.append(True))
    while time.monotonic() < end and not stopped:
        chance = random.Random(f"{seed}/{case}")
        kind = chance.choice(KINDS)
        try:
            kind(chance, held)
        except Wrong as why:
            wrong += 1
            kept = tempfile.mkdtemp(prefix=f"fuzz-{seed}-{case}-")
            shutil.copytree(FOLDER, kept, dirs_exist_ok=True)
            print(f"case {seed}/{case}, {kind.__name__}, files in {kept}: {why}", flush=True)
        case += 1
    shutil.rmtree(FOLDER)
    for command in [*COMMANDS, "words"]:
        told = ", ".join(f"{count} with {status}" for (name, status), count in sorted(RUNS.items()) if name == command)
        print(f"{command}: {told or 'none'}")
    print(f"{case} cases, {sum(RUNS.values())} runs, {wrong} wrong")
    return 1 if wrong else 0


if __name__ == "__main__":
    sys.exit(main())
