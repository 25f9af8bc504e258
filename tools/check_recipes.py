#!/usr/bin/env python3
"""Runs the commands of docs/recipes.md on two agencies with two feeds each over ten moments: check_recipes.py [PROGRAM [SUMMARY]] [-v].

A block of the page that begins with `#!` or names itself a file is written as that file; any other is run by bash in one folder, in the order of the
page, with the programs on the PATH and a server on port 8000. Its status has to be 0, or 1 or 123 where something was found, and standard error empty. Beside
that, what the scripts of tools/ write is compared with what is counted here a second time. A block is left out, and said to be, where a
tool is missing that it needs; blocks in UNTRIED are left out always, and the text before them has to say `untried`.
"""
import collections
import functools
import gzip
import http.server
import json
import os
import pathlib
import re
import shutil
import subprocess
import sys
import tempfile
import threading
import time
import urllib.parse
import urllib.request
import zipfile

TOP = pathlib.Path(__file__).resolve().parent.parent
START = 1700006250  # the sixth moment is midnight in UTC
MOMENTS = [START + 30 * n for n in range(10)]
UNTRIED = ("PATH=/usr/local/bin", "0 6 * * *", "printf '%s\\n' city coast | parallel --sshloginfile", "CREATE VIEW finding AS")
SHOWN = ("archive/city/trips/",)  # blocks that are no commands
NEEDS = {"rt_summary": "rt_summary", "prometheus-node-exporter": "prometheus-node-exporter", "promtool": "promtool", "parallel": "parallel", "pv": "pv", "sqlite3": "sqlite3", "python3 year.py": "aws moto_server dask-scheduler",
         "aws ": "aws moto_server", "unzip ": "unzip"}
faults = []


def expect(name, got, wanted):
    if got != wanted:
        faults.append(name)
        print(f"  {name}: {str(got)[:600]}, where {str(wanted)[:600]} was to be")


# ---- feeds, by the encoding guide
def varint(n):
    out = bytearray()
    while n > 127:
        out.append(n & 127 | 128)
        n >>= 7
    return bytes(out + bytes([n]))


def number(field, n):
    return varint(field << 3) + varint(n)


def part(field, data):
    data = data.encode() if isinstance(data, str) else data
    return varint(field << 3 | 2) + varint(len(data)) + data


def header(moment):
    return part(1, part(1, "2.0") + number(2, 0) + number(3, moment))


def trips(moment, step, count=20):
    """Updates of trips: in some moments one is newer than its header, in others one has no vehicle."""
    entities = b""
    for n in range(count):
        trip = part(1, f"T{n}") + (number(4, 0) if n % 5 else b"") + part(5, f"R{n % 3 if n != 4 or step % 2 else 9}")
        stamp = moment + (5 if n == 2 and step in (1, 2, 6) else -5)
        stop = number(1, 1) + part(2, number(1, 30 * step)) + part(4, "S0") + number(5, 0)
        entities += part(2, part(1, f"trip-{n}") + part(3, part(1, trip) + part(3, part(1, f"bus-{n}")) + part(2, stop) + number(4, stamp)))
    return header(moment) + entities


def vehicles(moment, step, count=20):
    """Positions: one vehicle changes its trip now and then, so that two feeds disagree, and another one's time goes back."""
    entities = b""
    for n in range(count):
        trip = part(1, f"T{n}") + number(4, 0)
        vehicle = f"bus-{n}" if n != 7 or step % 3 else "bus-70"
        place = b"\x0d\x00\x00\x42\x42\x15\x00\x00\x57\x41"  # 48.5, 13.4375
        entities += part(2, part(1, f"bus-{n}") + part(4, part(1, trip) + part(2, place) + number(4, 2) + number(5, moment - (65 if n == 3 and step in (4, 8) else 5)) + part(8, part(1, vehicle))))
    return header(moment) + entities


def alerts(moment):
    """Alerts for a stop, one with two headlines and one that comes twice under one id; for its station, a trip, an agency and all buses."""
    def texts(field, **said):
        return part(field, b"".join(part(1, part(1, text) + part(2, language)) for language, text in said.items()))
    stop, headline = part(5, part(5, "S1")), texts(10, en="Works <at> S1", de="Bauarbeiten")
    bodies = [("works", part(1, number(1, moment) + number(2, moment + 2**33)) + stop + headline + texts(11, en="No buses & no trams")), ("works", stop),
              ("over", part(1, number(2, moment)) + stop), ("station", part(5, part(5, "station"))), ("trip", part(5, part(4, part(1, "T1")))),
              ("agency", part(5, part(1, "A"))), ("buses", part(5, number(3, 3)))]
    return header(moment) + b"".join(part(2, part(1, id) + part(5, body)) for id, body in bodies)


def timetable(folder, count=20):
    folder.mkdir(parents=True)
    lines = {
        "agency.txt": ["agency_id,agency_name,agency_url,agency_timezone", "A,City,http://localhost,Etc/UTC"],
        "routes.txt": ["route_id,route_type", *(f"R{n},3" for n in range(3))],
        "stops.txt": ["stop_id,stop_name,parent_station", *(f"S{n},Stop {n},{'station' if n == 1 else ''}" for n in range(3)), "station,Station,"],
        "calendar.txt": ["service_id,monday,tuesday,wednesday,thursday,friday,saturday,sunday,start_date,end_date", "daily,1,1,1,1,1,1,1,20230101,20301231"],
        "trips.txt": ["route_id,service_id,trip_id", *(f"R{n % 3},daily,T{n}" for n in range(count))],
        "stop_times.txt": ["trip_id,arrival_time,departure_time,stop_id,stop_sequence",
                           *(f"T{n},{8 + s:02}:00:00,{8 + s:02}:00:30,S{s},{s + 1}" for n in range(count) for s in range(3))],
    }
    for name, rows in lines.items():
        (folder / name).write_text("\n".join(rows) + "\n")


def publish(work):
    """A publication that lacks the trip T4, has T5 on the route of T6, and is else what gtfs/city is."""
    with zipfile.ZipFile(work / "gtfs.zip", "w") as packed:
        for file in sorted((work / "gtfs/city").iterdir()):
            lines = [line for line in file.read_text().splitlines() if "T4" not in line.replace(",", " ").split()]
            packed.writestr(file.name, "".join(line + "\n" for line in lines).replace("R2,daily,T5\n", "R0,daily,T5\n"))


# ---- what the scripts write, counted a second time
def lines_of(path):
    data = gzip.open(path).read() if path.suffix == ".gz" else path.read_bytes()
    return [json.loads(line) for line in data.decode().splitlines()]


def fetch_all(work, run):
    """Ten runs of tools/fetch: one feed is a web page once, isn't there once, and is cut off once. After some of them tools/tell."""
    said = []
    for step, moment in enumerate(MOMENTS):
        for name, make in (("trips", trips), ("vehicles", vehicles)):
            data = make(moment, step)
            file = work / "www/city" / f"{name}.pb"
            file.write_bytes(b"<!DOCTYPE html><title>Sign in</title>" if (name, step) == ("vehicles", 3) else data[:200] if (name, step) == ("trips", 7) else data)
            if (name, step) == ("trips", 5):
                file.unlink()
        url = "http://localhost:8000/city"
        ran = run(f"MOMENT={moment} tools/fetch archive/city gtfs/city trips={url}/trips.pb vehicles={url}/vehicles.pb")
        wanted = {3: "vehicles: a web page or XML: archive/city/vehicles/%d.refused\n" % moment, 5: "trips: not fetched\n"}.get(step, "")
        expect(f"fetch {step}", (ran.returncode, re.sub("curl: .*\n", "", ran.stderr), ran.stdout), (1 if wanted else 0, wanted, ""))
        told = run("tools/tell archive/city gtfs/city")
        said.append((moment, told.stdout, told.returncode, told.stderr))
    return said


def check_fetched(work, run, said):
    city = work / "archive/city"
    reports = sorted(city.glob("reports/*.report.gz"))
    expect("reports", [int(it.name.split(".")[0]) for it in reports], MOMENTS)
    all_lines = [lines_of(it) for it in reports]
    expect("feeds are checked together", any(line.get("rule") == "E047" for line in all_lines[0]), True)
    expect("refusals", [(n, line["row"], line["reason"]) for n, lines in enumerate(all_lines) for line in lines if line["line"] == "refused"],
           [(3, 1, "NoFile"), (5, 0, "NoFile"), (7, 0, "Overrun")])
    rows = [row.split(",") for row in (city / "list.csv").read_text().splitlines()]
    expect("rows of the list", len(rows), 18)
    expect("numbers of the feeds", {(row[0], row[2].split("/")[2]) for row in rows}, {("0", "trips"), ("1", "vehicles")})
    last, names = all_lines[-1], ["trips", "vehicles"]
    counts = collections.Counter((names[line["feed"]], line["rule"], line["level"]) for line in last if line["line"] == "finding")
    text = (city / "metrics.prom").read_text()
    shown = {match.group(1, 2, 3): int(match[4]) for match in re.finditer(r'rt_findings\{feed="(\w+)",rule="(\w+)",level="(\w)"\} (\d+)', text)}
    expect("rt_findings", shown, dict(counts))
    expect("rt_entities", re.findall(r'rt_entities\{feed="(\w+)"\} (\d+)', text), [("trips", "20"), ("vehicles", "20")])
    expect("rt_age_seconds", re.findall(r'rt_age_seconds\{feed="(\w+)"\} (\d+)', text), [("trips", "0"), ("vehicles", "0")])
    expect("rt_refused", re.findall(r'rt_refused\{feed="(\w+)"\} (\d+)', text), [("trips", "0"), ("vehicles", "0")])
    kinds = [collections.Counter("errors" if line.get("level") in ("E", "X") else "warnings" if "level" in line else line["line"] for line in lines) for lines in all_lines]
    expect("log", (city / "log").read_text().splitlines(),
           ["\t".join(map(str, [moment, *(kind[it] for it in ("accepted", "refused", "errors", "warnings"))])) for moment, kind in zip(MOMENTS, kinds)])
    check_told(work, run, said)
    ran = run(f"MOMENT={MOMENTS[-1] + 86400 * 7 - 60} SNAPSHOT_DAYS=7 REPORT_DAYS=7 ./rotated")
    expect("rotation", (ran.returncode, sorted({int(it.stem) for it in (work / "copy").glob("*/*.pb")})), (1, MOMENTS[-3:]))


def check_told(work, run, said):
    """tools/tell against one run over the whole list."""
    whole = [json.loads(line) for line in run("rt_command follow --timetable gtfs/city --list archive/city/list.csv").stdout.splitlines()]
    rows = [row.split(",") for row in (work / "archive/city/list.csv").read_text().splitlines()]
    wanted, now = collections.defaultdict(list), None
    for line in whole:
        now = line if line["line"] in ("accepted", "refused") else now
        if line["line"] == "refused":
            wanted[int(rows[line["row"]][1])].append(f'refused: {line["reason"]} at byte {line["at"]} of {",".join(rows[line["row"]])}')
        if line["line"] == "opened" and line["level"] != "W" and line["since"] == now["snapshot"]:
            wanted[int(rows[now["row"]][1])].append(f'{line["rule"]} at {line.get("id", "the header")}, {line["path"]}, feed {line["feed"]}')
    for moment, told, status, error in said[1:]:
        expect(f"told at {moment}", ([json.loads(line)["text"] for line in told.splitlines()], status, error), (wanted[moment], 0, ""))
    expect("something is told", sum(map(len, wanted.values())) > 5, True)


def check_joined(work, run):
    whole = [json.loads(line) for line in run("rt_command follow --timetable gtfs/city --list city.list").stdout.splitlines()]
    joined = lines_of(work / "city.report")
    for line in whole + joined:
        for key in ("tested", "paired", "bounded", "peaked"):
            line.pop(key, None)
    expect("days joined", joined == whole and len(joined) > 50, True)


def check_published(work):
    """The publication stands behind all snapshots. Of 20 trip updates and 20 positions two of each name the trips that it changes. The last update of T4 gives the route R9, and
    that of T5 the one that it had before; positions give no route."""
    lines = lines_of(work / "published.report")
    behind = lines[next(n for n, line in enumerate(lines) if line["line"] == "timetable"):]
    rows = (work / "published.list").read_text().splitlines()
    expect("the timetable's line", behind[0], {"entities": 40, "line": "timetable", "retested": 4, "row": len(rows) - 1})
    expect("its row", rows[-1].startswith("timetable,,published/"), True)
    changed = {kind: [(line["rule"], line["feed"], line["id"]) for line in behind if line["line"] == kind] for kind in ("opened", "closed")}
    expect("what it opens", changed["opened"], [("E003", 0, "trip-4"), ("E035", 0, "trip-5"), ("E003", 1, "bus-4")])
    expect("what it closes", changed["closed"], [("E035", 0, "trip-4")])


def check_counts(work, run):
    lines = [line for line in lines_of(work / "city.report") if line["line"] == "opened"]
    places = {(line["rule"], line["feed"], line.get("id"), line.get("occurrence"), line["path"]) for line in lines}
    wanted = collections.Counter(place[0] for place in places)
    ran = run("sqlite3 findings.db 'SELECT rule, count(*), sum(openings) FROM place GROUP BY rule'")
    got = {row.split("|")[0]: tuple(map(int, row.split("|")[1:])) for row in ran.stdout.split()}
    expect("places by rule", got, {rule: (count, sum(line["rule"] == rule for line in lines)) for rule, count in wanted.items()})


def check_prometheus(work):
    """The textfile collector serves the metrics, the alerts load, and each query of the panel has an answer."""
    if not all(map(shutil.which, ("prometheus", "prometheus-node-exporter"))):
        return print("skipped  Prometheus: it isn't there")
    (work / "prometheus.yml").write_text("global: {scrape_interval: 1s, evaluation_interval: 1s}\nrule_files: [tools/rt_alerts.yml]\n"
                                         "scrape_configs: [{job_name: node, static_configs: [{targets: ['127.0.0.1:19100']}]}]\n")
    quiet = {"stdout": subprocess.DEVNULL, "stderr": subprocess.DEVNULL, "cwd": work}
    served = [subprocess.Popen(["prometheus-node-exporter", "--web.listen-address=127.0.0.1:19100", "--collector.disable-defaults", "--collector.textfile",
                                "--collector.textfile.directory=archive/city"], **quiet),
              subprocess.Popen(["prometheus", "--config.file=prometheus.yml", "--storage.tsdb.path=tsdb", "--web.listen-address=127.0.0.1:19090"], **quiet)]
    try:
        panels = json.loads((TOP / "tools/rt_panel.json").read_text())["panels"]
        for query in [panel["targets"][0]["expr"] for panel in panels] + ["node_textfile_mtime_seconds"]:
            found, until = [], time.time() + 60
            while not found and time.time() < until:
                try:
                    with urllib.request.urlopen("http://127.0.0.1:19090/api/v1/query?query=" + urllib.parse.quote(query)) as answer:
                        found = json.load(answer)["data"]["result"]
                except OSError:
                    pass
                time.sleep(.5)
            expect(f"Prometheus on {query}", bool(found), True)
        print(f"passed   Prometheus: {len(panels)} queries of the panel have answers")
    finally:
        for one in served:
            one.terminate()
            one.wait()


# ---- the page
def blocks():
    """Each block of the page, with its text and the paragraph before it."""
    text = (TOP / "docs/recipes.md").read_text(encoding="utf-8")
    for match in re.finditer(r"(?:(?<=\n)    .*\n(?:\n(?=    ))?)+", text):
        lines = [line[4:] for line in match[0].rstrip("\n").split("\n")]
        yield "\n".join(lines), text[:match.start()].rstrip().rsplit("\n\n", 1)[-1]


def pieces(block):
    """A file that stands in one block with a command is told from it by an empty line."""
    parts = block.split("\n\n")
    return ["\n\n".join(parts[:-1]), parts[-1]] if block.startswith(("#!", "# poster.jq")) and len(parts) > 1 and parts[-1].startswith(("find", "sbatch", "python3", "jq", "timeout")) else [block]


def file_name(block, before):
    if block.startswith("#!"):
        return re.search(r"(?m)^# ([\w.]+)", block)[1]
    named = re.search(r"(?:in a file `([\w.]+)`:|`(views\.sql)`:)$", before)
    return named and (named[1] or named[2]) or block.startswith("# poster.jq") and "poster.jq"


class Quiet(http.server.SimpleHTTPRequestHandler):
    messages = []

    def log_message(self, *words):
        pass

    def do_POST(self):
        self.messages.append(json.loads(self.rfile.read(int(self.headers["Content-Length"]))))
        self.send_response(200)
        self.end_headers()


def slurm(block):
    """The array's tasks one after the other, where no Slurm runs here."""
    if shutil.which("sinfo") and subprocess.run(["sinfo"], capture_output=True).returncode == 0:
        return block
    print("left out sbatch: there is no Slurm, so its script is run here once for each task")
    return "\n".join(f"SLURM_ARRAY_TASK_COUNT=8 SLURM_ARRAY_TASK_ID={n} sh year.sbatch" for n in range(8)) + "\n" + "\n".join(block.split("\n")[1:])


def check_poster(work):
    """The page has each alert of the stop once, its text in the language that was asked for, made safe, and the moment of the next change."""
    page = (work / "poster.html").read_text()
    until = time.strftime("%Y-%m-%dT%H:%M:%SZ", time.gmtime(MOMENTS[0] + 2**33))
    expect("poster", page.split("\n")[1:-1], ["<h2>Works &lt;at&gt; S1</h2><p>No buses &amp; no trams</p>", "<h2></h2><p></p>", f"<p>2 in force, until {until}</p>"])


def run_page(work, run, verbose):
    count = left = 0
    after = {"jq -rn": lambda: (work / "poster.html").exists() and check_poster(work), "tools/days split": lambda: expect("days", len(list((work / "days").glob("*.list"))), 2)}
    for block, before in ((piece, before) for whole, before in blocks() for piece in pieces(whole)):
        name = file_name(block, before)
        first = block.split("\n", 1)[0]
        if name:
            (work / name).write_text(block + "\n")
            (work / name).chmod(0o755)
            continue
        if first.startswith(SHOWN):
            continue
        if first.startswith(UNTRIED):
            left += 1
            expect(f"said to be untried: {first[:60]}", "untried" in before, True)
            continue
        lost = [tool for words, tools in NEEDS.items() if words in block for tool in tools.split() if not shutil.which(tool, path=run.path)]
        if lost:
            left += 1
            print(f"left out {first[:60]}: there is no {lost[0]}")
            continue
        if "sbatch" in first:
            block = slurm(block)
        if first.startswith("prometheus-node-exporter"):
            continue  # `check_prometheus` starts it, and ends it
        if first.startswith("python3 year.py"):
            expect("an archive in object storage", run("aws s3 mb s3://rt-archive && aws s3 cp --only-show-errors --recursive archive s3://rt-archive/archive").returncode, 0)
        ran = run(block)
        count += 1
        is_loud = [line for line in ran.stderr.splitlines() if "pv" not in block and "distributed." not in line and not line.startswith(("Academic tradition", "Come on:", "To silence"))]
        expect(f"status of {first[:70]}", ran.returncode in (0, 1, 2, 123) and not is_loud, True)
        if is_loud or verbose or ran.returncode > 2 and ran.returncode != 123:
            print(f"$ {block}\n{ran.stdout[:1500]}{ran.stderr[:800]}")
        after.get(" ".join(first.split()[:2]), lambda: None)()
        if "published.list > published.report" in block:
            check_published(work)
        if "tools/days join" in block:
            check_joined(work, run)
        if first.startswith("sqlite3 findings.db < views.sql"):
            check_counts(work, run)
    return count, left


def main():
    verbose = "-v" in sys.argv
    words = [word for word in sys.argv[1:] if word != "-v"]
    program = pathlib.Path(words[0] if words else TOP / "crates/rt_command/out/rt_command").resolve()
    summary = pathlib.Path(words[1] if len(words) > 1 else TOP / "crates/rt_summary/out/rt_summary").resolve()
    with tempfile.TemporaryDirectory() as folder:
        work = pathlib.Path(folder)
        (work / "bin").mkdir()
        (work / "bin/rt_command").symlink_to(program)
        if summary.exists():
            (work / "bin/rt_summary").symlink_to(summary)
        (work / "tools").symlink_to(TOP / "tools")
        (work / "www/city").mkdir(parents=True)
        for agency in ("city", "coast"):
            timetable(work / "gtfs" / agency)
        for name, make in (("trips", trips), ("vehicles", vehicles)):
            (work / "archive/coast" / name).mkdir(parents=True)
            for step, moment in enumerate(MOMENTS):
                (work / "archive/coast" / name / f"{moment}.pb").write_bytes(make(moment, step))
            (work / f"{name}.pb").write_bytes(make(MOMENTS[0], 0))
        publish(work)
        (work / "alerts.pb").write_bytes(alerts(MOMENTS[0]))
        for n in range(20):
            (work / "part").mkdir(exist_ok=True)
            (work / f"part/{n:02}.pb").write_bytes(trips(MOMENTS[0], n, 2))
        (work / "rotated").write_text("#!/bin/sh\ncp -r archive/city copy\n"
                                      "exec tools/fetch copy gtfs/city trips=http://localhost:8000/none vehicles=http://localhost:8000/none 2> rotated.errors\n")
        (work / "rotated").chmod(0o755)
        path = f"{work}/bin:/usr/local/bin:/usr/bin:/bin:/usr/sbin:/sbin:{os.environ['PATH']}"
        environment = {"PATH": path, "HOME": str(work), "CHAT": "http://localhost:8000/chat", "LC_ALL": "C.UTF-8", "AWS_ENDPOINT_URL": "http://127.0.0.1:5123",
                       "AWS_ACCESS_KEY_ID": "testing", "AWS_SECRET_ACCESS_KEY": "testing", "AWS_DEFAULT_REGION": "us-east-1", "PYTHONDONTWRITEBYTECODE": "1"}

        def run(command):
            return subprocess.run(["timeout", "120", "bash", "-c", command], cwd=work, env=environment, stdin=subprocess.DEVNULL, capture_output=True, text=True)
        run.path = path
        server = http.server.ThreadingHTTPServer(("127.0.0.1", 8000), functools.partial(Quiet, directory=work / "www"))
        threading.Thread(target=server.serve_forever, daemon=True).start()
        store = None
        try:
            check_fetched(work, run, fetch_all(work, run))
            for name, make in (("trips", trips), ("vehicles", vehicles)):
                (work / "www/city" / f"{name}.pb").write_bytes(make(MOMENTS[0], 0))
            if shutil.which("moto_server") and shutil.which("aws"):
                store = subprocess.Popen(["moto_server", "-p", "5123"], stdout=subprocess.DEVNULL, stderr=subprocess.DEVNULL)
                time.sleep(5)
            environment["MOMENT"] = str(MOMENTS[-1] + 30)  # the page's own run of tools/fetch is one more of these moments
            count, left = run_page(work, run, verbose)
            check_prometheus(work)
        finally:
            server.shutdown()
            if store:
                store.terminate()
                store.wait()
    print(f"recipes: {count} blocks of commands ran, {left} left out, {len(faults)} faults")
    return 1 if faults else 0


if __name__ == "__main__":
    sys.exit(main())
