#!/usr/bin/env python3
"""What `rt_summary --json` counts, against the viewer and the SQLite recipe: summary_views.py [SUMMARY [PROGRAM]].

The viewer's own script reads and gathers reports under node: the parts of viewer/report.html that touch no page. The recipe is what docs/recipes.md says, run by
sqlite3. Reports are made-up ones of viewer/reports.py, and those of the examples where PROGRAM is there. Compared are snapshots, lines, and by rule findings, places,
what stands at the end, closings and entities.
"""
import collections, json, os, re, subprocess, sys, tempfile

sys.dont_write_bytecode = True
HERE = os.path.dirname(os.path.abspath(__file__))
TOP = os.path.join(HERE, "..")
sys.path.insert(0, os.path.join(TOP, "viewer"))
import reports  # noqa: E402

SUMMARY = os.path.abspath(sys.argv[1] if len(sys.argv) > 1 else os.path.join(TOP, "crates/rt_summary/out/rt_summary"))
PROGRAM = os.path.abspath(sys.argv[2] if len(sys.argv) > 2 else os.path.join(TOP, "crates/rt_command/out/rt_command"))
PAGE = open(os.path.join(TOP, "viewer/report.html"), encoding="utf-8").read()
RECIPES = open(os.path.join(TOP, "docs/recipes.md"), encoding="utf-8").read()
COUNTING = """
const report = new Report("report");
const lines = require("fs").readFileSync(0, "utf8").split("\\n");
const last = lines.pop();
lines.forEach(line => report.take(line));
if (last !== "") report.take(last);
const standing = {};
for (const found of report.standing.values()) standing[found.rule] = (standing[found.rule] || 0) + 1;
const rules = gather(report.findings, found => [found.rule], () => []).map(group => [group.key, { findings: group.openings,
  places: group.errors + group.warnings, entities: group.entities.size, standing: standing[group.key] || 0 }]);
console.log(JSON.stringify({ lines: report.lines, accepted: report.accepted.length, refused: report.refused.length, exchanged: report.exchanged, refused_timetables: report.refusedTimetables, foreign: report.unread.map(line => line.number),
  follows: report.follows, closings: report.closings, rules: Object.fromEntries(rules) }));
"""


def between(begin, end):
    """The part of the page's script from one text to another."""
    found = PAGE[PAGE.index(begin):]
    return found[:found.index(end)]


def by_viewer(report):
    script = between("// ---- reading a report", "async function readReport") + between("const noFindings", "const LISTING") + COUNTING
    done = subprocess.run(["node", "-e", '"use strict";' + script], input=report, stdout=subprocess.PIPE, check=True)
    return json.loads(done.stdout)


def recipe(pattern):
    """The one command of the page that has this, without its indent."""
    found = re.findall(r"(?m)^    (sqlite3 .*%s.*(?:\n      .*)*)" % re.escape(pattern), RECIPES)
    assert len(found) == 1, pattern
    return "\n".join(line[4:] if line.startswith("    ") else line for line in found[0].split("\n"))


def by_recipe(report):
    """Of each rule its findings and the ids that it is at, and its places."""
    views = RECIPES[RECIPES.index("    CREATE VIEW IF NOT EXISTS finding AS"):]
    with tempfile.TemporaryDirectory() as folder:
        def run(command):
            return subprocess.run(["bash", "-c", command], cwd=folder, check=True, stdout=subprocess.PIPE, stdin=subprocess.DEVNULL).stdout.decode()

        with open(os.path.join(folder, "city.report"), "wb") as file:
            file.write(report)
        with open(os.path.join(folder, "views.sql"), "w") as file:
            file.write(views[:views.index("\n\n")])
        run(recipe("CREATE TABLE IF NOT EXISTS report"))
        run(recipe(".import city.report report"))
        run("sqlite3 findings.db < views.sql")
        counts = {rule: (int(findings), int(ids)) for rule, findings, ids in (row.split("|") for row in run(recipe("count(DISTINCT line ->> 'id') AS entities").replace(" -box", "")).split())}
        places = {rule: (int(places), int(openings)) for _, rule, places, openings in (row.split("|") for row in run(recipe("count(*) AS places, sum(openings)").replace(" -box", "")).split())}
        snapshots = dict(row.split("|") for row in run("sqlite3 findings.db 'SELECT line, count(*) FROM snapshot GROUP BY line'").split())
    return counts, places, snapshots


def ids_of(report):
    """How many ids each rule is at, and how many entities: an id may be at several feeds and occurrences."""
    ids, entities = collections.defaultdict(set), collections.defaultdict(set)
    for line in report.split(b"\n"):
        tree = json.loads(line) if line else {}
        if tree.get("line") in ("finding", "opened") and "id" in tree:
            ids[tree["rule"]].add(tree["id"])
            entities[tree["rule"]].add((tree["feed"], tree["occurrence"], tree["id"]))
    return {rule: (len(ids[rule]), len(entities[rule])) for rule in ids}


def differences(report):
    """What differs, in words."""
    done = subprocess.run([SUMMARY, "--json"], input=report, stdout=subprocess.PIPE)
    said = json.loads(done.stdout)
    shown = by_viewer(report)
    counts, places, snapshots = by_recipe(report)
    rules = {rule["rule"]: rule for rule in said["rules"]}
    pairs = [(key, said[key], shown[key]) for key in ("lines", "accepted", "refused")]
    pairs += [(key, said.get(key, 0), shown[key]) for key in ("exchanged", "refused_timetables")]
    pairs += [(key, said[key], int(snapshots.get(key, 0))) for key in ("accepted", "refused")]
    pairs += [("foreign lines", said["foreign_lines"], shown["foreign"]), ("closings", sum(rule["closings"] for rule in said["rules"]), shown["closings"])]
    pairs += [("rules", sorted(rules), sorted(names)) for names in (shown["rules"], counts, places)]
    for name, rule in rules.items():
        ids, entities = ids_of(report).get(name, (0, 0))
        view = shown["rules"][name]
        pairs += [(f"{name}, {key}", rule[key], view[key]) for key in ("findings", "entities")]
        pairs += [(f"{name}, findings by the recipe", rule["findings"], counts[name][0]), (f"{name}, openings by the recipe", rule["findings"], places[name][1])]
        pairs += [(f"{name}, ids by the recipe", counts[name][1], ids), (f"{name}, entities by id", rule["entities"], entities)]
        if shown["follows"]:
            pairs += [(f"{name}, {key}", rule[key], view[key]) for key in ("places", "standing")]
            pairs.append((f"{name}, places by the recipe", rule["places"], places[name][0]))
        else:
            pairs.append((f"{name}, places of a check", (rule["places"], view["places"]), (0, places[name][0])))
    return [f"{what}: {one}, not {other}" for what, one, other in pairs if one != other]


def text_of(lines):
    return "".join(line + "\n" for line in lines).encode()


def all_reports():
    yield "all levels", text_of(reports.all_levels())
    yield "followed", text_of(reports.followed()[0])
    yield "with timetables", text_of(reports.exchanged())
    yield "a crowd", text_of(reports.crowd(2000))
    yield "refused alone", text_of(reports.only_refused())
    if os.access(PROGRAM, os.X_OK):
        def program(*words):
            return subprocess.run([PROGRAM, *words], stdout=subprocess.PIPE, cwd=TOP).stdout

        table = ["--timetable", "examples/timetable"]
        yield "check", program("check", *table, "--now", "1700034600", "examples/city.pb", "examples/late_city.pb", "examples/cut_off.pb", "examples/no_timestamp.pb")
        yield "follow", program("follow", *table, "--list", "examples/evening.csv")
        yield "follow with timetables", program("follow", *table, "--list", "examples/publication.csv")


def main():
    count = wrong = 0
    for name, report in all_reports():
        found = differences(report)
        count += 1
        wrong += bool(found)
        if found:
            print(f"{name}:", *found, sep="\n  ")
    print(f"{count} reports as the viewer and the recipe count them, {wrong} otherwise")
    return 1 if wrong or not count else 0


sys.exit(main())
