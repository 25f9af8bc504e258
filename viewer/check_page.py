#!/usr/bin/env python3
"""Opens report.html in headless Chromium over reports of each kind, and compares what it shows with what they say.

    python3 viewer/check_page.py [PICTURES]

What a report says is read here a second time, from its lines alone. Where PICTURES names a folder, the screens are put there, wide
and narrow, light and dark, to be looked at; else nothing is kept.
"""
import collections, csv, datetime, json, os, re, sys, tempfile, time, zoneinfo
from pathlib import Path

import reports
from browser import Browser

HERE = Path(__file__).resolve().parent
PAGE = (HERE / "report.html").as_uri()
DOCS = HERE.parent / "docs"
LEVELS = {"E": "error", "X": "own error", "W": "warning"}
faults = []


def expect(name, shown, said):
    if shown != said:
        faults.append(name)
        print("  %s: shown %s, said %s" % (name, json.dumps(shown)[:700], json.dumps(said)[:700]))


def grouped(number):
    return format(number, ",")


def plural(count, one):
    return "%s %s" % (grouped(count), one if count == 1 else one + "s")


def visible(text):
    unseen = "[\x00-\x1f\x7f-\x9f\xad\u061c\u200b-\u200f\u2028-\u202e\u2060-\u206f\ufeff\ufff9-\ufffb]"
    return re.sub(unseen, lambda found: "\\u%04x" % ord(found[0]), text)


def place_of(finding):
    return tuple(finding.get(key) for key in ("rule", "path", "feed", "id", "occurrence"))


def named_by(finding):
    """The routes and the trips that a finding's facts name."""
    routes, trips = set(), set()
    for fact in finding["facts"]:
        ask, keys, value = fact["ask"], fact["keys"], fact["value"]
        if ask == "route_known":
            routes.add(keys[0])
        elif isinstance(value, str) and (ask == "trip_route" or ask == "cell" and keys[0].endswith("route_id")):
            routes.add(value)
        if ask == "cell" and keys[0].endswith(".trip_id") and isinstance(value, str):
            trips.add(value)
        elif ask in ("first_vehicle", "has_pair", "has_trip"):
            trips.add(keys[1])
        elif ask in ("trip_known", "trip_route", "trip_direction", "trip_exact", "on_grid", "visits_twice", "first_arrival", "stop_at", "arrival_at", "departure_at"):
            trips.add(keys[0])
    return routes, trips


class Said:
    """What the lines of a report say."""

    def __init__(self, lines):
        self.kinds = collections.defaultdict(list)
        self.unread, self.standing, self.after, self.closings = [], {}, [], 0
        for number, text in enumerate(lines, 1):
            try:
                value = json.loads(text)
            except ValueError:
                value = None
            known = isinstance(value, dict) and value.get("line") in ("accepted", "refused", "timetable", "refused_timetable", "finding", "opened", "closed")
            if known and (value["line"] == "timetable" and "retested" not in value or value["line"] == "refused_timetable" and value["row"] < 0):
                known = False
            place = known and (value.get("rule"), value.get("path"), value.get("feed"), value.get("id"), value.get("occurrence"))
            if not known or value["line"] in ("finding", "opened") and "facts" not in value or value["line"] == "closed" and place not in self.standing:
                self.unread.append(number)
                continue
            self.kinds["finding" if value["line"] == "opened" else value["line"]].append(value)
            if value["line"] == "opened":
                self.standing[place] = value
            if value["line"] == "closed":
                del self.standing[place]
            if value["line"] in ("accepted", "timetable"):
                self.after.append(None)
            if self.after:
                self.after[-1] = len(self.standing)
        self.accepted, self.refused, self.findings = self.kinds["accepted"], self.kinds["refused"], self.kinds["finding"]
        self.exchanged, self.kept_out = self.kinds["timetable"], self.kinds["refused_timetable"]
        self.follows = any(f["line"] == "opened" for f in self.findings)

    def rules(self, findings=None):
        """Each rule with how many places it broke at, how many lines opened it (of `follow`), and how many entities it has."""
        places, counts, entities = collections.defaultdict(set), collections.Counter(), collections.defaultdict(set)
        for f in self.findings if findings is None else findings:
            counts[f["rule"]] += 1
            places[f["rule"]].add(place_of(f))
            if "id" in f:
                entities[f["rule"]].add((f["feed"], f["id"], f["occurrence"]))
        return {rule: [grouped(len(places[rule]))] + ([grouped(n)] if self.follows else []) + [grouped(len(entities[rule])) if entities[rule] else "header"]
                for rule, n in counts.items()}

    def routes(self, route_of=None):
        """Each route with its places: by the facts, else by the trip that they name, else by the trips that the entity's findings name."""
        route_of, of_entity, places = route_of or {}, collections.defaultdict(set), collections.defaultdict(set)
        for f in self.findings:
            of_entity[(f["feed"], f.get("id"), f.get("occurrence"))] |= named_by(f)[1] if "id" in f else set()
        for f in self.findings:
            routes, trips = named_by(f)
            for names in (trips, of_entity[(f["feed"], f.get("id"), f.get("occurrence"))]):
                routes = routes or {route_of[trip] for trip in names if trip in route_of}
            for route in routes:
                places[route].add(place_of(f))
        return {route: len(found) for route, found in places.items()}

    def ordered(self):
        """Errors first, and else as they stand."""
        return sorted(self.findings, key=lambda f: "EX?W".index(f["level"] if f["level"] in ("E", "X", "W") else "?"))

    def places(self):
        return {place_of(f) for f in self.findings}

    def verdict(self):
        errors = {place_of(f) for f in self.findings if f["level"] != "W"}
        warnings = len(self.places()) - len(errors)
        parts = [plural(len(self.refused), "snapshot") + " refused"] if self.refused else []
        parts += [plural(len(self.kept_out), "timetable") + " refused"] if self.kept_out else []
        parts += [plural(len(errors), "error")] if errors else []
        parts += [plural(warnings, "warning")] if warnings else []
        stand = len(self.standing)
        return ", ".join(parts) + ("; %s %s at the end" % (grouped(stand), "stands" if stand == 1 else "stand") if self.follows else "")


def load(browser, lines, fragment="", end="\n"):
    """Opens the page and gives it a report; how long that took."""
    browser.open(PAGE + fragment)
    with tempfile.NamedTemporaryFile("w", suffix=".report", encoding="utf-8", newline="") as file:
        file.write("\n".join(lines) + end)
        file.flush()
        begun = time.time()
        browser.choose("#chosen", file.name)
        browser.ask("new Promise(done => { const look = () => document.getElementById('report').hidden ? setTimeout(look, 20) : done(); look(); })")
        return time.time() - begun


def rows(browser, box):
    """All rows of a list, by scrolling through it as a person would."""
    return browser.ask("""(async () => {
        const box = document.getElementById('%s'), found = new Map();
        const frame = () => new Promise(done => requestAnimationFrame(() => requestAnimationFrame(done)));
        for (box.scrollTop = 0;;) {
            await frame();
            for (const row of box.querySelectorAll('[role=option]')) found.set(Number(row.getAttribute('aria-posinset')), row.textContent);
            const before = box.scrollTop;
            box.scrollTop += box.clientHeight / 2;
            if (box.scrollTop === before) break;
        }
        return [...found].sort((a, b) => a[0] - b[0]).map(([place, text]) => text);
    })()""" % box)


def view(browser, name):
    browser.ask("document.getElementById('tab-%s').click()" % name)


def text(browser, selector):
    return browser.ask("document.querySelector(%s).textContent" % json.dumps(selector))


def rule_table(browser):
    cells = browser.ask("[...document.querySelectorAll('#by-rule tbody tr')].map(row => [row.querySelector('button').textContent, "
                        "...[...row.querySelectorAll('td.number')].map(cell => cell.textContent)])")
    return {rule: numbers for rule, *numbers in cells}


# ---- what each report shows
def compare(browser, name, lines, said):
    numbers = browser.ask("Object.fromEntries([...document.querySelectorAll('#numbers > div')].map(one => [one.children[0].textContent, one.children[1].textContent]))")
    expect(name + ": accepted", numbers["Snapshots accepted"], grouped(len(said.accepted)))
    expect(name + ": refused", numbers["Snapshots refused"], grouped(len(said.refused)))
    for kind, lines_of in (("exchanged", said.exchanged), ("refused", said.kept_out)):
        expect(name + ": timetables " + kind, numbers.get("Timetables " + kind), grouped(len(lines_of)) if said.exchanged or said.kept_out else None)
    expect(name + ": findings", numbers["Places that broke" if said.follows else "Findings"], grouped(len(said.places())))
    expect(name + ": openings", numbers.get("Opened, or again with other facts"), grouped(len(said.findings)) if said.follows else None)
    expect(name + ": lines", numbers["Lines"], grouped(len(lines)))
    expect(name + ": standing", numbers.get("Stand at the end"), grouped(len(said.standing)) if said.follows else None)
    if said.verdict():
        expect(name + ": verdict", text(browser, "#verdict"), said.verdict())
    expect(name + ": rules", rule_table(browser), {visible(rule): numbers for rule, numbers in said.rules().items()})
    shown = browser.ask("[...document.querySelectorAll('#refused li')].map(one => one.textContent)")
    kinds = [kind for kind, lines_of in (("snapshots", said.refused), ("timetables", said.kept_out)) if lines_of]
    expect(name + ": head of the refusals", text(browser, "#refusals-head"), "Refused " + " and ".join(kinds))
    for line in said.kept_out:
        expect(name + ": refused timetable", [words for words in shown if words.startswith("Row %d." % line["row"]) and visible(line["text"]) in words][1:], [])
        expect(name + ": refused timetable is there", any(words.startswith("Row %d." % line["row"]) and visible(line["text"]) in words for words in shown), True)
    of_snapshots = [words for words in shown if "The timetable is refused" not in words]
    for line, words in zip(said.refused, of_snapshots):
        expect(name + ": refusal", "Row %d." % line["row"] in words and (line["reason"] == "NoFile" or grouped(line["at"]) in words), True)
        if "MissingField" in line["reason"]:
            expect(name + ": missing field", line["reason"][13:-1] in words, True)
    expect(name + ": refusals", (len(shown), len(of_snapshots)), (len(said.refused) + len(said.kept_out), len(said.refused)))
    expect(name + ": unread", browser.ask("document.getElementById('tab-unread') ? document.getElementById('tab-unread').textContent : ''"),
           "Not understood (%d)" % len(said.unread) if said.unread else "")


def compare_lists(browser, name, lines, said):
    view(browser, "findings")
    shown = rows(browser, "finding-rows") if said.findings else []
    expect(name + ": finding rows", len(shown), len(said.findings))
    for f, words in zip(said.ordered(), shown):
        wanted = [f["rule"], "“%s" % visible(f["id"])[:90] if "id" in f else "header of feed"]
        wanted += [str(fact["value"])[:90] for fact in f["facts"] if fact["value"] not in (None, 0, 1)]
        missing = [part for part in wanted if visible(part) not in words and part not in words]
        expect(name + ": a finding's row", missing, [])
    view(browser, "snapshots")
    shown = [words[:8].strip() for words in (rows(browser, "snapshot-rows") if said.accepted or said.refused or said.exchanged or said.kept_out else [])]
    expect(name + ": snapshots", collections.Counter(shown),
           collections.Counter({"accepted": len(said.accepted), "refusedr": len(said.refused) + len(said.kept_out), "timetabl": len(said.exchanged)}) - collections.Counter())
    view(browser, "routes")
    shown = rows(browser, "route-rows") if said.routes() else []
    expect(name + ": routes", len(shown), len(said.routes()))
    for route, count in said.routes().items():
        mine = [row for row in shown if row.startswith("“%s”" % visible(route))]
        expect(name + ": a route", bool(mine) and sum(int(n) for n in re.findall("([0-9]+) (?:error|warning)", mine[0])) == count or len(route) > 100, True)
    view(browser, "entities")
    places = {(f["feed"], f.get("id"), f.get("occurrence")) for f in said.findings}
    expect(name + ": entities", len(rows(browser, "entity-rows")) if places else 0, len(places))
    if said.unread:
        view(browser, "unread")
        shown = rows(browser, "unread-rows")
        for number, words in zip(said.unread, shown):
            expect(name + ": unread line", words.startswith("Line %d" % number) and visible(lines[number - 1])[:60] in words, True)
        expect(name + ": unread lines", len(shown), len(said.unread))
    view(browser, "rules")


def check_filters(browser, lines, said):
    """The form, the count that it tells, and the link that keeps it."""
    load(browser, lines)
    browser.ask("const rule = document.getElementById('rule'); rule.value = '=E012'; rule.dispatchEvent(new Event('change'))")
    of_rule = [f for f in said.findings if f["rule"] == "E012"]
    expect("filter by rule", text(browser, "#shown"), "%d of %d findings shown" % (len(of_rule), len(said.findings)))
    browser.ask("const id = document.getElementById('id'); id.value = '042'; id.dispatchEvent(new Event('input'))")
    of_both = [f for f in of_rule if "042" in f.get("id", "")]
    expect("filter by rule and id", text(browser, "#shown"), "%d of %d findings shown" % (len(of_both), len(said.findings)))
    fragment = browser.ask("location.hash")
    expect("fragment", fragment, "#rule=E012&id=042")
    expect("link", browser.ask("document.getElementById('link').getAttribute('href')"), fragment)
    load(browser, lines, fragment)
    expect("filter of a link", text(browser, "#shown"), "%d of %d findings shown" % (len(of_both), len(said.findings)))
    expect("rules of a link", rule_table(browser), said.rules(of_both))
    browser.ask("document.getElementById('reset').click()")
    expect("filter taken away", text(browser, "#shown"), "All %d findings shown" % len(said.findings))
    browser.ask("document.querySelector('#levels input[value=E]').click()")
    others = [f for f in said.findings if f["level"] != "E"]
    expect("filter by level", rule_table(browser), said.rules(others))
    expect("level's fragment", browser.ask("location.hash"), "#level=XW")
    browser.ask("history.back(); new Promise(done => setTimeout(done, 300))")
    expect("back", text(browser, "#shown"), "All %d findings shown" % len(said.findings))
    for key, value, kept in (("route", "5", lambda f: '"5"' in json.dumps(f["facts"])), ("entity", "0.1.bus-7", lambda f: f.get("occurrence") == 1)):
        load(browser, lines, "#view=findings&%s=%s" % (key, value))
        expect("filter by " + key, len(rows(browser, "finding-rows")), len([f for f in said.findings if kept(f)]))


def check_keys(browser, lines):
    """A person without a mouse: tabs by arrows, a finding by arrows, its detail and back."""
    load(browser, lines)
    browser.ask("document.getElementById('tab-rules').focus()")
    for _ in range(3):
        browser.call("Input.dispatchKeyEvent", type="keyDown", key="ArrowRight", code="ArrowRight", windowsVirtualKeyCode=39)
    expect("tab by arrows", browser.ask("document.activeElement.id"), "tab-findings")
    browser.ask("document.getElementById('finding-rows').focus()")
    browser.press("ArrowDown")
    browser.press("ArrowDown")
    chosen = "document.getElementById(document.getElementById('finding-rows').getAttribute('aria-activedescendant'))"
    expect("chosen by arrows", browser.ask(chosen + ".getAttribute('aria-posinset')"), "3")
    expect("chosen is said", browser.ask(chosen + ".getAttribute('aria-selected')"), "true")
    expect("detail follows", text(browser, "#all .detail h3 .level"), Said(lines).ordered()[2]["rule"])
    browser.press("Enter")
    expect("detail has the focus", browser.ask("document.activeElement.className"), "detail")
    browser.press("Escape")
    expect("back in the list", browser.ask("document.activeElement.id"), "finding-rows")
    browser.ask("document.getElementById('tab-rules').click(); document.querySelector('#by-rule tbody button').click()")
    expect("focus goes to the findings", browser.ask("document.activeElement.id"), "finding-rows")


def check_names(browser, name):
    """Everything that can be worked has a role and a name for a screen reader."""
    browser.call("Accessibility.enable")
    worked = {"button", "tab", "checkbox", "combobox", "searchbox", "textbox", "listbox", "option", "link", "slider", "image", "table", "tabpanel", "search"}
    for node in browser.call("Accessibility.getFullAXTree")["nodes"]:
        role = node.get("role", {}).get("value")
        if role in worked and not node.get("ignored") and not node.get("name", {}).get("value"):
            faults.append(name)
            print("  %s: a %s without a name: %s" % (name, role, json.dumps(node)[:300]))


CONTRAST = """(() => {
    const parts = colour => colour.match(/[\\d.]+/g).map(Number);
    const light = colour => parts(colour).slice(0, 3).map(one => one / 255).map(one => one <= .04045 ? one / 12.92 : ((one + .055) / 1.055) ** 2.4)
        .reduce((sum, one, i) => sum + one * [.2126, .7152, .0722][i], 0);
    const behind = node => { for (; node; node = node.parentElement) { const c = getComputedStyle(node).backgroundColor; if (parts(c)[3] !== 0) return c; } return 'rgb(255, 255, 255)'; };
    const low = [];
    for (const node of document.querySelectorAll('body *')) {
        if (!node.offsetParent || ![...node.childNodes].some(child => child.nodeType === 3 && child.data.trim())) continue;
        const [a, b] = [light(getComputedStyle(node).color), light(behind(node))].sort((a, b) => b - a);
        if ((a + .05) / (b + .05) < 4.5) low.push(node.outerHTML.slice(0, 80) + ' ' + ((a + .05) / (b + .05)).toFixed(2));
    }
    return low;
})()"""


def check_contrast(browser, lines, name):
    for theme in ("light", "dark"):
        browser.call("Emulation.setEmulatedMedia", features=[{"name": "prefers-color-scheme", "value": theme}])
        for tab in ("rules", "entities", "findings", "snapshots"):
            load(browser, lines, "#view=" + tab)
            expect("%s: contrast of 4.5, %s, %s" % (name, theme, tab), browser.ask(CONTRAST), [])
    browser.call("Emulation.setEmulatedMedia", features=[])


def check_width(browser, lines, name):
    """Nothing is wider than a narrow screen."""
    browser.call("Emulation.setDeviceMetricsOverride", width=390, height=844, deviceScaleFactor=1, mobile=False)
    for tab in ("rules", "entities", "routes", "time", "findings", "snapshots"):
        load(browser, lines, "#view=" + tab)
        expect("%s: narrow, %s" % (name, tab), browser.ask("document.documentElement.scrollWidth <= innerWidth"), True)
    browser.call("Emulation.clearDeviceMetricsOverride")


# All texts in sight that stand on one another, and all of the plot that stand on a bar: each by its box, cut off where an ancestor cuts it off.
COVERED = """(() => {
    const seen = node => { for (let at = node; at; at = at.parentElement) { if (at.classList && (at.classList.contains('unseen') || at.classList.contains('probe'))) return false; } return true; };
    const clipped = (box, node) => {
        let { left, right, top, bottom } = box;
        for (let at = node; at && at !== document.documentElement; at = at.parentElement) {
            if (at.tagName !== 'svg' && getComputedStyle(at).overflow === 'visible' || at.tagName === 'text') continue;
            const edge = at.getBoundingClientRect();
            [left, right, top, bottom] = [Math.max(left, edge.left), Math.min(right, edge.right), Math.max(top, edge.top), Math.min(bottom, edge.bottom)];
        }
        return { left, right, top, bottom };
    };
    const texts = [], walk = document.createTreeWalker(document.body, NodeFilter.SHOW_TEXT);
    for (let node = walk.nextNode(); node; node = walk.nextNode()) {
        const parent = node.parentElement;
        if (!node.data.trim() || /^(SCRIPT|STYLE|OPTION)$/.test(parent.tagName) || !seen(parent)) continue;
        const range = document.createRange();
        range.selectNodeContents(node);
        for (const box of range.getClientRects()) texts.push({ node, name: node.data.trim().slice(0, 40), ...clipped(box, parent) });
    }
    const bars = [...document.querySelectorAll('#time svg path')].map(node => ({ node, name: 'a bar', ...clipped(node.getBoundingClientRect(), null) }));
    const there = texts.filter(box => box.right - box.left > 1 && box.bottom - box.top > 1);
    const over = (a, b) => Math.min(a.right, b.right) - Math.max(a.left, b.left) > 1 && Math.min(a.bottom, b.bottom) - Math.max(a.top, b.top) > 4;
    const found = [];
    there.forEach((a, i) => [...there.slice(i + 1), ...bars].forEach(b => { if (a.node !== b.node && over(a, b)) found.push(a.name + ' / ' + b.name); }));
    const out = there.filter(box => box.right > innerWidth + 1 || box.left < -1).map(box => box.name + ' / the edge of the screen');
    return { count: there.length, found: [...found, ...out].slice(0, 20) };
})()"""
WIDTHS = ((1440, 900), (390, 844))


def check_boxes(browser, kinds):
    """No text stands on another one, on a bar or over the edge, on both widths and where counts have five digits."""
    for width, height in WIDTHS:
        browser.call("Emulation.setDeviceMetricsOverride", width=width, height=height, deviceScaleFactor=1, mobile=False)
        for name, lines in kinds.items():
            load(browser, lines)
            for tab in ("rules", "entities", "routes", "time", "findings", "snapshots"):
                if not browser.ask("Boolean(document.getElementById('tab-%s'))" % tab):
                    continue
                view(browser, tab)
                boxes = browser.ask("new Promise(done => requestAnimationFrame(() => requestAnimationFrame(done))).then(() => %s)" % COVERED)
                expect("%s at %d: boxes of %s" % (name, width, tab), boxes["found"] if boxes["count"] > 10 else "no text was found", [])
    browser.call("Emulation.clearDeviceMetricsOverride")


def check_order_and_times(browser, lines, said):
    """Findings as in the report, and times of this machine's clock: what is chosen stands in the link."""
    load(browser, lines, "#view=findings")
    moment = said.accepted[0]["moment"]
    browser.call("Emulation.setTimezoneOverride", timezoneId="America/St_Johns")
    for key, value in (("order", "report"), ("zone", "local")):
        browser.ask("const %s = document.getElementById('%s'); %s.value = '%s'; %s.dispatchEvent(new Event('change'))" % (key, key, key, value, key))
    expect("order and zone in the link", browser.ask("location.hash"), "#view=findings&order=report&zone=local")
    for f, words in zip(said.findings, rows(browser, "finding-rows")):
        expect("a row as in the report", words.startswith(f["rule"]) and ("id" not in f or visible(f["id"])[:90] in words), True)
    view(browser, "snapshots")
    here = datetime.datetime.fromtimestamp(moment, zoneinfo.ZoneInfo("America/St_Johns"))
    expect("a moment of the local clock", here.strftime("%Y-%m-%d %H:%M:%S UTC-03:30") in rows(browser, "snapshot-rows")[0], True)
    browser.ask("const back = document.getElementById('zone'); back.value = ''; back.dispatchEvent(new Event('change'))")
    there = datetime.datetime.fromtimestamp(moment, datetime.timezone.utc)
    expect("a moment of UTC", there.strftime("%Y-%m-%d %H:%M:%S UTC") in rows(browser, "snapshot-rows")[0], True)
    browser.call("Emulation.setTimezoneOverride", timezoneId="")


def check_routes(browser, lines, said):
    """The view by route says what it counts, and counts by trips.txt where it is given one."""
    load(browser, lines, "#view=routes")
    words = text(browser, "#route-count")
    expect("what is counted", "whose facts name a route" in words and "Left out:" in words, True)
    trips = sorted({trip for f in said.findings for trip in named_by(f)[1]})
    route_of = {trip: 'Line "%d", east' % (n % 3) for n, trip in enumerate(trips)}
    with tempfile.NamedTemporaryFile("w", suffix=".txt", encoding="utf-8-sig", newline="") as file:
        writer = csv.writer(file)
        writer.writerows([["route_id", "service_id", "trip_id"], *([route, "daily", trip] for trip, route in route_of.items())])
        file.flush()
        browser.choose("#trips", file.name)
        browser.ask("new Promise(done => { const look = () => document.getElementById('route-count').textContent.includes('by the trip') ? done() : setTimeout(look, 20); look(); })")
    wanted = said.routes(route_of)
    shown = {}
    for row in rows(browser, "route-rows"):
        route = re.match("“(.*?)”(?=[0-9])", row)
        shown[route[1]] = sum(int(n.replace(",", "")) for n in re.findall("([0-9,]+) (?:error|warning)", row[route.end():]))
    expect("routes by trips.txt", shown, wanted)
    expect("more are counted", sum(wanted.values()) > sum(said.routes().values()), True)
    numbers = [int(n.replace(",", "")) for n in re.findall("([0-9,]+) (?:opening|finding|by )", text(browser, "#route-count"))]
    expect("what is counted adds up", sum(numbers), len(said.findings))


def slider_words(browser, count):
    """What the slider says at each of its so many positions."""
    return browser.ask("""[...Array(%d).keys()].map(position => {
        const slider = document.querySelector('#time input');
        slider.value = position;
        slider.dispatchEvent(new Event('input'));
        return slider.getAttribute('aria-valuetext');
    })""" % count)


def check_time(browser, lines, said):
    """How many stood after each snapshot, by the slider and by the filter."""
    load(browser, lines, "#view=time")
    shown = [int(re.search(": ([0-9,]+) finding", words)[1].replace(",", "")) for words in slider_words(browser, len(said.after))]
    expect("what stood when", shown, said.after)
    expect("rows of the plot", browser.ask("document.querySelectorAll('#time svg path').length"), 1 + len(said.rules()))
    load(browser, lines, "#view=findings&at=20")
    expect("filter by snapshot", text(browser, "#shown").split(" ")[0], str(said.after[20]))
    load(browser, lines, "#standing=end")
    expect("filter by standing", text(browser, "#shown").split(" ")[0], str(len(said.standing)))


def check_exchanged(browser, lines, said):
    """What a timetable changed stands at its line, and not at that of the snapshot before it."""
    load(browser, lines, "#view=time")
    told = slider_words(browser, len(said.after))
    expect("what stood behind each line", [int(re.search("([0-9]+) finding", words)[1]) for words in told], [0, 2, 3, 4, 3, 3, 3])
    expect("which lines these are", [re.match("After (the timetable of row [0-9]+|snapshot [0-9]+)", words)[1] for words in told],
           ["the timetable of row 0", "snapshot 0", "the timetable of row 2", "snapshot 1", "the timetable of row 6", "snapshot 2", "the timetable of row 8"])
    expect("marks in the plot", browser.ask("[...document.querySelectorAll('#time .exchange')].map(one => one.textContent).length > 1"), True)
    load(browser, lines, "#view=snapshots")
    shown = rows(browser, "snapshot-rows")
    counts = [re.search("; ([0-9]+) opened, ([0-9]+) closed", words) for words in shown]
    expect("what each row changed", [count and (int(count[1]), int(count[2])) for count in counts], [(0, 0), (2, 0), (2, 1), (1, 0), None, None, (1, 1), (0, 0), (0, 0)])
    expect("how many it concerns", "for 3 of 5 entities" in shown[2] and "row 2" in shown[2] and "behind snapshot 0" in shown[2], True)
    load(browser, lines, "#view=findings&order=report")
    spans = [re.search("(stands since|opened at).*", words)[0] for words in rows(browser, "finding-rows")]
    wanted = ["stands since snapshot 0", "opened at snapshot 0, closed at the timetable of row 2", "opened at the timetable of row 2, closed at the timetable of row 6",
              "opened at the timetable of row 2, other facts at the timetable of row 6", "stands since snapshot 1", "stands since the timetable of row 2"]
    expect("since when each stands", [span.startswith(words) for span, words in zip(spans, wanted)], [True] * len(wanted))
    load(browser, lines, "#view=findings&at=2")
    expect("filter by a timetable", "Stood after the timetable of row 2" in text(browser, "#chips"), True)


def check_many(browser, lines, said):
    """100,000 findings: few nodes, quick answers, and the last one is reached."""
    took = load(browser, lines, "#view=findings")
    print("  100,000 findings: read and shown in %.1f s" % took)
    expect("drawn rows are few", browser.ask("document.querySelectorAll('[role=option]').length") < 60, True)
    steps = browser.ask("""(async () => {
        const frame = () => new Promise(done => requestAnimationFrame(() => requestAnimationFrame(done))), times = [];
        const box = document.getElementById('finding-rows');
        for (let i = 0; i <= 20; i += 1) { const begun = performance.now(); box.scrollTop = box.scrollHeight * i / 20; await frame(); times.push(performance.now() - begun); }
        const begun = performance.now();
        const id = document.getElementById('id'); id.value = '0999'; id.dispatchEvent(new Event('input'));
        return { scroll: Math.max(...times), filter: performance.now() - begun, last: box.querySelector('[role=option]:last-child').textContent };
    })()""")
    print("  a jump in the list takes at most %.0f ms, a filter %.0f ms" % (steps["scroll"], steps["filter"]))
    kept = [f for f in said.findings if "0999" in f["id"]]
    expect("filter of many", text(browser, "#shown"), "%s of 100,000 findings shown" % grouped(len(kept)))
    browser.ask("document.getElementById('reset').click(); document.getElementById('finding-rows').focus()")
    browser.press("End")
    expect("the last of many", said.ordered()[-1]["id"] in text(browser, "#finding-rows [aria-selected=true]"), True)
    expect("its number", browser.ask("document.querySelector('#finding-rows [aria-selected=true]').getAttribute('aria-posinset')"), "100000")


def check_hostile(browser, lines, said):
    load(browser, lines)
    for tab in ("rules", "entities", "routes", "findings", "snapshots"):
        view(browser, tab)
        expect("no markup from a report, " + tab, browser.ask("document.querySelectorAll('#report script, #report img, #report b, #report i, #report u, #report s').length"), 0)
    load(browser, lines, "#rule=%3Cimg%20src%3Dx%20onerror%3Ddocument.title%3D1%3E&route=%3Cb%3E&entity=0.0.%3Cscript%3E&at=%3Cb%3E&view=%3Cb%3E&id=%3Cscript%3E")
    expect("no markup from a link", browser.ask("document.querySelectorAll('#report script, #report img, #report b').length"), 0)
    expect("the title is the page's", browser.ask("document.title"), "Report of rt_command")
    for attempt in ("document.body.innerHTML = '<b>x</b>'", "document.body.append(document.createRange().createContextualFragment('<b>x</b>'))", "eval('1')"):
        expect("the policy forbids " + attempt, browser.ask("(() => { try { %s; return 'let in'; } catch { return 'refused'; } })()" % attempt), "refused")


def check_sentences(browser):
    """Each fact as its sentence, and no ask of docs/rules.md without one."""
    load(browser, reports.every_fact(), "#view=findings")
    for (ask, keys, value, words), shown in zip(reports.WORDS, rows(browser, "finding-rows")):
        expect("the words of " + ask, shown[shown.index("of feed 0") + 9:], words + ".")
    asks = [names for names in re.findall(r"^\| (`[a-z_, `]+`) \|", (DOCS / "rules.md").read_text(), re.M)]
    asks = {name for names in asks for name in re.findall("`([a-z_]+)`", names)}
    expect("asks that are tried", asks - {ask for ask, *_ in reports.WORDS}, set())


def check_drop(browser, lines, said):
    browser.open(PAGE)
    browser.ask("""(() => { const data = new DataTransfer(); data.items.add(new File([%s], 'dropped'));
        document.body.dispatchEvent(new DragEvent('drop', { dataTransfer: data, bubbles: true, cancelable: true })); })()""" % json.dumps("\n".join(lines) + "\n"))
    browser.ask("new Promise(done => { const look = () => document.getElementById('report').hidden ? setTimeout(look, 20) : done(); look(); })")
    expect("a dropped report", text(browser, "#verdict"), said.verdict())
    expect("its name", text(browser, "#name"), ": dropped")


def pictures(browser, folder, kinds):
    os.makedirs(folder, exist_ok=True)
    for name, tab in (("levels", "rules"), ("levels", "findings"), ("levels", "routes"), ("follow", "time"), ("follow", "findings"), ("exchanged", "time"), ("exchanged", "snapshots"), ("crowd", "time"), ("crowd", "rules"), ("crowd", "routes"), ("many", "entities"), ("hostile", "findings"), ("broken", "unread")):
        load(browser, kinds[name], "#view=" + tab)
        for width, height in ((1440, 900), (390, 1900)):
            for theme in ("light", "dark"):
                browser.picture("%s/%s-%s-%d-%s.png" % (folder, name, tab, width, theme), width, height, theme)


def check_other_files(browser):
    """A file that is no report is told by what it is, and what was shown stays."""
    for data, what in [(b"\n\x0d\n\x032.0", "a snapshot of a feed"), (b"<!DOCTYPE html><title>", "a web page"), (b'{"header":{}}', "the JSON of show"), (b'{"a": 1}', "protobuf's own JSON"), (b"\x1f\x8b\x08", "gzip")]:
        browser.ask("""(() => { const data = new DataTransfer(); data.items.add(new File([new Uint8Array(%s)], 'other'));
            document.body.dispatchEvent(new DragEvent('drop', { dataTransfer: data, bubbles: true, cancelable: true })); })()""" % json.dumps(list(data)))
        told, until = "", time.time() + 5
        while "looks like" not in told or what not in told:
            told = text(browser, "#told")
            if time.time() > until:
                break
        expect("a dropped %s" % what, "looks like %s." % what in told, True)


def main():
    follow, standing = reports.followed()
    kinds = {"exchanged": reports.exchanged(), "accepted": reports.only_accepted(), "before": reports.of_before(), "refused": reports.only_refused(), "levels": reports.all_levels(), "follow": follow,
             "hostile": reports.hostile(), "broken": reports.broken(), "far": reports.far_ahead(), "crowd": reports.crowd(), "many": reports.many(), "empty": []}
    said = {name: Said(lines) for name, lines in kinds.items()}
    expect("what was made stands", len(said["follow"].standing), standing)
    browser = Browser()
    try:
        for name, lines in kinds.items():
            load(browser, lines, end="" if name in ("broken", "empty") else "\n")
            compare(browser, name, lines, said[name])
            if name not in ("many", "crowd"):
                compare_lists(browser, name, lines, said[name])
                check_names(browser, name)
            print("%s: %d lines compared" % (name, len(lines)))
        load(browser, kinds["accepted"])
        expect("nothing is wrong", text(browser, "#verdict"), "Nothing is wrong: 1 snapshot accepted, nothing found")
        load(browser, kinds["broken"], end="")
        expect("a report cut off", "cut off" in text(browser, "#doubts"), True)
        check_filters(browser, kinds["levels"], said["levels"])
        check_keys(browser, kinds["levels"])
        check_sentences(browser)
        check_contrast(browser, kinds["levels"], "levels")
        check_boxes(browser, {name: kinds[name] for name in ("levels", "refused", "follow", "crowd", "far", "hostile")})
        check_order_and_times(browser, kinds["levels"], said["levels"])
        check_routes(browser, kinds["levels"], said["levels"])
        check_routes(browser, kinds["crowd"], said["crowd"])
        check_width(browser, kinds["follow"], "follow")
        check_width(browser, kinds["hostile"], "hostile")
        check_time(browser, kinds["follow"], said["follow"])
        check_exchanged(browser, kinds["exchanged"], said["exchanged"])
        load(browser, kinds["far"], "#view=time")
        expect("great moments have a plot", browser.ask("document.querySelectorAll('#time svg path').length"), 2)
        check_drop(browser, kinds["levels"], said["levels"])
        check_other_files(browser)
        check_many(browser, kinds["many"], said["many"])
        expect("no fault, no breach of the policy, nothing fetched", browser.complaints(), [])
        check_hostile(browser, kinds["hostile"], said["hostile"])
        if len(sys.argv) > 1:
            pictures(browser, sys.argv[1], kinds)
    finally:
        browser.close()
    print("the page: %s" % ("%d faults" % len(faults) if faults else "all as the reports say"))
    sys.exit(1 if faults else 0)


if __name__ == "__main__":
    main()
