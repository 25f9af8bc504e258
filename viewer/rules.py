#!/usr/bin/env python3
"""Writes into report.html what is said elsewhere: the texts of rules, refusals and wrong files, and the hashes of its style and script.

    python3 viewer/rules.py            # writes them
    python3 viewer/rules.py --check    # status 1 where the page isn't as this would write it

The rules come from the tables of docs/rules.md, the refusals and what else a file may be from those of docs/report.md. The page's policy lets exactly this
style and this script in, so after each change of the page this is run again.
"""
import base64, hashlib, json, pathlib, re, sys

HERE = pathlib.Path(__file__).resolve().parent
PAGE = HERE / "report.html"
DOCS = HERE.parent / "docs"
BEGIN, END = "<!-- texts of docs/, by rules.py -->\n", "<!-- end of the texts -->"


def table_rows(text, columns):
    """The rows of all tables with so many columns, each with the heading that it stands below."""
    heading = ""
    for line in text.splitlines():
        if line.startswith("## "):
            heading = line[3:]
        cells = [cell.strip() for cell in line.strip().strip("|").split("|")]
        if line.startswith("| ") and len(cells) == columns:
            yield heading, cells


def titles():
    """Each rule's title, from the table of titles."""
    rows = table_rows((DOCS / "rules.md").read_text(), 2)
    return {re.match(r"\[(\w+)\]", rule)[1]: title for heading, (rule, title) in rows if heading == "Titles" and rule.startswith("[")}


def rules():
    title = titles()
    for heading, (name, place, facts, breaks, means) in table_rows((DOCS / "rules.md").read_text(), 5):
        rule = re.sub("<a[^>]*></a>", "", name)
        if re.fullmatch("[EWX][0-9]{3}", rule):
            on = "header" if heading == "The header" else "entity"
            yield {"rule": rule, "on": on, "title": title[rule], "breaks": breaks, "means": means}


def reasons():
    """Each reason by its whole name; a row may name several, as `MissingField(id)`, `(trip)`."""
    for heading, (names, wrong, look) in table_rows((DOCS / "report.md").read_text(), 3):
        if heading == "Why a snapshot is refused" and names.startswith("`"):
            stem = re.match("`([A-Za-z]+)", names)[1]
            what, _, where = wrong.rpartition("; ")
            for name in re.findall("`([^`]+)`", names):
                yield {"reason": stem + name if name.startswith("(") else name, "what": what, "where": where, "look": look}


def kinds():
    """What a file may be in place of a report: its first bytes in hex digits, the longest first, and what to do."""
    found = []
    for heading, (what, first, _, _, do) in table_rows((DOCS / "report.md").read_text(), 5):
        if heading == "What was fetched" and what != "What it is" and not what.startswith("---"):
            texts = [it.encode().hex() for it in re.findall("`([^`]+)`", first)]
            digits = [it.replace(" ", "") for it in re.findall(r"\b(?:[0-9a-f]{2}\b ?)+", re.sub("`[^`]*`", "", first)) if it.strip()]
            found += [{"what": what, "begins": it, "do": do} for it in texts + digits]
    return sorted(found, key=lambda row: (-len(row["begins"]), row["begins"]))


def data_block(name, rows):
    lines = ",\n".join(json.dumps(row, ensure_ascii=False).replace("<", "\\u003c") for row in rows)
    return '<script type="application/json" id="%s">[\n%s\n]</script>\n' % (name, lines)


def hash_of(text):
    return "'sha256-%s'" % base64.b64encode(hashlib.sha256(text.encode()).digest()).decode()


def written(page):
    front, _, rest = page.partition(BEGIN)
    _, _, back = rest.partition(END)
    page = front + BEGIN + data_block("rules", rules()) + data_block("reasons", reasons()) + data_block("kinds", kinds()) + END + back
    style = hash_of(re.search("<style>(.*?)</style>", page, re.S)[1])
    script = hash_of(re.search("<script>(.*?)</script>", page, re.S)[1])
    page = re.sub("style-src [^;]*;", "style-src %s;" % style, page, count=1)
    return re.sub("script-src [^;]*;", "script-src %s;" % script, page, count=1)


def main():
    page = PAGE.read_text()
    after = written(page)
    if sys.argv[1:] == ["--check"]:
        sys.exit("report.html isn't as viewer/rules.py writes it" if after != page else 0)
    PAGE.write_text(after)


if __name__ == "__main__":
    main()
