#!/usr/bin/env python3
"""Checks that each rule has one title, and the same one wherever it stands.

    python3 tools/rule_titles.py

The rules are those of crates/rule_table, the titles those of the table "Titles" of docs/rules.md. Each title's link leads to one row of that
page, and the viewer has the same titles. What differs is printed; the status is then 1.
"""
import json
import pathlib
import re
import sys

TOP = pathlib.Path(__file__).resolve().parent.parent
LONGEST = 52  # so that a line of 80 columns has room for the level, the rule and its counts


def titles():
    """Each row of the table: the rule, the link's anchor, the title."""
    text = (TOP / "docs/rules.md").read_text(encoding="utf-8")
    return text, re.findall(r"(?m)^\| \[([EWX]\d{3})\]\(#(\w+)\) \| (.+?) \|$", text)


def viewer_titles():
    page = (TOP / "viewer/report.html").read_text(encoding="utf-8")
    rows = json.loads(re.search(r'(?s)<script type="application/json" id="rules">(.*?)</script>', page)[1])
    return {(row["rule"], row["title"]) for row in rows}


def main():
    faults = []
    text, rows = titles()
    names = re.findall(r'RuleId::\w+ => "([EWX]\d{3})"', (TOP / "crates/rule_table/src/rule.rt").read_text(encoding="utf-8"))
    table = {rule: title for rule, _, title in rows}
    if sorted(names) != sorted(rule for rule, _, _ in rows):
        faults.append(f"not once in the table of titles: {sorted(set(names) ^ set(table)) or 'a rule stands twice'}")
    if len(set(table.values())) != len(rows):
        faults.append("two rules have one title")
    for rule, anchor, title in rows:
        if len(title) > LONGEST:
            faults.append(f"{rule}: its title has {len(title)} characters, more than {LONGEST}")
        if text.count(f'| <a id="{anchor}"></a>{rule} |') != 1:
            faults.append(f"{rule}: its link #{anchor} leads to no row, or to two")
    if viewer_titles() != set(table.items()):
        faults.append(f"the viewer's titles differ: {sorted(viewer_titles() ^ set(table.items()))}")
    print(*faults, sep="\n", end="\n" if faults else "")
    print(f"titles: {len(rows)} of {len(names)} rules have one, the same in docs/rules.md and the viewer" if not faults else f"titles: {len(faults)} faults")
    return 1 if faults else 0


if __name__ == "__main__":
    sys.exit(main())
