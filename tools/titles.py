#!/usr/bin/env python3
"""Writes crates/summary_text/src/titles.rt, each rule's title and what it means, from the tables of docs/rules.md.

    python3 tools/titles.py            # writes it
    python3 tools/titles.py --check    # status 1 where the file isn't as this would write it

The viewer has the same texts, by viewer/rules.py, whose reading of the tables this is.
"""
import pathlib
import sys

TOP = pathlib.Path(__file__).resolve().parent.parent
FILE = TOP / "crates/summary_text/src/titles.rt"
sys.path.insert(0, str(TOP / "viewer"))
sys.dont_write_bytecode = True
from rules import rules  # noqa: E402


HEAD = """//! Each rule's title, and what it means and how to mend it, as docs/rules.md says them. Written by tools/titles.py.

use rule_table::RuleId;

/// What is said of a rule.
struct RuleTexts {
    rule: RuleId,
    /// It in a few words.
    title: &'static str,
    /// What it means on a header, and how to mend it; empty where it is judged on none.
    on_header: &'static str,
    /// The same at an entity.
    at_entity: &'static str,
}

/// A rule in a few words.
pub fn title_of(rule: RuleId) -> &'static str {
    match texts_of(rule) {
        Some(texts) => texts.title,
        None => "",
    }
}

/// What a rule means where it breaks on a header, or at an entity.
pub fn meaning_of(rule: RuleId, is_on_header: bool) -> &'static str {
    match texts_of(rule) {
        Some(texts) => meaning_in(texts, is_on_header),
        None => "",
    }
}

// The text of the other place where this one has none.
fn meaning_in(texts: &'static RuleTexts, is_on_header: bool) -> &'static str {
    if texts.at_entity.is_empty() || is_on_header && !texts.on_header.is_empty() {
        texts.on_header
    } else {
        texts.at_entity
    }
}

fn texts_of(rule: RuleId) -> Option<&'static RuleTexts> {
    TEXTS.iter().find(|texts| texts.rule == rule)
}

const TEXTS: &[RuleTexts] = &[
"""


def quoted(text):
    return '"' + text.replace("`", "").replace("\\", "\\\\").replace('"', '\\"') + '"'


def member(name, text):
    return f"        {name}: {quoted(text)},\n"


def written():
    texts = {}
    for row in rules():
        texts.setdefault(row["rule"], {"title": row["title"], "header": "", "entity": ""})[row["on"]] = row["means"]
    rows = "".join(
        f"    RuleTexts {{\n        rule: RuleId::{rule},\n" + member("title", row["title"]) + member("on_header", row["header"]) + member("at_entity", row["entity"]) + "    },\n"
        for rule, row in sorted(texts.items()))
    return HEAD + rows + "];\n"


def main():
    text = written()
    if sys.argv[1:] == ["--check"]:
        same = FILE.read_text(encoding="utf-8") == text
        print(f"titles: {text.count('RuleId::')} rules, their texts the same as in docs/rules.md" if same else f"{FILE.relative_to(TOP)} isn't as tools/titles.py writes it")
        return 0 if same else 1
    FILE.write_text(text, encoding="utf-8")
    return 0


if __name__ == "__main__":
    sys.exit(main())
