#!/usr/bin/env python3
"""Lines of a report with each of their bytes changed in turn, against `verify`: verify.py [PROGRAM].

Each finding of the evening in examples/ is printed with one byte replaced, removed or doubled, at every place. What of it is still confirmed has to
be in the one form of its JSON, and to ask what the finding asks, at the same path and with the same rule and level: then only a value, a
feed, an id or a number of a snapshot was changed. The finding itself has to be confirmed. Python's json is the independent reader.
"""
import json, os, subprocess, sys, tempfile

HERE = os.path.dirname(os.path.abspath(__file__))
PROGRAM = os.path.abspath(sys.argv[1] if len(sys.argv) > 1 else os.path.join(HERE, "../crates/rt_command/out/rt_command"))


def form(tree):
    """The one form of a line."""
    return json.dumps(tree, sort_keys=True, separators=(",", ":"), ensure_ascii=False).encode()


def asked(finding):
    return [finding[key] for key in ("rule", "path", "level")], [(fact["ask"], fact["keys"]) for fact in finding["facts"]]


def changed(line):
    for i, byte in enumerate(line):
        yield line[:i] + line[i + 1 :]
        yield line[:i] + line[i : i + 1] + line[i:]
        for other in (byte ^ 1, byte ^ 32, ord("7")):
            if other not in (byte, 10):
                yield line[:i] + bytes([other]) + line[i + 1 :]


def verdicts(lines):
    with tempfile.NamedTemporaryFile(delete=False) as file:
        file.write(b"\n".join(lines) + b"\n")
    said = subprocess.run([PROGRAM, "verify", file.name], stdout=subprocess.PIPE).stdout.decode().split("\n")
    os.unlink(file.name)
    return {told["number"]: told["verdict"] for told in map(json.loads, filter(None, said)) if told["line"] == "verdict"}


def main():
    report = subprocess.run([PROGRAM, "follow", "--list", "examples/evening.csv"], stdout=subprocess.PIPE, cwd=os.path.join(HERE, "..")).stdout
    findings = [line for line in report.split(b"\n") if b'"line":"opened"' in line]
    tried = confirmed = wrong = 0
    for line in findings:
        lines = [line, *changed(line)]
        answers, meant = verdicts(lines), json.loads(line)
        wrong += answers[1] != "confirmed"
        for number, answer in answers.items():
            if answer == "confirmed":
                found = json.loads(lines[number - 1])
                confirmed += 1
                wrong += form(found) != lines[number - 1] or asked(found) != asked(meant)
        tried += len(lines)
    print(f"{len(findings)} findings, {tried} lines, {confirmed} confirmed, {wrong} wrong")
    return 1 if wrong or not findings else 0


sys.exit(main())
