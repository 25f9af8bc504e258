#!/usr/bin/env python3
"""Holds docs/report.md's table of wrong files against the program: wrong_files.py [PROGRAM].

    apt-get install file; python3 vectors/wrong_files.py

The program is crates/rt_command/out/rt_command by default. Of each thing that the table "What was fetched" names a file is made from the examples,
and it has to begin with the row's first bytes; `check` has to say the row's reason, at its place where the row has one; and `file -b` what
the row says. Each that differs is printed, and the status is then 1.
"""
import base64, bz2, gzip, io, json, lzma, pathlib, re, subprocess, sys, tempfile, zipfile, zlib

TOP = pathlib.Path(__file__).resolve().parent.parent
FEED = (TOP / "examples/city.pb").read_bytes()
FORM = (TOP / "examples/city.json").read_bytes()


def zipped(data):
    held = io.BytesIO()
    with zipfile.ZipFile(held, "w") as archive:
        archive.writestr("feed.pb", data)
    return held.getvalue()


FILES = {
    "a web page": b"<!DOCTYPE html>\n<html><head><title>Sign in</title></head></html>\n",
    "XML": b'<?xml version="1.0" encoding="UTF-8"?>\n<Siri></Siri>\n',
    "an error text": b"404 page not found\n",
    "kept HTTP headers": b"HTTP/1.1 200 OK\r\nContent-Type: application/x-protobuf\r\n\r\n" + FEED,
    "protobuf's own JSON": b'{\n  "header": {\n    "gtfsRealtimeVersion": "2.0"\n  }\n}\n',
    "the JSON of `show`": FORM,
    "an empty object": b"{}",
    "gzip": gzip.compress(FEED),
    "zlib": zlib.compress(FEED),
    "bzip2": bz2.compress(FEED),
    "xz": lzma.compress(FEED),
    "zip": zipped(FEED),
    "base64": base64.encodebytes(FEED),
    "empty": b"",
    "a length in front": b"\0" + len(FEED).to_bytes(4, "big") + FEED,
}


def rows():
    """The rows of the table: what it is, first bytes, reason, place, what `file` says."""
    text = (TOP / "docs/report.md").read_text(encoding="utf-8")
    part = text[text.index("## What was fetched") :].split("\n## ")[0]
    for line in part.split("\n"):
        cells = [cell.strip() for cell in line.strip("|").split("|")]
        if len(cells) == 5 and cells[2].startswith("`") and cells[0] != "What it is":
            at = re.search(r" at (\d+)", cells[2])
            yield cells[0], cells[1], cells[2].split("`")[1], at and int(at[1]), cells[3].strip("`")


def begins(data, said):
    """Whether bytes begin as a cell says: with one of its texts, or of its hex digits."""
    texts = [it.encode() for it in re.findall("`([^`]+)`", said)]
    digits = [bytes.fromhex(it) for it in re.findall(r"\b(?:[0-9a-f]{2}\b ?)+", re.sub("`[^`]*`", "", said)) if it.strip()]
    return not data if said == "none" else data.startswith(tuple(texts + digits))


def main():
    program = sys.argv[1] if len(sys.argv) > 1 else str(TOP / "crates/rt_command/out/rt_command")
    left, wrong = dict(FILES), 0
    with tempfile.TemporaryDirectory() as folder:
        for name, first, reason, at, kind in rows():
            data, file = left.pop(name), pathlib.Path(folder, "feed.pb")
            file.write_bytes(data)
            ran = subprocess.run([program, "check", "--now", "1700034600", str(file)], stdout=subprocess.PIPE, text=True)
            line = json.loads(ran.stdout.split("\n")[0])
            told = subprocess.run(["file", "-b", str(file)], stdout=subprocess.PIPE, text=True, check=True).stdout.strip()
            is_as_said = begins(data, first) and line.get("reason") == reason and at in (None, line.get("at")) and told.startswith(kind)
            if not is_as_said:
                wrong += 1
                print(f"{name}: begins with {data[:8].hex(' ')}; {line.get('reason')} at {line.get('at')}; {told}")
    for name in left:
        wrong += 1
        print(f"{name}: docs/report.md has no row")
    print(f"wrong files: {len(FILES) - wrong} of {len(FILES)} are as docs/report.md says")
    return 1 if wrong else 0


if __name__ == "__main__":
    sys.exit(main())
