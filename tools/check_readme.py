#!/usr/bin/env python3
"""Runs each command that the documents show with what it prints, and compares: check_readme.py [PROGRAM].

    python3 tools/check_readme.py crates/rt_command/out/rt_command

In README.md and docs/*.md a command is an indented line that begins with `$ `; the lines below it, up to the next command or an empty line,
are what it prints, standard error included. It is run by bash in the repository's folder with the program on the PATH as `rt_command`. A
command that differs is printed with both texts, and the status is then 1.
"""
import difflib
import pathlib
import subprocess
import sys
import tempfile

TOP = pathlib.Path(__file__).resolve().parent.parent


def commands(text):
    """The line, the command and the wanted text of each."""
    wanted, found = None, []
    for number, line in enumerate(text.split("\n"), 1):
        shown = line[4:] if line.startswith("    ") else None
        if shown is not None and shown.startswith("$ "):
            wanted = []
            found.append((number, shown[2:], wanted))
        elif shown is not None and wanted is not None:
            wanted.append(shown)
        else:
            wanted = None
    return found


def main():
    program = pathlib.Path(sys.argv[1] if len(sys.argv) > 1 else TOP / "crates/rt_command/out/rt_command").resolve()
    count = others = 0
    with tempfile.TemporaryDirectory() as folder:
        (pathlib.Path(folder) / "rt_command").symlink_to(program)
        path = f"{folder}:/usr/local/bin:/usr/bin:/bin"
        for file in [TOP / "README.md", *sorted((TOP / "docs").glob("*.md"))]:
            for number, command, wanted in commands(file.read_text(encoding="utf-8")):
                ran = subprocess.run(["bash", "-c", command], cwd=TOP, env={"PATH": path}, stdout=subprocess.PIPE, stderr=subprocess.STDOUT, text=True)
                told, count = ran.stdout.rstrip("\n").split("\n"), count + 1
                if told != wanted:
                    others += 1
                    print(f"{file.relative_to(TOP)}:{number}: {command}")
                    print("\n".join(difflib.unified_diff(wanted, told, "shown", "printed", lineterm="")))
    print(f"documents: {count - others} of {count} commands print what is shown")
    return 1 if others or not count else 0


if __name__ == "__main__":
    sys.exit(main())
