#!/usr/bin/env python3
"""Where the gate's time goes.

    python3 bench/gate.py [CRATE..]

Runs `rt ci` from nothing, over all crates or, where the kit's `rt ci` takes names, over these, and prints the processor minutes
of each crate's proof, of its first must-fail edit (which proves the crate again), of its further ones and of its tests, what `rt` itself
took (most of it for stamps, tools/paths.py), then the twenty slowest edits. The last line has the minutes on the clock, those of all processors, how many minutes the longest chain of crates takes to
prove, one after the other, and how rt ci ended. What rt ci prints goes to standard error. The table of docs/gate.md is made of this
one. Which part of a crate is slow is told by bench/modules.py.
"""

import collections
import os
import re
import subprocess
import sys
import threading
import time

TICKS = os.sysconf("SC_CLK_TCK")
TOP = subprocess.run(["git", "rev-parse", "--show-toplevel"], capture_output=True, text=True, check=True).stdout.strip()


def read(path):
    try:
        with open(path, "rb") as file:
            return file.read()
    except OSError:
        return b""


def processes():
    """Each process by number: its parent, and its processor seconds."""
    found = {}
    for name in filter(str.isdigit, os.listdir("/proc")):
        text = read(f"/proc/{name}/stat").decode(errors="replace")
        if text:
            fields = text[text.rindex(")") + 2 :].split()
            found[int(name)] = int(fields[1]), (int(fields[11]) + int(fields[12])) / TICKS
    return found


def descendants(root, table):
    children = collections.defaultdict(list)
    for number, (parent, _) in table.items():
        children[parent].append(number)
    found, left = [], [root]
    while left:
        number = left.pop()
        found.append(number)
        left.extend(children[number])
    return found


def work_of(number):
    """What a process works on: a crate, a kind of work, and the folder of an edit."""
    words = read(f"/proc/{number}/cmdline").decode(errors="replace").split("\0")
    try:
        folder = os.readlink(f"/proc/{number}/cwd")
    except OSError:
        folder = ""
    if "--crate-name" not in words:
        return None
    crate = words[words.index("--crate-name") + 1]
    if "/rt-edit" in folder:
        return crate, "edits", folder
    return crate, "tests" if "--test" in words else "proofs", ""


def edit_in(crate, folder):
    """The name of the edit that a folder has, by the text that it put there."""
    at = f"{TOP}/crates/{crate}/must-fail"
    for name in sorted(os.listdir(at)) if os.path.isdir(at) else []:
        text = read(f"{at}/{name}").decode(errors="replace")
        source = re.search(r"^file: (.*)$", text, re.M)
        news = [line[4:].strip() for line in text.split("\n") if line.startswith("new:")]
        if source and news and news[-1] in read(f"{folder}/{source[1].strip()}").decode(errors="replace"):
            return f"{crate}/{name}"
    return None


class Meter(threading.Thread):
    """Adds up the processor time of a process and all below it, by what they work on."""

    def __init__(self, root):
        super().__init__(daemon=True)
        self.root, self.seconds, self.works, self.names, self.ended = root, {}, {}, {}, False
        self.folders = collections.defaultdict(list)

    def run(self):
        while not self.ended:
            table = processes()
            for number in descendants(self.root, table):
                if number in table:
                    self.seconds[number] = table[number][1]
                    if self.works.get(number) is None:
                        self.works[number] = work_of(number)
                    work = self.works[number]
                    if work and work[2] and work[2] not in self.names:
                        self.names[work[2]] = edit_in(work[0], work[2])
                        self.folders[work[0]].append(work[2])
            time.sleep(0.4)


def gate():
    """The words of a gate from nothing: a kit whose `rt ci` keeps what passed has a flag for it, and one that keeps nothing takes no words."""
    said = subprocess.run(["rt", "help"], capture_output=True, text=True)
    if "--anew" in said.stdout + said.stderr:
        return ["rt", "ci", "--anew", *sys.argv[1:]]
    if sys.argv[1:]:
        sys.exit("gate.py: this kit's rt ci takes no names of crates")
    return ["rt", "ci"]


def longest_chain(seconds):
    """The seconds of the chain of crates that takes longest to prove, and its crates, lowest first."""
    below = {}
    for line in read(f"{TOP}/crates.txt").decode().split("\n"):
        name, found, names = line.partition("#")[0].partition(":")
        if found:
            below[name.split()[0]] = names.split()
    found = {}

    def chain(crate):
        if crate not in found:
            found[crate] = max((chain(it) for it in below[crate] if it in below), default=(0.0, []))
            found[crate] = found[crate][0] + seconds.get(crate, 0.0), [*found[crate][1], crate]
        return found[crate]

    return max(map(chain, below), default=(0.0, []))


def main():
    begin = time.monotonic()
    child = subprocess.Popen(gate(), cwd=TOP, text=True, stdout=subprocess.PIPE, stderr=subprocess.STDOUT)
    meter = Meter(child.pid)
    meter.start()
    closing = ""
    for line in child.stdout:
        print(line, end="", file=sys.stderr, flush=True)
        closing = line.strip() or closing
    status = child.wait()
    meter.ended = True
    meter.join()
    by_crate, by_edit, other = collections.defaultdict(collections.Counter), collections.Counter(), 0.0
    for number, seconds in meter.seconds.items():
        work = meter.works.get(number)
        if work is None:
            other += seconds
            continue
        is_first = meter.folders[work[0]][:1] == [work[2]]
        by_crate[work[0]]["first edit" if is_first else work[1]] += seconds
        if work[2]:
            by_edit[meter.names.get(work[2]) or f"{work[0]}, unedited"] += seconds
    kinds = ("proofs", "first edit", "edits", "tests")
    print(f"{'processor minutes':24}" + "".join(f"{kind:>12}" for kind in kinds))
    for crate in sorted(by_crate):
        print(f"{crate:24}" + "".join(f"{by_crate[crate][kind] / 60:12.1f}" for kind in kinds))
    sums = [sum(row[kind] for row in by_crate.values()) for kind in kinds]
    print(f"{'all crates':24}" + "".join(f"{seconds / 60:12.1f}" for seconds in sums))
    print(f"{'rt itself, and linking':24}{other / 60:12.1f}")
    print("\nslowest edits, in processor seconds")
    for name, seconds in by_edit.most_common(20):
        print(f"{seconds:7.0f} {name}")
    chain, names = longest_chain({crate: row["proofs"] for crate, row in by_crate.items()})
    print(f"\nthe longest chain: {', '.join(names)}")
    print(
        f"{(time.monotonic() - begin) / 60:.1f} minutes, {(sum(sums) + other) / 60:.1f} of all processors,"
        f" {chain / 60:.1f} along the longest chain; {closing}"
    )
    return status


if __name__ == "__main__":
    sys.exit(main())
