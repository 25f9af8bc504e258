#!/usr/bin/env python3
"""Which parts of a crate take long to prove.

    python3 bench/modules.py CRATE [COUNT]

Checks the crate by one job over the libraries below it, which are proved first where they aren't, and prints the seconds of its COUNT slowest
modules (30 by default), as told by the times at which the check kept them; then their sums by kind, and the processor seconds of the
check. What earlier checks of the crate kept is set aside and put back.

A function has a module `Lts`, its code as the prover sees it, and others for its proof. Code is nearly always what is dear: each way out of a
function gives up what the function owns there, and where that is a struct of many fields, or one that holds such structs, all of it stands in
the code at each of them. Box it, lend it to a function that does the rest, or give names to fewer parts before the first way out.
"""

import collections
import os
import re
import resource
import shutil
import subprocess
import sys

TOP = subprocess.run(["git", "rev-parse", "--show-toplevel"], capture_output=True, text=True, check=True).stdout.strip()
KINDS = [(r"\.Lts\b", "code"), (r"\.Proof\b", "proofs"), (r"-specs\.contracts\.", "contracts"), (r"-specs\.", "definitions")]


def kept_times(folder):
    """The files that a check kept: when, and the module, in the order of time."""
    found = []
    for at, _, names in os.walk(folder):
        found += [(os.stat(f"{at}/{name}").st_mtime, name) for name in names]
    return sorted(found)


def main():
    crate, count = sys.argv[1], int(sys.argv[2]) if len(sys.argv) > 2 else 30
    kept, aside = f"{TOP}/crates/{crate}/out/incremental", f"{TOP}/crates/{crate}/out/aside"
    if os.path.isdir(kept):
        os.rename(kept, aside)
    before = resource.getrusage(resource.RUSAGE_CHILDREN)
    ran = subprocess.run(["rt", "check", "--jobs", "1"], cwd=f"{TOP}/crates/{crate}", text=True, stdout=subprocess.PIPE, stderr=subprocess.STDOUT)
    after = resource.getrusage(resource.RUSAGE_CHILDREN)
    rows, sums, last = [], collections.Counter(), None
    for moment, name in kept_times(kept):
        if last is not None:
            rows.append((moment - last, name))
            sums[next((kind for test, kind in KINDS if re.search(test, name)), "the rest")] += moment - last
        last = moment
    shutil.rmtree(kept, ignore_errors=True)
    if os.path.isdir(aside):
        os.rename(aside, kept)
    for seconds, name in sorted(rows, reverse=True)[:count]:
        module = re.sub(r"(\.decls)?\.oantt$", "", name)
        print(f"{seconds:8.1f} {module}")
    print(", ".join(f"{kind} {seconds:.0f}" for kind, seconds in sums.most_common()))
    spent = after.ru_utime + after.ru_stime - before.ru_utime - before.ru_stime
    print(f"{spent:.0f} processor seconds; {ran.stdout.strip().splitlines()[-1][:80]}")
    return ran.returncode


if __name__ == "__main__":
    sys.exit(main())
