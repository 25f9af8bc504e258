#!/usr/bin/env python3
"""Where the work of `rt_command check` goes, by crate: profile.py [PROGRAM].

Counts instructions under valgrind (Debian's valgrind), over a snapshot in which no rule breaks, and over trips with 20 updates
each and vehicles of three of ten, with a timetable of twice as many trips. A function's instructions count for the crate that
its name begins with; what a crate calls of another, and what the compiler puts into a caller, counts where it stands. Memory
calls and copies of the C library stand by themselves. The last line counts decoding, freeing what was decoded, and rules, with
all that they call.
"""
import collections, os, re, subprocess, sys, tempfile
from judging import trips_and_vehicles
from measuring import make, program

CODEC = ("rt_wire", "feed_values", "feed_codec")
RULES = ("rule_table", "rule_clear", "rule_history", "message_rules", "schedule_rules", "pairing_rules", "history_rules", "judging", "quiet_vehicles")
# Functions that call all of decoding, or all that is done with entities: of each the call that takes most.
DECODE = ("feed_stream::splitter::Splitter::feed_beside", "feed_codec::entity::decode_entity")
JUDGE = ("run_snapshot::findings::send_entities", "snapshot_keys::rows::add_rows")
# What is called there beside: decoding each entity, freeing what was decoded, and its lines.
FREE = "std_alloc::boxed::Box::drop::"
BESIDE = ("feed_codec::entity::decode_entity", FREE, "rt_report::lines::Lines::push")


def crate_of(name):
    found = re.match(r"<?(\w+)::", name)
    return found.group(1) if found else "C library"


def functions(out, *flags):
    """Instructions by function: pairs of a name and a count."""
    text = subprocess.run(["callgrind_annotate", "--threshold=100", *flags, out], capture_output=True, text=True, check=True).stdout
    for line in text.splitlines():
        found = re.match(r"\s*([\d,]+) \([ \d.]+%\)\s+\S+?:(.+?)(?: \[|$)", line)
        if found:
            yield found.group(2), int(found.group(1).replace(",", ""))


def counted(words):
    """Instructions by crate, of a run with these words, and those of the functions of DECODE and JUDGE with all that they call."""
    with tempfile.TemporaryDirectory() as folder:
        out = os.path.join(folder, "out")
        subprocess.run(["valgrind", "--tool=callgrind", "--callgrind-out-file=" + out, program()] + words,
                       stdout=subprocess.DEVNULL, stderr=subprocess.DEVNULL, check=False)
        crates = collections.Counter()
        for name, count in functions(out):
            crates[crate_of(name)] += count
        whole = collections.Counter()
        for name, count in functions(out, "--inclusive=yes"):
            for begin in set(DECODE + JUDGE + BESIDE):
                if name.startswith(begin):
                    whole[begin] = max(whole[begin], count)
    return crates, whole


def show(name, run):
    crates, calls = run
    whole = sum(crates.values())
    print("%s: %.1f million instructions" % (name, whole / 1e6))
    for crate, count in crates.most_common(14):
        print("    %-16s %8.1f %6.1f %%" % (crate, count / 1e6, 100 * count / whole))
    print("    decoding (%s) %.1f, rules (%s) %.1f" % (", ".join(CODEC), sum(crates[c] for c in CODEC) / 1e6,
                                                       ", ".join(RULES), sum(crates[c] for c in RULES) / 1e6))
    rules = sum(calls[f] for f in JUDGE) - sum(calls[f] for f in BESIDE)
    print("    with all that they call: decoding %.1f and %.1f for freeing, rules %.1f" % (sum(calls[f] for f in DECODE) / 1e6, calls[FREE] / 1e6, rules / 1e6))


def main():
    now = ["--now", "1700000010"]
    with tempfile.TemporaryDirectory() as folder:
        name, table = os.path.join(folder, "snapshot"), os.path.join(folder, "timetable")
        make("snapshot.py", str(1 << 20), name)
        show("1 MiB, nothing breaks", counted(["check", *now, name]))
        make("timetable.py", str(40 * 300), table)
        with open(name, "wb") as file:
            file.write(trips_and_vehicles(300))
        show("300 trips and 90 vehicles, with a timetable", counted(["check", "--timetable", table, *now, name]))
        with open(name, "wb") as file:
            file.write(b"")
        show("the timetable alone", counted(["check", "--timetable", table, *now, name]))


if __name__ == "__main__":
    main()
