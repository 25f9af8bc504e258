#!/usr/bin/env python3
"""What the program answers where the system refuses, one request at a time: refusals.py [PROGRAM].

A small library, which `cc` compiles and the loader puts before the C library (LD_PRELOAD), counts the program's requests for memory and its
calls of open, read and write, and refuses one of them. For each run of a table it goes through:

- memory: each request refused by itself, and each with all that follow. The run has to end with status 5 and `out of memory`, or, where it goes on
  without what was refused, as it does otherwise; what it wrote is a front of its report.
- open, read and write: each call answered by an error. The run has to end with status 3 and name the file, or with status 4 where the call was a
  write; what it wrote is a front of its report.
- reads and writes of one byte each: the run ends as it does otherwise.

A second table has files that are no plain ones, outputs that take nothing, words that are no texts, and clocks that tell no time. Then it asks whether the engine decodes an entity again that comes again with the same bytes: how many requests a list of two such snapshots makes, and how
many one of three. To decode it takes 2,000 requests, one for each of its stops, so 1,000 more say that it doesn't, and 2,000 that it does.

The program is crates/rt_command/out/rt_command by default. What is wrong is printed, and the status is then 1. The last line counts runs.
"""
import os, subprocess, sys, tempfile

HERE = os.path.dirname(os.path.abspath(__file__))
sys.path.insert(0, os.path.join(HERE, "../bench"))
from snapshot import number, payload

PROGRAM = os.path.abspath(sys.argv[1] if len(sys.argv) > 1 else os.path.join(HERE, "../crates/rt_command/out/rt_command"))

# REFUSED has the kind, the number from 0 of the request that is refused, and the number of the last one; COUNTED the file that is told how many of each
# kind were made, and below it the file that was asked for last.
LIBRARY = r"""
#include <errno.h>
#include <fcntl.h>
#include <stdarg.h>
#include <stdio.h>
#include <stdlib.h>
#include <string.h>
#include <sys/syscall.h>
#include <time.h>
#include <unistd.h>

extern void *__libc_malloc(size_t), *__libc_realloc(void *, size_t);

enum { MEMORY, OPEN, READ, WRITE, KINDS };
static long made[KINDS], kind = -1, first, last, begun, is_short;
static char asked[1000];

__attribute__((constructor)) static void begin(void) {
    const char *said = getenv("REFUSED");
    if (said)
        sscanf(said, "%ld %ld %ld", &kind, &first, &last);
    is_short = getenv("SHORT") != 0;
    begun = 1;
}

__attribute__((destructor)) static void end(void) {
    begun = 0;
    const char *name = getenv("COUNTED");
    if (!name)
        return;
    char text[1200];
    int length = snprintf(text, sizeof text, "%ld %ld %ld %ld\n%s", made[MEMORY], made[OPEN], made[READ], made[WRITE], asked);
    int file = syscall(SYS_openat, AT_FDCWD, name, O_WRONLY | O_CREAT | O_TRUNC, 0600);
    syscall(SYS_write, file, text, length);
}

static int is_refused(int it) {
    long now = begun ? made[it]++ : -1;
    return begun && kind == it && first <= now && now <= last;
}

void *malloc(size_t size) { return is_refused(MEMORY) ? 0 : __libc_malloc(size); }

void *realloc(void *old, size_t size) { return is_refused(MEMORY) ? 0 : __libc_realloc(old, size); }

int open(const char *name, int flags, ...) {
    va_list rest;
    va_start(rest, flags);
    int mode = va_arg(rest, int);
    va_end(rest);
    snprintf(asked, sizeof asked, "%s", name);
    if (is_refused(OPEN)) {
        errno = EACCES;
        return -1;
    }
    return syscall(SYS_openat, AT_FDCWD, name, flags, mode);
}

int clock_gettime(clockid_t clock, struct timespec *now) {
    const char *said = getenv("CLOCK");
    if (said && !strcmp(said, "none")) {
        errno = EPERM;
        return -1;
    }
    int rc = syscall(SYS_clock_gettime, clock, now);
    if (said && !strcmp(said, "early"))
        now->tv_sec = -5;
    return rc;
}

ssize_t read(int file, void *bytes, size_t size) {
    if (is_refused(READ)) {
        errno = EIO;
        return -1;
    }
    return syscall(SYS_read, file, bytes, is_short && size ? 1 : size);
}

ssize_t write(int file, const void *bytes, size_t size) {
    if (is_refused(WRITE)) {
        errno = ENOSPC;
        return -1;
    }
    return syscall(SYS_write, file, bytes, is_short && size ? 1 : size);
}
"""
MEMORY, OPEN, READ, WRITE = range(4)
NOW = ["--now", "1700000010"]


# The files of the runs.

def header(stamp=1700000000):
    return payload(1, payload(1, b"2.0") + number(2, 0) + number(3, stamp))


def update(vehicle, stops, trip=b"T1", date=b"", related=True):
    """An entity with a trip update, whose vehicle may be none."""
    said = payload(1, trip) + (payload(3, date) if date else b"") + (number(4, 0) if related else b"")
    named = payload(3, payload(1, vehicle)) if vehicle else b""
    return payload(2, payload(1, b"a") + payload(3, payload(1, said) + b"".join(payload(2, it) for it in stops) + named + number(4, 1700000000)))


def position(vehicle):
    trip = payload(1, b"T1") + number(4, 0)
    return payload(2, payload(1, b"p") + payload(4, payload(1, trip) + number(5, 1700000000) + payload(8, payload(1, vehicle))))


def stop(sequence, delay=0, relation=0, id=b""):
    return number(1, sequence) + payload(2, number(1, delay)) + (payload(4, id) if id else b"") + number(5, relation)


def table(*lines):
    return "".join(line + "\n" for line in lines).encode()


CALENDAR = table("service_id,monday,tuesday,wednesday,thursday,friday,saturday,sunday,start_date,end_date", "WK,1,1,1,1,1,0,0,20231101,20231231")
TIMES = "trip_id,arrival_time,departure_time,stop_id,stop_sequence"
OFTEN = header() + update(b"v", [stop(n, 0, 0, b"Q%d" % n) for n in range(1, 2001)])
FILES = {
    "header": header(),
    "ten_bytes": bytes.fromhex("0A 12 0A 03 32 2E 30 10 00 18 80 E2 CF AA 86 80 80 80 80 7E"),
    "late": header() + payload(2, payload(1, b"l") + payload(3, payload(1, payload(1, b"L1") + payload(3, b"20231114"))
                               + payload(2, number(1, 3) + payload(2, number(1, 300))) + payload(2, number(1, 8) + payload(2, number(1, 60)))
                               + payload(2, number(1, 10) + number(5, 2)))),
    "t": header() + update(b"v1", [stop(1)]),
    "p1": header() + position(b"v1"),
    "p2": header(1700000030) + position(b"v2"),
    "p3": header(1700000060),
    "pairs": table("0,1700000000,t", "1,1700000000,p1", "1,1700000030,p2", "1,1700000060,p3"),
    "published": table("0,1700000000,t", "timetable,,line", "1,1700000000,p1", "timetable,,odd", "timetable,,none"),
    "listed": table("timetable,,header"),
    "cut_off": header()[:-1],
    "alert": header() + payload(2, payload(1, b"z") + payload(5, payload(1, number(1, 1700000000) + number(2, 1700000100)) + payload(5, payload(2, b"R1")))),
    "unknown": header() + payload(2, payload(1, b"a") + number(15, 1) + bytes.fromhex("7B 08 01 7C")),
    "text": b"no JSON",
    "often": OFTEN,
    "twice": table(*["0,1700000000,often"] * 2),
    "thrice": table(*["0,1700000000,often"] * 3),
    "line/agency.txt": table("agency_id", "A1"),
    "line/routes.txt": table("route_id", "R1", "R2"),
    "line/calendar.txt": CALENDAR,
    "line/stops.txt": table("stop_id", *("Q%d" % n for n in range(1, 21))),
    "line/trips.txt": table("route_id,service_id,trip_id", "R1,WK,L1"),
    "line/stop_times.txt": table(TIMES, *("L1,08:%02d:00,08:%02d:00,Q%d,%d" % (n - 1, n - 1, n, n) for n in range(1, 21))),
    "odd/agency.txt": table("agency_id", "A1"),
    "odd/routes.txt": table("route_id", "R1", "R2"),
    "odd/stops.txt": table("stop_id,location_type", "S1,", "S2,0", "S3,", "P1,1"),
    "odd/trips.txt": table("route_id,service_id,trip_id,direction_id", "R1,WK,T1,0", "R1,WK,T2,", "R2,WK,F1,"),
    "odd/stop_times.txt": table(TIMES, "T1,08:00:00,08:00:00,S1,1", "T1,8:61:00,08:11:00,S2,2"),
}
# What is run, the status that it ends with, and how many lines it writes.
RUNS = [
    ("a header", ["check", *NOW, "header"], 0, 1),
    ("a header, shown", ["show", "ten_bytes"], 0, 1),
    ("its JSON, encoded", ["encode", "shown"], 0, None),
    ("unknown fields, shown", ["show", "unknown"], 0, 1),
    ("no JSON", ["encode", "text"], 6, 0),
    ("twenty stops", ["predict", "--timetable", "line", "--zone-rule", "UTC0", *NOW, "late"], 0, 41),
    ("a vehicle that changes", ["follow", "--list", "pairs"], 1, 12),
    ("the same with a timetable", ["follow", "--timetable", "line", "--list", "pairs"], 1, None),
    ("timetables in a list", ["follow", "--list", "published"], 1, None),
    ("several snapshots", ["check", *NOW, "t", "cut_off", "p2"], 1, None),
    ("a bad time", ["check", "--timetable", "odd", *NOW, "header"], 6, 0),
    ("no folder", ["check", "--timetable", "none", *NOW, "header"], 6, 0),
    ("a union", ["merge", "t", "p1"], 0, None),
    ("a refused union", ["merge", "t", "cut_off"], 1, 1),
    ("a report", ["verify", "report"], 0, None),
    ("alerts in force", ["alerts", *NOW, "--route", "R1", "alert", "p1"], 0, 4),
]

# What is run of odd things, its status, what it writes to its output where that is told, and what to its error stream.
ODD = [
    ("a folder", ["check", "line"], 3, b"", b"read fault: line\n"),
    ("a path through a file", ["check", "header/x"], 3, b"", b"read fault: header/x\n"),
    ("a name of 5,000 bytes", ["check", "x" * 5000], 3, b"", b"read fault: " + b"x" * 5000 + b"\n"),
    ("a link to itself", ["check", "loop"], 3, b"", b"read fault: loop\n"),
    ("a link to nothing", ["check", "dangling"], 1, b'{"at":0,"line":"refused","reason":"NoFile","row":0}\n', b""),
    ("a device that is empty", ["check", "/dev/null"], 1, b'{"at":0,"line":"refused","reason":"MissingField(header)","row":0}\n', b""),
    ("a device without an end", ["check", "/dev/zero"], 1, b'{"at":67108864,"line":"refused","reason":"TooLarge","row":0}\n', b""),
    ("JSON without an end", ["encode", "/dev/zero"], 6, b"", b"refused: /dev/zero: too large\n"),
    ("a list that is a folder", ["follow", "--list", "line"], 3, b"", b"read fault: line\n"),
    ("a timetable of a list that is a file", ["follow", "--list", "listed"], 3, b"", b"read fault: header/agency.txt\n"),
    ("a timetable that is a file", ["check", "--timetable", "header", "header"], 3, b"", b"read fault: header/agency.txt\n"),
    ("a word that isn't UTF-8", ["check", b"\xff"], 2, b"", None),
]
# The same of outputs: what `sh` makes of them.
OUTPUTS = [
    ("an output that is full", "check header > /dev/full", 4, b"write fault\n"),
    ("an output that is closed", "check header >&-", 4, b"write fault\n"),
    ("an output whose reader has gone", "verify many | true", 4, b"write fault\n"),
    ("an error stream that is full", "check 2> /dev/full", 4, b""),
    ("an error stream that is closed", "check 2>&-", 4, b""),
    ("no stream but the output", "show header <&- 2>&-", 0, b""),
]
HELD_AT_0 = b'{"bounded":0,"entities":0,"feed":0,"line":"accepted","moment":0,"paired":0,"peaked":0,"row":0,"snapshot":0,"tested":0}'
CLOCKS = [("a clock that can't be read", "none"), ("a clock before 1970", "early")]


class Ran:
    def __init__(self, said, made, asked):
        self.status, self.out, self.err, self.made, self.asked = said.returncode, said.stdout, said.stderr, made, asked


class Refusals:
    def __init__(self, folder):
        self.folder, self.library, self.counted = folder, os.path.join(folder, "refusals.so"), os.path.join(folder, "counted")
        self.runs = self.wrong = 0
        for name, data in FILES.items():
            self.put(name, data)
        source = os.path.join(folder, "refusals.c")
        self.put("refusals.c", LIBRARY.encode())
        subprocess.run(["cc", "-O1", "-shared", "-fPIC", "-w", "-o", self.library, source], check=True)
        os.symlink("loop", os.path.join(folder, "loop"))
        os.symlink("nowhere", os.path.join(folder, "dangling"))
        self.put("many", b"x\n" * 100_000)
        self.put("shown", self.run(["show", "ten_bytes"]).out)
        self.put("report", self.run(["follow", "--list", "pairs"]).out)

    def put(self, name, data):
        path = os.path.join(self.folder, name)
        os.makedirs(os.path.dirname(path), exist_ok=True)
        with open(path, "wb") as file:
            file.write(data)

    def run(self, words, kind=None, first=0, last=0, short=False, clock="right"):
        told = {"LD_PRELOAD": self.library, "COUNTED": self.counted, "CLOCK": clock}
        if kind is not None:
            told["REFUSED"] = f"{kind} {first} {last}"
        if short:
            told["SHORT"] = "1"
        self.put("counted", b"0 0 0 0\nnone")
        said = subprocess.run([PROGRAM, *words], capture_output=True, cwd=self.folder, env=told, timeout=60)
        self.runs += 1
        with open(self.counted, "rb") as file:
            made, asked = file.read().split(b"\n")
        return Ran(said, [int(it) for it in made.split()], asked)

    def say(self, text):
        self.wrong += 1
        print(text)

    def told(self, what, found, wanted):
        """Prints a row, and tells where it isn't as it should be. What is wanted may be open."""
        said = b"".join(found[:0:-1]).split(b"\n")[0].decode()
        print(f"| {what} | {found[0]} | {said if len(said) < 80 else said[:80] + '..'} |")
        if any(it != want for it, want in zip(found, wanted) if want is not None):
            self.say(f"{what}: {found} is not {wanted}")

    def odd(self):
        print("\n| What | Status | Said |\n|---|---|---|")
        for what, words, *wanted in ODD:
            ran = self.run(words)
            self.told(what, (ran.status, ran.out, ran.err), wanted)
        for what, words, *wanted in OUTPUTS:
            said = subprocess.run(["bash", "-c", f'set -o pipefail; "$0" {words}', PROGRAM], cwd=self.folder, stdout=subprocess.DEVNULL, stderr=subprocess.PIPE)
            self.runs += 1
            self.told(what, (said.returncode, said.stderr), wanted)
        for what, clock in CLOCKS:
            ran = self.run(["check", "header"], clock=clock)
            # Its timestamp then lies in the future (E050).
            self.told(what, (ran.status, ran.out.split(b"\n")[0]), (1, HELD_AT_0))

    def hold(self, what, whole, ran, status, texts):
        """A run has to be as it is otherwise, or to end with a status and one of these texts, and a front of the report."""
        if (ran.status, ran.out, ran.err) == (whole.status, whole.out, whole.err):
            return "whole"
        if ran.status != status or ran.err not in texts or not whole.out.startswith(ran.out):
            self.say(f"{what}: ended with {ran.status}, {len(ran.out)} of {len(whole.out)} bytes, {ran.err}")
        return ran.status

    def memory(self, name, words, whole):
        """How many runs ended by want of memory, with one request refused and with all from it on, and how many as otherwise."""
        counts = {}
        for first in range(whole.made[MEMORY]):
            for last in (first, 1 << 40):
                what = f"{name}, request {first}{' and on' if last > first else ''}"
                ended = self.hold(what, whole, self.run(words, MEMORY, first, last), 5, [b"out of memory\n"])
                counts[ended] = counts.get(ended, 0) + 1
        return counts

    def calls(self, name, words, whole):
        """How many runs ended by a read fault and by a write fault, with one call answered by an error."""
        counts = {3: 0, 4: 0}
        for kind in (OPEN, READ, WRITE):
            for call in range(whole.made[kind]):
                ran, what = self.run(words, kind, call, call), f"{name}, {('', 'open', 'read', 'write')[kind]} {call}"
                # Where the text of a refused input can't be written, there is none.
                status, texts = (4, [b"write fault\n", b""]) if kind == WRITE else (3, [b"read fault: " + ran.asked + b"\n"])
                if self.hold(what, whole, ran, status, texts) == "whole":
                    self.say(f"{what}: nothing is told")
                counts[status] += 1
        return counts

    def row(self, name, words, status, lines):
        whole = self.run(words)
        if whole.status != status or lines not in (None, whole.out.count(b"\n")):
            self.say(f"{name}: ended with {whole.status}, {whole.out.count(10)} lines, {whole.err}")
        refused, failed = self.memory(name, words, whole), self.calls(name, words, whole)
        self.hold(f"{name}, a byte at a time", whole, self.run(words, short=True), whole.status, [])
        counts = [whole.made[MEMORY], refused.get(5, 0), refused.get("whole", 0), sum(whole.made[1:]), failed[3], failed[4]]
        print(f"| {name} | " + " | ".join(map(str, counts)) + " |", flush=True)


def main():
    with tempfile.TemporaryDirectory() as folder:
        them = Refusals(folder)
        print("| Run | Requests for memory | Refused: status 5 | As otherwise | Calls | Failed: status 3 | Status 4 |")
        print("|---|---|---|---|---|---|---|")
        for row in RUNS:
            them.row(*row)
        them.odd()
        two, three = (them.run(["follow", "--list", name]) for name in ("twice", "thrice"))
        more = three.made[MEMORY] - two.made[MEMORY]
        if two.status or three.status or two.out != three.out[: len(two.out)]:
            them.say("an unchanged entity: another report")
        print(f"an entity with 2,000 updates: {two.made[MEMORY]} requests where it comes twice, {three.made[MEMORY]} where three times, {more} more: "
              + ("it isn't decoded again" if more <= 1000 else "it is decoded again"))
        print(f"refusals: {len(RUNS) + len(ODD) + len(OUTPUTS) + len(CLOCKS)} rows, {them.runs} runs, {them.wrong} wrong")
        return 1 if them.wrong else 0


if __name__ == "__main__":
    sys.exit(main())
