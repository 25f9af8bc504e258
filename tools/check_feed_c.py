#!/usr/bin/env python3
"""Calls the static library feed_c from C and from Python, and compares with what rt_command writes: check_feed_c.py [PROGRAM] [ARCHIVE].

ARCHIVE is what `rt lib` in crates/feed_c builds, out/libfeed_c.a by default. Each snapshot of examples/ is shown and checked by a program in C that links the
archive, and by ctypes over a shared object that is made of it; a buffer that is too small is answered as that. It needs cc and the kit, whose part for the heap is linked too.
"""
import ctypes
import pathlib
import subprocess
import sys
import tempfile

TOP = pathlib.Path(__file__).resolve().parent.parent
MOMENT = 1700034600
CODE = r"""
#include "feed.h"
#include <stdio.h>
#include <stdlib.h>
#include <string.h>

/* show FILE MOMENT, or check FILE MOMENT: the text on standard output, and the answer as the status. */
int main(int count, char **words) {
    static uint8_t bytes[1 << 20], out[1 << 22];
    FILE *file = count == 4 ? fopen(words[2], "rb") : 0;
    if (!file) return 3;
    size_t size = fread(bytes, 1, sizeof bytes, file), written = 0;
    uint8_t answer = strcmp(words[1], "show") == 0 ? feed_decode(bytes, size, out, sizeof out, &written)
                                                   : feed_check(bytes, size, strtoull(words[3], 0, 10), out, sizeof out, &written);
    fwrite(out, 1, written, stdout);
    return answer;
}
"""


def kit():
    return pathlib.Path(subprocess.run(["rt", "doc"], capture_output=True, text=True, check=True).stdout.strip()).parent


def build(folder, archive):
    """The program in C, and the shared object."""
    (folder / "main.c").write_text(CODE)
    parts = [str(kit() / "c" / name) for name in ("libos_c.a", "liblibc_c.a")]
    include = f"-I{TOP / 'crates/feed_c/include'}"
    subprocess.run(["cc", "-std=c11", "-Wall", "-Wextra", "-Werror", "-O2", include, str(folder / "main.c"), str(archive), *parts, "-lm", "-o", str(folder / "feed")], check=True)
    subprocess.run(["cc", "-shared", "-Wl,--whole-archive", str(archive), "-Wl,--no-whole-archive", *parts, "-lm", "-o", str(folder / "libfeed.so")], check=True)


class Library:
    """The calls by ctypes."""

    def __init__(self, path):
        self.lib = ctypes.CDLL(str(path))
        for call in (self.lib.feed_decode, self.lib.feed_check):
            call.restype = ctypes.c_uint8

    def call(self, name, data, *more, room=1 << 22):
        out, written = ctypes.create_string_buffer(max(1, room)), ctypes.c_size_t(7)
        answer = getattr(self.lib, name)(data, ctypes.c_size_t(len(data)), *more, out, ctypes.c_size_t(room), ctypes.byref(written))
        return answer, out.raw[:written.value]


def main():
    words = [pathlib.Path(word).resolve() for word in sys.argv[1:]]
    program = words[0] if words else TOP / "crates/rt_command/out/rt_command"
    archive = words[1] if len(words) > 1 else TOP / "crates/feed_c/out/libfeed_c.a"
    if not archive.exists():
        sys.exit(f"check_feed_c.py: there is no {archive}: run `rt lib` in crates/feed_c")
    count = others = 0
    with tempfile.TemporaryDirectory() as name:
        folder = pathlib.Path(name)
        build(folder, archive)
        library = Library(folder / "libfeed.so")
        for file in sorted((TOP / "examples").glob("*.pb")):
            data = file.read_bytes()
            for command, given, call, more in (("show", [], "feed_decode", []), ("check", ["--now", str(MOMENT)], "feed_check", [ctypes.c_uint64(MOMENT)])):
                ran = subprocess.run([str(program), command, *given, str(file)], capture_output=True)
                wanted = (ran.returncode, ran.stdout)
                ran = subprocess.run([str(folder / "feed"), command, str(file), str(MOMENT)], capture_output=True)
                small = library.call(call, data, *more, room=len(wanted[1]) - 1)
                found = [(ran.returncode, ran.stdout), library.call(call, data, *more), library.call(call, data, *more, room=len(wanted[1])), (small[0], wanted[1].startswith(small[1]))]
                for who, got, want in zip(("C", "Python", "a buffer of its size", "a small buffer"), found, (wanted, wanted, wanted, (4, True))):
                    count += 1
                    if got != want:
                        others += 1
                        print(f"{file.name}, {command}, {who}: {str(got)[:200]}, where {str(want)[:200]} was to be")
    print(f"feed_c: {count - others} of {count} calls answer what rt_command writes")
    return 1 if others or not count else 0


if __name__ == "__main__":
    sys.exit(main())
