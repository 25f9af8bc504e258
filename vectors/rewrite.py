#!/usr/bin/env python3
"""Reads snapshots that no writer of canonical bytes makes, and writes them again, with protobuf's own library in C++.

    apt-get install protobuf-compiler python3-protobuf
    /usr/bin/python3 vectors/rewrite.py > crates/feed_cases/data/rewrites.cases

It prints them as cases: each snapshot as it is read, and as it is written, which is written again as it came.
"""
import pathlib, subprocess, tempfile
from google.protobuf import descriptor_pb2, descriptor_pool, message_factory

here = pathlib.Path(__file__).parent


def held(number, *parts):
    """A field of wire type 2, of fewer than 128 bytes."""
    payload = b"".join(parts)
    return bytes([number * 8 + 2, len(payload)]) + payload


H = bytes.fromhex
VERSION = H("0A 03 32 2E 30")
HEADER = held(1, VERSION)

ROWS = [
    ("slots in another order", held(1, H("18 80 E2 CF AA 06"), H("10 00"), VERSION)),
    ("a header in two parts around an entity", held(1, H("18 05")) + held(2, H("0A 01 61")) + held(1, H("10 00"), VERSION)),
    ("numbers with more bytes than they need", H("8A 00 8A 80 00 0A 83 00 32 2E 30 18 85 80 00")),
    ("a negative delay in five bytes", HEADER + held(2, H("0A 01 61"), held(3, held(1), H("28 C4 FF FF FF 0F")))),
    ("a number past 32 bits, and a truth of two", HEADER + held(2, H("0A 01 61 10 02"), held(3, held(1, H("30 81 80 80 80 80 80 04"))))),
    ("the last of several values", HEADER + held(2, H("0A 01 61"), held(3, held(1, H("0A 01 41 20 01 20 02")), H("20 01 20 02"), held(1, H("0A 01 42 20 03"))))),
    ("unknown fields before known ones", H("22 01 7A") + held(1, H("30 01 10 07"), VERSION, H("2D 01 00 00 00")) + held(2, H("3B 08 01 3C 0A 01 61 12 01 62 38 05"))),
    ("a required text that is empty", held(1, held(1)) + held(2, held(1))),
]


def kind():
    with tempfile.TemporaryDirectory() as folder:
        out = pathlib.Path(folder) / "set"
        subprocess.run(["protoc", "-I", str(here), "--descriptor_set_out=%s" % out, "gtfs-realtime.proto"], check=True)
        files = descriptor_pb2.FileDescriptorSet.FromString(out.read_bytes())
    pool = descriptor_pool.DescriptorPool()
    for file in files.file:
        pool.Add(file)
    return message_factory.MessageFactory(pool).GetPrototype(pool.FindMessageTypeByName("realtime.FeedMessage"))


HEAD = """\
# Snapshots that aren't in canonical bytes, and how another implementation writes them again: protobuf's own library in C++.
# `/usr/bin/python3 vectors/rewrite.py` prints this text.
"""

CASE = """
== {name}
written
+ {source}
=+ {again}
written
+ {again}
=+ {again}
"""


def case(message, name, source):
    again = message.FromString(source).SerializeToString(deterministic=True)
    return CASE.format(name=name, source=source.hex(), again=again.hex())


def main():
    message = kind()
    print(HEAD + "".join(case(message, name, source) for name, source in ROWS), end="")


if __name__ == "__main__":
    main()
