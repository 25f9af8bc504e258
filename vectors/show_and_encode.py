#!/usr/bin/env python3
"""Whether `encode` of what `show` writes says the same to Debian's protobuf-compiler: show_and_encode.py [PROGRAM].

    apt-get install protobuf-compiler; python3 vectors/show_and_encode.py

The program is crates/rt_command/out/rt_command by default. Each .textproto of this folder is written as bytes, shown,
encoded, and both snapshots are read by protoc. It ends with how many are the same.
"""
import pathlib, subprocess, sys, tempfile

here = pathlib.Path(__file__).parent
program = sys.argv[1] if len(sys.argv) > 1 else str(here / "../crates/rt_command/out/rt_command")


def run(words, data=b""):
    return subprocess.run(words, input=data, stdout=subprocess.PIPE, check=True).stdout


def protoc(way, data):
    return run(["protoc", "--%s=realtime.FeedMessage" % way, "-I", str(here), "gtfs-realtime.proto"], data)


def again(folder, data):
    """What `encode` makes of what `show` writes."""
    name = pathlib.Path(folder) / "file"
    name.write_bytes(data)
    name.write_bytes(run([program, "show", str(name)]))
    return run([program, "encode", str(name)])


def main():
    same = others = 0
    with tempfile.TemporaryDirectory() as folder:
        for path in sorted(here.glob("*.textproto")):
            data = protoc("encode", path.read_bytes())
            if protoc("decode", again(folder, data)) == protoc("decode", data):
                same += 1
            else:
                others += 1
                print(path.name)
    print("%d the same, %d others" % (same, others))
    sys.exit(1 if others else 0)


main()
