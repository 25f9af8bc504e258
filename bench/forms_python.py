#!/usr/bin/env python3
"""A snapshot to JSON, or JSON to a snapshot, with Python's google.protobuf: forms_python.py to|from FILE.

It writes to standard output. The messages are those of vectors/gtfs-realtime.proto.
"""
import os, subprocess, sys, tempfile
from google.protobuf import descriptor_pb2, descriptor_pool, json_format, message_factory

VECTORS = os.path.join(os.path.dirname(os.path.abspath(__file__)), "../vectors")


def kind():
    with tempfile.TemporaryDirectory() as folder:
        out = os.path.join(folder, "set")
        subprocess.run(["protoc", "-I", VECTORS, "--descriptor_set_out=" + out, "gtfs-realtime.proto"], check=True)
        with open(out, "rb") as file:
            files = descriptor_pb2.FileDescriptorSet.FromString(file.read())
    pool = descriptor_pool.DescriptorPool()
    for file in files.file:
        pool.Add(file)
    return message_factory.MessageFactory(pool).GetPrototype(pool.FindMessageTypeByName("realtime.FeedMessage"))


def main():
    way, name = sys.argv[1:]
    message = kind()()
    with open(name, "rb") as file:
        data = file.read()
    if way == "to":
        message.ParseFromString(data)
        sys.stdout.write(json_format.MessageToJson(message, indent=None, preserving_proto_field_name=True))
    else:
        json_format.Parse(data, message)
        sys.stdout.buffer.write(message.SerializeToString(deterministic=True))


main()
