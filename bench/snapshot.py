#!/usr/bin/env python3
"""Writes an ordinary snapshot of about so many bytes: snapshot.py BYTES FILE [unrelated].

Each entity is a trip update with twenty stop time updates (sequence, stop id, arrival and departure times), some 40
bytes for each nested message. No rule breaks in it but, with `unrelated`, W009 at each update, which then gives no relationship. It
needs nothing but Python.
"""
import sys


def varint(n):
    out = bytearray()
    while n >= 128:
        out.append(n % 128 + 128)
        n //= 128
    out.append(n)
    return bytes(out)


def number(field, n):
    return varint(field * 8) + varint(n)


def payload(field, data):
    return varint(field * 8 + 2) + varint(len(data)) + data


def stop(sequence, time, related=True):
    arrival = number(1, 60) + number(2, time)
    departure = number(1, 60) + number(2, time + 30)
    return (number(1, sequence) + payload(2, arrival) + payload(3, departure)
            + payload(4, b"stop%06d" % (sequence * 37)) + (number(5, 0) if related else b""))


def entity(i, stops):
    trip = payload(1, b"trip%07d" % i) + payload(3, b"20231114") + number(4, 0) + payload(5, b"route%03d" % (i % 400))
    update = payload(1, trip) + b"".join(payload(2, s) for s in stops) + payload(3, payload(1, b"bus%05d" % i))
    update += number(4, 1700000000)
    return payload(2, payload(1, b"entity%07d" % i) + payload(3, update))


def main():
    size, name = int(sys.argv[1]), sys.argv[2]
    stops = [stop(s, 1700000000 + 120 * s, sys.argv[3:] != ["unrelated"]) for s in range(1, 21)]
    out = bytearray(payload(1, payload(1, b"2.0") + number(2, 0) + number(3, 1700000000)))
    i = 0
    while True:
        one = entity(i, stops)
        if len(out) + len(one) > size:
            break
        out += one
        i += 1
    with open(name, "wb") as file:
        file.write(out)
    print("%s: %d bytes, %d entities" % (name, len(out), i))


if __name__ == "__main__":
    main()
