#!/usr/bin/env python3
"""Writes a descriptor set whose fields all name messages: make_set.py MESSAGES FIELDS FILE.

Each message has as many fields, field k of message m names message (m * FIELDS + k) modulo MESSAGES. A set may have
2^22 bytes: 4096 messages of 49 fields, 2000 of 100 and 380 of 512 fit.
"""
import sys


def varint(value):
    out = bytearray()
    while value >= 128:
        out.append(value % 128 + 128)
        value //= 128
    out.append(value)
    return bytes(out)


def delimited(number, payload):
    return varint(number * 8 + 2) + varint(len(payload)) + payload


def number(field, value):
    return varint(field * 8) + varint(value)


def field(place, target):
    return (
        delimited(1, b"f%d" % place)
        + number(3, place + 1)
        + number(5, 11)
        + delimited(6, b".b.M%d" % target)
    )


def message(place, messages, fields):
    own = b"".join(
        delimited(2, field(k, (place * fields + k) % messages)) for k in range(fields)
    )
    return delimited(1, b"M%d" % place) + own


def main():
    messages, fields = int(sys.argv[1]), int(sys.argv[2])
    body = delimited(1, b"b.proto") + delimited(2, b"b") + b"".join(
        delimited(4, message(place, messages, fields)) for place in range(messages)
    )
    whole = delimited(1, body + delimited(12, b"proto3"))
    with open(sys.argv[3], "wb") as out:
        out.write(whole)
    print(f"{len(whole)} bytes" + (", more than a set may have" if len(whole) > 2**22 else ""))


main()
