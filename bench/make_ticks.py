#!/usr/bin/env python3
"""Writes a frames file of pb.Tick: make_ticks.py SEED COUNT FILE. Values have 1 to 8 bytes, each equally often."""
import random
import sys


def varint(value):
    out = bytearray()
    while value >= 128:
        out.append(value % 128 + 128)
        value //= 128
    out.append(value)
    return out


def main(seed, count, path):
    draw = random.Random(int(seed))
    out = bytearray()
    for _ in range(int(count)):
        groups = draw.randrange(1, 9)
        payload = b"\x08" + varint(draw.randrange(max(1, 128 ** (groups - 1)), 128**groups))
        out += varint(len(payload)) + payload
    with open(path, "wb") as file:
        file.write(out)


if __name__ == "__main__":
    main(*sys.argv[1:])
