#!/usr/bin/env python3
"""Inputs by a seed: for each shape the type of its messages, and frames of about so many bytes.

shapes.py SHAPE SEED BYTES FILE writes a file of frames, of so many bytes or a few more, and at most 2^20 of them.
"""
import random
import sys
from collections import namedtuple

sys.dont_write_bytecode = True
from make_ticks import varint

Shape = namedtuple("Shape", "type payload")


def tick(draw, groups=None):
    """Field 1 with a number of so many groups of seven bits, or of 1 to 8 where none is named."""
    groups = groups or draw.randrange(1, 9)
    least = 128 ** (groups - 1) if groups > 1 else 0
    return b"\x08" + varint(draw.randrange(least, min(128**groups, 2**64)))


def text(number, payload):
    """A record with a length: a text, bytes, a message or a packed list."""
    return varint(8 * number + 2) + varint(len(payload)) + payload


def node(draw):
    """A small tree: a name, a count, some children with a name each, and some marks."""
    children = b"".join(text(3, text(1, b"c" * draw.randrange(24))) for _ in range(draw.randrange(5)))
    marks = b"".join(varint(draw.randrange(300)) for _ in range(draw.randrange(9)))
    out = text(1, b"a" * draw.randrange(24)) + b"\x10" + varint(draw.randrange(1000)) + children
    return out + (text(4, marks) if marks else b"")


def wide(draw):
    """Each field of a node, the message of its oneof with a count of its own."""
    inner = b"\x10" + varint(draw.randrange(2**20))
    out = text(1, b"name %d" % draw.randrange(10**6)) + b"\x10" + varint(draw.randrange(2**40)) + text(3, inner)
    out += text(4, b"".join(varint(draw.randrange(2**14)) for _ in range(6))) + text(5, draw.randbytes(20))
    return out + text(6, inner) + text(8, inner)


def deep(draw):
    """A chain of 30 nodes, each with a count."""
    payload = b""
    for _ in range(30):
        payload = b"\x10" + varint(draw.randrange(1000)) + (text(6, payload) if payload else b"")
    return payload


def long_chain(draw):
    """A chain of 100 nodes that ends with 15 MB of bytes: nothing of it fits a room of the writer."""
    payload = text(5, draw.randbytes(15 * 10**6))
    for _ in range(100):
        payload = text(6, payload)
    return payload


SHAPES = {
    "ticks": Shape("pb.Tick", tick),
    "small ticks": Shape("pb.Tick", lambda draw: tick(draw, 1)),
    "large ticks": Shape("pb.Tick", lambda draw: tick(draw, 10)),
    "empty ticks": Shape("pb.Tick", lambda draw: b""),
    # field 2, which the type doesn't have: a number of one byte, and 100 bytes
    "short unknown": Shape("pb.Tick", lambda draw: tick(draw) + b"\x10" + bytes([draw.randrange(128)])),
    "long unknown": Shape("pb.Tick", lambda draw: tick(draw) + b"\x12\x64" + draw.randbytes(100)),
    # a group of field 2 with a number in it
    "unknown group": Shape("pb.Tick", lambda draw: tick(draw) + b"\x13\x08" + bytes([draw.randrange(128)]) + b"\x14"),
    "nodes": Shape("pb.Node", node),
    "wide": Shape("pb.Node", wide),
    "deep": Shape("pb.Node", deep),
    # a name that is kept, and one short enough to be placed
    "strings": Shape("pb.Node", lambda draw: text(1, b"s" * draw.randrange(16, 80))),
    "words": Shape("pb.Node", lambda draw: text(7, b"w" * draw.randrange(1, 16))),
    "blobs": Shape("pb.Node", lambda draw: text(5, draw.randbytes(draw.randrange(1000, 9000)))),
    "marks": Shape("pb.Node", lambda draw: text(4, b"".join(varint(draw.randrange(2**14)) for _ in range(200)))),
    "long chain": Shape("pb.Node", long_chain),
    # field 1 again and again, and field 2 a thousand times
    "a thousand records": Shape("pb.Tick", lambda draw: b"".join(tick(draw) for _ in range(1000))),
    "a thousand unknown": Shape("pb.Tick", lambda draw: b"".join(b"\x10" + varint(draw.randrange(2**14)) for _ in range(1000))),
}


def main(name, seed, size, path):
    draw = random.Random(f"{name} {seed}")
    out, count = bytearray(), 0
    while len(out) < int(size) and count < 2**20:
        payload = SHAPES[name].payload(draw)
        out += varint(len(payload)) + payload
        count += 1
    with open(path, "wb") as file:
        file.write(out)


if __name__ == "__main__":
    main(*sys.argv[1:])
