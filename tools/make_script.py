#!/usr/bin/env python3
"""Writes a script with N entries on one queue, to measure the program: tools/make_script.py N > script.json

For each entry the guest stores the request, two descriptors, the available entry and the index, and kicks; then the
worker has eight turns. Entry i of the ring of 256 descriptors uses the descriptors 2 s and 2 s + 1, where s = i mod 128,
with a request of the 8 little-endian bytes of i and room for 16 bytes of reply.
"""
import json
import sys

MEMORY = 0x100000
NEXT, WRITE = 1, 2


def descriptor(address, length, flags, following):
    return (address.to_bytes(8, "little") + length.to_bytes(4, "little")
            + flags.to_bytes(2, "little") + following.to_bytes(2, "little"))


def store(offset, contents):
    return ["store", 0, offset, contents.hex()]


def actions(i):
    s = i % 128
    yield store(65536 + 32 * s, i.to_bytes(8, "little"))
    yield store(32 * s, descriptor(MEMORY + 65536 + 32 * s, 8, NEXT, 2 * s + 1)
                + descriptor(MEMORY + 65536 + 32 * s + 16, 16, WRITE, 0))
    yield store(8192 + 4 + 2 * (i % 256), (2 * s).to_bytes(2, "little"))
    yield store(8194, ((i + 1) % 65536).to_bytes(2, "little"))
    yield ["signal", 1]


def script(entries):
    ring = {"queue": 0, "size": 256, "info": [hex(MEMORY), hex(MEMORY + 0x2000), hex(MEMORY + 0x4000)],
            "base": 0, "next_used": 0, "kick": 1, "call": 2, "ready": True, "enabled": True}
    return {
        "max_size": 256,
        "objects": [{"bytes": 1048576}, {"event": 0}, {"event": 0}],
        "regions": [[hex(MEMORY), 0x100000, hex(MEMORY), 0, 0]],
        "rings": [ring],
        "guest": [action for i in range(entries) for action in actions(i)],
        "schedule": ([0] * 5 + [2] * 8) * entries + [2] * 8,
    }


if __name__ == "__main__":
    if len(sys.argv) != 2 or not sys.argv[1].isdigit():
        sys.exit(__doc__)
    json.dump(script(int(sys.argv[1])), sys.stdout, separators=(",", ":"))
