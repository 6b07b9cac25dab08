#!/usr/bin/env python3
"""Prints how fast `gfxcap info` reads two captures, beside `cat` and `wc -c`.

One capture has a million small calls, the other 200 MB in fills of 1 MiB. They are made in /tmp/gfxcap_info and stay there.
The program is built by the script `gfxcap` at the top of the repository, or is the one that the first word names.
"""
import os
import struct
import sys

TOP = os.path.dirname(os.path.dirname(os.path.dirname(os.path.abspath(__file__))))
sys.path.insert(0, os.path.join(TOP, "bench"))
from measure import least, program_of, run  # noqa: E402

PLACE = "/tmp/gfxcap_info"
HEADER = struct.pack("<IIII", 0x52584647, 1000, 1, 0)
UNMAP_MEMORY, FILL_MEMORY = 11, 2
MEBIBYTE = 1 << 20


def block(kind, identity, fields):
    payload = struct.pack("<IQ", identity, 0) + fields
    return struct.pack("<QI", len(payload), kind) + payload


def write(name, blocks):
    path = os.path.join(PLACE, name)
    if not os.path.exists(path):
        with open(path, "wb") as out:
            out.write(HEADER)
            for piece in blocks:
                out.write(piece)
    return path


def main():
    os.makedirs(PLACE, exist_ok=True)
    program = program_of(sys.argv[1:])
    small = block(4, UNMAP_MEMORY, struct.pack("<QQ", 2, 7))
    fill = block(3, FILL_MEMORY, struct.pack("<QQQ", 7, 0, MEBIBYTE) + b"\x5a" * MEBIBYTE)
    files = [
        ("small calls", write("small", [small * 1000] * 1000), 1_000_000),
        ("fills", write("fills", [fill] * 200), 200),
    ]
    commands = [program, "info"], ["cat"], ["wc", "-c"]
    for title, path, blocks in files:
        size = os.path.getsize(path)
        for words, took in zip(commands, least(*(lambda words=words: run(words, path) for words in commands))):
            name = " ".join(os.path.basename(word) for word in words)
            print(f"{title:12} {name:12} {size / took / 1e6:9.1f} MB/s {blocks / took:12.0f} blocks/s")


main()
