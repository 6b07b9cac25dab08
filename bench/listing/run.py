#!/usr/bin/env python3
"""Prints how fast captures are listed, made of their listings again and upgraded, and the most memory that it takes.

    run.py [PROGRAM]     the recordings of 60 and of 1,000 frames of `replay/run.py`: `list` beside `xxd -p` of the same file, `unlist`
                         beside `xxd -r -p` of what that wrote, `upgrade` beside `cat`, all into a file

`list` and `unlist` are to be at least three times as fast as `xxd`, `upgrade` within 1.5 times `cat`, and memory the same for both
recordings. The program is built by the script `gfxcap` at the top of the repository, or is the one that the last word names.
"""
import os
import sys

TOP = os.path.dirname(os.path.dirname(os.path.dirname(os.path.abspath(__file__))))
sys.path[:0] = [os.path.join(TOP, "bench"), os.path.join(TOP, "bench", "replay")]
from measure import compare, program_of, run  # noqa: E402
from run import PLACE, WRITTEN, recording  # noqa: E402


def written(words, path, name):
    """The path of what a program writes of a file."""
    out = os.path.join(PLACE, name)
    run(words, path, out)
    return out


def same(first, second):
    with open(first, "rb") as one, open(second, "rb") as other:
        return one.read() == other.read()


def main():
    os.makedirs(PLACE, exist_ok=True)
    program = program_of(sys.argv[1:])
    for frames in (60, 1000):
        path = recording(program, frames)
        listing = written([program, "list"], path, "listing")
        digits = written(["xxd", "-p"], path, "digits")
        assert same(path, written([program, "unlist"], listing, "again"))
        print(f"{frames} frames, {os.path.getsize(path):,} bytes, as a listing {os.path.getsize(listing):,}")
        compare([program, "list"], path, ["xxd", "-p"], path, 0.33, WRITTEN)
        compare([program, "unlist"], listing, ["xxd", "-r", "-p"], digits, 0.33, WRITTEN)
        compare([program, "upgrade"], path, ["cat"], path, 1.5, WRITTEN)


if __name__ == "__main__":
    main()
