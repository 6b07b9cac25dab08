#!/usr/bin/env python3
"""Prints how large and how fast a lean cut is, beside a trimmed one.

    run.py [PROGRAM]     the middle third of the recording of 1,000 frames of `replay/run.py`, into which 60 memories of 1 MiB are put
                         that no frame ever reads

`lean` is to take at most three times as long as `trim`. The program is built by the script `gfxcap` at the top of the
repository, or is the one that the first word names. The recording is made in /tmp/gfxcap_replay and stays there.
"""
import os
import sys

TOP = os.path.dirname(os.path.dirname(os.path.dirname(os.path.abspath(__file__))))
sys.path[:0] = [os.path.join(TOP, "bench"), os.path.join(TOP, "bench", "replay")]
import run as replay  # noqa: E402
from blocks import call, fill_memory, header  # noqa: E402
from measure import least, memory, program_of, run  # noqa: E402

FRAMES, RANGE = 1000, "334-667"
MEMORIES, MEBIBYTE, FIRST = 60, 1 << 20, 1000


def unneeded():
    """Memories that are written whole, and of which nothing is read."""
    for memory in range(FIRST, FIRST + MEMORIES):
        yield call("AllocateMemory", device=3, memory=memory, size=MEBIBYTE)
        yield call("MapMemory", device=3, memory=memory, offset=0, size=MEBIBYTE)
        yield fill_memory(memory, 0, bytes([memory % 255 + 1]) * MEBIBYTE)


def recording():
    path = os.path.join(replay.PLACE, "lean.gfxcap")
    if not os.path.exists(path):
        with open(path, "wb") as out:
            out.write(header() + b"".join(replay.objects() + replay.recorded(11, 6) + replay.recorded(12, 7)))
            out.writelines(unneeded())
            for number in range(1, FRAMES + 1):
                out.write(b"".join(replay.frame(number)))
    return path


def main():
    os.makedirs(replay.PLACE, exist_ok=True)
    program, path = program_of(sys.argv[1:]), recording()
    cuts = [[program, word, RANGE] for word in ("trim", "lean")]
    took = least(*(lambda words=words: run(words, path, replay.WRITTEN) for words in cuts))
    for words, seconds in zip(cuts, took):
        kilobytes = memory(words, path, replay.WRITTEN)
        print(f"{' '.join(words[1:])}: {os.path.getsize(replay.WRITTEN):12,} bytes in {seconds:.3f} s, {kilobytes:,} kB", flush=True)
    print(f"quotient {took[1] / took[0]:.2f} (at most 3)")


if __name__ == "__main__":
    main()
