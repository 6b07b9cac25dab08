#!/usr/bin/env python3
"""Prints how fast `digests` and `replay` say the same of the recordings of 60 and of 1,000 frames of `replay/run.py`, and the most
memory that each takes.

    run.py [PROGRAM]

`digests` is to be at least 0.85 times the number of processors faster than `replay`. What the machine has to give is told by as many
replays as there are processors, which run at once and share nothing. The program is built by the script `gfxcap` at the top of the
repository, or is the one that the last word names.
"""
import os
import statistics
import sys

TOP = os.path.dirname(os.path.dirname(os.path.dirname(os.path.abspath(__file__))))
sys.path[:0] = [os.path.join(TOP, "bench"), os.path.join(TOP, "bench", "replay")]
from measure import at_once, memory, program_of, run, turns  # noqa: E402
from run import PLACE, recording  # noqa: E402


def lines(words, path):
    out = os.path.join(PLACE, "lines")
    run(words, path, out)
    with open(out, "rb") as told:
        return told.read()


def main():
    os.makedirs(PLACE, exist_ok=True)
    program, processors = program_of(sys.argv[1:]), len(os.sched_getaffinity(0))
    replay, digests = [program, "replay"], [program, "digests"]
    for frames in (60, 1000):
        path = recording(program, frames)
        assert lines(digests, path) == lines(replay, path)
        jobs = [lambda: run(replay, path), lambda: run(digests, path), lambda: at_once(replay, path, processors)]
        times = turns(*jobs)
        one, many, beside = map(min, times)
        middle = statistics.median(alone / by_all for alone, by_all in zip(*times[:2]))
        print(
            f"{frames:5} frames   replay {one:7.3f} s {memory(replay, path):8,} kB   digests {many:7.3f} s {memory(digests, path):8,} kB"
            f"   {one / many:5.2f} times as fast (at least {0.85 * processors:.2f}, on {processors} processors), {middle:.2f} in the middle round"
            f"   {processors} replays at once: {processors * one / beside:.2f} times the work",
            flush=True,
        )


if __name__ == "__main__":
    main()
