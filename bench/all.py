#!/usr/bin/env python3
"""Runs the scripts whose figures stand in README.md, one after another: one run on an idle machine.

    all.py [PROGRAM]

A machine is idle when as many `sha256sum` at once as there are processors do at least 0.95 times as many times the work of one. `digests`
and recordings by threads come first, and wait until that is so, by two looks a minute, 20 at most in the whole run: they alone use all
processors, but for two of the programs of single crates, and shared machines are seldom idle for long. After each script it says whether the
machine is.
The program is built by the script `gfxcap` at the top of the repository, or is the one that the word names.
"""
import os
import subprocess
import sys
import time

from measure import TOP, at_once, least, program_of, run

ON_ALL = ["fan/run.py", "capture/lines.py"]
SCRIPTS = [
    "info/run.py",
    "replay/run.py replay",
    "replay/run.py ends",
    "replay/run.py trim",
    "listing/run.py",
    "lean/run.py",
    "gather/run.py",
    "hostile/run.py",
    "hostile/commands.py",
]
CRATES = ["table", "objects", "pages", "device", "asked", "script", "seats", "capture"]
ZEROS = "/tmp/gfxcap_zeros"
BYTES, IDLE, LOOKS, PAUSE = 1 << 26, 0.95, 20, 15


def is_idle(processors):
    """Looks once, and prints what it saw."""
    one, many = least(lambda: run(["sha256sum"], ZEROS), lambda: at_once(["sha256sum"], ZEROS, processors))
    times = processors * one / many
    idle = times >= IDLE * processors
    print(f"{time.strftime('%T')} {processors} sha256sum at once: {times:.2f} times the work of one{'' if idle else ', not idle'}", flush=True)
    return idle


def main():
    program, processors, left = program_of(sys.argv[1:]), len(os.sched_getaffinity(0)), LOOKS
    with open(ZEROS, "wb") as out:
        out.truncate(BYTES)
    idle = is_idle(processors)
    for script in [f"{script} {program}" for script in ON_ALL + SCRIPTS] + [f"crates.py {crate}" for crate in CRATES]:
        while not idle and left > 0 and script.split()[0] in ON_ALL:
            left -= 1
            time.sleep(PAUSE)
            idle = is_idle(processors)
        print(f"\n## {script}", flush=True)
        path, *words = script.split()
        subprocess.run([sys.executable, os.path.join(TOP, "bench", path), *words], check=True)
        idle = is_idle(processors)


if __name__ == "__main__":
    main()
