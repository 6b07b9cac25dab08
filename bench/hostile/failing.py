#!/usr/bin/env python3
"""Has each read, each write and each request for memory of gfxcap fail in turn, and looks at what it answers then.

    failing.py PROGRAM [--most N] [--jobs N]

Each command is run over the examples that it takes: once with nothing failing, and then once for each k with the k-th call failing, up to N
(2,000 where it isn't said) of each kind. A failed read is status 5 and its line, a failed write status 6, and a lack of memory status 1; none has
another line, and standard output is a prefix of what it is where nothing fails. A call of which nothing depends may fail without a sign:
then all is as it is where nothing fails. What several threads record has another order each time, so of that only the
status and the notes are looked at. The library that has calls fail is made of `failing.c` with `cc`, in /tmp/gfxcap_failing. The status is 1 where
an answer is wrong.
"""
import argparse
import glob
import os
import subprocess
import sys
import tempfile
from concurrent.futures import ThreadPoolExecutor

HERE = os.path.dirname(os.path.abspath(__file__))
TOP = os.path.dirname(os.path.dirname(HERE))
PLACE = "/tmp/gfxcap_failing"
LIBRARY = os.path.join(PLACE, "failing.so")
ENDS = {"read": (5, b"read fault\n"), "write": (6, b""), "malloc": (1, b"")}
ON_CAPTURES = ("info", "replay --pixels", "trim 1-1", "lean 1-1", "upgrade", "list", "digests")
ON_MORE_FRAMES = ("trim 2-2", "lean 2-2")  # so that the section's writer is refused memory
ON_SCRIPTS = ("capture", "capture --gather", "capture --frames 1-1")


def run(program, words, data, fail=None):
    """The status, what was written and the notes; and whether the call that fails was reached."""
    surroundings = dict(os.environ)
    with tempfile.TemporaryDirectory(dir=PLACE) as folder:
        reached = os.path.join(folder, "reached")
        if fail:
            surroundings |= {"LD_PRELOAD": LIBRARY, "FAIL": "{} {}".format(*fail), "REACHED": reached}
        done = subprocess.run([program, *words.split()], input=data, capture_output=True, timeout=60, env=surroundings, check=False)
        return (done.returncode, done.stdout, done.stderr), os.path.exists(reached)


def is_right(kind, answer, good, ordered):
    """Whether a run in which such a call failed ended as it has to."""
    status, out, notes = answer
    same = answer == good or not ordered and (status, notes) == (good[0], good[2])
    return same or (status, notes) == ENDS[kind] and (not ordered or good[1].startswith(out))


def try_all(program, name, words, data, most):
    """How many calls failed of each kind, and the lines on wrong answers."""
    good, ordered = run(program, words, data)[0], "three_recorders" not in name
    counts, wrong = dict.fromkeys(ENDS, 0), []
    for kind in ENDS:
        for k in range(1, most + 1):
            answer, was_reached = run(program, words, data, (kind, k))
            if not was_reached:
                break
            counts[kind] += 1
            if not is_right(kind, answer, good, ordered):
                wrong.append(f"WRONG {words} < {name}: {kind} {k}: status {answer[0]}, {len(answer[1])} bytes, {answer[2][:60]!r}")
    return counts, wrong


def main():
    parser = argparse.ArgumentParser(description=__doc__.splitlines()[0])
    parser.add_argument("program")
    parser.add_argument("--most", type=int, default=2000)
    parser.add_argument("--jobs", type=int, default=os.cpu_count())
    given = parser.parse_args()
    program = os.path.abspath(given.program)
    os.makedirs(PLACE, exist_ok=True)
    subprocess.run(["cc", "-shared", "-fPIC", "-O2", "-o", LIBRARY, os.path.join(HERE, "failing.c"), "-ldl"], check=True)
    cases = []
    for kind, commands in (("gfxcap", ON_CAPTURES), ("script", ON_SCRIPTS)):
        for path in sorted(glob.glob(os.path.join(TOP, "examples", "*." + kind))):
            with open(path, "rb") as data:
                content = data.read()
            more = ON_MORE_FRAMES if "three_frames" in path else ()
            cases += [(os.path.basename(path), words, content) for words in (*commands, *more)]
            if kind == "gfxcap":
                listing = run(program, "list", content)[0][1]
                cases.append((os.path.basename(path) + " as a listing", "unlist", listing))
    cases.append(("nothing", "make 3", b""))
    sums, wrong = dict.fromkeys(ENDS, 0), []
    with ThreadPoolExecutor(given.jobs) as pool:
        for counts, lines in pool.map(lambda case: try_all(program, *case, given.most), cases):
            for kind, count in counts.items():
                sums[kind] += count
            wrong += lines
    print("\n".join(wrong))
    print(f"{len(cases)} commands; failed: {sums['read']:,} reads, {sums['write']:,} writes, {sums['malloc']:,} requests for memory; wrong: {len(wrong)}")
    return 1 if wrong else 0


if __name__ == "__main__":
    sys.exit(main())
