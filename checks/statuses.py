#!/usr/bin/env python3
"""Runs the built program once for each status, and with inputs and outputs that a shell may give it.

    statuses.py PROGRAM
"""
import os
import resource
import subprocess
import sys
import threading

TOP = os.path.dirname(os.path.dirname(os.path.abspath(__file__)))
USAGE = (b"usage: gfxcap info; replay [--pixels] [--frames A-B]; trim A-B; capture [--gather] [--frames A-B]; make N; upgrade; lean A-B; "
         b"list; unlist; digests\n")
MEBIBYTE = 1 << 20
BIG_WRITE = 500_000


def example(name):
    with open(os.path.join(TOP, "examples", name), "rb") as file:
        return file.read()


class Runs:
    """Runs of one program, and whether all of them ended as they have to."""

    def __init__(self, program):
        self.program, self.right = program, True

    def say(self, name, why):
        self.right = self.right and not why
        print(f"FAILED {name}: {why}" if why else f"ok {name}", flush=True)

    def expect(self, name, words, data, status, notes, out=None, **how):
        done = subprocess.run([self.program, *words], input=data, stdout=how.pop("stdout", subprocess.PIPE), stderr=subprocess.PIPE, check=False,
                              timeout=120, **how)
        got = (done.returncode, done.stderr) + (() if out is None else (done.stdout,))
        wanted = (status, notes) + (() if out is None else (out,))
        self.say(name, "" if got == wanted else f"it ends with {got!r}, and not {wanted!r}"[:300])


def small_memory():
    resource.setrlimit(resource.RLIMIT_AS, (4 * MEBIBYTE, 4 * MEBIBYTE))


def each_status(runs):
    first, one_frame = example("first.gfxcap"), example("one_frame.script")
    info = b"version 1000.1\nblocks 15\ncalls 15\nframes 1\n"
    runs.expect("status 0: info", ["info"], first, 0, b"", info)
    runs.expect("status 1: make 1000 in 4 MiB", ["make", "1000"], b"", 1, b"", b"", preexec_fn=small_memory)
    runs.expect("status 2: no words", [], first, 2, USAGE, b"")
    runs.expect("status 3: a file that was cut short", ["info"], first[:30], 3, b"bad block 1 at 16: 5 Truncated\n", b"")
    runs.expect("status 4: a frame that isn't there", ["trim", "9-9"], first, 4, b"no such frame: the file has 1 to 1\n")
    folder = os.open("/", os.O_RDONLY)
    runs.expect("status 5: a folder as standard input", ["info"], None, 5, b"read fault\n", b"", stdin=folder)
    os.close(folder)
    runs.expect("status 7: a text that is no script", ["capture"], b"thread x\n", 7, b"bad script line 1: BadLine\n", b"")
    runs.expect("status 8: a call that is refused", ["capture"], example("one_fault.script"), 8,
                b"refused line 19: 16 OutOfRange after 14 blocks\n")
    runs.expect("status 11: a text that is no listing", ["unlist"], b"x\n", 11, b"bad listing line 1\n", b"")
    runs.expect("--help", ["--help"], b"", 0, b"", None)
    runs.expect("--version", ["--version"], b"", 0, b"", b"gfxcap 0.1.0\n")
    runs.expect("a word that is no UTF-8", [b"\xff"], first, 2, USAGE, b"")
    runs.expect("capture of a good script", ["capture"], one_frame, 0, b"")


def other_ends(runs):
    first = example("first.gfxcap")
    runs.expect("status 5: a closed standard input", ["info"], None, 5, b"read fault\n", b"", preexec_fn=lambda: os.close(0))
    if os.path.exists("/dev/full"):
        with open("/dev/full", "wb") as full:
            runs.expect("status 6: a full disk", ["list"], first, 6, b"", stdout=full)
    else:
        print("skipped a full disk: there is no /dev/full")
    read_end, write_end = os.pipe()
    os.close(read_end)
    with os.fdopen(write_end, "wb") as closed:
        runs.expect("status 6: a closed pipe", ["list"], first, 6, b"", stdout=closed)


def short_writes(runs):
    """A reader that takes one byte at a time out of a pipe of one page gets all."""
    whole = subprocess.run([runs.program, "list"], input=example("three_frames.gfxcap"), stdout=subprocess.PIPE, check=True).stdout
    child = subprocess.Popen([runs.program, "list"], stdin=subprocess.PIPE, stdout=subprocess.PIPE, bufsize=0)
    feeder = threading.Thread(target=lambda: (child.stdin.write(example("three_frames.gfxcap")), child.stdin.close()))
    feeder.start()
    got = bytearray()
    while piece := os.read(child.stdout.fileno(), 1):
        got += piece
    feeder.join()
    runs.say("short reads of its output", "" if (child.wait(), bytes(got)) == (0, whole) else "it gives other bytes")
    child.stdout.close()


def full_log(runs):
    """540 writes of half a megabyte overfill a log of 2^28 bytes."""
    if os.sysconf("SC_PHYS_PAGES") * os.sysconf("SC_PAGE_SIZE") < 8192 * MEBIBYTE:
        print("skipped status 9: it takes a machine with 8 GiB of memory")
        return
    start = (b"phase\nthread 0\ni = vkCreateInstance api=4194304\nd = vkCreateDevice instance=i\n"
             b"m = vkAllocateMemory device=d size=1048576\nvkMapMemory device=d memory=m offset=0 size=1048576\n")
    line = b"write memory=m offset=0 bytes=" + b"61" * BIG_WRITE + b"\n"
    child = subprocess.Popen([runs.program, "capture"], stdin=subprocess.PIPE, stdout=subprocess.DEVNULL, stderr=subprocess.PIPE)
    child.stdin.write(start)
    for _ in range(540):
        child.stdin.write(line)
    notes = child.communicate()[1]
    right = child.returncode == 9 and notes.startswith(b"log full: ")
    runs.say("status 9: a log that is full", "" if right else f"it ends with {child.returncode} and {notes[:80]!r}")


def main():
    runs = Runs(os.path.abspath(sys.argv[1]))
    each_status(runs)
    other_ends(runs)
    short_writes(runs)
    full_log(runs)
    return 0 if runs.right else 1


if __name__ == "__main__":
    sys.exit(main())
