#!/usr/bin/env python3
"""Prints how many lines of a script `gfxcap capture` runs a second.

    lines.py [PROGRAM]     a million barriers of no image, recorded by one thread, and by eight threads into a command buffer each

300,000 lines a second are wanted. The program is built by the script `gfxcap` at the top of the repository, or is the one that the
last word names. Scripts are made in /tmp/gfxcap_lines and stay there.
"""
import os
import sys

TOP = os.path.dirname(os.path.dirname(os.path.dirname(os.path.abspath(__file__))))
sys.path.insert(0, os.path.join(TOP, "bench"))
from measure import least, memory, program_of, run  # noqa: E402

PLACE = "/tmp/gfxcap_lines"
LINES = 1_000_000


def script(threads):
    """A phase that makes the objects, and one in which each thread records its part of the lines."""
    made = ["phase", "thread 0", "i = vkCreateInstance api=4194304", "d = vkCreateDevice instance=i"]
    for k in range(threads):
        made += [
            f"p{k} = vkCreateCommandPool device=d flags=0",
            f"c{k} = vkAllocateCommandBuffers device=d pool=p{k}",
            f"vkBeginCommandBuffer cb=c{k} flags=0",
        ]
    made.append("phase")
    for k in range(threads):
        made.append(f"thread {k}")
        made += [f"vkCmdPipelineBarrier cb=c{k} barriers=[]"] * (LINES // threads)
    return "\n".join(made) + "\n"


def written(threads):
    path = os.path.join(PLACE, f"{threads}.script")
    with open(path, "w", encoding="ascii") as out:
        out.write(script(threads))
    return path


def main():
    os.makedirs(PLACE, exist_ok=True)
    program, paths = program_of(sys.argv[1:]), {threads: written(threads) for threads in (1, 8)}
    jobs = [lambda path=path: run([program, "capture"], path) for path in paths.values()]
    for (threads, path), took in zip(paths.items(), least(*jobs)):
        kilobytes = memory([program, "capture"], path)
        print(f"{threads} threads: {took:.2f} s, {LINES / took:,.0f} lines a second (at least 300,000), {kilobytes:,} kB", flush=True)


if __name__ == "__main__":
    main()
