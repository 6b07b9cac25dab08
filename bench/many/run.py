#!/usr/bin/env python3
"""Measures one long capture replayed whole, and as ranges by several processes at once.

    run.py PROGRAM [--frames N] [--rounds N]

The capture has N frames (600) of 640 by 480 texels, each cleared with a color of its own. It is replayed whole, then as 1, 2 and 4 ranges of
equal length by as many processes, whose frames put together have to be what the whole replay says, and from the last frame alone, of which all
but the digest is what a range costs before its first frame. The middle of the rounds, by turns.
"""
import argparse
import os
import statistics
import subprocess
import sys
import tempfile
import time

WIDTH, HEIGHT = 640, 480
SETUP = """phase
thread 0
instance = vkCreateInstance api=4194304
surface = vkCreateHeadlessSurfaceEXT instance=instance
device = vkCreateDevice instance=instance
queue = vkGetDeviceQueue device=device
swapchain = vkCreateSwapchainKHR device=device surface=surface images=1 format=41 width=640 height=480 usage=3
image = vkGetSwapchainImagesKHR device=device swapchain=swapchain
acquired = vkCreateFence device=device flags=0
pool = vkCreateCommandPool device=device flags=2
commands = vkAllocateCommandBuffers device=device pool=pool
"""
FRAME = """vkBeginCommandBuffer cb=commands flags=0
vkCmdPipelineBarrier cb=commands barriers=[(image,{before},7)]
vkCmdClearColorImage cb=commands image=image layout=7 c0={red} c1={green} c2=128 c3=255
vkCmdPipelineBarrier cb=commands barriers=[(image,7,1000001002)]
vkEndCommandBuffer cb=commands
vkAcquireNextImageKHR device=device swapchain=swapchain semaphore=0 fence=acquired index=0 answer=0
vkQueueSubmit queue=queue submits=[([],[commands],[])] fence=0
vkQueuePresentKHR queue=queue waits=[] swapchain=swapchain index=0
vkResetFences device=device fences=[acquired]
"""


def script(frames):
    yield SETUP
    for number in range(frames):
        yield FRAME.format(before=0 if number == 0 else 1000001002, red=number % 256, green=number // 256)


def replay(program, path, words=()):
    with open(path, "rb") as capture:
        return subprocess.Popen([program, "replay", *words], stdin=capture, stdout=subprocess.PIPE)


def ranges(frames, count):
    ends = [frames * part // count for part in range(count + 1)]
    return [(first + 1, last) for first, last in zip(ends, ends[1:])]


def in_ranges(program, path, frames, count):
    """The lines of all frames, by as many processes as there are ranges."""
    children = [replay(program, path, ("--frames", f"{first}-{last}")) for first, last in ranges(frames, count)]
    texts = [child.communicate()[0] for child in children]
    return b"".join(line for text in texts for line in text.splitlines(keepends=True)[:-1])


def timed(work):
    began = time.perf_counter()
    answer = work()
    return time.perf_counter() - began, answer


def main():
    parser = argparse.ArgumentParser(description=__doc__.splitlines()[0])
    parser.add_argument("program")
    parser.add_argument("--frames", type=int, default=600)
    parser.add_argument("--rounds", type=int, default=9)
    given = parser.parse_args()
    program, frames = os.path.abspath(given.program), given.frames
    with tempfile.TemporaryDirectory() as folder:
        path = os.path.join(folder, "long.gfxcap")
        with open(path, "wb") as capture:
            subprocess.run([program, "capture"], input="".join(script(frames)).encode(), stdout=capture, check=True)
        whole = replay(program, path).communicate()[0]
        lines = b"".join(whole.splitlines(keepends=True)[:-1])
        works = {"whole": lambda: whole and replay(program, path).communicate()[0],
                 **{f"{count} range{'s' * (count > 1)}": lambda count=count: in_ranges(program, path, frames, count) for count in (1, 2, 4)},
                 "last frame alone": lambda: replay(program, path, ("--frames", f"{frames}-{frames}")).communicate()[0]}
        times = {name: [] for name in works}
        for _ in range(given.rounds):
            for name, work in works.items():
                took, answer = timed(work)
                times[name].append(took)
                if "range" in name and answer != lines:
                    sys.exit(f"{name}: other frames than the whole replay says")
        print(f"{frames} frames of {WIDTH} by {HEIGHT}, {os.path.getsize(path):,} bytes; {os.cpu_count()} processors, middle of {given.rounds} rounds")
        for name, took in times.items():
            print(f"{name}: {statistics.median(took):.2f} s (least {min(took):.2f}, most {max(took):.2f})")
    return 0


if __name__ == "__main__":
    sys.exit(main())
