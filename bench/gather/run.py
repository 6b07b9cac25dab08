#!/usr/bin/env python3
"""Prints what gathering does for a script of 100,000 writes of one byte each: time, size and memory with `--gather` and without.

    run.py [PROGRAM]     the writes at rising, falling and scattered offsets

The frames of both recordings are compared. The program is built by the script `gfxcap` at the top of the repository, or is the one
that the first word names. Scripts are made in /tmp/gfxcap_gather and stay there.
"""
import os
import random
import sys

TOP = os.path.dirname(os.path.dirname(os.path.dirname(os.path.abspath(__file__))))
sys.path.insert(0, os.path.join(TOP, "bench"))
from measure import least, program_of, run  # noqa: E402

PLACE = "/tmp/gfxcap_gather"
WRITES = 100_000
WIDTH = 1000
SIZE = WRITES

SETUP = f"""phase
thread 0
instance = vkCreateInstance api=4194304
surface = vkCreateHeadlessSurfaceEXT instance=instance
device = vkCreateDevice instance=instance
queue = vkGetDeviceQueue device=device
swapchain = vkCreateSwapchainKHR device=device surface=surface images=1 format=13 width={WIDTH} height={SIZE // WIDTH} usage=3
image = vkGetSwapchainImagesKHR device=device swapchain=swapchain
acquired = vkCreateFence device=device flags=0
memory = vkAllocateMemory device=device size={SIZE}
vkMapMemory device=device memory=memory offset=0 size={SIZE}
"""
DRAW = f"""buffer = vkCreateBuffer device=device size={SIZE} usage=1
vkBindBufferMemory device=device buffer=buffer memory=memory offset=0
pool = vkCreateCommandPool device=device flags=2
commands = vkAllocateCommandBuffers device=device pool=pool
vkBeginCommandBuffer cb=commands flags=0
vkCmdPipelineBarrier cb=commands barriers=[(image,0,7)]
vkCmdCopyBufferToImage cb=commands source=buffer target=image layout=7 regions=[(0,0,0,0,0,{WIDTH},{SIZE // WIDTH})]
vkCmdPipelineBarrier cb=commands barriers=[(image,7,1000001002)]
vkEndCommandBuffer cb=commands
vkAcquireNextImageKHR device=device swapchain=swapchain semaphore=0 fence=acquired index=0 answer=0
vkQueueSubmit queue=queue submits=[([],[commands],[])] fence=0
vkQueuePresentKHR queue=queue waits=[] swapchain=swapchain index=0
"""


def script(name, offsets):
    path = os.path.join(PLACE, f"{name}.script")
    with open(path, "w", encoding="ascii") as out:
        out.write(SETUP)
        out.writelines(f"write memory=memory offset={offset} bytes={offset * 7 % 256:02x}\n" for offset in offsets)
        out.write(DRAW)
    return path


def frames(program, path):
    """What `replay` says of a recording."""
    run([program, "replay"], path, path + ".shown")
    with open(path + ".shown", "rb") as lines:
        return lines.read()


def main():
    os.makedirs(PLACE, exist_ok=True)
    program = program_of(sys.argv[1:])
    offsets = list(range(WRITES))
    orders = {"rising": offsets, "falling": offsets[::-1], "scattered": random.Random(7).sample(offsets, WRITES)}
    for name, order in orders.items():
        path = script(name, order)
        commands = {os.path.join(PLACE, "plain"): ["capture"], os.path.join(PLACE, "gathered"): ["capture", "--gather"]}
        jobs = [lambda words=words, out=out: run([program, *words], path, out) for out, words in commands.items()]
        for (out, words), took in zip(commands.items(), least(*jobs)):
            print(f"{name:10} {' '.join(words):18} {took:.3f} s  {os.path.getsize(out):12,} bytes", flush=True)
        plain, gathered = (frames(program, out) for out in commands)
        assert plain == gathered, name


if __name__ == "__main__":
    main()
