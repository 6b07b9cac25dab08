#!/usr/bin/env python3
"""Prints how fast a recording is replayed or trimmed, and the most memory that it takes.

    run.py replay [PROGRAM]     all of 60 and of 1,000 frames, beside `sha256sum` of as many bytes as these frames have
    run.py ends [PROGRAM]       the ends of fences, of buffers and of command buffers, beside 4,096 and 16,384 begun command buffers
    run.py trim [PROGRAM]       the middle third of 60, of 1,000 and of 5,000 frames, beside `cat` of the whole file

The frames are of 640 by 480 texels, and a thirtieth of each is new. The recordings are made in /tmp/gfxcap_replay and stay
there. The program is built by the script `gfxcap` at the top of the repository, or is the one that the last word names.
"""
import os
import subprocess
import sys

TOP = os.path.dirname(os.path.dirname(os.path.dirname(os.path.abspath(__file__))))
sys.path[:0] = [os.path.join(TOP, "examples"), os.path.join(TOP, "bench")]
from blocks import call, fill_memory, header  # noqa: E402
from measure import compare, least, program_of, run  # noqa: E402

PLACE = "/tmp/gfxcap_replay"
WRITTEN = os.path.join(PLACE, "written")
WIDTH, HEIGHT = 640, 480
FRAME = 4 * WIDTH * HEIGHT
PART = FRAME // 30
B8G8R8A8_UNORM = 44
UNDEFINED, TRANSFER_DST_OPTIMAL, PRESENT_SRC_KHR = 0, 7, 1000001002


def objects():
    """The instance, a swapchain of two images, mapped memory with a buffer, and what is recorded and waited for."""
    return [
        call("CreateInstance", instance=1, api=4194304),
        call("CreateHeadlessSurfaceEXT", instance=1, surface=2),
        call("CreateDevice", instance=1, device=3),
        call("GetDeviceQueue", device=3, queue=4),
        call(
            "CreateSwapchainKHR",
            device=3,
            swapchain=5,
            surface=2,
            images=2,
            format=B8G8R8A8_UNORM,
            width=WIDTH,
            height=HEIGHT,
            usage=3,
        ),
        call("GetSwapchainImagesKHR", device=3, swapchain=5, images=[6, 7]),
        call("AllocateMemory", device=3, memory=8, size=FRAME),
        call("MapMemory", device=3, memory=8, offset=0, size=FRAME),
        call("CreateBuffer", device=3, buffer=9, size=FRAME, usage=1),
        call("BindBufferMemory", device=3, buffer=9, memory=8, offset=0),
        call("CreateCommandPool", device=3, pool=10, flags=2),
        call("AllocateCommandBuffers", device=3, pool=10, buffers=[11, 12]),
        call("CreateSemaphore", device=3, semaphore=13),
        call("CreateSemaphore", device=3, semaphore=14),
        call("CreateFence", device=3, fence=15, flags=1),
    ]


def recorded(buffer, image):
    """A command buffer that copies the memory into an image."""
    return [
        call("BeginCommandBuffer", cb=buffer, flags=0),
        call("CmdPipelineBarrier", cb=buffer, barriers=[(image, UNDEFINED, TRANSFER_DST_OPTIMAL)]),
        call(
            "CmdCopyBufferToImage",
            cb=buffer,
            source=9,
            target=image,
            layout=TRANSFER_DST_OPTIMAL,
            regions=[(0, 0, 0, 0, 0, WIDTH, HEIGHT)],
        ),
        call("CmdPipelineBarrier", cb=buffer, barriers=[(image, TRANSFER_DST_OPTIMAL, PRESENT_SRC_KHR)]),
        call("EndCommandBuffer", cb=buffer),
    ]


PLAIN = bytes((7 * at + at // 256) % 256 for at in range(PART))


def frame(number):
    """The blocks of a frame, counted from 1, which writes one part of the memory anew."""
    index = (number - 1) % 2
    raised = bytes((byte + 31 * number) % 256 for byte in range(256))
    return [
        call("WaitForFences", device=3, fences=[15], wait_all=1, answer=0),
        call("ResetFences", device=3, fences=[15]),
        fill_memory(8, (number - 1) % 30 * PART, PLAIN.translate(raised)),
        call("AcquireNextImageKHR", device=3, swapchain=5, semaphore=13, fence=0, index=index, answer=0),
        call("QueueSubmit", queue=4, submits=[([13], [11 + index], [14])], fence=15),
        call("QueuePresentKHR", queue=4, waits=[14], swapchain=5, index=index),
    ]


def recording(program, frames):
    """The path of the recording of so many frames, which is made where it isn't there."""
    path = os.path.join(PLACE, f"{frames}.gfxcap")
    if not os.path.exists(path):
        with open(path, "wb") as out:
            out.write(header() + b"".join(objects() + recorded(11, 6) + recorded(12, 7)))
            for number in range(1, frames + 1):
                out.write(b"".join(frame(number)))
    with open(path, "rb") as data:
        told = subprocess.run([program, "info"], stdin=data, capture_output=True, text=True, check=True).stdout
    blocks = 25 + 6 * frames
    assert told == f"version 1000.1\nblocks {blocks}\ncalls {blocks - frames}\nframes {frames}\n", told
    return path


def as_many_bytes(frames):
    """The path of a file of as many zeros as the frames have bytes. A hash takes the same time for all bytes."""
    path = os.path.join(PLACE, f"{frames}.bytes")
    with open(path, "wb") as out:
        out.truncate(frames * FRAME)
    return path


def begun(count):
    """So many command buffers, each of which fills a part of one buffer."""
    ids = list(range(1000, 1000 + count))
    blocks = [
        call("CreateBuffer", device=3, buffer=16, size=FRAME, usage=2),
        call("BindBufferMemory", device=3, buffer=16, memory=8, offset=0),
        call("AllocateCommandBuffers", device=3, pool=10, buffers=ids),
    ]
    for cb in ids:
        blocks.append(call("BeginCommandBuffer", cb=cb, flags=0))
        blocks.append(call("CmdFillBuffer", cb=cb, buffer=16, offset=0, size=16, word=1))
        blocks.append(call("EndCommandBuffer", cb=cb))
    return blocks


def fences(count):
    """So many fences that are created and end."""
    ids = range(1 << 20, (1 << 20) + count)
    return [
        block
        for fence in ids
        for block in (
            call("CreateFence", device=3, fence=fence, flags=0),
            call("DestroyFence", device=3, fence=fence),
        )
    ]


def buffers(count):
    """So many buffers that are created and end."""
    ids = range(1 << 20, (1 << 20) + count)
    return [
        block
        for buffer in ids
        for block in (
            call("CreateBuffer", device=3, buffer=buffer, size=16, usage=2),
            call("DestroyBuffer", device=3, buffer=buffer),
        )
    ]


def freed(count):
    """The command buffers of `begun` in one call."""
    return [call("FreeCommandBuffers", device=3, pool=10, buffers=list(range(1000, 1000 + count)))]


def ending(name, blocks):
    """The path of a recording of these blocks and one frame."""
    path = os.path.join(PLACE, f"{name}.gfxcap")
    with open(path, "wb") as out:
        out.write(header() + b"".join(objects() + recorded(11, 6) + blocks + frame(1)))
    return path


def ends(program):
    ended = {"a fence": (fences(10000), 10000), "a buffer": (buffers(1000), 1000)}
    for count in (4096, 16384):
        all_ended = ended | {"a command buffer": (freed(count), count)}
        paths = [ending("begun", begun(count))] + [ending(f"ends.{at}", begun(count) + blocks) for at, (blocks, _) in enumerate(all_ended.values())]
        before, *times = least(*(lambda path=path: run([program, "replay"], path) for path in paths))
        for (title, (_, number)), took in zip(all_ended.items(), times):
            print(f"{count:6} begun   {title:16} {(took - before) / number * 1e6:8.1f} us", flush=True)


def main():
    os.makedirs(PLACE, exist_ok=True)
    words = sys.argv[1:] or ["replay"]
    if words[0] not in ("replay", "ends", "trim") or len(words) > 2:
        sys.exit(__doc__)
    program = program_of(words[1:])
    if words[0] == "ends":
        ends(program)
        return
    for frames in (60, 1000) if words[0] == "replay" else (60, 1000, 5000):
        path = recording(program, frames)
        print(f"{frames:5} frames   ", end="", flush=True)
        if words[0] == "replay":
            compare([program, "replay"], path, ["sha256sum"], as_many_bytes(frames), 1.3, WRITTEN)
        else:
            compare([program, "trim", f"{frames // 3}-{2 * frames // 3}"], path, ["cat"], path, 2, WRITTEN)


if __name__ == "__main__":
    main()
