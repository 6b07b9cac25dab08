#!/usr/bin/env python3
"""Prints what each other command takes over inputs that ask for much work, at two sizes, and the growth.

    commands.py [PROGRAM] [NAME..]

Each input is made twice, four times as large the second time, and names of inputs choose among them. The growth is how many times as long
the command takes over the larger one, in time of processors, and is to be at most 5; of runs below 20 ms it says little. The
program is built by the script `gfxcap` at the top of the repository, or is the one that the first word names. Inputs are made in
/tmp/gfxcap_hostile and stay there.
"""
import os
import random
import sys

TOP = os.path.dirname(os.path.dirname(os.path.dirname(os.path.abspath(__file__))))
sys.path[:0] = [os.path.dirname(os.path.abspath(__file__)), os.path.join(TOP, "examples"), os.path.join(TOP, "bench")]
from blocks import call, fill_memory, header  # noqa: E402
from measure import least, program_of, spent  # noqa: E402
from run import BUFFER, DEVICE, FIRST, INSTANCE, MEMORY, QUEUE, R8_UINT, begin, end, fill, ids, objects, pools_of_one, submit  # noqa: E402

PLACE = "/tmp/gfxcap_hostile"
GROWTH, FACTOR = 5, 4
SURFACE, SWAPCHAIN, SHOWN, FENCE = 20, 21, 22, 23
PRESENTED, TRANSFER = 1000001002, 7


# ---- scripts


def text(lines):
    return "".join(line + "\n" for line in lines).encode()


def setup():
    return [
        "phase",
        "thread 0",
        "instance = vkCreateInstance api=4194304",
        "device = vkCreateDevice instance=instance",
        "memory = vkAllocateMemory device=device size=268435456",
        "vkMapMemory device=device memory=memory offset=0 size=268435456",
    ]


def script_of_names(n):
    """Fences under names that are no two alike, each made and used."""
    lines = setup()
    for number in random.Random(7).sample(range(10**9), n):
        lines += [f"f{number} = vkCreateFence device=device flags=1", f"vkResetFences device=device fences=[f{number}]"]
        lines.append(f"vkDestroyFence device=device fence=f{number}")
    return text(lines)


def script_of_one_line(n):
    """One line that names so many fences, in a text whose other lines make and destroy them."""
    names = [f"f{number}" for number in range(n)]
    lines = setup() + [f"{name} = vkCreateFence device=device flags=1" for name in names]
    return text(lines + ["vkResetFences device=device fences=[" + ",".join(names) + "]"])


def script_of_skipped_lines(n):
    return text(["# nothing", "", "   "] * n + setup())


def script_that_is_bad_at_its_end(n):
    return text(setup() + [f"s{at} = vkCreateSemaphore device=device" for at in range(n)] + ["vk"])


def writes(n, offsets):
    return text(setup() + [f"write memory=memory offset={offset} bytes=7f" for offset in offsets(n)])


def rising_writes(n):
    return writes(n, range)


def falling_writes(n):
    return writes(n, lambda count: range(count - 1, -1, -1))


def scattered_writes(n):
    return writes(n, lambda count: random.Random(7).sample(range(2**28), count))


def writes_over_one_byte(n):
    return writes(n, lambda count: [0] * count)


def writes_that_overlap(n):
    piece = "00" * 512
    return text(setup() + [f"write memory=memory offset={256 * at} bytes={piece}" for at in range(n)])


# ---- listings


def listing(lines):
    return text(["gfxr 1000.1", *lines])


def listing_of_small_lines(n):
    return listing(["thread=0 vkCreateInstance instance=1 api=4194304"] * n)


def listing_of_one_line(n):
    return listing([f"thread=0 FillMemory memory=8 offset=0 bytes={'7f' * n}"])


def listing_of_one_list(n):
    return listing(["thread=0 vkResetFences device=3 fences=[" + ",".join(["18446744073709551615"] * n) + "]"])


def listing_of_one_word(n):
    return b"gfxr 1000.1\n" + b"x" * n + b"\n"


def listing_of_commas(n):
    return b"gfxr 1000.1\nthread=0 vkResetFences device=3 fences=[" + b"," * n + b"]\n"


# ---- captures that are shown


def swapchain():
    yield from objects(2**20)
    yield call("CreateHeadlessSurfaceEXT", instance=1, surface=SURFACE)
    shape = dict(images=1, format=R8_UINT, width=64, height=1, usage=3)
    yield call("CreateSwapchainKHR", device=DEVICE, swapchain=SWAPCHAIN, surface=SURFACE, **shape)
    yield call("GetSwapchainImagesKHR", device=DEVICE, swapchain=SWAPCHAIN, images=[SHOWN])
    yield call("CreateFence", device=DEVICE, fence=FENCE, flags=0)
    yield call("MapMemory", device=DEVICE, memory=MEMORY, offset=0, size=2**20)


def recorded(buffer, commands):
    yield begin(buffer) + call("CmdPipelineBarrier", cb=buffer, barriers=[(SHOWN, 0, TRANSFER)])
    yield from commands
    upload = call("CmdCopyBufferToImage", cb=buffer, source=BUFFER, target=SHOWN, layout=TRANSFER, regions=[(0, 0, 0, 0, 0, 64, 1)])
    yield upload + call("CmdPipelineBarrier", cb=buffer, barriers=[(SHOWN, TRANSFER, PRESENTED)]) + end(buffer)


def shown(buffer):
    acquire = call("AcquireNextImageKHR", device=DEVICE, swapchain=SWAPCHAIN, semaphore=0, fence=FENCE, index=0, answer=0)
    present = call("QueuePresentKHR", queue=QUEUE, waits=[], swapchain=SWAPCHAIN, index=0)
    return acquire + submit([[buffer]]) + present + call("ResetFences", device=DEVICE, fences=[FENCE])


def allocated(*buffers):
    return call("AllocateCommandBuffers", device=DEVICE, pool=5, buffers=list(buffers))


def many_frames(n):
    yield from swapchain()
    yield allocated(FIRST)
    yield from recorded(FIRST, [])
    yield shown(FIRST) * n


def two_frames(commands):
    yield from swapchain()
    yield allocated(FIRST)
    yield from recorded(FIRST, commands)
    yield shown(FIRST) * 2


def copies(n, regions):
    return [call("CmdCopyBuffer", cb=FIRST, source=BUFFER, target=BUFFER, regions=regions)] * n


def copies_there_and_back(n):
    """Copies that exchange the places that are asked for, again and again."""
    yield from two_frames(copies(n, [(0, 4096, 64), (4096, 0, 64)]))


def copies_of_scattered_bytes(n):
    """Regions of one byte, so that what is asked for falls into pieces."""
    draw = random.Random(7)
    regions = [(draw.randrange(60000), at % 64, 1) for at in range(256)]
    yield from two_frames(copies(n, regions))


def copies_that_spread(n):
    """Each copy asks for every second byte of twice as many, as far as there are bytes."""
    regions = [(2 * at, at, 1) for at in range(256)]
    yield from two_frames(copies(n, regions))


def unneeded_objects(n):
    yield from swapchain()
    for fence in ids(n, 10**6):
        yield call("CreateFence", device=DEVICE, fence=fence, flags=0)
    yield allocated(FIRST)
    yield from recorded(FIRST, [])
    yield shown(FIRST) * 2


def needed_objects(n):
    """A buffer whose commands name so many other buffers."""
    yield from swapchain()
    others = ids(n, 10**6)
    for buffer in others:
        yield call("CreateBuffer", device=DEVICE, buffer=buffer, size=16, usage=3)
        yield call("BindBufferMemory", device=DEVICE, buffer=buffer, memory=MEMORY, offset=0)
    yield allocated(FIRST)
    yield from recorded(FIRST, [call("CmdFillBuffer", cb=FIRST, buffer=buffer, offset=0, size=4, word=7) for buffer in others])
    yield shown(FIRST) * 2


def filled_pages(n):
    """A memory with a byte in each page, of which a frame reads the first."""
    yield from swapchain()
    yield call("AllocateMemory", device=DEVICE, memory=30, size=65536 * n)
    yield call("MapMemory", device=DEVICE, memory=30, offset=0, size=65536 * n)
    for page in range(n):
        yield fill_memory(30, 65536 * page, b"\x7f")
    yield allocated(FIRST)
    yield from recorded(FIRST, [])
    yield shown(FIRST) * 2


# ---- what is live where a cut begins


def cut_beside(blocks):
    yield from swapchain()
    yield from blocks
    yield allocated(FIRST)
    yield from recorded(FIRST, [])
    yield shown(FIRST) * 2


def live_pools(n):
    """Pools with a begun buffer each."""
    buffers = ids(n, 5 * 10**6)
    yield from cut_beside([*pools_of_one(ids(n, 10**6), buffers), *[begin(buffer) + fill(buffer) for buffer in buffers]])


def live_swapchains(n):
    """Swapchains, each on a surface of its own, with their images."""

    def blocks():
        shape = dict(format=R8_UINT, width=1, height=1, usage=3)
        for at in range(n):
            yield call("CreateHeadlessSurfaceEXT", instance=INSTANCE, surface=10**6 + at)
            yield call("CreateSwapchainKHR", device=DEVICE, swapchain=2 * 10**6 + at, surface=10**6 + at, images=1, **shape)
            yield call("GetSwapchainImagesKHR", device=DEVICE, swapchain=2 * 10**6 + at, images=[3 * 10**6 + at])

    yield from cut_beside(blocks())


def live_devices(n):
    """Devices with their queues."""
    yield from cut_beside(
        call("CreateDevice", instance=INSTANCE, device=10**6 + at) + call("GetDeviceQueue", device=10**6 + at, queue=2 * 10**6 + at) for at in range(n)
    )


def live_memories(n):
    """Memories, each with a byte and a buffer that is bound to it."""

    def blocks():
        for at in range(n):
            memory, buffer = 10**6 + at, 2 * 10**6 + at
            yield call("AllocateMemory", device=DEVICE, memory=memory, size=16)
            yield call("MapMemory", device=DEVICE, memory=memory, offset=0, size=16)
            yield fill_memory(memory, 0, b"\x7f")
            yield call("CreateBuffer", device=DEVICE, buffer=buffer, size=16, usage=3)
            yield call("BindBufferMemory", device=DEVICE, buffer=buffer, memory=memory, offset=0)

    yield from cut_beside(blocks())


def live_images(n):
    """Images that are bound to one memory, each in a layout."""

    def blocks():
        for at in range(n):
            yield call("CreateImage", device=DEVICE, image=10**6 + at, format=R8_UINT, width=1, height=1, usage=3)
            yield call("BindImageMemory", device=DEVICE, image=10**6 + at, memory=MEMORY, offset=0)

    yield from cut_beside(blocks())


def live_fences(n):
    """Fences under ids that lie anywhere."""
    draw = random.Random(7)
    yield from cut_beside(call("CreateFence", device=DEVICE, fence=draw.randrange(10**9, 2**64), flags=at % 2) for at in range(n))


LIVE = [(live_pools, 2000), (live_swapchains, 2000), (live_devices, 2000), (live_memories, 2000), (live_images, 4000), (live_fences, 10000)]


def capture(make):
    def made(n):
        return header() + b"".join(make(n))

    made.__name__ = make.__name__
    return made


# the words, what makes the input, the smaller size, and the status that is wanted
INPUTS = [
    ("capture", script_of_names, 10000, 0),
    ("capture", script_of_one_line, 10000, 0),
    ("capture", script_of_skipped_lines, 80000, 0),
    ("capture", script_that_is_bad_at_its_end, 30000, 7),
    *[("capture --gather", make, 25000, 0) for make in (rising_writes, falling_writes, scattered_writes, writes_over_one_byte, writes_that_overlap)],
    ("unlist", listing_of_small_lines, 50000, 0),
    ("unlist", listing_of_one_line, 2**22, 0),
    ("unlist", listing_of_one_list, 16384, 0),
    ("unlist", listing_of_one_word, 2**24, 11),
    ("unlist", listing_of_commas, 2**22, 11),
    *[(word, capture(many_frames), 10000, 0) for word in ("list", "upgrade", "digests", "trim 2-3", "lean 2-3")],
    *[(word, capture(make), n, 0) for make, n in LIVE for word in ("trim 2-2", "lean 2-2")],
    *[
        ("lean 2-2", capture(make), n, 0)
        for make, n in (
            (copies_there_and_back, 1000),
            (copies_of_scattered_bytes, 100),
            (copies_that_spread, 100),
            (unneeded_objects, 10000),
            (needed_objects, 10000),
            (filled_pages, 500),
        )
    ],
]


def written(make, n):
    path = os.path.join(PLACE, f"{make.__name__}.{n}.input")
    if not os.path.exists(path):
        with open(path + ".part", "wb") as out:
            out.write(make(n))
        os.replace(path + ".part", path)
    return path


def main():
    os.makedirs(PLACE, exist_ok=True)
    words = sys.argv[1:]
    names = {make.__name__ for _, make, _, _ in INPUTS}
    program = program_of([words.pop(0)] if words and words[0] not in names else [])
    print(f"{'words':17} {'input':30} {'bytes':>12} {'ms':>9} {'growth':>7}   (growth at most {GROWTH})")
    for line, make, n, wanted in INPUTS:
        if words and make.__name__ not in words:
            continue
        smaller, larger = written(make, n), written(make, FACTOR * n)
        jobs = [lambda path=path: 1000 * spent([program, *line.split()], path, wanted) for path in (smaller, larger)]
        before, after = least(*jobs)
        print(f"{line:17} {make.__name__:30} {os.path.getsize(larger):12,} {after:9.1f} {after / before:7.2f}", flush=True)


if __name__ == "__main__":
    main()
