#!/usr/bin/env python3
"""Prints what captures cost whose calls ask for much work: `info` beside `replay`, their quotient, and the growth.

    run.py [PROGRAM] [NAME..]

Each capture is made twice, four times as large the second time, and names of captures choose among them. `info` looks at the
format alone, so the quotient says what the rules cost; the growth is how many times as long the larger replay takes, and is to be
at most 5. The aims are what the quotient is wanted to be. The program is built by the script `gfxcap` at the top of the
repository, or is the one that the first word names. Captures are made in /tmp/gfxcap_hostile and stay there.
"""
import os
import random
import sys

TOP = os.path.dirname(os.path.dirname(os.path.dirname(os.path.abspath(__file__))))
sys.path[:0] = [os.path.join(TOP, "examples"), os.path.join(TOP, "bench")]
from blocks import call, header  # noqa: E402
from measure import least, program_of, run  # noqa: E402

PLACE = "/tmp/gfxcap_hostile"
GROWTH, FACTOR = 5, 4
INSTANCE, SURFACE, DEVICE, QUEUE, POOL, MEMORY, BUFFER = 1, 2, 3, 4, 5, 6, 7
FIRST = 1000  # ids from here on are the captures' own
R8_UINT, GENERAL, ALL = 13, 1, 2**64 - 1


def objects(size=65536):
    """An instance, a device with its queue, a pool whose buffers can be reset, and a buffer on all of a memory."""
    yield call("CreateInstance", instance=INSTANCE, api=4194304)
    yield call("CreateDevice", instance=INSTANCE, device=DEVICE)
    yield call("GetDeviceQueue", device=DEVICE, queue=QUEUE)
    yield call("CreateCommandPool", device=DEVICE, pool=POOL, flags=2)
    yield call("AllocateMemory", device=DEVICE, memory=MEMORY, size=size)
    yield call("CreateBuffer", device=DEVICE, buffer=BUFFER, size=size, usage=3)
    yield call("BindBufferMemory", device=DEVICE, buffer=BUFFER, memory=MEMORY, offset=0)


def ids(count, first=FIRST):
    return list(range(first, first + count))


def allocated(buffers):
    yield call("AllocateCommandBuffers", device=DEVICE, pool=POOL, buffers=buffers)


def begin(buffer):
    return call("BeginCommandBuffer", cb=buffer, flags=0)


def end(buffer):
    return call("EndCommandBuffer", cb=buffer)


def fill(buffer, target=BUFFER):
    return call("CmdFillBuffer", cb=buffer, buffer=target, offset=0, size=4, word=7)


def made_and_destroyed(count, first):
    for buffer in ids(count, first):
        yield call("CreateBuffer", device=DEVICE, buffer=buffer, size=16, usage=3)
        yield call("DestroyBuffer", device=DEVICE, buffer=buffer)


def submit(groups):
    submits = [([], group, []) for group in groups]
    return call("QueueSubmit", queue=QUEUE, submits=submits, fence=0)


def one_long_buffer(n):
    yield from objects()
    yield from allocated([FIRST])
    yield begin(FIRST)
    yield fill(FIRST) * (16 * n)
    yield from made_and_destroyed(n, FIRST + 1)


def short_submits(n):
    yield from objects()
    yield from allocated([FIRST])
    yield (begin(FIRST) + fill(FIRST) * 100 + end(FIRST) + submit([[FIRST]])) * n


def waits_on_fences(n):
    yield from objects()
    fences = ids(4096)
    for fence in fences:
        yield call("CreateFence", device=DEVICE, fence=fence, flags=1)
    yield call("WaitForFences", device=DEVICE, fences=fences[::-1], wait_all=1, answer=0) * n


def images(count, first):
    for image in ids(count, first):
        yield call("CreateImage", device=DEVICE, image=image, format=R8_UINT, width=1, height=1, usage=3)
        yield call("BindImageMemory", device=DEVICE, image=image, memory=MEMORY, offset=0)


def with_barriers(buffers, barriers):
    """Buffers with a call for each list of barriers."""
    yield from allocated(buffers)
    for buffer in buffers:
        yield begin(buffer)
        for some in barriers:
            yield call("CmdPipelineBarrier", cb=buffer, barriers=some)
        yield end(buffer)


def groups_of(buffers):
    return [buffers[at : at + 64] for at in range(0, len(buffers), 64)]


def one_image_each(n):
    yield from objects()
    yield from images(1024, 10**6)
    buffers = ids(1024)
    yield from allocated(buffers)
    for buffer in buffers:
        image = 10**6 + buffer - FIRST
        yield begin(buffer) + call("CmdPipelineBarrier", cb=buffer, barriers=[(image, 0, GENERAL)])
        yield call("CmdPipelineBarrier", cb=buffer, barriers=[(image, GENERAL, GENERAL)]) * n + end(buffer)
    yield submit(groups_of(buffers))


def many_images_each(n):
    yield from objects()
    some = ids(256, 10**6)
    yield from images(256, 10**6)
    first = [(image, 0, GENERAL) for image in some]
    again = [(image, GENERAL, GENERAL) for image in some]
    buffers = ids(n)
    yield from with_barriers(buffers, [first, again])
    yield submit(groups_of(buffers))


def scattered_fences(n):
    yield from objects()
    draw = random.Random(7)
    fences = list({draw.randrange(FIRST, 2**64) for _ in range(n)})
    draw.shuffle(fences)
    for fence in fences:
        yield call("CreateFence", device=DEVICE, fence=fence, flags=0)
    for fence in fences:
        yield call("DestroyFence", device=DEVICE, fence=fence)


def falling_ids(n):
    yield from objects()
    for turn in range(10):
        buffers = ids(n, FIRST + (9 - turn) * n)[::-1]
        yield from allocated(buffers)
        yield call("FreeCommandBuffers", device=DEVICE, pool=POOL, buffers=buffers)


def ends_beside_begun(n):
    yield from objects()
    buffers = ids(n)
    yield from allocated(buffers)
    for buffer in buffers:
        yield begin(buffer) + fill(buffer)
    yield from made_and_destroyed(n, FIRST + n)


def resets_beside_begun(n):
    yield from objects()
    buffers = ids(n)
    yield from allocated(buffers)
    for buffer in buffers:
        yield begin(buffer) + fill(buffer)
    for buffer in buffers:
        yield call("ResetCommandBuffer", cb=buffer) + begin(buffer) + fill(buffer)


def pool_resets(n):
    yield from objects()
    yield from allocated(ids(n))
    for pool in ids(n, FIRST + n):
        yield call("CreateCommandPool", device=DEVICE, pool=pool, flags=0)
        yield call("ResetCommandPool", device=DEVICE, pool=pool)
        yield call("DestroyCommandPool", device=DEVICE, pool=pool)


def freed_memories(n):
    yield from objects()
    yield from allocated([FIRST])
    yield begin(FIRST)
    for number in range(n):
        memory, buffer = FIRST + 1 + 2 * number, FIRST + 2 + 2 * number
        yield call("AllocateMemory", device=DEVICE, memory=memory, size=16)
        yield call("CreateBuffer", device=DEVICE, buffer=buffer, size=16, usage=3)
        yield call("BindBufferMemory", device=DEVICE, buffer=buffer, memory=memory, offset=0)
        yield call("FreeMemory", device=DEVICE, memory=memory) + call("DestroyBuffer", device=DEVICE, buffer=buffer)


def ends_of_images(n):
    yield from objects()
    buffers = ids(n)
    yield from images(1, 10**6)
    yield from with_barriers(buffers, [[(10**6, 0, GENERAL)]])
    for image in ids(n, 10**6 + 1):
        yield call("CreateImage", device=DEVICE, image=image, format=R8_UINT, width=1, height=1, usage=3)
        yield call("DestroyImage", device=DEVICE, image=image)


def copies_of_regions(n):
    yield from objects()
    yield call("CreateBuffer", device=DEVICE, buffer=BUFFER + 1, size=65536, usage=3)
    yield call("BindBufferMemory", device=DEVICE, buffer=BUFFER + 1, memory=MEMORY, offset=0)
    yield from allocated([FIRST])
    regions = [(8 * at, 8 * at + 4, 4) for at in range(256)]
    copy = call("CmdCopyBuffer", cb=FIRST, source=BUFFER, target=BUFFER + 1, regions=regions)
    yield begin(FIRST) + copy * n + end(FIRST)
    yield submit([[FIRST]])


def pools_of_one(pools, buffers):
    """Pools with a buffer each."""
    for pool, buffer in zip(pools, buffers):
        yield call("CreateCommandPool", device=DEVICE, pool=pool, flags=2)
        yield call("AllocateCommandBuffers", device=DEVICE, pool=pool, buffers=[buffer])


def of_each_pool(name, pools):
    for pool in pools:
        yield call(name, device=DEVICE, pool=pool)


def pools_with_buffers(n):
    """Pools with a begun buffer each, reset, begun again and destroyed."""
    yield from objects()
    pools, buffers = ids(n, 10**6), ids(n)
    begun = b"".join(begin(buffer) + fill(buffer) for buffer in buffers)
    yield from pools_of_one(pools, buffers)
    yield begun
    yield from of_each_pool("ResetCommandPool", pools)
    yield begun
    yield from of_each_pool("DestroyCommandPool", pools)


def pools_beside_buffers(n):
    """Pools with a buffer each, destroyed beside as many buffers of another pool."""
    yield from objects()
    yield from allocated(ids(n, 3 * 10**6))
    pools = ids(n, 10**6)
    yield from pools_of_one(pools, ids(n, 5 * 10**6))
    yield from of_each_pool("DestroyCommandPool", pools)


def memories_beside_named(n):
    """Memories made and freed beside as many resources that commands name."""
    yield from objects()
    yield from allocated([FIRST])
    yield begin(FIRST)
    for buffer in ids(n, 10**6):
        yield call("CreateBuffer", device=DEVICE, buffer=buffer, size=16, usage=3)
        yield call("BindBufferMemory", device=DEVICE, buffer=buffer, memory=MEMORY, offset=0)
        yield fill(FIRST, buffer)
    for memory in ids(n, 2 * 10**6):
        yield call("AllocateMemory", device=DEVICE, memory=memory, size=16)
        yield call("FreeMemory", device=DEVICE, memory=memory)


def swapchains(n):
    """Swapchains, each on a surface of its own, with their images, destroyed one after another."""
    yield call("CreateInstance", instance=INSTANCE, api=4194304)
    yield call("CreateDevice", instance=INSTANCE, device=DEVICE)
    for at in range(n):
        surface, swapchain, image = 10**6 + at, 2 * 10**6 + at, 3 * 10**6 + at
        yield call("CreateHeadlessSurfaceEXT", instance=INSTANCE, surface=surface)
        shape = dict(format=R8_UINT, width=1, height=1, usage=3)
        yield call("CreateSwapchainKHR", device=DEVICE, swapchain=swapchain, surface=surface, images=1, **shape)
        yield call("GetSwapchainImagesKHR", device=DEVICE, swapchain=swapchain, images=[image])
    for at in range(n):
        yield call("DestroySwapchainKHR", device=DEVICE, swapchain=2 * 10**6 + at)
        yield call("DestroySurfaceKHR", instance=INSTANCE, surface=10**6 + at)


def devices(n):
    """Devices with their queues, destroyed one after another."""
    yield call("CreateInstance", instance=INSTANCE, api=4194304)
    for at in range(n):
        yield call("CreateDevice", instance=INSTANCE, device=10**6 + at)
        yield call("GetDeviceQueue", device=10**6 + at, queue=2 * 10**6 + at)
    for at in range(n):
        yield call("DestroyDevice", device=10**6 + at)


def images_asked_for(n):
    """A submit of buffers each of which asks for 64 images in the layout in which the first one left them."""
    yield from objects()
    some = ids(64, 10**6)
    yield from images(64, 10**6)
    buffers = ids(n)
    yield from allocated(buffers)
    first = call("CmdPipelineBarrier", cb=FIRST, barriers=[(image, 0, GENERAL) for image in some])
    yield begin(FIRST) + first + end(FIRST)
    for buffer in buffers[1:]:
        clears = [call("CmdClearColorImage", cb=buffer, image=image, layout=GENERAL, c0=1, c1=0, c2=0, c3=0) for image in some]
        yield begin(buffer) + b"".join(clears) + end(buffer)
    yield submit(groups_of(buffers))


def images_of_their_own(n):
    """Two submits of buffers each of which has 60 images of its own: the first changes their layouts, the second asks for them."""
    yield from objects()
    some = ids(60 * n, 10**6)
    yield from images(60 * n, 10**6)
    buffers = ids(n)
    yield from allocated(buffers)
    for before in (0, GENERAL):
        for at, buffer in enumerate(buffers):
            barriers = [(image, before, GENERAL) for image in some[60 * at : 60 * at + 60]]
            yield begin(buffer) + call("CmdPipelineBarrier", cb=buffer, barriers=barriers) + end(buffer)
        yield submit(groups_of(buffers))


# the name, the smaller size, and what the quotient is wanted to be for the larger one, where that was said
CAPTURES = [
    (one_long_buffer, 4000, 3),
    (short_submits, 1000, 3),
    (waits_on_fences, 50, 12),
    (one_image_each, 32, 4),
    (many_images_each, 256, 20),
    (scattered_fences, 16000, 6),
    (falling_ids, 16250, None),
    (ends_beside_begun, 4000, None),
    (resets_beside_begun, 4000, None),
    (pool_resets, 4000, None),
    (freed_memories, 4000, None),
    (ends_of_images, 4000, None),
    (copies_of_regions, 100, None),
    (pools_with_buffers, 2000, None),
    (pools_beside_buffers, 2000, None),
    (memories_beside_named, 2000, None),
    (swapchains, 2000, None),
    (devices, 2000, None),
    (images_asked_for, 256, None),
    (images_of_their_own, 256, None),
]


def written(make, n):
    path = os.path.join(PLACE, f"{make.__name__}.{n}.gfxcap")
    if not os.path.exists(path):
        with open(path + ".part", "wb") as out:
            out.write(header())
            out.writelines(make(n))
        os.replace(path + ".part", path)
    return path


def main():
    os.makedirs(PLACE, exist_ok=True)
    words = sys.argv[1:]
    names = {make.__name__ for make, _, _ in CAPTURES}
    program = program_of([words.pop(0)] if words and words[0] not in names else [])
    print(f"{'capture':20} {'bytes':>12} {'info':>8} {'replay':>10} {'quotient':>9} {'aim':>5} {'growth':>7}   (ms; growth at most {GROWTH})")
    for make, n, aim in CAPTURES:
        if words and make.__name__ not in words:
            continue
        smaller, larger = written(make, n), written(make, FACTOR * n)
        jobs = [("replay", smaller), ("info", larger), ("replay", larger)]
        before, info, replay = least(*(lambda word=word, path=path: 1000 * run([program, word], path) for word, path in jobs))
        print(
            f"{make.__name__:20} {os.path.getsize(larger):12,} {info:8.1f} {replay:10.1f} {replay / info:9.1f} {aim or '':>5} {replay / before:7.2f}",
            flush=True,
        )


if __name__ == "__main__":
    main()
