"""Spells capture files, and says where a spelling ends: the calls that the examples and the measured captures are made of.

docs/format.md says what each of them is. Numbers are little-endian; blocks have thread 0 where no other is given.
"""
import struct


class Number:
    """A number of four or of eight bytes."""

    def __init__(self, form):
        self.form, self.size = form, struct.calcsize(form)

    def __call__(self, number):
        return struct.pack(self.form, number)

    def end(self, data, at):
        """Where the spelling ends that begins at `at`. It is a ValueError where none begins there."""
        if at + self.size > len(data):
            raise ValueError("the bytes end inside a number")
        return at + self.size

    def read(self, data, at):
        self.end(data, at)
        return struct.unpack_from(self.form, data, at)[0]


word, long = Number("<I"), Number("<Q")


class Record:
    """Values of several kinds, one behind the other."""

    def __init__(self, *kinds):
        self.kinds = kinds

    def __call__(self, values):
        return b"".join(kind(value) for kind, value in zip(self.kinds, values, strict=True))

    def end(self, data, at):
        for kind in self.kinds:
            at = kind.end(data, at)
        return at


class Several:
    """A count, and so many values of one kind."""

    def __init__(self, kind):
        self.kind = kind

    def __call__(self, values):
        return word(len(values)) + b"".join(self.kind(value) for value in values)

    def end(self, data, at):
        count, at = word.read(data, at), word.end(data, at)
        for _ in range(count):
            at = self.kind.end(data, at)
        return at


class Content:
    """A length, and so many bytes."""

    def __call__(self, content):
        return long(len(content)) + content

    def end(self, data, at):
        length, at = long.read(data, at), long.end(data, at)
        if at + length > len(data):
            raise ValueError("the bytes end inside bytes")
        return at + length


longs, words, content = Several(long), Several(word), Content()
regions = Several(Record(long, *[word] * 6))  # of copies between a buffer and an image

CALLS = {
    "CreateInstance": (1, dict(instance=long, api=word)),
    "DestroyInstance": (2, dict(instance=long)),
    "CreateHeadlessSurfaceEXT": (3, dict(instance=long, surface=long)),
    "DestroySurfaceKHR": (4, dict(instance=long, surface=long)),
    "CreateDevice": (5, dict(instance=long, device=long)),
    "DestroyDevice": (6, dict(device=long)),
    "GetDeviceQueue": (7, dict(device=long, queue=long)),
    "AllocateMemory": (8, dict(device=long, memory=long, size=long)),
    "FreeMemory": (9, dict(device=long, memory=long)),
    "MapMemory": (10, dict(device=long, memory=long, offset=long, size=long)),
    "UnmapMemory": (11, dict(device=long, memory=long)),
    "CreateBuffer": (12, dict(device=long, buffer=long, size=long, usage=word)),
    "DestroyBuffer": (13, dict(device=long, buffer=long)),
    "BindBufferMemory": (14, dict(device=long, buffer=long, memory=long, offset=long)),
    "CreateImage": (15, dict(device=long, image=long, format=word, width=word, height=word, usage=word)),
    "DestroyImage": (16, dict(device=long, image=long)),
    "BindImageMemory": (17, dict(device=long, image=long, memory=long, offset=long)),
    "CreateCommandPool": (18, dict(device=long, pool=long, flags=word)),
    "DestroyCommandPool": (19, dict(device=long, pool=long)),
    "ResetCommandPool": (20, dict(device=long, pool=long)),
    "AllocateCommandBuffers": (21, dict(device=long, pool=long, buffers=longs)),
    "FreeCommandBuffers": (22, dict(device=long, pool=long, buffers=longs)),
    "BeginCommandBuffer": (23, dict(cb=long, flags=word)),
    "EndCommandBuffer": (24, dict(cb=long)),
    "ResetCommandBuffer": (25, dict(cb=long)),
    "CmdPipelineBarrier": (26, dict(cb=long, barriers=Several(Record(long, word, word)))),
    "CmdFillBuffer": (27, dict(cb=long, buffer=long, offset=long, size=long, word=word)),
    "CmdUpdateBuffer": (28, dict(cb=long, buffer=long, offset=long, bytes=content)),
    "CmdCopyBuffer": (29, dict(cb=long, source=long, target=long, regions=Several(Record(long, long, long)))),
    "CmdCopyImage": (
        30,
        dict(
            cb=long,
            source=long,
            source_layout=word,
            target=long,
            target_layout=word,
            regions=Several(Record(*[word] * 6)),
        ),
    ),
    "CmdCopyBufferToImage": (31, dict(cb=long, source=long, target=long, layout=word, regions=regions)),
    "CmdCopyImageToBuffer": (32, dict(cb=long, source=long, layout=word, target=long, regions=regions)),
    "CmdClearColorImage": (33, dict(cb=long, image=long, layout=word, c0=word, c1=word, c2=word, c3=word)),
    "CreateFence": (34, dict(device=long, fence=long, flags=word)),
    "DestroyFence": (35, dict(device=long, fence=long)),
    "ResetFences": (36, dict(device=long, fences=longs)),
    "WaitForFences": (37, dict(device=long, fences=longs, wait_all=word, answer=word)),
    "GetFenceStatus": (38, dict(device=long, fence=long, answer=word)),
    "CreateSemaphore": (39, dict(device=long, semaphore=long)),
    "DestroySemaphore": (40, dict(device=long, semaphore=long)),
    "QueueSubmit": (41, dict(queue=long, submits=Several(Record(longs, longs, longs)), fence=long)),
    "QueueWaitIdle": (42, dict(queue=long)),
    "DeviceWaitIdle": (43, dict(device=long)),
    "CreateSwapchainKHR": (
        44,
        dict(device=long, swapchain=long, surface=long, images=word, format=word, width=word, height=word, usage=word),
    ),
    "DestroySwapchainKHR": (45, dict(device=long, swapchain=long)),
    "GetSwapchainImagesKHR": (46, dict(device=long, swapchain=long, images=longs)),
    "AcquireNextImageKHR": (
        47,
        dict(device=long, swapchain=long, semaphore=long, fence=long, index=word, answer=word),
    ),
    "QueuePresentKHR": (48, dict(queue=long, waits=longs, swapchain=long, index=word)),
}
# QueuePresentKHR as a file of version 2 spells it.
PRESENTS = dict(queue=long, waits=longs, presents=Several(Record(long, word)))
METADATA = {
    "FillMemory": (2, dict(memory=long, offset=long, bytes=content)),
    "InitImage": (3, dict(image=long, layout=word, bytes=content)),
    "SetSwapchainState": (4, dict(swapchain=long, acquired=words)),
    "SetSemaphoreState": (5, dict(semaphore=long, signalled=word)),
}


def block(kind, number, fields, values, thread):
    assert list(fields) == list(values), (number, list(fields), list(values))
    payload = word(number) + long(thread) + Record(*fields.values())(values.values())
    return long(len(payload)) + word(kind) + payload


def header(minor=1):
    return b"GFXR" + word(1000) + word(minor) + word(0)


def call(name, thread=0, **values):
    number, fields = CALLS[name]
    return block(4, number, PRESENTS if "presents" in values else fields, values, thread)


def fill_memory(memory, offset, content, thread=0):
    number, fields = METADATA["FillMemory"]
    return block(3, number, fields, dict(memory=memory, offset=offset, bytes=content), thread)
