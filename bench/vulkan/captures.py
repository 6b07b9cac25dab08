#!/usr/bin/env python3
"""Writes a random capture that keeps to what Vulkan defines: captures.py SEED [RULE].

Every byte is written before it is read; no two resources share memory; what a barrier from UNDEFINED loses is written whole before it
is read; regions of a copy don't overlap; images of a swapchain are used while they are acquired; values of clears fit; and
each frame waits for the one before it. With the name of a rule that is the profile's own it does what that rule defines, here and
there: windows share memory (`shared`), what a barrier from UNDEFINED loses is read (`kept`), values of clears are too wide
(`wide`), or regions of copies overlap (`overlapping`).
"""
import os
import random
import sys
from dataclasses import dataclass, field

HERE = os.path.dirname(os.path.abspath(__file__))
TOP = os.path.dirname(os.path.dirname(HERE))
sys.path[:0] = [os.path.join(TOP, "examples"), HERE]
from blocks import call, fill_memory, header  # noqa: E402
from recorder import Recorder  # noqa: E402
from resources import FORMATS, WHOLE_SIZE, Buffer, Image, Recorded, Swapchain  # noqa: E402

FRAMES = 12
ONCE, AT_ONCE_TOO = 1, 4  # flags of a begin: submitted once, and submitted again while it is at work
NOT_READY, TIMEOUT = 1, 2
MOST_WIDE, MOST_HIGH = 40, 30
MEMORY = 1 << 18
OWN = ("shared", "kept", "wide", "overlapping")


@dataclass
class Capture:
    """The blocks so far, and the newest id."""

    draw: random.Random
    own: str  # one of OWN, or nothing
    memory: int  # bytes of each device's memory
    minor: int
    last: int = 0
    blocks: list = field(default_factory=list)

    def call(self, name, **values):
        self.blocks.append(call(name, thread=self.draw.choice((0, 0, 1, 2)), **values))

    def new(self):
        self.last += self.draw.choice((1, 1, 1, 7))
        return self.last

    def content(self, size):
        kind = self.draw.randrange(3)
        return (self.draw.randbytes(size), (bytes(range(256)) * (size // 256 + 1))[:size], bytes([self.draw.randrange(256)]) * size)[kind]

    def leaves_vulkan(self, rule):
        """Whether what comes is to be defined by this rule of the profile alone."""
        return self.own == rule and self.draw.random() < 0.2


class Device:
    """A device with a mapped memory, and what is made on it."""

    def __init__(self, capture, instance):
        self.capture, self.draw = capture, capture.draw
        self.buffers, self.images, self.swapchains, self.commands, self.again = [], [], [], [], []
        self.id, self.queue, self.memory, self.free = capture.new(), capture.new(), capture.new(), 0
        capture.call("CreateDevice", instance=instance, device=self.id)
        capture.call("GetDeviceQueue", device=self.id, queue=self.queue)
        self.make("AllocateMemory", memory=self.memory, size=capture.memory)
        self.make("MapMemory", memory=self.memory, offset=0, size=self.draw.choice((WHOLE_SIZE, capture.memory)))
        capture.blocks.append(fill_memory(self.memory, 0, capture.content(capture.memory)))
        self.make_waits()
        self.large = self.make_buffer(4 * MOST_WIDE * MOST_HIGH)  # enough for any image, and never destroyed
        for _ in range(self.draw.randint(1, 3)):
            self.make_buffer(self.draw.randint(16, 6000))
        for _ in range(self.draw.randint(2, 4)):
            self.make_image()
        for _ in range(self.draw.randint(1, 2)):
            self.make_swapchain(instance)

    def make(self, name, **values):
        self.capture.call(name, device=self.id, **values)

    def make_waits(self):
        self.pool, self.acquired, self.drawn, self.fence, self.other_fence = (self.capture.new() for _ in range(5))
        self.make("CreateCommandPool", pool=self.pool, flags=self.draw.choice((2, 3)))
        self.make("CreateSemaphore", semaphore=self.acquired)
        self.make("CreateSemaphore", semaphore=self.drawn)
        self.make("CreateFence", fence=self.fence, flags=1)
        self.make("CreateFence", fence=self.other_fence, flags=0)

    def window(self, size):
        """Where so many bytes have room, if they do."""
        if self.capture.leaves_vulkan("shared") and size <= self.free:
            return self.draw.randint(0, (self.free - size) // 64) * 64
        offset = self.free
        if offset + size > self.capture.memory:
            return None
        self.free = (offset + size + 127) // 64 * 64
        return offset

    def make_buffer(self, size):
        offset = self.window(size)
        if offset is None:
            return None
        buffer = Buffer(self.capture.new(), size, offset)
        self.make("CreateBuffer", buffer=buffer.id, size=size, usage=3)
        self.make("BindBufferMemory", buffer=buffer.id, memory=self.memory, offset=offset)
        self.buffers.append(buffer)
        return buffer

    def make_image(self):
        kind, width, height = self.shape()
        image = Image(0, kind, width, height)
        offset = self.window(image.size)
        if offset is None:
            return
        image.id = self.capture.new()
        self.make("CreateImage", image=image.id, format=kind, width=width, height=height, usage=3)
        self.make("BindImageMemory", image=image.id, memory=self.memory, offset=offset)
        self.images.append(image)

    def make_swapchain(self, instance):
        surface, swapchain, count = self.capture.new(), self.capture.new(), self.draw.randint(1, 3)
        kind, width, height = self.shape()
        self.capture.call("CreateHeadlessSurfaceEXT", instance=instance, surface=surface)
        self.make(
            "CreateSwapchainKHR", swapchain=swapchain, surface=surface, images=count, format=kind, width=width, height=height, usage=3
        )
        images = [Image(self.capture.new(), kind, width, height) for _ in range(count)]
        self.make("GetSwapchainImagesKHR", swapchain=swapchain, images=[image.id for image in images])
        self.swapchains.append(Swapchain(swapchain, images))

    def shape(self):
        return self.draw.choice(FORMATS), self.draw.randint(1, MOST_WIDE), self.draw.randint(1, MOST_HIGH)

    # --- a frame

    def frame(self):
        self.wait_and_write()
        presents = self.acquire()
        shown = [swapchain.images[index] for swapchain, index in presents]
        buffers = self.record(shown)
        self.submit(buffers)
        self.present(presents)
        self.end_some()

    def wait_and_write(self):
        self.make("WaitForFences", fences=[self.fence], wait_all=1, answer=0)
        self.make("ResetFences", fences=[self.fence])
        if self.draw.random() < 0.3:
            self.make("GetFenceStatus", fence=self.fence, answer=NOT_READY)
            self.make("WaitForFences", fences=[self.fence, self.other_fence], wait_all=self.draw.randrange(2), answer=TIMEOUT)
        if self.draw.random() < 0.3:
            self.make_buffer(self.draw.randint(16, 6000))
        if self.draw.random() < 0.3:
            self.make_image()
        for _ in range(self.draw.randrange(3)):
            buffer = self.draw.choice(self.buffers)
            start = self.draw.randrange(buffer.size)
            some = self.capture.content(self.draw.randint(1, buffer.size - start))
            self.capture.blocks.append(fill_memory(self.memory, buffer.offset + start, some))

    def acquire(self):
        """An image of one swapchain, or in version 2 of some."""
        count = self.draw.randint(1, len(self.swapchains)) if self.capture.minor == 2 else 1
        presents = []
        for swapchain in self.draw.sample(self.swapchains, count):
            index = self.draw.randrange(len(swapchain.images))
            presents.append((swapchain, index))
            fence = self.other_fence if self.draw.random() < 0.4 else 0
            semaphore = 0 if fence else self.acquired
            self.make("AcquireNextImageKHR", swapchain=swapchain.id, semaphore=semaphore, fence=fence, index=index, answer=0)
            if fence:
                self.make("WaitForFences", fences=[fence], wait_all=1, answer=0)
                self.make("ResetFences", fences=[fence])
            else:
                self.capture.call("QueueSubmit", queue=self.queue, submits=[([semaphore], [], [])], fence=0)
        return presents

    def record(self, shown):
        """The command buffers of a frame: one from before that writes just these images, or one or two new ones."""
        fitting = [recorded for recorded in self.again if sorted(image.id for image in shown) == recorded.shown]
        if fitting and self.draw.random() < 0.4:
            recorded = self.draw.choice(fitting)
            self.take_layouts(recorded.layouts, shown)
            return [recorded.id]
        buffers = []
        for _ in range(self.draw.randint(1, 2)):
            buffers.append(self.commands_for_one(buffers))
            once = self.draw.random() < 0.4
            flags = ONCE if once else self.draw.choice((0, AT_ONCE_TOO))
            self.capture.call("BeginCommandBuffer", cb=buffers[-1], flags=flags)
            layouts = Recorder(self, buffers[-1], once).record(shown)
            self.capture.call("EndCommandBuffer", cb=buffers[-1])
            self.take_layouts(layouts, shown)
            if not once:
                self.again.append(Recorded(buffers[-1], layouts, sorted(image.id for image in shown)))
        return buffers

    def commands_for_one(self, taken):
        """A command buffer that this frame doesn't use yet."""
        free = [one for one in self.commands if one not in taken]
        one = self.draw.choice(free) if free and self.draw.random() < 0.5 else self.capture.new()
        if one not in self.commands:
            self.make("AllocateCommandBuffers", pool=self.pool, buffers=[one])
            self.commands.append(one)
        self.again = [recorded for recorded in self.again if recorded.id != one]
        return one

    def take_layouts(self, layouts, shown):
        for image in self.images + shown:
            if image.id in layouts:
                image.layout, image.is_written = layouts[image.id], True

    def submit(self, buffers):
        submits = [([], buffers, [self.drawn])]
        if self.draw.random() < 0.5:
            submits = [([], buffers[:1], [self.acquired]), ([self.acquired], buffers[1:], [self.drawn])]
        self.capture.call("QueueSubmit", queue=self.queue, submits=submits, fence=self.fence)
        if self.draw.random() < 0.2:
            self.capture.call("QueueWaitIdle", queue=self.queue)

    def present(self, presents):
        if self.capture.minor == 2:
            items = [(swapchain.id, index) for swapchain, index in presents]
            self.capture.call("QueuePresentKHR", queue=self.queue, waits=[self.drawn], presents=items)
        else:
            swapchain, index = presents[0]
            self.capture.call("QueuePresentKHR", queue=self.queue, waits=[self.drawn], swapchain=swapchain.id, index=index)

    def end_some(self):
        """Ends or resets something, after all work is done. Command buffers that may name what ended are used no more."""
        kind = self.draw.randrange(20)
        if kind < 10:
            return
        self.make("DeviceWaitIdle")
        if kind < 13 and len(self.images) > 2:
            self.make("DestroyImage", image=self.images.pop(0).id)
        elif kind < 16 and len(self.buffers) > 2:
            self.make("DestroyBuffer", buffer=self.buffers.pop(1).id)
        elif kind < 18:
            self.make("ResetCommandPool", pool=self.pool)
        elif self.commands:
            self.make("FreeCommandBuffers", pool=self.pool, buffers=self.commands)
            self.commands = []
        self.again = []


def capture_of(seed, own="", memory=MEMORY):
    """The bytes of the capture of a seed. Less memory has room for fewer buffers and images."""
    draw = random.Random(f"{seed} {own}" if own else seed)
    capture = Capture(draw, own, memory, minor=draw.choice((1, 2)))
    instance = capture.new()
    capture.call("CreateInstance", instance=instance, api=4194304)
    devices = [Device(capture, instance) for _ in range(draw.randint(1, 2))]
    for _ in range(FRAMES):
        draw.choice(devices).frame()
    return header(capture.minor) + b"".join(capture.blocks)


if __name__ == "__main__":
    sys.stdout.buffer.write(capture_of(int(sys.argv[1]), *sys.argv[2:3]))
