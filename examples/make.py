#!/usr/bin/env python3
"""Writes the captures of this folder."""
import os

from blocks import call, fill_memory, header

R8_UINT, B8G8R8A8_UNORM = 13, 44
UNDEFINED, TRANSFER_DST_OPTIMAL, PRESENT_SRC_KHR = 0, 7, 1000001002
WHOLE_SIZE = 2**64 - 1
LETTERS = b"abcdbcdecdefdefgefghfghighijhijkijkljklmklmnlmnomnopnopq"


def swapchain(swapchain, surface, image, format=R8_UINT, width=1, height=1):
    """A swapchain of one image, and its image."""
    return [
        call(
            "CreateSwapchainKHR",
            device=3,
            swapchain=swapchain,
            surface=surface,
            images=1,
            format=format,
            width=width,
            height=height,
            usage=3,
        ),
        call("GetSwapchainImagesKHR", device=3, swapchain=swapchain, images=[image]),
    ]


def beginning(**extent):
    """Instance 1, surface 2, device 3 and queue 4, and swapchain 5 with image 6."""
    return [
        call("CreateInstance", instance=1, api=4194304),
        call("CreateHeadlessSurfaceEXT", instance=1, surface=2),
        call("CreateDevice", instance=1, device=3),
        call("GetDeviceQueue", device=3, queue=4),
        *swapchain(5, 2, 6, **extent),
    ]


def fence(fence):
    return call("CreateFence", device=3, fence=fence, flags=0)


def recorded(pool, buffer, commands):
    """A pool with one command buffer that has these commands."""
    return [
        call("CreateCommandPool", device=3, pool=pool, flags=2),
        call("AllocateCommandBuffers", device=3, pool=pool, buffers=[buffer]),
        call("BeginCommandBuffer", cb=buffer, flags=0),
        *commands,
        call("EndCommandBuffer", cb=buffer),
    ]


def acquire(swapchain, fence):
    return call(
        "AcquireNextImageKHR", device=3, swapchain=swapchain, semaphore=0, fence=fence, index=0, answer=0
    )


def submit(buffer):
    return call("QueueSubmit", queue=4, submits=[([], [buffer], [])], fence=0)


def shown(fence, buffer):
    """A frame of swapchain 5."""
    return [
        acquire(5, fence),
        submit(buffer),
        call("QueuePresentKHR", queue=4, waits=[], swapchain=5, index=0),
    ]


def first():
    """One frame of one texel, which nothing is written to."""
    barrier = call("CmdPipelineBarrier", cb=9, barriers=[(6, UNDEFINED, PRESENT_SRC_KHR)])
    return [*beginning(), fence(7), *recorded(8, 9, [barrier]), *shown(7, 9)]


def filled(content, size, **extent):
    """Bytes in memory 8 are copied from buffer 9 into the image, by command buffer 11, and the image is shown."""
    width, height = extent["width"], extent["height"]
    return [
        *beginning(**extent),
        fence(7),
        call("AllocateMemory", device=3, memory=8, size=64),
        call("MapMemory", device=3, memory=8, offset=0, size=WHOLE_SIZE),
        fill_memory(8, 0, content),
        call("CreateBuffer", device=3, buffer=9, size=size, usage=1),
        call("BindBufferMemory", device=3, buffer=9, memory=8, offset=0),
        *recorded(
            10,
            11,
            [
                call("CmdPipelineBarrier", cb=11, barriers=[(6, UNDEFINED, TRANSFER_DST_OPTIMAL)]),
                call(
                    "CmdCopyBufferToImage",
                    cb=11,
                    source=9,
                    target=6,
                    layout=TRANSFER_DST_OPTIMAL,
                    regions=[(0, 0, 0, 0, 0, width, height)],
                ),
                call("CmdPipelineBarrier", cb=11, barriers=[(6, TRANSFER_DST_OPTIMAL, PRESENT_SRC_KHR)]),
            ],
        ),
        *shown(7, 11),
    ]


def three_frames():
    """The same three texels in three frames."""
    again = [call("ResetFences", device=3, fences=[7]), *shown(7, 11)]
    return filled(b"abc", 16, width=3, height=1) + again * 2


def letters():
    """Fourteen texels of four letters each."""
    return filled(LETTERS, len(LETTERS), format=B8G8R8A8_UNORM, width=7, height=2)


def two_swapchains():
    """One present of two swapchains, which only version 2 has."""
    barriers = [(6, UNDEFINED, PRESENT_SRC_KHR), (9, UNDEFINED, PRESENT_SRC_KHR)]
    return [
        *beginning(),
        call("CreateHeadlessSurfaceEXT", instance=1, surface=7),
        *swapchain(8, 7, 9),
        fence(10),
        fence(11),
        *recorded(12, 13, [call("CmdPipelineBarrier", cb=13, barriers=barriers)]),
        acquire(5, 10),
        acquire(8, 11),
        submit(13),
        call("QueuePresentKHR", queue=4, waits=[], presents=[(5, 0), (8, 0)]),
    ]


def write(name, blocks, minor=1):
    with open(os.path.join(os.path.dirname(os.path.abspath(__file__)), name), "wb") as out:
        out.write(header(minor) + b"".join(blocks))


if __name__ == "__main__":
    write("first.gfxcap", first())
    write("three_frames.gfxcap", three_frames())
    write("letters.gfxcap", letters())
    write("two_swapchains.gfxcap", two_swapchains(), minor=2)
