#!/usr/bin/env python3
"""Writes gradient.script: a gradient that moves to the left under a square that moves to the right, in eight frames.

Each frame clears the image, copies a part of the gradient into it, fills a buffer with one color, and copies that as the
square. The gradient itself is written once, into memory that the program has mapped.
"""
import os

WIDTH, HEIGHT, FRAMES, STEP, SIDE = 48, 32, 8, 6, 8
ALL = 2**64 - 1
LONG = WIDTH + STEP * FRAMES  # texels of a row of the gradient


def texel(x, y):
    """Red rises and falls along a row, green rises down the rows, blue falls along a row."""
    turn = x * 510 // LONG
    return bytes((min(turn, 510 - turn), y * 255 // HEIGHT, 255 - x * 255 // LONG, 255))


def rows():
    return [b"".join(texel(x, y) for x in range(LONG)) for y in range(HEIGHT)]


def setup():
    yield "# A gradient that moves to the left under a square that moves to the right. Written by gradient.py."
    yield "phase"
    yield "thread 0"
    yield "instance = vkCreateInstance api=4194304"
    yield "surface = vkCreateHeadlessSurfaceEXT instance=instance"
    yield "device = vkCreateDevice instance=instance"
    yield "queue = vkGetDeviceQueue device=device"
    yield f"# {WIDTH} by {HEIGHT} texels of four bytes (format 41, R8G8B8A8_UINT), to be copied to and presented"
    yield f"swapchain = vkCreateSwapchainKHR device=device surface=surface images=1 format=41 width={WIDTH} height={HEIGHT} usage=3"
    yield "image = vkGetSwapchainImagesKHR device=device swapchain=swapchain"
    yield "acquired = vkCreateFence device=device flags=0"
    yield f"# the gradient, of {LONG} by {HEIGHT} texels, row by row"
    yield f"memory = vkAllocateMemory device=device size={LONG * HEIGHT * 4}"
    yield f"vkMapMemory device=device memory=memory offset=0 size={ALL}"
    for y, row in enumerate(rows()):
        yield f"write memory=memory offset={y * len(row)} bytes={row.hex()}"
    yield f"gradient = vkCreateBuffer device=device size={LONG * HEIGHT * 4} usage=1"
    yield "vkBindBufferMemory device=device buffer=gradient memory=memory offset=0"
    yield "# the square, which a command fills"
    yield f"paint = vkAllocateMemory device=device size={SIDE * SIDE * 4}"
    yield f"square = vkCreateBuffer device=device size={SIDE * SIDE * 4} usage=3"
    yield "vkBindBufferMemory device=device buffer=square memory=paint offset=0"
    yield "pool = vkCreateCommandPool device=device flags=2"
    yield "commands = vkAllocateCommandBuffers device=device pool=pool"


def frame(number):
    x = (WIDTH - SIDE) * number // (FRAMES - 1)
    color = int.from_bytes(bytes((255, 255 - 32 * number, 32 * number, 255)), "little")
    before = 0 if number == 0 else 1000001002
    yield "phase"
    yield "thread 0"
    if number:
        yield "vkResetFences device=device fences=[acquired]"
    yield "vkBeginCommandBuffer cb=commands flags=0"
    yield f"vkCmdPipelineBarrier cb=commands barriers=[(image,{before},7)]"
    yield "vkCmdClearColorImage cb=commands image=image layout=7 c0=0 c1=0 c2=0 c3=255"
    yield f"vkCmdCopyBufferToImage cb=commands source=gradient target=image layout=7 regions=[({4 * STEP * number},{LONG},0,0,2,{WIDTH},{HEIGHT - 4})]"
    yield f"vkCmdFillBuffer cb=commands buffer=square offset=0 size={ALL} word={color}"
    yield f"vkCmdCopyBufferToImage cb=commands source=square target=image layout=7 regions=[(0,0,0,{x},{(HEIGHT - SIDE) // 2},{SIDE},{SIDE})]"
    yield "vkCmdPipelineBarrier cb=commands barriers=[(image,7,1000001002)]"
    yield "vkEndCommandBuffer cb=commands"
    yield "vkAcquireNextImageKHR device=device swapchain=swapchain semaphore=0 fence=acquired index=0 answer=0"
    yield "vkQueueSubmit queue=queue submits=[([],[commands],[])] fence=0"
    yield "vkQueuePresentKHR queue=queue waits=[] swapchain=swapchain index=0"


def main():
    path = os.path.join(os.path.dirname(os.path.abspath(__file__)), "gradient.script")
    with open(path, "w", encoding="ascii") as out:
        out.writelines(f"{line}\n" for line in setup())
        for number in range(FRAMES):
            out.writelines(f"{line}\n" for line in frame(number))


if __name__ == "__main__":
    main()
