"""Captures for the checks of the tools, made by the program of listings and scripts."""
import os
import re
import subprocess

TOP = os.path.dirname(os.path.dirname(os.path.abspath(__file__)))
ALL = 2**64 - 1
PRESENT = 1000001002


def gfxcap(words, given):
    """What the program writes of some bytes."""
    return subprocess.run([os.environ["GFXCAP"], *words], input=given, capture_output=True, check=False).stdout


def example(name):
    return os.path.join(TOP, "examples", name)


def read(path):
    with open(path, "rb") as file:
        return file.read()


def made(script):
    return gfxcap(["capture"], read(example(script)))


def gradient():
    return made("gradient.script")


def of_lines(lines, minor=1):
    """The capture of a listing, whose lines have thread 0 where they have none."""
    texts = [line if line.startswith("thread=") else f"thread=0 {line}" for line in lines]
    return gfxcap(["unlist"], "".join(f"{line}\n" for line in [f"gfxr 1000.{minor}", *texts]).encode())


def opening(form=41, width=4, height=2, images=(6,)):
    """Swapchain 5 with its images, fence 7, and memory 8 of 4,096 bytes, mapped, under buffer 9."""
    yield "vkCreateInstance instance=1 api=4194304"
    yield "vkCreateHeadlessSurfaceEXT instance=1 surface=2"
    yield "vkCreateDevice instance=1 device=3"
    yield "vkGetDeviceQueue device=3 queue=4"
    yield (f"vkCreateSwapchainKHR device=3 swapchain=5 surface=2 images={len(images)} format={form} width={width} "
           f"height={height} usage=3")
    yield f"vkGetSwapchainImagesKHR device=3 swapchain=5 images=[{','.join(map(str, images))}]"
    yield "vkCreateFence device=3 fence=7 flags=0"
    yield "vkAllocateMemory device=3 memory=8 size=4096"
    yield f"vkMapMemory device=3 memory=8 offset=0 size={ALL}"
    yield "vkCreateBuffer device=3 buffer=9 size=4096 usage=3"
    yield "vkBindBufferMemory device=3 buffer=9 memory=8 offset=0"


def shown(content, form=41, width=4, height=2):
    """A capture of one frame that shows these bytes."""
    return of_lines([
        *opening(form, width, height),
        f"FillMemory memory=8 offset=0 bytes={content.hex()}",
        "vkCreateCommandPool device=3 pool=10 flags=2",
        "vkAllocateCommandBuffers device=3 pool=10 buffers=[11]",
        "vkBeginCommandBuffer cb=11 flags=0",
        "vkCmdPipelineBarrier cb=11 barriers=[(6,0,7)]",
        f"vkCmdCopyBufferToImage cb=11 source=9 target=6 layout=7 regions=[(0,0,0,0,0,{width},{height})]",
        f"vkCmdPipelineBarrier cb=11 barriers=[(6,7,{PRESENT})]",
        "vkEndCommandBuffer cb=11",
        "vkAcquireNextImageKHR device=3 swapchain=5 semaphore=0 fence=7 index=0 answer=0",
        "vkQueueSubmit queue=4 submits=[([],[11],[])] fence=0",
        "vkQueuePresentKHR queue=4 waits=[] swapchain=5 index=0",
    ])  # fmt: skip


def present(index, minor, swapchain=5):
    fields = f"presents=[({swapchain},{index})]" if minor == 2 else f"swapchain={swapchain} index={index}"
    return f"vkQueuePresentKHR queue=4 waits=[] {fields}"


def lively(minor=1):
    """Six frames between which objects of each kind begin, change and end."""
    return of_lines([
        *opening(images=(6, 60)),
        "vkCreateSemaphore device=3 semaphore=20",
        "vkCreateSemaphore device=3 semaphore=21",
        "vkCreateFence device=3 fence=22 flags=1",
        "vkCreateCommandPool device=3 pool=10 flags=2",
        "vkCreateCommandPool device=3 pool=30 flags=3",
        "vkAllocateCommandBuffers device=3 pool=10 buffers=[11,12,13]",
        "thread=2 vkAllocateCommandBuffers device=3 pool=30 buffers=[31,32]",
        # frame 1: two images are acquired, one is shown; 12 is recorded and kept, 31 is for one submit
        "vkAcquireNextImageKHR device=3 swapchain=5 semaphore=20 fence=7 index=1 answer=0",
        "vkAcquireNextImageKHR device=3 swapchain=5 semaphore=21 fence=0 index=0 answer=0",
        "vkBeginCommandBuffer cb=11 flags=0",
        f"vkCmdPipelineBarrier cb=11 barriers=[(6,0,7),(60,0,1),(6,7,{PRESENT})]",
        "vkEndCommandBuffer cb=11",
        "thread=2 vkBeginCommandBuffer cb=31 flags=1",
        f"thread=2 vkCmdFillBuffer cb=31 buffer=9 offset=4 size={ALL} word=305419896",
        "vkBeginCommandBuffer cb=12 flags=4",
        "thread=2 vkCmdUpdateBuffer cb=31 buffer=9 offset=8 bytes=0102030405060708",
        "vkCmdCopyBuffer cb=12 source=9 target=9 regions=[(0,16,4),(32,64,12)]",
        "thread=2 vkEndCommandBuffer cb=31",
        "vkQueueSubmit queue=4 submits=[([20],[11],[]),([],[31],[20])] fence=0",
        present(0, minor),
        # frame 2: a memory with an image and a buffer that are recorded in 12, 13 and 32
        "vkGetDeviceQueue device=3 queue=4",
        "thread=2 vkAllocateMemory device=3 memory=40 size=1024",
        "thread=2 vkCreateImage device=3 image=41 format=98 width=5 height=3 usage=3",
        "thread=2 vkBindImageMemory device=3 image=41 memory=40 offset=64",
        "thread=2 vkCreateBuffer device=3 buffer=42 size=130 usage=7",
        "thread=2 vkBindBufferMemory device=3 buffer=42 memory=40 offset=512",
        "vkCreateBuffer device=3 buffer=43 size=16 usage=64",
        "vkCmdCopyBuffer cb=12 source=9 target=42 regions=[(0,0,8)]",
        "vkEndCommandBuffer cb=12",
        "vkBeginCommandBuffer cb=13 flags=0",
        "vkCmdPipelineBarrier cb=13 barriers=[(41,0,7)]",
        "vkCmdClearColorImage cb=13 image=41 layout=7 c0=5 c1=0 c2=0 c3=0",
        "vkCmdPipelineBarrier cb=13 barriers=[(41,7,6)]",
        "vkCmdCopyImageToBuffer cb=13 source=41 layout=6 target=9 regions=[(256,0,0,0,0,5,2)]",
        "vkEndCommandBuffer cb=13",
        "thread=2 vkBeginCommandBuffer cb=32 flags=0",
        f"thread=2 vkCmdFillBuffer cb=32 buffer=42 offset=4 size={ALL} word=1",
        "vkMapMemory device=3 memory=40 offset=16 size=100",
        "FillMemory memory=40 offset=20 bytes=0909",
        "vkQueueSubmit queue=4 submits=[([],[12],[]),([20],[13],[])] fence=0",
        "vkBeginCommandBuffer cb=11 flags=0",
        "vkCmdPipelineBarrier cb=11 barriers=[(60,1,7)]",
        "vkCmdCopyImage cb=11 source=41 source_layout=6 target=60 target_layout=7 regions=[(1,1,0,0,4,2)]",
        f"vkCmdPipelineBarrier cb=11 barriers=[(60,7,{PRESENT})]",
        "vkEndCommandBuffer cb=11",
        "vkResetFences device=3 fences=[7,22]",
        "vkQueueSubmit queue=4 submits=[([21],[11],[20,21])] fence=22",
        "vkWaitForFences device=3 fences=[22] wait_all=1 answer=0",
        present(1, minor),
        # frame 3: the memory is freed, so what names its resources is invalid, and their bindings are gone
        "vkAcquireNextImageKHR device=3 swapchain=5 semaphore=0 fence=7 index=0 answer=0",
        "vkUnmapMemory device=3 memory=8",
        "thread=2 vkFreeMemory device=3 memory=40",
        "vkDestroySemaphore device=3 semaphore=21",
        present(0, minor),
        # frame 4: a pool is reset, buffers are freed, a buffer ends that an executable one names
        "vkResetCommandPool device=3 pool=30",
        "vkFreeCommandBuffers device=3 pool=10 buffers=[13,12]",
        "vkDestroyImage device=3 image=41",
        "vkCreateBuffer device=3 buffer=44 size=64 usage=2",
        f"vkMapMemory device=3 memory=8 offset=128 size={ALL}",
        "vkBindBufferMemory device=3 buffer=44 memory=8 offset=1024",
        "vkBeginCommandBuffer cb=31 flags=0",
        "vkCmdFillBuffer cb=31 buffer=44 offset=0 size=8 word=7",
        "vkEndCommandBuffer cb=31",
        "thread=3 vkBeginCommandBuffer cb=32 flags=5",
        "vkQueueSubmit queue=4 submits=[([],[31],[])] fence=0",
        "vkQueueSubmit queue=4 submits=[([],[31],[])] fence=0",
        "vkResetFences device=3 fences=[7]",
        "vkAcquireNextImageKHR device=3 swapchain=5 semaphore=0 fence=7 index=1 answer=0",
        present(1, minor),
        # frame 5
        "vkDestroyBuffer device=3 buffer=44",
        "thread=3 vkEndCommandBuffer cb=32",
        "vkResetCommandBuffer cb=11",
        "vkAllocateMemory device=3 memory=50 size=16",
        "vkDestroyCommandPool device=3 pool=10",
        "vkResetFences device=3 fences=[7]",
        "vkAcquireNextImageKHR device=3 swapchain=5 semaphore=0 fence=7 index=0 answer=0",
        present(0, minor),
        # frame 6: another swapchain stands in for the first
        "vkDestroySwapchainKHR device=3 swapchain=5",
        "vkCreateSwapchainKHR device=3 swapchain=70 surface=2 images=1 format=13 width=2 height=2 usage=3",
        "vkGetSwapchainImagesKHR device=3 swapchain=70 images=[71]",
        "vkResetFences device=3 fences=[7]",
        "vkAcquireNextImageKHR device=3 swapchain=70 semaphore=0 fence=7 index=0 answer=0",
        "vkBeginCommandBuffer cb=31 flags=1",
        f"vkCmdPipelineBarrier cb=31 barriers=[(71,0,{PRESENT})]",
        "vkEndCommandBuffer cb=31",
        "vkQueueSubmit queue=4 submits=[([],[31],[])] fence=0",
        present(0, minor, swapchain=70),
        "vkDestroyFence device=3 fence=7",
    ], minor)  # fmt: skip


def many_frames(count):
    """A capture of three texels, which are shown again and again."""
    listing = gfxcap(["list"], read(example("three_frames.gfxcap")))
    lines = listing.splitlines(keepends=True)
    return gfxcap(["unlist"], b"".join(lines) + b"".join(lines[-4:]) * (count - 3))


def white(capture, from_line=0):
    """A capture in which fills from a line of its listing on have another word."""
    lines = gfxcap(["list"], capture).splitlines(keepends=True)
    changed = (re.sub(rb"word=\d+", b"word=4294967295", line) for line in lines[from_line:])
    return gfxcap(["unlist"], b"".join([*lines[:from_line], *changed]))
