"""Captures of one frame, each of which shows one rule that is the profile's own: what it shows Vulkan doesn't define."""
import os
import sys

TOP = os.path.dirname(os.path.dirname(os.path.dirname(os.path.abspath(__file__))))
sys.path.insert(0, os.path.join(TOP, "examples"))
from blocks import call, fill_memory, header  # noqa: E402
from make import R8_UINT, WHOLE_SIZE, beginning, fence, recorded, shown  # noqa: E402

UNDEFINED, GENERAL, TARGET, PRESENTED = 0, 1, 7, 1000001002
MEMORY, BUFFER, POOL, COMMANDS, IMAGE, SHOWN = 8, 9, 10, 11, 12, 6
LETTERS = b"abcdefgh"


def barrier(*changes):
    return call("CmdPipelineBarrier", cb=COMMANDS, barriers=list(changes))


def letters_to(image):
    """Copies the buffer's first bytes into an image, which has layout TARGET then."""
    regions = [(0, 0, 0, 0, 0, len(LETTERS), 1)]
    copy = call("CmdCopyBufferToImage", cb=COMMANDS, source=BUFFER, target=image, layout=TARGET, regions=regions)
    return [barrier((image, UNDEFINED, TARGET)), copy]


def one_frame(commands, objects=()):
    """Letters in a buffer on mapped memory, and what is recorded for the image that is shown, which has as many bytes."""
    blocks = [
        *beginning(width=len(LETTERS), height=1),
        fence(7),
        call("AllocateMemory", device=3, memory=MEMORY, size=64),
        call("MapMemory", device=3, memory=MEMORY, offset=0, size=WHOLE_SIZE),
        fill_memory(MEMORY, 0, LETTERS),
        call("CreateBuffer", device=3, buffer=BUFFER, size=16, usage=3),
        call("BindBufferMemory", device=3, buffer=BUFFER, memory=MEMORY, offset=0),
        *objects,
        *recorded(POOL, COMMANDS, commands),
        *shown(7, COMMANDS),
    ]
    return header() + b"".join(blocks)


def shared_memory():
    objects = [
        call("CreateImage", device=3, image=IMAGE, format=R8_UINT, width=len(LETTERS), height=1, usage=3),
        call("BindImageMemory", device=3, image=IMAGE, memory=MEMORY, offset=0),
    ]
    regions = [(0, 0, 0, 0, len(LETTERS), 1)]
    layouts = dict(source=IMAGE, source_layout=GENERAL, target=SHOWN, target_layout=TARGET)
    copy = call("CmdCopyImage", cb=COMMANDS, **layouts, regions=regions)
    first = barrier((IMAGE, UNDEFINED, GENERAL), (SHOWN, UNDEFINED, TARGET))
    return one_frame([first, copy, barrier((SHOWN, TARGET, PRESENTED))], objects)


def copied_within(*regions):
    copy = call("CmdCopyBuffer", cb=COMMANDS, source=BUFFER, target=BUFFER, regions=list(regions))
    return one_frame([copy, *letters_to(SHOWN), barrier((SHOWN, TARGET, PRESENTED))])


def wide_clear():
    clear = call("CmdClearColorImage", cb=COMMANDS, image=SHOWN, layout=TARGET, c0=300, c1=0, c2=0, c3=0)
    return one_frame([barrier((SHOWN, UNDEFINED, TARGET)), clear, barrier((SHOWN, TARGET, PRESENTED))])


def kept():
    return one_frame([*letters_to(SHOWN), barrier((SHOWN, UNDEFINED, PRESENTED))])


def never_written():
    return one_frame([barrier((SHOWN, UNDEFINED, PRESENTED))])


CAPTURES = {
    "an image reads memory that a buffer wrote": shared_memory(),
    "a copy whose source and target overlap": copied_within((0, 2, 6)),
    "a region whose source an earlier region of its copy wrote": copied_within((0, 2, 2), (2, 4, 4)),
    "a byte that two regions of a copy write": copied_within((0, 4, 2), (2, 5, 2)),
    "a clear value too wide for the format": wide_clear(),
    "contents kept by a change from UNDEFINED": kept(),
    "an image that was never written": never_written(),
}
