"""What the random captures are made of: formats, layouts, and what a device has."""
from dataclasses import dataclass

R8_UINT, R8G8B8A8_UNORM, R8G8B8A8_UINT, B8G8R8A8_UNORM, R32_UINT = 13, 37, 41, 44, 98
FORMATS = (R8_UINT, R8G8B8A8_UNORM, R8G8B8A8_UINT, B8G8R8A8_UNORM, R32_UINT)
CLEARED = (R8_UINT, R8G8B8A8_UINT, R32_UINT)
UNDEFINED, GENERAL, SOURCE, TARGET, SHOWN = 0, 1, 6, 7, 1000001002
WHOLE_SIZE = 2**64 - 1


@dataclass
class Buffer:
    id: int
    size: int
    offset: int


@dataclass
class Image:
    id: int
    format: int
    width: int
    height: int
    layout: int = UNDEFINED
    is_written: bool = False  # all of it

    @property
    def texel(self):
        return 1 if self.format == R8_UINT else 4

    @property
    def size(self):
        return self.width * self.height * self.texel


@dataclass
class Swapchain:
    id: int
    images: list


@dataclass
class Recorded:
    """A command buffer that can be submitted again, the layouts that it leaves, and the images of swapchains that it writes."""

    id: int
    layouts: dict
    shown: list
