"""Rows of texels as rows of colors, and pictures of such rows, written as they come."""
import contextlib
import os
import struct
import zlib
from operator import getitem

SQUARE, LIGHT, DARK = 8, 0xCC, 0x99  # of the checkerboard that shows through what isn't opaque
GRAY = b"\x60\x60\x60"

# What each alpha keeps of a channel, and what a square gives to it.
KEPT = [bytes(color * alpha // 255 for color in range(256)) for alpha in range(256)]
UNDER_LIGHT = bytes(LIGHT * (255 - alpha) // 255 for alpha in range(256))
UNDER_DARK = bytes(DARK * (255 - alpha) // 255 for alpha in range(256))

# For each format whose texels are four bytes, where red, green, blue and alpha stand in them; None for opaque.
CHANNELS = {
    "R8_UINT": (0, 0, 0, None),
    "R8G8B8A8_UNORM": (0, 1, 2, 3),
    "R8G8B8A8_UINT": (0, 1, 2, 3),
    "B8G8R8A8_UNORM": (2, 1, 0, 3),
    "R32_UINT": (0, 0, 0, None),
}


def squares(width, is_odd):
    """Of a row of the checkerboard, the bytes 255 where a square is light, and else 0."""
    pair = (b"\0" * SQUARE + b"\xff" * SQUARE) if is_odd else (b"\xff" * SQUARE + b"\0" * SQUARE)
    return (pair * (width // len(pair) + 1))[:width]


def number(octets):
    return int.from_bytes(octets, "little")


def weighed(planes, alpha):
    """Each byte of the planes times its alpha, over 255."""
    kept = [KEPT[one] for one in alpha]
    return (bytes(map(getitem, kept, plane)) for plane in planes)


def colors(row, image, y, is_opaque=False):
    """A row of an image as red, green and blue: on a checkerboard, unless alpha is left out."""
    size, (*channels, alpha_at) = image.size, CHANNELS[image.format]
    planes = [row[at::size] for at in channels]
    if alpha_at is not None and not is_opaque:
        alpha = row[alpha_at::size]
        if alpha.count(255) != len(alpha):
            light = number(squares(len(alpha), y // SQUARE % 2))
            board = number(alpha.translate(UNDER_LIGHT)) & light
            board |= number(alpha.translate(UNDER_DARK)) & ~light
            sums = (number(kept) + board for kept in weighed(planes, alpha))
            planes = [total.to_bytes(len(alpha), "little") for total in sums]
    return interleaved(planes)


def interleaved(planes):
    out = bytearray(3 * len(planes[0]))
    for at, plane in enumerate(planes):
        out[at::3] = plane
    return bytes(out)


def widened(row, scale):
    """A row of colors with each of them `scale` times."""
    if scale == 1:
        return row
    out = bytearray(len(row) * scale)
    for at in range(3):
        for turn in range(scale):
            out[at + 3 * turn :: 3 * scale] = row[at::3]
    return bytes(out)


class Png:
    """A PNG with 8 bits for each of red, green and blue, without a filter."""

    ending = "png"

    def __init__(self, out, width, height):
        self.out, self.packer = out, zlib.compressobj(1)
        self.out.write(b"\x89PNG\r\n\x1a\n")
        self.chunk(b"IHDR", struct.pack(">IIBBBBB", width, height, 8, 2, 0, 0, 0))

    def chunk(self, kind, data):
        self.out.write(struct.pack(">I", len(data)) + kind + data + struct.pack(">I", zlib.crc32(kind + data)))

    def row(self, row):
        if packed := self.packer.compress(b"\0" + row):
            self.chunk(b"IDAT", packed)

    def close(self):
        self.chunk(b"IDAT", self.packer.flush())
        self.chunk(b"IEND", b"")


class Ppm:
    """A PPM, whose rows stand as they are."""

    ending = "ppm"

    def __init__(self, out, width, height):
        self.out = out
        self.out.write(b"P6\n%d %d\n255\n" % (width, height))

    def row(self, row):
        self.out.write(row)

    def close(self):
        pass


@contextlib.contextmanager
def picture(folder, name, kind, width, height):
    """A picture to whose rows the caller gives colors. Where that fails, no part of it is left."""
    path = os.path.join(folder, f"{name}.{kind.ending}")
    try:
        with open(f"{path}.part", "wb") as out:
            made = kind(out, width, height)
            yield made
            made.close()
        os.replace(f"{path}.part", path)
    except BaseException:
        with contextlib.suppress(OSError):
            os.unlink(f"{path}.part")
        raise


def padded(row, width):
    """A row of colors with gray behind it, up to a width."""
    return row + GRAY * (width - len(row) // 3)
