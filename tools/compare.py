#!/usr/bin/env python3
"""Compares what two captures show: which frames differ, in how many texels, and where.

    python3 tools/compare.py A.gfxcap B.gfxcap
    python3 tools/compare.py A.gfxcap B.gfxcap --frames 3-5 --pictures FOLDER
    python3 tools/compare.py A.gfxcap A.gfxcap --frames 3-5 --with 6-8

A line for each frame that differs says how many texels do, and the first and the last column and row with one. With
--frames just these frames of both are compared; with --with its frames of B, the first of them with the first of A.
--pictures draws of each frame that differs the two images, and the difference: what is equal stands dark, and what
differs in magenta. Small images are enlarged, up to 256 by 256.

Status: 0 nothing differs; 1 something does; 2 a faulty command line; 5 a failed read; 6 a failed write; 12 out of
memory; and where a capture is refused, the program's line and status.
"""
import contextlib
import itertools
import os

from gfxcap_frames import images
from gfxcap_pictures import GRAY, Png, colors, interleaved, number, padded, picture, widened
from gfxcap_program import Child, Parser, frame_range, not_twice, regular, run, words_for

SIDE, GAP = 256, 2  # up to which images are enlarged, and texels between them
DIM = bytes(color // 4 for color in range(256))
ANY = b"\0" + b"\xff" * 255
MAGENTA = (255, 0, 255)


class Difference:
    """The texels in which two images of one extent and format differ, taken row by row."""

    def __init__(self):
        self.count, self.left, self.right, self.top, self.bottom = 0, None, -1, None, -1

    def add(self, one, other, size, y):
        """Takes a row of both. It gives a byte for each texel: 255 where they differ, and else 0."""
        apart = (number(one) ^ number(other)).to_bytes(len(one), "little")
        parts = [number(apart[at::size]) for at in range(size)]
        any_apart = parts[0]
        for part in parts[1:]:
            any_apart |= part
        mask = any_apart.to_bytes(len(one) // size, "little").translate(ANY)
        if differing := mask.count(255):
            self.count += differing
            self.left = min(mask.index(255), len(mask) if self.left is None else self.left)
            self.right = max(mask.rindex(255), self.right)
            self.top = y if self.top is None else self.top
            self.bottom = y
        return mask


def marked(row, mask):
    """A row of colors made dark, but for what differs."""
    plane_of = (bytes(one & color for one in (0, 255)) for color in MAGENTA)
    masks = interleaved([mask.translate(plane[:1] + plane[1:] * 255) for plane in plane_of])
    differs = number(interleaved([mask] * 3))
    dark = number(row.translate(DIM)) & ~differs | number(masks)
    return dark.to_bytes(len(row), "little")


class Drawing:
    """Two images side by side, and their difference where there is one; nothing where no picture is options for."""

    def __init__(self, one, other, out=None, scale=1):
        self.one, self.other, self.out, self.scale = one, other, out, scale

    def row(self, y, row_of_one, row_of_other, mask=None):
        if not self.out:
            return
        first = colors(row_of_one, self.one, y) if row_of_one else b""
        second = colors(row_of_other, self.other, y) if row_of_other else b""
        line = padded(first, self.one.width) + GRAY * GAP + padded(second, self.other.width)
        if mask is not None:
            line += GRAY * GAP + marked(colors(row_of_one, self.one, y, True), mask)
        wide = widened(line, self.scale)
        for _ in range(self.scale):
            self.out.row(wide)


def are_alike(one, other):
    return (one.width, one.height, one.format) == (other.width, other.height, other.format)


def describe_difference(one, other, drawing):
    """What two images that differ have apart; their rows are read, and drawn."""
    if not are_alike(one, other):
        for y, (first, second) in enumerate(itertools.zip_longest(one.rows(), other.rows())):
            drawing.row(y, first, second)
        return f"{one.describe()} and {other.describe()}"
    found = Difference()
    for y, (first, second) in enumerate(zip(one.rows(), other.rows())):
        drawing.row(y, first, second, found.add(first, second, one.size, y))
    where = f"from ({found.left},{found.top}) to ({found.right},{found.bottom})"
    return f"{found.count} of {one.width * one.height} texels, {where}"


def compare_images(one, other, folder):
    """The line on two images that differ."""
    name = f"frame {one.name}" if one.name == other.name else f"frames {one.name} and {other.name}"
    if not folder:
        return f"{name}: {describe_difference(one, other, Drawing(one, other))}"
    width = one.width + GAP + other.width + (GAP + one.width if are_alike(one, other) else 0)
    file = f"frame-{one.name}" if one.name == other.name else f"frame-{one.name}-{other.name}"
    scale = max(1, SIDE // max(one.width, one.height, other.width, other.height))
    with picture(folder, file, Png, width * scale, max(one.height, other.height) * scale) as out:
        return f"{name}: {describe_difference(one, other, Drawing(one, other, out, scale))}"


def pairs(first, second, is_by_place):
    """The images of both captures that belong together, by number or by place; None for one that a capture lacks."""
    left, right = next(first, None), next(second, None)
    while left or right:
        order = 0
        if not left or not right:
            order = 1 if not left else -1
        elif not is_by_place:
            mine, others = (left.frame, left.item), (right.frame, right.item)
            order = (mine > others) - (mine < others)
        yield left if order <= 0 else None, right if order >= 0 else None
        left = next(first, None) if order <= 0 else left
        right = next(second, None) if order >= 0 else right


def images_of(child):
    """The images of a capture. It is refused before anything is said of the frames that it lacks."""
    yield from images(child.output, child.end)
    child.end()


def compare(children, options):
    """Prints a line for each image that differs, and returns how many images there are, and how many differ."""
    count = differing = 0
    for one, other in pairs(*map(images_of, children), options.other_frames is not None):
        count += 1
        if one and other and one.digest == other.digest and are_alike(one, other):
            continue
        differing += 1
        if one and other:
            print(compare_images(one, other, options.pictures), flush=True)
        else:
            name, capture = (one.name, options.a) if one else (other.name, options.b)
            print(f"frame {name}: only in {capture}", flush=True)
    return count, differing


def arguments():
    parser = Parser(__doc__)
    parser.add_argument("a", metavar="A", help="a capture file, or - for standard input")
    parser.add_argument("b", metavar="B", help="another")
    parser.add_argument("--frames", metavar="A-B", type=frame_range, help="compare these frames alone")
    parser.add_argument("--with", metavar="C-D", dest="other_frames", type=frame_range, help="with these frames of B")
    parser.add_argument("--pictures", metavar="FOLDER", help="draw the frames that differ into this folder")
    options = parser.parse_args()
    not_twice(parser, [options.a, options.b])
    return options


def main():
    options = arguments()
    if options.pictures:
        os.makedirs(options.pictures, exist_ok=True)
    ranges = options.frames, options.other_frames or options.frames
    with contextlib.ExitStack() as stack:
        children = []
        for capture, frames in zip((options.a, options.b), ranges):
            path = stack.enter_context(regular(capture))
            words = ["replay", "--pixels", *words_for(frames)]
            children.append(stack.enter_context(Child(words, path, capture)))
        count, differing = compare(children, options)
    print(f"{differing} of {count} images differ")
    return 1 if differing else 0


if __name__ == "__main__":
    run(main)
