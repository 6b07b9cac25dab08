#!/usr/bin/env python3
"""Makes pictures of what `gfxcap replay --pixels` writes: one for each image, and sheets of thumbnails.

    ./gfxcap replay --pixels < CAPTURE | python3 tools/frames.py FOLDER

FOLDER gets frame-N.png, or frame-N.I.png where a present shows several images, and sheet.png, on which they stand in
rows from left to right, the first 256; sheet-2.png has the next 256, and so on. Texels of one byte, and of one number,
are drawn as gray, a number by its lowest byte. What isn't opaque is drawn on a checkerboard.

Status: 0 done; 2 a faulty command line; 3 the text isn't one of replay --pixels, or replay was stopped, and what came
before was drawn; 6 a failed write.
"""
import argparse
import math
import os
import tempfile

from gfxcap_frames import images
from gfxcap_pictures import GRAY, Png, Ppm, colors, padded, picture, widened
from gfxcap_program import BAD_FILE, Failure, Parser, run, standard_input

SIDE, GAP, ON_SHEET = 256, 4, 256  # of a thumbnail, between two, and how many stand on a sheet


class Thumbnail:
    """An image as it stands on a sheet: each texel `scale` times, or one of `step` where it is too large."""

    def __init__(self, image, spool):
        longest = max(image.width, image.height)
        self.scale, self.step = max(1, SIDE // longest), -(-longest // SIDE)
        self.width, self.height = self.part(image.width), self.part(image.height)
        self.spool, self.at = spool, spool.seek(0, os.SEEK_END)

    def part(self, length):
        return -(-length // self.step) * self.scale

    def add(self, row, y):
        """Takes a row of colors of the image. Each `step` texels and rows are shown by the first of them."""
        if y % self.step == 0:
            planes = bytearray(3 * -(-len(row) // 3 // self.step))
            for at in range(3):
                planes[at::3] = row[at :: 3 * self.step]
            self.spool.write(widened(bytes(planes), self.scale))

    def row(self, y):
        """A row of the thumbnail, and nothing above and below it."""
        if not 0 <= y < self.height:
            return b""
        self.spool.seek(self.at + y // self.scale * self.width * 3)
        return self.spool.read(self.width * 3)


class Sheets:
    """Thumbnails, kept in a file until a sheet is full."""

    def __init__(self, folder, kind):
        self.folder, self.kind, self.count = folder, kind, 0
        self.spool, self.thumbnails = tempfile.TemporaryFile(), []

    def add(self, thumbnail):
        self.thumbnails.append(thumbnail)
        if len(self.thumbnails) == ON_SHEET:
            self.write()

    def write(self):
        """Draws the sheet of what is kept, about as wide as high, and keeps nothing."""
        across = math.ceil(math.sqrt(len(self.thumbnails)))
        rows = [self.thumbnails[at : at + across] for at in range(0, len(self.thumbnails), across)]
        wide, high = max(one.width for one in self.thumbnails), max(one.height for one in self.thumbnails)
        width, height = across * (wide + GAP) + GAP, len(rows) * (high + GAP) + GAP
        self.count += 1
        name = "sheet" if self.count == 1 else f"sheet-{self.count}"
        with picture(self.folder, name, self.kind, width, height) as sheet:
            for y in range(height):
                above, inside = divmod(y, high + GAP)
                shown = rows[above] if above < len(rows) else []
                cells = (GRAY * GAP + padded(one.row(inside - GAP), wide) for one in shown)
                sheet.row(padded(b"".join(cells), width))
        self.spool.truncate(0)
        self.thumbnails = []


def scale(text):
    if not text.isdecimal() or not 1 <= int(text) <= 64:
        raise argparse.ArgumentTypeError("SCALE is a number from 1 to 64")
    return int(text)


def arguments():
    parser = Parser(__doc__)
    parser.add_argument("folder", metavar="FOLDER", help="where the pictures go; it is made where it isn't there")
    texels = "draw each texel SCALE by SCALE; without it as large as keeps an image within 256 by 256"
    parser.add_argument("scale", metavar="SCALE", nargs="?", type=scale, help=texels)
    parser.add_argument("--ppm", action="store_true", help="write PPM in place of PNG")
    parser.add_argument("--opaque", action="store_true", help="leave alpha out: no checkerboard")
    return parser.parse_args()


def draw(image, options, sheets, kind):
    """The picture of an image, written a row at a time."""
    enlarged = options.scale or max(1, SIDE // max(image.width, image.height))
    size = (image.width * enlarged, image.height * enlarged)
    thumbnail = Thumbnail(image, sheets.spool)
    with picture(options.folder, f"frame-{image.name}", kind, *size) as made:
        for y, row in enumerate(image.rows()):
            line = colors(row, image, y, options.opaque)
            thumbnail.add(line, y)
            wide = widened(line, enlarged)
            for _ in range(enlarged):
                made.row(wide)
    sheets.add(thumbnail)


def main():
    options = arguments()
    kind, count = Ppm if options.ppm else Png, 0
    os.makedirs(options.folder, exist_ok=True)
    sheets = Sheets(options.folder, kind)
    try:
        for count, image in enumerate(images(standard_input()), 1):
            draw(image, options, sheets, kind)
    finally:
        if sheets.thumbnails:
            sheets.write()
    if not count:
        raise Failure("no frame was read", BAD_FILE)
    sheet = f"sheet.{kind.ending}" if sheets.count == 1 else f"{sheets.count} sheets"
    print(f"{count} images and {sheet} in {options.folder}")


if __name__ == "__main__":
    run(main)
