"""Reads what `gfxcap replay --pixels` writes, an image at a time and of each image a row at a time."""
import binascii
import re

from gfxcap_program import BAD_FILE, Failure

HEAD = re.compile(rb"frame (([1-9]\d{0,18})(?:\.(\d{1,2}))?) ([1-9]\d{0,3})x([1-9]\d{0,3}) (\w+) ([0-9a-f]{64})\n")
LAST = re.compile(rb"frames \d+\n")
LONGEST = 4096 * 4 * 2 + 1  # a row of the widest image, with its line feed

TEXEL_SIZES = {"R8_UINT": 1, "R8G8B8A8_UNORM": 4, "R8G8B8A8_UINT": 4, "B8G8R8A8_UNORM": 4, "R32_UINT": 4}


class Image:
    """One image of a frame. Its rows can be read once; what isn't read of them is skipped."""

    def __init__(self, found, text):
        self.name, self.format, self.digest = found[1].decode(), found[6].decode(), found[7].decode()
        self.frame, self.item = int(found[2]), int(found[3] or 1)
        self.width, self.height = int(found[4]), int(found[5])
        self.text, self.left = text, self.height
        self.size = TEXEL_SIZES.get(self.format)
        if self.size is None:
            text.fail(f"{self.format} is no format that is known")

    def describe(self):
        return f"{self.width}x{self.height} {self.format}"

    def hexadecimal(self):
        """The next row as it stands, with its line feed."""
        line = self.text.line()
        if not line:
            self.text.fail(f"the text ends inside frame {self.name}")
        if HEAD.fullmatch(line) or LAST.fullmatch(line):
            rows = self.height - self.left
            why = f"{rows} rows, not {self.height}" if rows else "no rows: they come from replay with --pixels"
            self.text.fail(f"frame {self.name} has {why}")
        self.left -= 1
        if len(line) != 2 * self.width * self.size + 1 or not line.endswith(b"\n"):
            self.text.fail(f"a row of frame {self.name} has {len(line) - 1} digits, not {2 * self.width * self.size}")
        return line

    def rows(self):
        """The bytes of each row, from the top."""
        while self.left:
            line = self.hexadecimal()
            try:
                yield binascii.unhexlify(line[:-1])
            except ValueError:
                self.text.fail(f"a row of frame {self.name} isn't hexadecimal")

    def skip(self):
        """Passes over the rows that are left, of which just the first is looked at."""
        if self.left:
            self.hexadecimal()
            self.text.pass_over(self.left, 2 * self.width * self.size + 1)
            self.left = 0


class Text:
    """The lines of a stream, counted."""

    def __init__(self, stream):
        self.stream, self.number = stream, 0

    def line(self):
        self.number += 1
        return self.stream.readline(LONGEST + 1)

    def pass_over(self, lines, length):
        """Reads some lines of one length without a look at them."""
        self.number += lines
        left = lines * length
        while left:
            piece = self.stream.read(min(left, 1 << 18))
            if not piece:
                self.fail("the text ends inside a frame")
            left -= len(piece)

    def fail(self, why):
        raise Failure(f"line {self.number} isn't from gfxcap replay --pixels: {why}", BAD_FILE)


def images(stream, end=None, has_rows=True):
    """Each image of a stream. Where the stream ends too early, `end` is called first: it may know why."""
    text = Text(stream)
    while line := text.line():
        if LAST.fullmatch(line):
            if text.line():
                text.fail("something follows the last line")
            return
        found = HEAD.fullmatch(line)
        if not found:
            text.fail("it begins no frame")
        image = Image(found, text)
        yield image
        if has_rows:
            image.skip()
    if end:
        end()
    text.fail("the text ends before its last line, so replay was stopped")
