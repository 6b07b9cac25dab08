"""Reads the lines of `gfxcap list`, of which only the first bytes of a long content are kept."""
import json

from gfxcap_program import BAD_FILE, Failure

PIECE, SHOWN = 1 << 16, 64  # characters that are read at once, and digits of a content that are kept


class Line:
    """A line of a block: its thread and name, its fields as text, and how many bytes it brings."""

    __slots__ = ("thread", "name", "fields", "size", "text")

    def __init__(self, text, size):
        words = text.split(" ")
        self.text, self.size, self.thread = text, size, None
        if words[0].startswith("thread="):
            self.thread = int(words[0][7:])
            del words[0]
        self.name = words[0]
        self.fields = dict(word.split("=", 1) for word in words[1:])

    @property
    def is_call(self):
        return self.name.startswith("vk")

    def number(self, field):
        return int(self.fields[field])

    def items(self, field):
        """A list, whose records are lists."""
        return json.loads(self.fields[field].replace("(", "[").replace(")", "]"))


def lines(stream, end):
    """The lines of a listing, without its first. Where the stream is no listing, `end` is called: it may know why."""
    if not stream.readline(PIECE).startswith(b"gfxr "):
        end()
        raise Failure("gfxcap list wrote no listing", BAD_FILE)
    while piece := stream.readline(PIECE):
        head, mark, digits = piece.partition(b"bytes=")
        if not mark:
            while not piece.endswith(b"\n") and (more := stream.readline(PIECE)):
                piece += more
            yield Line(piece.decode().rstrip("\n"), 0)
            continue
        count, last = len(digits), digits
        while not last.endswith(b"\n") and (last := stream.readline(PIECE)):
            count += len(last)
        size = (count - 1) // 2
        rest = digits.rstrip(b"\n") if size * 2 <= SHOWN else digits[:SHOWN] + b".."
        yield Line((head + mark + rest).decode(), size)
