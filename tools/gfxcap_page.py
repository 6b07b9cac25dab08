"""Writes one page of HTML with all that it shows: texts and images stand in it compressed, each under a name."""
import base64
import json
import os
import zlib

from gfxcap_program import Failure

PARTS = os.path.join(os.path.dirname(os.path.abspath(__file__)), "report")
STYLES = ("base.css", "panels.css")
SCRIPTS = ("data.js", "picture.js", "lists.js", "calls.js", "frames.js", "main.js")
LARGEST, FULL = 1 << 28, 9  # bytes of a page, and the status of one that would have more
LEVEL, PIECE = 4, 3 << 16


def part(name):
    with open(os.path.join(PARTS, name), encoding="utf-8") as file:
        return file.read()


class Content:
    """A text or an image on its way into the page; what was given to it is kept compressed."""

    def __init__(self):
        self.packer, self.packed = zlib.compressobj(LEVEL), bytearray()

    def add(self, data):
        self.packed += self.packer.compress(data)

    def done(self):
        self.packed += self.packer.flush()
        return self.packed


class Page:
    """A page that is written from its beginning to its end."""

    def __init__(self, out):
        self.out, self.size, self.names = out, 0, set()

    def write(self, text):
        self.size += len(text)
        if self.size > LARGEST:
            raise Failure("the page would have more than 256 MiB: --frames A-B makes a page of fewer frames", FULL)
        self.out.write(text)

    def begin(self, title):
        """All that stands before the contents."""
        style = "".join(map(part, STYLES))
        head = part("page.html").replace("{{style}}", style).replace("{{title}}", escaped(title))
        self.write(head.encode())

    def add(self, name, content):
        """Writes a content under a name, by which the page finds it."""
        self.names.add(name)
        self.write(f'<script type="text/plain" id="{name}">'.encode())
        packed = content.done()
        for at in range(0, len(packed), PIECE):
            self.write(base64.b64encode(packed[at : at + PIECE]))
        self.write(b"</script>\n")

    def end(self, summary):
        """What the page knows from its beginning on, and its scripts."""
        text = json.dumps(summary, separators=(",", ":")).replace("<", "\\u003c")
        self.write(f'<script type="application/json" id="summary">{text}</script>\n<script>\n"use strict";\n'.encode())
        for name in SCRIPTS:
            self.write(part(name).encode())
        self.write(b"</script>\n</body>\n</html>\n")


def escaped(text):
    return text.replace("&", "&amp;").replace("<", "&lt;").replace('"', "&quot;")
