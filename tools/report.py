#!/usr/bin/env python3
"""Makes one page of HTML that shows the frames of a capture, or those of two beside each other.

    python3 tools/report.py CAPTURE PAGE.html
    python3 tools/report.py A.gfxcap B.gfxcap PAGE.html
    python3 tools/report.py CAPTURE PAGE.html --frames 100-200

The page opens from disk in a browser, without a network. It has a filmstrip; of the chosen frame the image, its calls
in their order with a lane for each thread, what it wrote, and the objects that live at its beginning. Of two captures
the frames that differ are marked, and their images stand side by side with the difference.

Status: 0 done; 2 a faulty command line; 5 a failed read; 6 a failed write; 9 a page that would have more than 256 MiB;
and where a capture is refused, the program's line and status. But for 0 no page is written.
"""
import contextlib
import os
import tempfile

from gfxcap_frames import images
from gfxcap_page import Content, Page
from gfxcap_program import Child, Parser, frame_range, not_twice, regular, run
from gfxcap_state import KINDS, Work
from gfxcap_story import follow

PREFIXES = ("a", "b")  # of the names under which the calls of both captures stand


def add_images(child, page):
    """Writes the images of a replay into the page, each once, and returns which frame shows which."""
    shown = []
    for image in images(child.output, child.end):
        name = f"i{image.digest}{image.width}x{image.height}"
        if name not in page.names:
            content = Content()
            for row in image.rows():  # byte by byte of a texel: that packs several times shorter
                content.add(b"".join(row[at :: image.size] for at in range(image.size)))
            page.add(name, content)
        record = {"name": name, "width": image.width, "height": image.height, "format": image.format}
        shown.append((image.frame, record | {"digest": image.digest}))
    return shown


def cut(path, name, frames, stack):
    """The capture of a range of frames, in a file that ends with the stack."""
    if not frames:
        return path
    copy = stack.enter_context(tempfile.NamedTemporaryFile(prefix="gfxcap-"))
    with Child(["trim", frames], path, name) as child:
        while piece := child.output.read(1 << 20):
            copy.write(piece)
        child.end()
    copy.flush()
    return copy.name


def add_capture(path, capture, name, page, prefix):
    """Writes the contents of a capture, and returns its summary. It is replayed first: what follows has no fault."""
    with Child(["replay", "--pixels"], path, name) as child:
        shown = add_images(child, page)
        child.end()
    with Child(["list"], path, name) as child:
        story = follow(child, page, prefix)
        child.end()
    for number, image in shown:
        story.frames[number - story.state.first]["images"].append(image)
    return {
        "name": os.path.basename(capture) if capture != "-" else "standard input",
        "prefix": prefix,
        "blocks": story.blocks,
        "section": story.section,
        "calls": story.calls,
        "threads": sorted(story.threads),
        "frames": story.frames,
        "objects": story.objects(),
    }


@contextlib.contextmanager
def page_at(path):
    """A page that is at its place only when it is whole."""
    try:
        with open(f"{path}.part", "wb") as out:
            yield Page(out)
        os.replace(f"{path}.part", path)
    except BaseException:
        with contextlib.suppress(OSError):
            os.unlink(f"{path}.part")
        raise


def arguments():
    parser = Parser(__doc__)
    captures = "one capture or two, - for standard input, and the page"
    parser.add_argument("files", metavar="FILE", nargs="+", help=captures)
    parser.add_argument("--frames", metavar="A-B", type=frame_range, help="show these frames alone")
    options = parser.parse_args()
    if len(options.files) not in (2, 3) or not options.files[-1].endswith((".html", ".htm")):
        parser.error("the files are one capture or two, and a page whose name ends in .html")
    not_twice(parser, options.files)
    return options


def main():
    options = arguments()
    *captures, path = options.files
    with contextlib.ExitStack() as stack:
        files = [stack.enter_context(regular(capture)) for capture in captures]
        names = captures if len(captures) == 2 else [None]
        files = [cut(file, name, options.frames, stack) for file, name in zip(files, names)]
        page = stack.enter_context(page_at(path))
        page.begin(" and ".join(os.path.basename(capture) for capture in captures))
        parts = zip(files, captures, names, PREFIXES)
        summaries = [add_capture(file, capture, name, page, prefix) for file, capture, name, prefix in parts]
        page.end({"kinds": KINDS, "ways": Work.WAYS, "captures": summaries})
    count = len({frame["number"] for summary in summaries for frame in summary["frames"]})
    print(f"{count} frames in {path}")


if __name__ == "__main__":
    run(main)
