#!/usr/bin/env python3
"""Counts what is in a capture: calls by name, thread and frame, bytes written, the objects that live at its end.

    python3 tools/stats.py CAPTURE
    python3 tools/stats.py CAPTURE --json > stats.json

Bytes are counted where commands are executed: a command buffer that is submitted twice counts twice. Writes are the
program's own to mapped memory; fills, updates, clears and copies are those of vkCmd calls. The state section of a cut
is a part of its own: its calls count, as they do for `gfxcap info`.

Status: 0 done; 2 a faulty command line; 5 a failed read; 6 a failed write; and where the capture is refused, the
program's line and status, and nothing on standard output.
"""
import collections
import contextlib
import json

from gfxcap_frames import images
from gfxcap_listing import lines
from gfxcap_program import Child, Parser, frame_range, regular, run, words_for
from gfxcap_state import KINDS, State, Work

LARGEST = 10


class Part:
    """What stands in a frame, in the state section, or behind the last frame."""

    def __init__(self, calls, work, images=()):
        self.calls, self.work, self.images = calls, work, list(images)

    def rank(self):
        return -self.work.total(), -self.calls

    def record(self):
        return {"calls": self.calls, "count": self.work.count, "bytes": self.work.bytes, "images": self.images}


class Counts:
    """What is counted in a listing."""

    def __init__(self):
        self.state, self.blocks, self.counted = State(), 0, 0
        self.names, self.threads = collections.Counter(), collections.Counter()
        self.section, self.frames, self.rest = None, {}, None

    def calls(self):
        return self.names.total()

    def take(self, line):
        self.blocks += 1
        if line.is_call:
            self.names[line.name] += 1
            self.threads[line.thread] += 1
        self.state.take(line)
        if line.name == "end":
            self.section = self.part()
        elif line.name == "vkQueuePresentKHR":
            self.frames[self.state.first + len(self.frames)] = self.part()

    def part(self):
        """What was counted since the part before."""
        calls, self.counted = self.calls() - self.counted, self.calls()
        work, self.state.work = self.state.work, Work()
        return Part(calls, work)

    def total(self):
        """What all frames, and what stands behind them, write."""
        total = Work()
        for part in [*self.frames.values(), self.rest]:
            total.join(part.work)
        return total

    def live(self):
        counts = collections.Counter(one.kind for one in self.state.live.values())
        return {kind: counts[kind] for kind in KINDS if counts[kind]}

    def live_bytes(self):
        return sum(one.size() for one in self.state.live.values() if one.kind in ("Memory", "Swapchain"))

    def largest(self):
        """The frames that write the most bytes, then those with the most calls."""
        return sorted(self.frames, key=lambda number: self.frames[number].rank())


def counted(path, name, frames):
    """The counts of a capture that replays to its end, or to the last frame that is options for."""
    counts = Counts()
    with contextlib.ExitStack() as stack:
        replay = stack.enter_context(Child(["replay", *words_for(frames)], path, name))
        source = stack.enter_context(Child(["trim", frames], path, name)) if frames else path
        listing = stack.enter_context(Child(["list"], source, name))
        shown = [(image.frame, image.describe()) for image in images(replay.output, replay.end, has_rows=False)]
        replay.end()
        for line in lines(listing.output, listing.end):
            counts.take(line)
        listing.end()
    counts.rest = counts.part()
    for number, image in shown:
        counts.frames[number].images.append(image)
    return counts


def record(counts):
    """All counts, as they stand in JSON."""
    total = counts.total()
    return {
        "blocks": counts.blocks,
        "calls": {
            "total": counts.calls(),
            "names": dict(counts.names.most_common()),
            "threads": dict(sorted(counts.threads.items())),
        },
        "count": total.count,
        "bytes": total.bytes,
        "section": counts.section.record() if counts.section else None,
        "frames": [{"frame": number, **part.record()} for number, part in counts.frames.items()],
        "behind_the_last_frame": counts.rest.record(),
        "live_objects": counts.live(),
        "live_bytes": counts.live_bytes(),
        "largest_frames": counts.largest()[:LARGEST],
    }


def table(title, head, rows):
    """Lines of columns, of which all but the last are numbers or stand right."""
    rows = [head, *[[f"{cell:,}" if isinstance(cell, int) else cell for cell in row] for row in rows]]
    widths = [max(len(row[at]) for row in rows) for at in range(len(head))]
    yield f"\n{title}"
    for row in rows:
        cells = [cell.rjust(width) for cell, width in zip(row[:-1], widths)]
        yield "  ".join(["", *cells, row[-1]]).rstrip()


def row_of(name, part):
    work = part.work
    return [name, part.calls, *(work.bytes[way] for way in Work.WAYS), ", ".join(part.images)]


def text(counts, is_all):
    """The same for a reader."""
    yield f"calls {counts.calls()}, blocks {counts.blocks}, frames {len(counts.frames)}, threads {len(counts.threads)}"
    yield from table("Calls by name", ["calls", "name"], [[count, name] for name, count in counts.names.most_common()])
    threads = [[count, str(thread)] for thread, count in sorted(counts.threads.items())]
    yield from table("Calls by thread", ["calls", "thread"], threads)
    total = counts.total()
    written = [[total.count[way], total.bytes[way], way] for way in Work.WAYS]
    yield from table("Written", ["times", "bytes", "by"], written)
    live = [[count, kind] for kind, count in counts.live().items()]
    yield from table(f"Live at the end, with {counts.live_bytes():,} bytes", ["objects", "kind"], live)
    frames = counts.frames if is_all or len(counts.frames) <= LARGEST else counts.largest()[:LARGEST]
    rows = [row_of(str(number), counts.frames[number]) for number in frames]
    rows += [row_of("section", counts.section)] if counts.section else []
    rows += [row_of("behind", counts.rest)] if counts.rest.calls else []
    title = "Frames" if len(frames) == len(counts.frames) else f"The {LARGEST} largest frames (--all for each)"
    yield from table(f"{title}, with the bytes that they write", ["frame", "calls", *Work.WAYS, "images"], rows)


def main():
    parser = Parser(__doc__)
    parser.add_argument("capture", metavar="CAPTURE", help="a capture file, or - for standard input")
    parser.add_argument("--frames", metavar="A-B", type=frame_range, help="count in the cut of these frames")
    parser.add_argument("--all", action="store_true", help="a line for each frame, not for the largest alone")
    parser.add_argument("--json", action="store_true", help="write all counts as JSON")
    options = parser.parse_args()
    with regular(options.capture) as path:
        counts = counted(path, None, options.frames)
    if options.json:
        print(json.dumps(record(counts), indent=1))
    else:
        print("\n".join(text(counts, options.all)))


if __name__ == "__main__":
    run(main)
