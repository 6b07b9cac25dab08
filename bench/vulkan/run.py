#!/usr/bin/env python3
"""Draws captures on a Vulkan driver, and compares each byte with what `gfxcap replay --pixels` shows.

    run.py PROGRAM [--seed N] [--count N] [--jobs N] [--validate] [--keep FOLDER] [PART..]

The parts are

    examples   the captures and scripts of examples/
    drawn      COUNT captures of `captures.py`, from SEED on: whole, and their frames 4 to 9 cut by `trim` and `lean`;
               the driver is to show the frames of a cut as it shows those of the whole, too
    own        COUNT captures of `captures.py` for each of four rules that are the profile's own: bytes that Vulkan
               defines are compared, and others that differ are counted
    rules      a capture of one frame for each such rule (`own_rules.py`), with what the profile shows and what the
               driver does

and all of them where none is named. `vulkan/player` is what draws; it is built in /tmp/gfxcap_vulkan. With --validate
the Khronos layer looks at it, and what it says is counted. Captures that differ are kept in FOLDER. The driver is
Mesa's lavapipe where it is installed and VK_ICD_FILENAMES names no other.

The status is 0 where all bytes that Vulkan defines are equal, 1 where one differs, and 3 where a driver or what builds
the player is missing.
"""
import argparse
import collections
import functools
import glob
import hashlib
import itertools
import os
import re
import shutil
import subprocess
import sys
import threading
from concurrent.futures import ThreadPoolExecutor
from typing import NamedTuple, Optional

from captures import OWN, TOP, capture_of
from own_rules import CAPTURES

PLACE = "/tmp/gfxcap_vulkan"
PLAYER = os.path.join(PLACE, "player")
PACKAGES = ("on Debian: apt-get install g++ make libvulkan-dev mesa-vulkan-drivers, and vulkan-validationlayers for "
            "--validate")
CUT = (4, 9)
MISSING = 3
MOST_SECONDS = 600
PARTS = ("examples", "drawn", "own", "rules")
COUNTED = {"drawn": ("whole", "trim", "lean"), "own": OWN}


class Missing(Exception):
    """Says what isn't there."""


class Failed(Exception):
    """Says what went wrong with a capture."""


class Picture(NamedTuple):
    head: str  # its number, extent and format
    pixels: bytes
    defined: Optional[bytes]  # none where Vulkan defines all of it


def environment(validate):
    found = glob.glob("/usr/share/vulkan/icd.d/lvp_icd.*.json")
    given = dict(os.environ, LP_NUM_THREADS="1")
    if found:
        given.setdefault("VK_ICD_FILENAMES", found[0])
    if validate:
        given["VALIDATE"] = "1"
    return given


def built_player(given):
    """Builds the player, and gives the driver's name."""
    for tool in ("g++", "make"):
        if not shutil.which(tool):
            raise Missing(f"there is no {tool}")
    words = ["make", "-C", os.path.join(TOP, "vulkan"), "player", f"OUT={PLACE}"]
    done = subprocess.run(words, capture_output=True, text=True)
    if done.returncode:
        line = next((line for line in done.stderr.splitlines() if "rror" in line), "")
        raise Missing(f"the player isn't built, is vulkan/vulkan.h there? {line}")
    driver = subprocess.run([PLAYER, "--driver"], capture_output=True, text=True, env=given)
    if driver.returncode:
        layer = " or its validation layer" if "VALIDATE" in given else ""
        raise Missing(f"no Vulkan driver{layer} is found")
    return driver.stdout.strip()


def ran(words, data=b"", **more):
    try:
        done = subprocess.run(words, input=data, capture_output=True, timeout=MOST_SECONDS, **more)
    except subprocess.TimeoutExpired:
        raise Failed(f"{words[0]} takes too long") from None
    if done.returncode:
        said = done.stderr.decode().strip()
        raise Failed(f"{os.path.basename(words[0])} {words[1]}: status {done.returncode}, {said}")
    return done


def rows_of(lines, head):
    """The bytes of the rows that follow the head of a picture."""
    rows = list(itertools.islice(lines, int(re.search(r" \d+x(\d+) ", head)[1])))
    try:
        return bytes.fromhex("".join(rows))
    except ValueError:
        raise Failed(f"{head} is followed by other lines than its rows") from None


def shape_of(picture):
    return picture.head, len(picture.pixels)


def replayed(program, data):
    """What gfxcap shows, whose digests are looked at too."""
    lines, pictures = iter(ran([program, "replay", "--pixels"], data).stdout.decode().splitlines()), []
    for line in lines:
        if line.startswith("frames "):
            return pictures
        head, digest = line.rsplit(" ", 1)
        pictures.append(Picture(head, rows_of(lines, head), None))
        if hashlib.sha256(pictures[-1].pixels).hexdigest() != digest:
            raise Failed(f"{head} has another digest than its rows")
    raise Failed("replay tells no number of frames")


class Table:
    """What was compared, by part."""

    def __init__(self, given):
        self.given, self.program = given, os.path.abspath(given.program)
        self.environment = environment(given.validate)
        self.counts = collections.defaultdict(collections.Counter)
        self.lock = threading.Lock()
        self.has_lean = "; lean " in subprocess.run([self.program], capture_output=True, text=True).stderr

    def count(self, part, counts):
        with self.lock:
            self.counts[part].update(counts)

    def drawn(self, data):
        """What the driver shows."""
        done, pictures = ran([PLAYER, "--defined"], data, env=self.environment), []
        told = re.findall(r"^layer: (\d+) times (.*)$", done.stderr.decode(errors="replace"), re.M)
        self.count("layer", {message: int(times) for times, message in told})
        lines = iter(done.stdout.decode().splitlines())
        for line in lines:
            if line.startswith("frames "):
                return pictures
            head, _ = line.rsplit(" ", 1)
            pixels = rows_of(lines, head)
            pictures.append(Picture(head, pixels, None if next(lines) == "all" else rows_of(lines, head)))
        raise Failed("the player tells no number of frames")

    def compare(self, part, data):
        """Counts what of a capture is equal, and gives what gfxcap shows and what the driver does."""
        mine, theirs = replayed(self.program, data), self.drawn(data)
        if [shape_of(picture) for picture in mine] != [shape_of(picture) for picture in theirs]:
            raise Failed("the driver shows other frames")
        counts = collections.Counter(captures=1, images=len(mine))
        for one, other in zip(mine, theirs):
            defined = other.defined or b"\xff" * len(one.pixels)
            is_equal = one.pixels == other.pixels
            unlike = [] if is_equal else [at for at, (a, b) in enumerate(zip(one.pixels, other.pixels)) if a != b]
            counts["of them defined and equal"] += other.defined is None and not unlike
            counts["bytes"] += len(one.pixels)
            counts["of them not defined by Vulkan"] += defined.count(0)
            counts["of these other on the driver"] += sum(not defined[at] for at in unlike)
            counts["defined bytes that differ"] += sum(defined[at] > 0 for at in unlike)
        self.count(part, counts)
        if counts["defined bytes that differ"]:
            raise Failed("bytes that Vulkan defines differ")
        return mine, theirs

    def tried(self, item):
        """Makes a capture and compares it, and keeps it where that fails."""
        name, make, compare = item
        data = make()
        try:
            return compare(data)
        except Failed as failed:
            path = os.path.join(self.given.keep, name.replace(" ", "_").removesuffix(".gfxcap") + ".gfxcap")
            os.makedirs(self.given.keep, exist_ok=True)
            with open(path, "wb") as out:
                out.write(data)
            self.count("wrong", {name: 1})
            print(f"WRONG {path}: {failed}", flush=True)

    def example(self, path):
        with open(path, "rb") as some:
            data = some.read()
        if path.endswith(".script"):
            return subprocess.run([self.program, "capture"], input=data, capture_output=True).stdout
        return data

    def examples(self):
        paths = (glob.glob(os.path.join(TOP, "examples", f"*.{kind}")) for kind in ("gfxcap", "script"))
        compare = functools.partial(self.compare, "examples")
        for path in sorted(path for some in paths for path in some):
            yield os.path.basename(path), functools.partial(self.example, path), compare

    def seeds(self):
        return range(self.given.seed, self.given.seed + self.given.count)

    def drawn_captures(self):
        for seed in self.seeds():
            yield f"drawn {seed}", functools.partial(capture_of, seed), self.compare_cuts

    def compare_cuts(self, data):
        _, whole = self.compare("whole", data)
        if any(picture.defined for picture in whole):
            raise Failed("the capture doesn't keep to what Vulkan defines")
        first, last = CUT
        asked = [picture for picture in whole if first <= int(re.match(r"frame (\d+)", picture.head)[1]) <= last]
        for word in ("trim", "lean") if self.has_lean else ("trim",):
            cut = ran([self.program, word, f"{first}-{last}"], data).stdout
            if self.compare(word, cut)[1] != asked:
                raise Failed(f"the driver shows the frames of {word} in another way than those of the whole")

    def own(self):
        for rule in OWN:
            compare = functools.partial(self.compare, rule)
            for seed in self.seeds():
                yield f"{rule} {seed}", functools.partial(capture_of, seed, rule), compare

    def rules(self):
        for name, data in CAPTURES.items():
            yield name, lambda data=data: data, functools.partial(self.compare_rule, name)

    def compare_rule(self, name, data):
        (mine,), (theirs,) = self.compare("rules", data)
        count = len(mine.pixels) if theirs.defined is None else theirs.defined.count(255)
        shown = f"profile {mine.pixels.hex()}, driver {theirs.pixels.hex()}"
        print(f"{name}: {shown}; Vulkan defines {count} bytes", flush=True)

    def run(self, part):
        items = self.drawn_captures() if part == "drawn" else getattr(self, part)()
        with ThreadPoolExecutor(1 if part == "rules" else self.given.jobs) as pool:
            for _ in pool.map(self.tried, items):
                pass
        for name in COUNTED.get(part, (part,)):
            if name in self.counts:
                counts = ", ".join(f"{number:,} {what}" for what, number in self.counts[name].items())
                print(f"{name}: {counts}", flush=True)
        if part == "drawn" and not self.has_lean:
            print("lean: left out, since this program has no such word", flush=True)
        if self.given.validate:
            told = ", ".join(f"{message} {times:,} times" for message, times in self.counts.pop("layer", {}).items())
            print(f"{part}: the layer says {told or 'nothing'}", flush=True)


def arguments():
    words = argparse.ArgumentParser(description=__doc__, formatter_class=argparse.RawDescriptionHelpFormatter)
    words.add_argument("program")
    words.add_argument("--seed", type=int, default=1)
    words.add_argument("--count", type=int, default=100)
    words.add_argument("--jobs", type=int, default=2)
    words.add_argument("--validate", action="store_true")
    words.add_argument("--keep", default=os.path.join(PLACE, "wrong"))
    words.add_argument("parts", nargs="*", metavar="PART")
    given = words.parse_intermixed_args()
    if not set(given.parts) <= set(PARTS):
        words.error("the parts are " + ", ".join(PARTS))
    return given


def main():
    given = arguments()
    try:
        driver = built_player(environment(given.validate))
    except Missing as missing:
        print(f"nothing was compared: {missing}; {PACKAGES}", file=sys.stderr)
        return MISSING
    table = Table(given)
    version = subprocess.run([table.program, "--version"], capture_output=True, text=True).stdout.strip()
    print(f"{version}; {driver}; seeds from {given.seed} on", flush=True)
    for part in given.parts or PARTS:
        table.run(part)
    return 1 if table.counts["wrong"] else 0


if __name__ == "__main__":
    sys.exit(main())
