#!/usr/bin/env python3
"""Runs gfxcap on files that were cut short or changed, and compares what it answers with what it has to.

    table.py PROGRAM [--seed N] [--count N] [--small BYTES] [--jobs N] [--keep FOLDER] [PART..]

The parts are

    prefixes   every proper prefix of the captures of up to SMALL bytes, 32,768 where it isn't said, and a twentieth of COUNT of each larger one, half of them
               near the ends of blocks: `info` and `replay` end with status 0 where a block ends, and else name the cut block
    captures   COUNT captures in which bytes were changed: `info` says what the steps of docs/format.md say (`reading.py`); `replay`
               says that too, or names a rule that an earlier block breaks, none before the first changed byte; `digests` says
               what `replay` says; `list` gives the lines of the good blocks, and `unlist` their bytes
    listings   COUNT listings that were changed: `unlist` ends with status 0, and `list` gives the text again, or it names a changed
               line, or behind a changed first line a present, and `list` gives the lines before it
    scripts    COUNT scripts that were changed: `capture` ends with status 0 and a block for each line, or with 7 and a line from the first
               changed one on, or with 8 and, where one thread calls, the line behind those that are logged, or with 9; what it wrote is
               replayed, and `digests` says the same

and all of them where none is named. The captures are those of examples/, recorded from its scripts, and small ones of the scripts
in bench/; some are cut and upgraded. Each change is drawn by SEED and its number alone; the log of three_recorders.script has another
order from run to run. For each part a line says how many answers were wrong and how the processes ended. Inputs of wrong answers
are kept in FOLDER. The status is 1 where there are any.
"""
import argparse
import bisect
import glob
import importlib.util
import os
import random
import re
import sys
from concurrent.futures import ThreadPoolExecutor

import reading
from program import Program, Wrong

TOP = reading.TOP
SMALL = 32768  # bytes
NEAR = 13  # bytes: a block's head and one more
KINDS = ("BadByte", "LineTooLong", "TooMany", "BadLine", "Structure", "NameUnknown", "NameTaken")


def script_of(*path):
    """Another script of bench/, as a module."""
    spec = importlib.util.spec_from_file_location("_".join(path), os.path.join(TOP, "bench", *path))
    module = importlib.util.module_from_spec(spec)
    spec.loader.exec_module(module)
    return module


def content(path):
    with open(path, "rb") as data:
        return data.read()


def examples(kind):
    """The names and bytes of the examples whose names end so."""
    return {os.path.basename(path): content(path) for path in sorted(glob.glob(os.path.join(TOP, "examples", "*." + kind)))}


def measured():
    """Small captures that the scripts of bench/ make."""
    run, replay, vulkan = script_of("hostile", "run.py"), script_of("replay", "run.py"), script_of("vulkan", "captures.py")
    for make, _, _ in run.CAPTURES:
        yield f"{make.__name__}.gfxcap", run.header() + b"".join(make(1))
    shown = b"".join(block for number in (1, 2) for block in replay.frame(number))
    for seed in range(3, 7):
        yield f"drawn_{seed}.gfxcap", vulkan.capture_of(seed, memory=1 << 14)
    yield "two_frames.gfxcap", replay.header() + b"".join(replay.objects() + replay.recorded(11, 6) + replay.recorded(12, 7)) + shown


def captures(program):
    """The names and bytes of all captures that are cut and changed."""
    made = examples("gfxcap")
    for name, text in examples("script").items():
        made[name + ".gfxcap"] = program.run("capture", text).out
    made.update(measured())
    cuts = {"three_frames.gfxcap": "2-2", "gradient.script.gfxcap": "3-5", "two_swapchains.gfxcap": "1-1", "drawn_5.gfxcap": "4-9"}
    for name, frames in cuts.items():
        made["cut_" + name] = program.run("trim " + frames, made[name]).out
    made["upgraded_letters.gfxcap"] = program.run("upgrade", made["letters.gfxcap"]).out
    return made


class Whole:
    """A good capture: its blocks, and what is shown of it."""

    def __init__(self, name, data, program):
        self.name, self.data = name, data
        self.file = reading.read(data)
        assert self.file.fault is None, name
        self.ends = [block.end for block in self.file.blocks]
        shown = program.run("replay", data)
        assert shown.status == 0 and not shown.notes, (name, shown.notes)
        self.shown = shown.out.splitlines(keepends=True)[:-1]
        self.presents = [at for at, block in enumerate(self.file.blocks) if is_present(block)]

    def before(self, number):
        """What is shown by the blocks before one, and how many frames these are."""
        frames = sum(present < number for present in self.presents)
        first = int(re.match(rb"frame (\d+)", self.shown[0])[1]) if self.shown else 1
        lines = [line for line in self.shown if int(re.match(rb"frame (\d+)", line)[1]) < first + frames]
        return b"".join(lines), frames


def is_present(block):
    return block.kind == reading.CALL and block.number == reading.PRESENT


def bad_block(number, at, fault):
    return f"bad block {number} at {at}: {reading.NUMBERS[fault]} {fault}\n"


def told_of(file):
    """The status, the output and the note of `info` for a file."""
    if file.fault:
        return 3, b"", bad_block(len(file.blocks), file.at, file.fault)
    calls = sum(block.kind == reading.CALL for block in file.blocks)
    frames = sum(map(is_present, file.blocks))
    lines = f"version 1000.{file.minor}\nblocks {len(file.blocks) - 1}\ncalls {calls}\nframes {frames}\n"
    return 0, lines.encode(), ""


def check_prefix(program, whole, length):
    """What is wrong with the answers to a prefix, or nothing."""
    data, number = whole.data[:length], bisect.bisect_right(whole.ends, length)
    at = whole.ends[number - 1] if number else 0
    clean = number > 0 and at == length
    file = reading.File(whole.file.minor, whole.file.blocks[:number], None if clean else "Truncated", at)
    if told_of(file) != (answer := program.run("info", data)):
        return data, f"info: {answer}"
    lines, frames = whole.before(number)
    status, note = (0, "") if clean else (3, bad_block(number, at, "Truncated"))
    want = status, lines + (f"frames {frames}\n".encode() if clean else b""), note
    if want != (answer := program.run("replay", data)):
        return data, f"replay: {answer}"
    return data, None


def lengths(whole, count, small, draw):
    """The lengths of the prefixes that are run: all of a small capture."""
    size = len(whole.data)
    if size <= small:
        return range(size)
    near = [min(max(draw.choice(whole.ends) + draw.randint(-NEAR, NEAR), 0), size - 1) for _ in range(count // 40)]
    return near + [draw.randrange(size) for _ in range(count // 40)]


def changed(data, draw):
    """The bytes with one to three runs of them changed, to anything, to zeros or to ones."""
    data = bytearray(data)
    for _ in range(draw.randint(1, 3)):
        size = draw.choice((1, 1, 1, 2, 4, 8))
        at = draw.randrange(len(data))
        kind = draw.randrange(4)
        run = (draw.randbytes(size), bytes(size), b"\xff" * size, bytes([data[at] ^ 1 << draw.randrange(8)]))[kind]
        data[at : at + len(run)] = run[: len(data) - at]
    return bytes(data)


def first_difference(one, other):
    return next((at for at, (a, b) in enumerate(zip(one, other)) if a != b), min(len(one), len(other)))


def check_replay(whole, file, data, answer):
    """Whether a replay of a changed capture says what it may."""
    at = first_difference(whole.data, data)
    number = bisect.bisect_right(whole.ends, at)
    lines, _ = whole.before(number)
    if not answer.out.startswith(lines):
        return False
    if answer.status == 0:
        return not file.fault and not answer.notes and answer.out.splitlines()[-1].startswith(b"frames ")
    if answer.status != 3 or re.search(rb"^frames ", answer.out, re.M):
        return False
    if file.fault and answer.notes == bad_block(len(file.blocks), file.at, file.fault):
        return True
    found = re.fullmatch(r"bad block (\d+) at (\d+): (\d+) (\w+)\n", answer.notes)
    if not found or not number <= int(found[1]) < len(file.blocks):
        return False
    rule = int(found[3])
    return (
        rule >= reading.FIRST_OF_RULES
        and reading.FAULTS.get(rule) == found[4]
        and file.blocks[int(found[1])].at == int(found[2])
    )


def check_capture(program, whole, draw):
    data = changed(whole.data, draw)
    file = reading.read(data)
    if told_of(file) != (answer := program.run("info", data)):
        return data, f"info: {answer}"
    answer = program.run("replay", data)
    if not check_replay(whole, file, data, answer):
        return data, f"replay: {answer}"
    if answer != (other := program.run("digests", data)):
        return data, f"digests: {other}, but replay: {answer}"
    status, _, note = told_of(file)
    answer = program.run("list", data)
    if (answer.status, answer.notes, answer.out.count(b"\n")) != (status, note, len(file.blocks)):
        return data, f"list: {answer}"
    if file.blocks and (0, data[: file.at], "") != (answer := program.run("unlist", answer.out)):
        return data, f"unlist of list: {answer}"
    return data, None


def edited(text, draw):
    """A text with one run of bytes changed, or a line taken out, doubled, or put before the one before it."""
    if draw.random() < 0.5:
        text, at = bytearray(text), draw.randrange(len(text))
        if draw.random() < 0.5:
            at = draw.choice([found.start() for found in re.finditer(rb"[0-9]+", bytes(text))])
        other = draw.choice((draw.randbytes(1), b"", b" ", b"\n", b"0", b"(", b",", b"%d" % draw.randrange(1 << draw.randrange(1, 66)), b"ab"))
        text[at : at + draw.randint(0, 3)] = other
        return bytes(text)
    lines = lines_of(text)
    at, kind = draw.randrange(1, len(lines)), draw.randrange(3)
    lines[at - 1 : at + 1] = (lines[at - 1 : at], lines[at - 1 : at + 1] + lines[at : at + 1], lines[at - 1 : at + 1][::-1])[kind]
    return b"".join(lines)


def lines_of(text):
    """The lines with their line feeds; the last one may have none."""
    return re.findall(rb"[^\n]*\n|[^\n]+", text)


def line_of(text, at):
    """The number of the line in which a byte stands."""
    return text.count(b"\n", 0, at) + 1


def last_change(old, new):
    """The last line of a new text that isn't as it was."""
    same = first_difference(old[::-1], new[::-1])
    return line_of(new, max(len(new) - same, first_difference(old, new)))


def check_listing(program, text, draw):
    data = edited(text, draw)
    answer = program.run("unlist", data)
    line, first = len(lines_of(data)) + 1, line_of(data, first_difference(text, data))
    if answer.status == 11:
        found = re.fullmatch(r"bad listing line (\d+)\n", answer.notes)
        if not found or not (line := int(found[1])) >= first:
            return data, f"unlist: {answer}"
        bad = (lines_of(data) + [b""])[line - 1]
        if line > last_change(text, data) and not (first == 1 and b" vkQueuePresentKHR " in bad):
            return data, f"unlist: {answer}"
    elif answer.status or answer.notes:
        return data, f"unlist: {answer}"
    lines = b"".join(lines_of(data)[: line - 1])
    if lines and (0, lines, "") != (other := program.run("list", answer.out)) or not lines and answer.out:
        return data, f"list of unlist: {other}"
    return data, None


def statements(text):
    """The numbers of the lines that are calls or writes."""
    tokens = [line.split() for line in lines_of(text)]
    other = (b"phase", b"thread", b"version")
    return [number for number, some in enumerate(tokens, 1) if some and some[0] not in other and not some[0].startswith(b"#")]


def is_log_right(program, words, data, answer):
    """Whether a log is replayed, and has the blocks that it has to have behind the header."""
    shown, file, lines = program.run("replay", answer.out), reading.read(answer.out), statements(data)
    blocks = len(file.blocks) - 1
    if shown.status or shown.notes or file.fault or shown != program.run("digests", answer.out):
        return False
    if answer.status == 0:
        return not answer.notes and (words != "capture" or blocks == len(lines))
    if answer.status == 9:
        return bool(re.fullmatch(r"log full: \d+ and \d+\n", answer.notes))
    found = re.fullmatch(r"refused line (\d+): (\d+) (\w+) after (\d+) blocks\n", answer.notes)
    if not found or reading.FAULTS.get(int(found[2])) != found[3]:
        return False
    line, before = int(found[1]), int(found[4])
    if words == "capture" and set(re.findall(rb"^ *thread +(\d+)", data, re.M)) == {b"0"}:
        return before == blocks and lines[blocks : blocks + 1] == [line]  # its calls are logged in the order of the lines
    return before <= blocks and line in lines


def check_script(program, text, draw):
    data = edited(text, draw)
    words = draw.choice(("capture", "capture --gather"))
    answer = program.run(words, data)
    if answer.status == 7:
        found = re.fullmatch(r"bad script line (\d+): (\w+)\n", answer.notes)
        first = line_of(data, first_difference(text, data))
        good = found and found[2] in KINDS and int(found[1]) >= first and not answer.out
    else:
        good = answer.status in (0, 8, 9) and is_log_right(program, words, data, answer)
    return data, None if good else f"{words}: {answer}"


class Table:
    def __init__(self, given):
        self.given, self.program = given, Program(given.program)
        self.wrong = Wrong(given.keep)
        self.wholes = [Whole(name, data, self.program) for name, data in captures(self.program).items()]
        self.small = [whole for whole in self.wholes if len(whole.data) <= 4 * SMALL]
        self.program.forget()

    def draw(self, *words):
        return random.Random(" ".join(map(str, (self.given.seed, *words))))

    def check(self, part, items):
        """Runs checks, each of a name and a function that gives an input and what is wrong; and says how many."""
        before, count = self.wrong.number, 0

        def one(item):
            data, said = item[1]()
            if said:
                self.wrong.add(f"{part} {item[0]}", data, said)

        with ThreadPoolExecutor(self.given.jobs) as pool:
            for _ in pool.map(one, items):
                count += 1
        print(f"{part}: {count:,}, of which {self.wrong.number - before} wrong; {self.program.told()}", flush=True)

    def prefixes(self):
        for whole in self.wholes:
            for length in lengths(whole, self.given.count, self.given.small, self.draw("prefixes", whole.name)):
                yield f"{length} of {whole.name}", lambda whole=whole, length=length: check_prefix(self.program, whole, length)

    def changes(self, part, names, check):
        """As many changes as are asked for, each of one of these inputs."""
        for number in range(self.given.count):
            draw = self.draw(part, number)
            name, data = draw.choice(names)
            yield f"{number} of {name}", lambda data=data, draw=draw: check(self.program, data, draw)

    def captures(self):
        return self.changes("captures", [(whole.name, whole) for whole in self.small], check_capture)

    def listings(self):
        small = [whole for whole in self.wholes if len(whole.data) <= SMALL]
        return self.changes("listings", [(whole.name, self.program.run("list", whole.data).out) for whole in small], check_listing)

    def scripts(self):
        return self.changes("scripts", list(examples("script").items()), check_script)


PARTS = ("prefixes", "captures", "listings", "scripts")


def main():
    words = argparse.ArgumentParser(description=__doc__, formatter_class=argparse.RawDescriptionHelpFormatter)
    words.add_argument("program")
    words.add_argument("--seed", type=int, default=1)
    words.add_argument("--count", type=int, default=10000)
    words.add_argument("--small", type=int, default=SMALL)
    words.add_argument("--jobs", type=int, default=2)
    words.add_argument("--keep", default="/tmp/gfxcap_hostile/wrong")
    words.add_argument("parts", nargs="*", metavar="PART")
    given = words.parse_intermixed_args()
    if not set(given.parts) <= set(PARTS):
        words.error("the parts are " + ", ".join(PARTS))
    table = Table(given)
    total = sum(len(whole.data) for whole in table.wholes)
    print(f"seed {given.seed}, count {given.count:,}; {len(table.wholes)} captures with {total:,} bytes", flush=True)
    for part in given.parts or PARTS:
        table.check(part, getattr(table, part)())
    return 1 if table.wrong.number else 0


if __name__ == "__main__":
    sys.exit(main())
