#!/usr/bin/env python3
"""Runs the tools of tools/ over captures, and over what they must refuse.

    python3 checks/tools.py PROGRAM

PROGRAM is gfxcap as it was built. Each check is a line `ok NAME` or `FAILED NAME: why`. Status 1 where one failed.
"""
import fcntl
import os
import re
import signal
import struct
import subprocess
import sys
import termios
import time
from subprocess import PIPE

import listing_checks
import picture_checks
from harness import check, ends, equal, files, run_all, tool
from samples import TOP, gfxcap, gradient, read

MODULES = (picture_checks, listing_checks)


@check
def tools_refuse_files_and_words(folder):
    (path,) = files(folder, gradient())
    absent = os.path.join(folder, "absent")
    page = os.path.join(folder, "page.html")
    for name, others in (("compare", [path]), ("stats", []), ("report", [page]), ("report", [path, page])):
        ends(tool(name, path, *others, env=dict(os.environ, GFXCAP="true")), 3, "")
        ends(tool(name, absent, *others), 5, f"can't read {absent}: No such file or directory")
        ends(tool(name, folder, *others), 5, f"can't read {folder}: Is a directory")
        for word in ("2", "2-1", "a-b", "-1", "1-", "01-2", "1-2-3", ""):
            ends(tool(name, path, *others, f"--frames={word}"), 2, f"{word} is no range")
        ends(tool(name), 2, "usage: ")
        ends(tool(name, path, *others, "--no-such-word"), 2, "usage: ")
        environment = dict(os.environ, GFXCAP=absent)
        ends(tool(name, path, *others, env=environment), 127, f"can't run {absent}: No such file or directory")
        ends(tool(name, path, *others, env=dict(os.environ, GFXCAP="false")), 127, "can't run false: its status is 1")
    ends(tool("compare", "-", "-"), 2, "only one of the captures can be standard input")
    ends(tool("report", "-", "-", page), 2, "only one of the captures can be standard input")
    for words in ([path], [path, path], [path, path, path], [path, path, path, page]):
        ends(tool("report", *words), 2, "one capture or two, and a page whose name ends in .html")
    equal(read(path), gradient(), "a capture in place of the page")
    ends(tool("report", path, os.path.join(absent, "page.html")), 6, f"can't write {absent}")
    equal(sorted(os.listdir(folder)), ["0.gfxcap"], "files that are left")


@check
def report_makes_no_page_of_what_is_refused(folder):
    whole, page = gradient(), os.path.join(folder, "page.html")
    paths = files(folder, whole, whole[:-1], b"")
    for captures, words, status, note in (
        ([paths[1]], [], 3, "bad block 143 at "),
        ([paths[2]], [], 3, "bad block 0 at 0: 5 Truncated"),
        ([paths[0], paths[1]], [], 3, f"{paths[1]}: bad block 143 at "),
        ([paths[0]], ["--frames", "7-9"], 4, "no such frame: the file has 1 to 8"),
    ):
        ends(tool("report", *captures, page, *words), status, note)
    equal(sorted(os.listdir(folder)), ["0.gfxcap", "1.gfxcap", "2.gfxcap"], "files that are left")
    ends(tool("report", paths[0], page), 0)
    before = os.stat(page).st_size
    ends(tool("report", paths[1], page), 3)
    equal(os.stat(page).st_size, before, "the page that was there")


def runs(folder):
    """For each tool words with which it runs to its end over what it is given."""
    (path,) = files(folder, gradient())
    replayed = gfxcap(["replay", "--pixels"], gradient())
    yield "frames", [folder], replayed
    yield "compare", [path, "-"], gradient()
    yield "stats", ["-"], gradient()
    yield "names", [], gfxcap(["list"], gradient())
    yield "report", ["-", os.path.join(folder, "page.html")], gradient()


@check
def tools_end_quietly_on_a_closed_pipe(folder):
    for name, words, given in runs(folder):
        for more in (words, ["--help"]):
            reading, writing = os.pipe()
            os.close(reading)
            path = os.path.join(TOP, "tools", f"{name}.py")
            child = subprocess.Popen([sys.executable, path, *more], stdin=PIPE, stdout=writing, stderr=PIPE)
            os.close(writing)
            notes = child.communicate(given)[1]
            equal((child.returncode, notes), (6, b""), f"{name} {more}")


@check
def tools_tell_that_a_stream_is_closed_or_full(folder):
    for name, words, given in runs(folder):
        path = os.path.join(TOP, "tools", f"{name}.py")
        for stream, status, note in (
            ("<&-", 5, "can't read standard input: it is closed"),
            (">&-", 6, "can't write standard output: it is closed"),
            ("> /dev/full", 6, "can't write the output: No space left on device"),
        ):
            command = ["bash", "-c", f'exec "$@" {stream}', "bash", sys.executable, path, *words]
            run = subprocess.run(command, input=given, stdout=PIPE, stderr=PIPE, check=False)
            ends(run, status, note)


def wait_until_read(pipe):
    """Returns once the tool, whose imports an interrupt would meet otherwise, has read what is in the pipe."""
    ends_at = time.monotonic() + 30
    while time.monotonic() < ends_at:
        if int.from_bytes(fcntl.ioctl(pipe, termios.FIONREAD, bytes(4)), "little") == 0:
            break
        time.sleep(0.05)
    time.sleep(0.2)


@check
def tools_end_quietly_when_interrupted(folder):
    for name, words, given in runs(folder):
        path = os.path.join(TOP, "tools", f"{name}.py")
        child = subprocess.Popen([sys.executable, path, *words], stdin=PIPE, stdout=PIPE, stderr=PIPE)
        child.stdin.write(given[: len(given) // 2])
        child.stdin.flush()
        wait_until_read(child.stdin)
        child.send_signal(signal.SIGINT)
        notes = child.communicate()[1]
        equal((child.returncode, notes), (130, b""), name)
        equal([left for left in os.listdir(folder) if left.endswith(".part")], [], "parts that are left")


@check
def tools_tell_how_the_program_ended(folder):
    (path,) = files(folder, gradient())
    program, page = os.path.join(folder, "program"), os.path.join(folder, "page.html")
    for command, status, note in (
        ("exit 1", 12, "gfxcap is out of memory"),
        ("exit 6", 6, "gfxcap ended with status 6"),
        ("kill -9 $$", 137, "gfxcap was ended by signal 9"),
        ("echo read fault >&2; exit 5", 5, "read fault"),
    ):
        with open(program, "w", encoding="ascii") as script:
            script.write(f'#!/bin/sh\n[ "$1" = --version ] && exit 0\n{command}\n')
        os.chmod(program, 0o755)
        for name, words in (("compare", [path, path]), ("stats", [path]), ("report", [path, page])):
            ends(tool(name, *words, env=dict(os.environ, GFXCAP=program)), status, note)


@check
def tools_take_a_file_of_the_greatest_size(folder):
    whole, path = gradient(), os.path.join(folder, "large.gfxcap")
    size = (2**28 - len(whole)) // 2 - 12
    with open(path, "wb") as file:
        file.write(whole[:16])
        for length in (size, 2**28 - len(whole) - 24 - size):
            file.write(struct.pack("<QI", length, 5))
            file.write(bytes(length))
        file.write(whole[16:])
    equal(os.path.getsize(path), 2**28)
    run = tool("stats", path)
    ends(run, 0)
    equal(run.stdout.splitlines()[0], b"calls 111, blocks 145, frames 8, threads 1")
    run = tool("compare", path, *files(folder, whole))
    ends(run, 0)
    equal(run.stdout, b"0 of 8 images differ\n")
    ends(tool("report", path, os.path.join(folder, "page.html")), 0)


@check
def every_tool_has_help(_):
    for name in tools():
        run = tool(name, "--help")
        ends(run, 0, "")
        equal(run.stdout[: 9 + len(name)], f"usage: {name}.p".encode()[: 9 + len(name)])


def tools():
    return sorted(name[:-3] for name in os.listdir(os.path.join(TOP, "tools")) if re.fullmatch(r"[a-z]+\.py", name))


if __name__ == "__main__":
    run_all()
