#!/usr/bin/env python3
"""Uses the library gfx_log_c from C++: captures that it takes block by block, calls that it refuses, a full log.

    log_c.py PROGRAM

The library is libgfx_log_c.a in the folder that GFXCAP_LOG names, or in crates/gfx_log_c/out, where `rt lib` puts it.
"""
import os
import shutil
import subprocess
import sys
import tempfile

from samples import TOP, gfxcap, made

CRATE = os.path.join(TOP, "crates", "gfx_log_c")
LIBRARY = os.path.join(os.environ.get("GFXCAP_LOG") or os.path.join(CRATE, "out"), "libgfx_log_c.a")
SCRIPTS = ("gradient", "one_frame", "two_threads", "three_recorders")
TOLD = ("version 3: 2, version 1: 0, not live: 11, bad fields: 8 8 8, unchanged: 1\n"
        "fills: 0 0 29, unchanged: 1\n")
FLAGS = ("-std=c++17", "-O1", "-Wall", "-Wextra", "-Werror", "-pthread")


def missing():
    """What this machine lacks for the check, or nothing."""
    if not os.path.exists(LIBRARY):
        return f"there is no {LIBRARY}; build it by `rt lib` in crates/gfx_log_c"
    for tool in ("g++", "rt"):
        if not shutil.which(tool):
            return f"{tool} is not installed"
    return ""


def build(folder, *flags):
    """The C++ program, linked to the library and to what the toolchain has for C."""
    page = subprocess.run(["rt", "doc"], capture_output=True, text=True, check=True).stdout.split()[0]
    path = os.path.join(folder, "log_c")
    subprocess.run(["g++", *FLAGS, *flags, "-I", CRATE, os.path.join(TOP, "checks", "log_c.cc"), LIBRARY,
                    os.path.join(os.path.dirname(page), "c", "liblibc_c.a"), "-o", path], check=True)
    return path


def captures():
    """A capture of each script, in both versions of the format."""
    for name in SCRIPTS:
        capture = made(f"{name}.script")
        yield f"{name} in version 1", capture
        yield f"{name} in version 2", gfxcap(["upgrade"], capture)


def differs(program, capture):
    """How a run over a capture differs from what it must write and tell, or nothing."""
    done = subprocess.run([program], input=capture, capture_output=True, check=False, timeout=300)
    if done.returncode != 0:
        return f"status {done.returncode}: {done.stderr.decode(errors='replace')[-300:]}"
    if done.stderr.decode() != TOLD:
        return f"it tells {done.stderr.decode()!r}"
    return "" if done.stdout == capture else f"{len(done.stdout)} bytes differ from the {len(capture)} of the capture"


def main():
    os.environ["GFXCAP"] = os.path.abspath(sys.argv[1])
    if missing():
        print(f"skipped log_c: {missing()}")
        return 0
    right = True
    with tempfile.TemporaryDirectory(prefix="gfxcap-log-") as folder:
        program = build(folder, "-fsanitize=leak")
        for name, capture in captures():
            why = differs(program, capture)
            right = right and not why
            print(f"FAILED {name} through gfx_log_c: {why}" if why else f"ok {name} through gfx_log_c", flush=True)
    return 0 if right else 1


if __name__ == "__main__":
    sys.exit(main())
