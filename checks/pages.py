#!/usr/bin/env python3
"""Runs the commands that the pages show, and compares what they print with what stands below them, byte for byte.

    pages.py PROGRAM [PAGE..]

A transcript is a block that is indented by four spaces and begins with `$ `. Its lines that begin with `$ ` are run by bash, in one empty folder
for each page; lines that begin with `> ` go on with the command above them. All others are what the command prints. The folder has the program
as `gfxcap`, and copies of `examples/` and `tools/`. Commands that build the program or prove it are not run, and those that need GNU parallel
where it is installed.
"""
import glob
import os
import shutil
import subprocess
import sys
import tempfile

TOP = os.path.dirname(os.path.dirname(os.path.abspath(__file__)))
INDENT = "    "
NOT_RUN = ("rt ", "git clone", "apt-get", "cmake ", "sudo ")


def transcripts(text):
    """The commands of a page in order, each with its line number and what stands below it."""
    found, command, at, shown, inside = [], None, 0, [], False

    def end():
        if command is not None:
            while shown and not shown[-1]:
                shown.pop()
            found.append((at, command, "".join(line + "\n" for line in shown)))

    lines = text.split("\n")
    for number, line in enumerate(lines, 1):
        begins = line.startswith(INDENT) and (number < 2 or not lines[number - 2].strip() or inside)
        if not begins and line.strip():
            inside = False
            end()
            command, shown = None, []
            continue
        body = line[len(INDENT):]
        if begins and body.startswith("$ "):
            inside = True
            end()
            command, at, shown = body[2:], number, []
        elif inside and body.startswith("> ") and not shown:
            command += "\n" + body[2:]
        elif inside:
            shown.append(body)
    end()
    return found


def prepare(folder, program):
    shutil.copy(program, os.path.join(folder, "gfxcap"))
    for name in ("examples", "tools"):
        if os.path.isdir(os.path.join(TOP, name)):
            shutil.copytree(os.path.join(TOP, name), os.path.join(folder, name), ignore=shutil.ignore_patterns("__pycache__"))


def first_difference(shown, printed):
    for number, (a, b) in enumerate(zip(shown.splitlines(), printed.splitlines()), 1):
        if a != b:
            return f"line {number}: the page says {a[:80]!r}, it prints {b[:80]!r}"
    return f"the page has {len(shown.splitlines())} lines, it prints {len(printed.splitlines())}"


def reason_to_skip(command, missing):
    """Why a command is not run here; what follows on a page where a tool is missing may read what it would have written."""
    first = command.splitlines()[0]
    if command.startswith(NOT_RUN):
        return f"{first} is not run here"
    if "parallel " in command and not shutil.which("parallel"):
        return "GNU parallel is not installed"
    return "it may need what GNU parallel writes" if missing else ""


def check(page, program):
    """How many commands of the page were run, and whether all printed what the page shows."""
    name = os.path.relpath(page, TOP)
    with open(page, encoding="utf-8") as file:
        cases = transcripts(file.read())
    if not cases:
        return True
    right = True
    with tempfile.TemporaryDirectory() as folder:
        prepare(folder, program)
        missing = False
        surroundings = dict(os.environ, GFXCAP=os.path.join(folder, "gfxcap"), LC_ALL="C.UTF-8", HOME=folder, COLUMNS="80")
        for at, command, shown in cases:
            if why := reason_to_skip(command, missing):
                print(f"skipped {name}:{at}: {why}")
                missing = missing or "parallel" in why
                continue
            done = subprocess.run(["bash", "-c", command], cwd=folder, env=surroundings, stdin=subprocess.DEVNULL, stdout=subprocess.PIPE,
                                  stderr=subprocess.STDOUT, timeout=120, check=False)
            printed = done.stdout.decode(errors="replace")
            if printed.rstrip("\n") == shown.rstrip("\n"):
                print(f"ok {name}:{at} {command.splitlines()[0][:90]}")
            else:
                right = False
                print(f"FAILED {name}:{at} {command.splitlines()[0][:90]}: {first_difference(shown, printed)}")
    return right


def main():
    program = os.path.abspath(sys.argv[1])
    pages = [os.path.abspath(it) for it in sys.argv[2:]] or sorted(
        [os.path.join(TOP, "README.md"), *glob.glob(os.path.join(TOP, "docs", "*.md")), *glob.glob(os.path.join(TOP, "examples", "*.md"))])
    right = [check(page, program) for page in pages]
    return 0 if all(right) else 1


if __name__ == "__main__":
    sys.exit(main())
