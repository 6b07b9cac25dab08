#!/usr/bin/env python3
"""Tries the script ./gfxcap in a small repository of its own, with a command rt that only notes what it was asked for.

    builder.py [PROGRAM]
"""
import os
import shutil
import subprocess
import sys
import tempfile

TOP = os.path.dirname(os.path.dirname(os.path.abspath(__file__)))
RT = """#!/usr/bin/env bash
ls crates | paste -sd ' ' >>"$NOTES"
find crates -name must-fail >>"$NOTES"
sleep "${SLOW:-0}"
[ -z "${BREAKS:-}" ] || { echo "rt: error: low is not proved"; exit 1; }
mkdir -p crates/gfxcap/out
printf '#!/bin/sh\\necho built "$@"\\n' >crates/gfxcap/out/gfxcap
chmod +x crates/gfxcap/out/gfxcap
"""


class Small:
    """A repository of three crates, of which the program needs two."""

    def __init__(self, folder):
        self.top, self.notes = os.path.join(folder, "top"), os.path.join(folder, "notes")
        self.bin = os.path.join(folder, "bin")
        os.makedirs(self.bin)
        for crate in ("low", "gfxcap", "low_tests"):
            for part in ("src", "specs", "must-fail"):
                os.makedirs(os.path.join(self.top, "crates", crate, part))
            self.write(f"crates/{crate}/src/lib.rt", "x\n")
        self.write("crates.txt", "# crates\nlow: std\ngfxcap: low\nlow_tests: low\n")
        self.write("HANDLES", "Handles allowed: none.\n")
        shutil.copy(os.path.join(TOP, "gfxcap"), self.top)
        self.write("../bin/rt", RT)
        os.chmod(os.path.join(self.bin, "rt"), 0o755)

    def write(self, path, text):
        with open(os.path.join(self.top, path), "w", encoding="utf-8") as file:
            file.write(text)

    def start(self, path=None, **more):
        surroundings = dict(os.environ, PATH=path or f"{self.bin}:{os.environ['PATH']}", NOTES=self.notes, **more)
        return subprocess.Popen([os.path.join(self.top, "gfxcap"), "words"], env=surroundings, stdin=subprocess.DEVNULL, stdout=subprocess.PIPE,
                                stderr=subprocess.PIPE, text=True)

    def run(self, **more):
        child = self.start(**more)
        out, notes = child.communicate(timeout=60)
        return child.returncode, out, notes

    def builds(self):
        """What each call of rt found: the crates, and folders of edits."""
        try:
            with open(self.notes, encoding="utf-8") as file:
                return file.read().splitlines()
        except FileNotFoundError:
            return []

    def touch(self, path):
        os.utime(os.path.join(self.top, path))


def cases(small):
    status, out, notes = small.run()
    yield "the first run builds and runs", (status, out) == (0, "built words\n") and "built in" in notes
    yield "only what the program needs is proved, without edits", small.builds() == ["gfxcap low"]
    yield "the second run builds nothing", small.run()[:2] == (0, "built words\n") and len(small.builds()) == 1
    small.touch("crates/low_tests/src/lib.rt")
    yield "a newer test builds nothing", small.run()[0] == 0 and len(small.builds()) == 1
    small.touch("crates/low/src/lib.rt")
    status, out, notes = small.run(BREAKS="1")
    yield "a build that fails: status 1, the error and the log's name", (status, out) == (1, "") and "not proved" in notes and "build.log" in notes
    yield "a newer source builds again", small.run()[:2] == (0, "built words\n") and len(small.builds()) == 3
    os.remove(os.path.join(small.top, "crates/gfxcap/out/gfxcap"))
    one, other = small.start(SLOW="2"), small.start(SLOW="2")
    ends = [(*child.communicate(timeout=60), child.returncode) for child in (one, other)]
    yield "of two at once one builds and one waits", [end[::2] for end in ends] == [("built words\n", 0)] * 2 and len(small.builds()) == 4 and \
        sum("waiting" in end[1] for end in ends) == 1
    os.remove(os.path.join(small.top, "crates/gfxcap/out/gfxcap"))
    plain = os.path.join(os.path.dirname(small.bin), "plain")
    os.makedirs(plain)
    for tool in ("bash", "env", "dirname", "find", "awk", "id", "cksum", "cut", "flock", "mkdir", "mktemp", "rm", "touch", "cat"):
        os.symlink(shutil.which(tool), os.path.join(plain, tool))
    status, out, notes = small.run(path=plain)
    yield "without rt it says what is missing", (status, out) == (1, "") and "rt isn't here" in notes


def main():
    right = True
    with tempfile.TemporaryDirectory() as folder:
        for name, holds in cases(Small(folder)):
            right = right and holds
            print(f"ok {name}" if holds else f"FAILED {name}: it is not so", flush=True)
    return 0 if right else 1


if __name__ == "__main__":
    sys.exit(main())
