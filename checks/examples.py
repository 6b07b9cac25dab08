#!/usr/bin/env python3
"""Looks whether the committed examples are what their scripts write.

    examples.py [PROGRAM]
"""
import os
import shutil
import subprocess
import sys
import tempfile

TOP = os.path.dirname(os.path.dirname(os.path.abspath(__file__)))


def content(*path):
    with open(os.path.join(*path), "rb") as file:
        return file.read()


def written(folder, script):
    """The names of the files that the script writes into a copy of examples/."""
    before = set(os.listdir(folder))
    for name in before:
        if name.endswith((".gfxcap", ".png", "gradient.script")):
            os.remove(os.path.join(folder, name))
    left = set(os.listdir(folder))
    subprocess.run([sys.executable, os.path.join(folder, script)], cwd=folder, check=True, stdout=subprocess.DEVNULL)
    return sorted(name for name in set(os.listdir(folder)) - left if name != "__pycache__")


def main():
    right = True
    for script in ("make.py", "gradient.py"):
        with tempfile.TemporaryDirectory() as place:
            folder = os.path.join(place, "examples")
            shutil.copytree(os.path.join(TOP, "examples"), folder, ignore=shutil.ignore_patterns("__pycache__"))
            names = written(folder, script)
            if not names:
                right = False
                print(f"FAILED {script}: it wrote nothing")
            for name in names:
                same = os.path.exists(os.path.join(TOP, "examples", name)) and content(folder, name) == content(TOP, "examples", name)
                right = right and same
                print(f"ok {name} is what {script} writes" if same else f"FAILED {name}: {script} writes other bytes", flush=True)
    return 0 if right else 1


if __name__ == "__main__":
    sys.exit(main())
