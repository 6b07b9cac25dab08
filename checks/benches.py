#!/usr/bin/env python3
"""Looks whether the programs that measure single crates still compile, without proving or measuring anything.

    benches.py [PROGRAM]
"""
import importlib.util
import os
import shutil
import subprocess
import sys
import tempfile
from concurrent.futures import ThreadPoolExecutor

TOP = os.path.dirname(os.path.dirname(os.path.abspath(__file__)))


def crates_script():
    """bench/crates.py as a module."""
    spec = importlib.util.spec_from_file_location("crates", os.path.join(TOP, "bench", "crates.py"))
    module = importlib.util.module_from_spec(spec)
    spec.loader.exec_module(module)
    return module


def trial(crates, name, place):
    """What `rt try` says of a program that it may run for a second: its last line tells whether it was built."""
    crates.PLACE = os.path.join(place, name)
    os.makedirs(os.path.join(crates.PLACE, "crates"))
    folder = crates.workspace(name)
    return lambda: subprocess.run(["rt", "try", "--seconds", "1", "--steps", "1000"], cwd=folder, stdout=subprocess.PIPE, stderr=subprocess.STDOUT,
                                  text=True, check=False).stdout.strip().splitlines()


def main():
    if not shutil.which("rt"):
        print("skipped programs that measure: the command rt is not here")
        return 0
    crates, right = crates_script(), True
    with tempfile.TemporaryDirectory() as place, ThreadPoolExecutor(os.cpu_count()) as pool:
        trials = {name: trial(crates, name, place) for name in crates.USES}
        for name, lines in zip(trials, pool.map(lambda it: it(), trials.values())):
            built = bool(lines) and lines[-1].startswith("run=") and not lines[-1].startswith("run=none")
            right = right and built
            print(f"ok {name}_speed compiles" if built else f"FAILED {name}_speed: " + " | ".join(lines[-4:]), flush=True)
    return 0 if right else 1


if __name__ == "__main__":
    sys.exit(main())
