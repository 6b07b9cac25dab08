#!/usr/bin/env python3
"""Runs the scripts of bench/hostile with few cases: inputs that were changed, and calls that fail.

    hostile.py PROGRAM
"""
import os
import shutil
import subprocess
import sys

TOP = os.path.dirname(os.path.dirname(os.path.abspath(__file__)))
TRIALS = (
    ("changed inputs", "table.py", ("--count", "200", "--small", "1100"), ()),
    ("calls that fail", "failing.py", ("--most", "40"), ("cc",)),
)


def main():
    program, right = os.path.abspath(sys.argv[1]), True
    for name, script, words, tools in TRIALS:
        if missing := [tool for tool in tools if not shutil.which(tool)]:
            print(f"skipped {name}: {missing[0]} is not here")
            continue
        path = os.path.join(TOP, "bench", "hostile", script)
        done = subprocess.run([sys.executable, path, program, *words], stdout=subprocess.PIPE, stderr=subprocess.STDOUT, text=True, check=False)
        right = right and done.returncode == 0
        last = (done.stdout.strip().splitlines() or ["it says nothing"])[-1]
        print(f"ok {name}: {last}" if done.returncode == 0 else f"FAILED {name}: {last}\n{done.stdout}", flush=True)
    return 0 if right else 1


if __name__ == "__main__":
    sys.exit(main())
