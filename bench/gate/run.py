#!/usr/bin/env python3
"""Runs the gate from nothing and prints what each crate, its tests and its edits take, in seconds of one processor.

    python3 bench/gate/run.py [WORDS OF rt ci]      --anew where this toolchain's `rt ci` knows it, and keeps what earlier runs proved

It looks at the checker's processes twice a second, so what is shorter than half a second is not seen. Run it on a machine that
does nothing else.
"""
import collections
import os
import re
import subprocess
import sys
import time

TICKS = os.sysconf("SC_CLK_TCK")
LOG = "/tmp/gfxcap-gate.log"


def seen(session):
    """The checker's processes of one session: pid, crate, kind and the processor time that each has had so far."""
    for pid in filter(str.isdigit, os.listdir("/proc")):
        try:
            with open(f"/proc/{pid}/cmdline", "rb") as file:
                words = file.read().decode(errors="replace").split("\0")
            if not words[0].endswith("/rattle") or "--crate-name" not in words:
                continue
            crate = words[words.index("--crate-name") + 1]
            folder = os.readlink(f"/proc/{pid}/cwd")
            with open(f"/proc/{pid}/stat") as file:
                fields = file.read().rsplit(")", 1)[1].split()
        except (OSError, IndexError, ValueError):
            continue
        if int(fields[3]) != session:
            continue
        kind = "edits" if "/rt-edit" in folder else "tests" if "--test" in words else "proof"
        yield pid, crate, kind, (int(fields[11]) + int(fields[12])) / TICKS


def main():
    start, took, begun, ended = time.time(), {}, {}, {}
    with open(LOG, "w") as log:
        gate = subprocess.Popen(["rt", "ci", *sys.argv[1:]], stdout=log, stderr=subprocess.STDOUT, stdin=subprocess.DEVNULL,
                                start_new_session=True)
        while gate.poll() is None:
            now = time.time() - start
            for pid, crate, kind, seconds in seen(gate.pid):
                took[pid, crate, kind] = seconds
                begun.setdefault((crate, kind), now)
                ended[crate, kind] = now
            time.sleep(0.5)
    whole = time.time() - start
    sums = collections.Counter()
    for (_, crate, kind), seconds in took.items():
        sums[crate, kind] += seconds
    print("| Crate | Proof | Tests | Edits | Sum | Proof begun and ended, minutes |")
    print("|---|---|---|---|---|---|")
    rows = {crate: [sums[crate, kind] for kind in ("proof", "tests", "edits")] for crate, _ in sums}
    for crate, row in sorted(rows.items(), key=lambda it: -sum(it[1])):
        span = f"{begun.get((crate, 'proof'), 0) / 60:.1f} to {ended.get((crate, 'proof'), 0) / 60:.1f}"
        print(f"| `{crate}` | " + " | ".join(f"{it:.0f}" for it in [*row, sum(row)]) + f" | {span} |")
    total = [sum(row[k] for row in rows.values()) for k in range(3)]
    print("| all | " + " | ".join(f"{it:.0f}" for it in [*total, sum(total)]) + " | |")
    with open(LOG) as log:
        last = log.read().strip().splitlines()[-1:]
    print(f"\n{whole / 60:.1f} minutes on {os.cpu_count()} processors; {re.sub(r'[^ -~]', '', ' '.join(last))}")
    return gate.returncode


if __name__ == "__main__":
    sys.exit(main())
