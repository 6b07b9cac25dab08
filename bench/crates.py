#!/usr/bin/env python3
"""Builds and runs a program that measures one crate, in a workspace of its own, so that the gate neither proves nor runs it.

    crates.py NAME     asked, capture, device, objects, pages, script, seats or table

The workspace stays in /tmp/gfxcap_crates. It has copies of the crates that the program stands on, with what was proved of them here.
Sources end in .rt.txt, since the gate reads every .rt file of the repository.
"""
import os
import shutil
import subprocess
import sys

TOP = os.path.dirname(os.path.dirname(os.path.abspath(__file__)))
PLACE = "/tmp/gfxcap_crates"
USES = {
    "asked": "gfx_types gfx_asked",
    "capture": "gfx_types gfx_capture gfx_callers",
    "device": "gfx_types gfx_device anyhow",
    "objects": "gfx_types gfx_objects",
    "pages": "gfx_pages anyhow",
    "script": "gfx_script",
    "seats": "gfx_seats gfx_seats_tests",
    "table": "gfx_table",
}
# the same work without contracts, in C or in plain Rust
BESIDE = {
    "device": ["cc", "-O2", "bench/pages/memcpy.c"],
    "pages": ["cc", "-O2", "bench/pages/memcpy.c"],
    "seats": ["rustc", "-O", "--edition=2021", "bench/seats/mutex.rs"],
}


def below(name, uses):
    """The repository's crates that a crate stands on."""
    found = set()
    for used in uses.get(name, []):
        found |= {used} & uses.keys() | below(used, uses)
    return found


def workspace(name):
    """Makes the workspace, and gives the folder of the program's crate in it."""
    with open(os.path.join(TOP, "crates.txt"), encoding="ascii") as lines:
        uses = {crate: used.split() for crate, used in (line.split(":") for line in lines if line[0].isalpha())}
    program = f"{name}_speed"
    uses[program] = USES[name].split()
    for crate in below(program, uses):
        for part in ("src", "specs", "proofs", "out"):
            source, copy = (os.path.join(place, "crates", crate, part) for place in (TOP, PLACE))
            if os.path.isdir(source):
                shutil.rmtree(copy, ignore_errors=True)
                shutil.copytree(source, copy)
    shutil.copy(os.path.join(TOP, "HANDLES"), PLACE)
    with open(os.path.join(PLACE, "crates.txt"), "w", encoding="ascii") as out:
        out.writelines(f"{crate}: {' '.join(uses[crate])}\n" for crate in [*sorted(below(program, uses)), program])
    folder = os.path.join(PLACE, "crates", program)
    os.makedirs(os.path.join(folder, "src"), exist_ok=True)
    shutil.copy(os.path.join(TOP, "bench", name, f"{program}.rt.txt"), os.path.join(folder, "src", "main.rt"))
    for empty in ("stdin", "stdout"):
        open(os.path.join(folder, empty), "w", encoding="ascii").close()
    return folder


def main():
    if len(sys.argv) != 2 or sys.argv[1] not in USES:
        sys.exit(__doc__)
    name = sys.argv[1]
    folder = workspace(name)
    # rt builds a program by running it, and prints what it did with what the program prints
    built = subprocess.run(["rt", "run"], cwd=folder, capture_output=True, text=True, check=False)
    program = os.path.join(folder, "out", f"{name}_speed")
    if built.returncode or not os.path.exists(program):
        sys.exit(built.stdout + built.stderr)
    subprocess.run([program], check=True)
    if name in BESIDE:
        subprocess.run([*BESIDE[name], "-o", os.path.join(PLACE, f"{name}_beside")], cwd=TOP, check=True)
        subprocess.run([os.path.join(PLACE, f"{name}_beside")], check=True)


if __name__ == "__main__":
    main()
