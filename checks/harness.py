"""What the checks of the tools share: runs of a tool, what they must end with, and the run of all checks."""
import os
import struct
import subprocess
import sys
import tempfile
import zlib

from samples import TOP, read

CHECKS = []


def check(function):
    CHECKS.append(function)
    return function


def tool(name, *words, given=b"", **more):
    """A tool's run to its end."""
    path = os.path.join(TOP, "tools", f"{name}.py")
    return subprocess.run([sys.executable, path, *words], input=given, capture_output=True, check=False, **more)


def write(path, data):
    with open(path, "wb") as file:
        file.write(data)
    return path


def equal(got, expected, what=""):
    if got != expected:
        raise AssertionError(f"{what} {got!r} is not {expected!r}"[:600])


def ends(run, status, note=None):
    """A run has a status and says a thing, and never a traceback."""
    said = run.stderr.decode()
    equal(run.returncode, status, f"status, and {said[-300:]}:")
    if "Traceback" in said or note is not None and note not in said:
        raise AssertionError(f"standard error is {said[-300:]!r}, without {note!r}")


def png(path):
    """Width, height and rows of colors of a PNG without filters."""
    data, at, packed = read(path), 8, b""
    while at < len(data):
        (length,), kind = struct.unpack_from(">I", data, at), data[at + 4 : at + 8]
        part = data[at + 8 : at + 8 + length]
        equal(struct.unpack_from(">I", data, at + 8 + length)[0], zlib.crc32(kind + part), "checksum")
        if kind == b"IHDR":
            width, height = struct.unpack_from(">II", part)
        packed += part if kind == b"IDAT" else b""
        at += length + 12
    rows, pitch = zlib.decompress(packed), 3 * width + 1
    equal(len(rows), pitch * height, "bytes of rows")
    return width, height, [rows[y * pitch + 1 : (y + 1) * pitch] for y in range(height)]


def files(folder, *captures):
    return [write(os.path.join(folder, f"{number}.gfxcap"), data) for number, data in enumerate(captures)]


def run_all():
    """Runs each check in a folder of its own, and ends with status 1 where one failed."""
    if len(sys.argv) != 2:
        sys.exit(f"usage: {os.path.basename(sys.argv[0])} PROGRAM")
    os.environ["GFXCAP"] = os.path.abspath(sys.argv[1])
    failed = 0
    for function in CHECKS:
        with tempfile.TemporaryDirectory(prefix="gfxcap-checks-") as folder:
            try:
                function(folder)
                print(f"ok {function.__name__}", flush=True)
            except Exception as error:
                failed += 1
                print(f"FAILED {function.__name__}: {error}", flush=True)
    sys.exit(1 if failed else 0)
