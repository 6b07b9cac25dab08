#!/usr/bin/env python3
"""Writes a listing with Vulkan's names in place of numbers, and back.

    ./gfxcap list < CAPTURE | python3 tools/names.py > named.txt
    python3 tools/names.py --numbers < named.txt | ./gfxcap unlist > CAPTURE

Layouts, formats, usages, flags, results and WHOLE_SIZE get names, as `layout=TRANSFER_DST_OPTIMAL`; bits are joined
by `|`. A number without a name stays, and so does every other part of a line: with --numbers the listing comes back,
byte for byte, and names and numbers may stand side by side.

Status: 0 done; 2 a faulty command line; 5 a failed read; 6 a failed write; 11 a name that its field doesn't have: the
lines before it are written, and its line is named on standard error.
"""
import sys

from gfxcap_names import NoName, changed
from gfxcap_program import BAD_LISTING, Failure, Parser, run, standard_input

PIECE = 1 << 20  # bytes of a line that are looked at; what is longer is bytes in hexadecimal, or a list


def whole(line, source):
    """A line with all that belongs to it, but for hexadecimal bytes behind it."""
    if line.endswith(b"\n") or b" bytes=" in line or len(line) < PIECE:
        return line
    pieces = [line]
    while not pieces[-1].endswith(b"\n") and (piece := source.readline(PIECE)):
        pieces.append(piece)
    return b"".join(pieces)


def rewrite(source, sink, is_numbers):
    """Writes each line as it is read. A line of many bytes is handed on in pieces."""
    number, is_inside = 1, False
    while line := source.readline(PIECE):
        if not is_inside:
            line = whole(line, source)
            try:
                sink.write(changed(line.decode("latin-1"), is_numbers).encode("latin-1"))
            except NoName as error:
                sink.flush()
                raise Failure(f"bad listing line {number}: {error}", BAD_LISTING) from None
        else:
            sink.write(line)
        is_inside = not line.endswith(b"\n")
        number += not is_inside


def main():
    parser = Parser(__doc__)
    parser.add_argument("--numbers", action="store_true", help="write numbers in place of names")
    rewrite(standard_input(), sys.stdout.buffer, parser.parse_args().numbers)


if __name__ == "__main__":
    run(main)
