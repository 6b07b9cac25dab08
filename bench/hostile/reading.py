"""Reads the blocks of a capture file by the steps of docs/format.md, sections 1 and 2, and by nothing of gfxcap's.

It says where a file's first bad block is that breaks a step. The rules of docs/rules.md it doesn't know.
"""
import os
import sys
from typing import NamedTuple, Optional

TOP = os.path.dirname(os.path.dirname(os.path.dirname(os.path.abspath(__file__))))
sys.path.insert(0, os.path.join(TOP, "examples"))
from blocks import CALLS, METADATA, PRESENTS, Record, long, word  # noqa: E402

NAMES = """
BadMagic BadVersion BadOption Compressed Truncated BlockTooLarge UnknownBlock BadParams TooManyBlocks StateOrder NotLive
IdTaken WrongParent HasChildren BadValue OutOfRange AlreadyBound NotBound MapState PoolRule CommandState UsageMissing
LayoutDiffers FormatDiffers SignalState SwapState ResultDiffers LimitReached
""".split()
FAULTS = {number: name for number, name in enumerate(NAMES, 1)}
NUMBERS = {name: number for number, name in FAULTS.items()}
FIRST_OF_RULES = NUMBERS["StateOrder"]
FRAME, STATE, META, CALL, ANNOTATION = range(1, 6)
MESSAGE, PRESENT = 1, 48


class Block(NamedTuple):
    at: int
    end: int
    kind: int
    number: Optional[int]  # of a call or metadata


class File(NamedTuple):
    minor: int
    blocks: list  # the header is the first, where it is good
    fault: Optional[str]  # None where the file ends cleanly
    at: int  # where the bad block begins, or the file ends


class Bad(Exception):
    """Carries the name of a fault."""


def fields_of(table, minor):
    of = {number: Record(*fields.values()) for number, fields in table.values()}
    if table is CALLS and minor == 2:
        of[PRESENT] = Record(*PRESENTS.values())
    return of


FIELDS = {(kind, minor): fields_of(table, minor) for kind, table in ((META, METADATA), (CALL, CALLS)) for minor in (1, 2)}


def header_of(data):
    """The minor version and the end of the header."""
    if len(data) < 16:
        raise Bad("Truncated")
    if data[:4] != b"GFXR":
        raise Bad("BadMagic")
    major, minor, options = (word.read(data, at) for at in (4, 8, 12))
    if major != 1000 or minor not in (1, 2):
        raise Bad("BadVersion")
    if options > 16:
        raise Bad("BadOption")
    end = 16 + 8 * options
    if len(data) < end:
        raise Bad("Truncated")
    before = 0
    for at in range(16, end, 8):
        key, value = word.read(data, at), word.read(data, at + 4)
        if key <= before:
            raise Bad("BadOption")
        if key == 1 and value:
            raise Bad("Compressed")
        before = key
    return minor, end


def number_of(kind, payload, minor):
    """The id of a call or metadata whose payload is spelled as its fields want."""
    if kind in (FRAME, ANNOTATION):
        return None
    if kind == STATE:
        if len(payload) != 12 or word.read(payload, 0) not in (1, 2):
            raise Bad("BadParams")
        return None
    if len(payload) < 4:
        raise Bad("BadParams")
    number = word.read(payload, 0)
    if kind == META and number == MESSAGE:
        return number
    if number not in FIELDS[kind, minor]:
        raise Bad("UnknownBlock")
    try:
        end = FIELDS[kind, minor][number].end(payload, long.end(payload, 4))
    except ValueError:
        raise Bad("BadParams") from None
    if end != len(payload):
        raise Bad("BadParams")
    return number


def block_at(data, at, minor):
    if len(data) - at < 12:
        raise Bad("Truncated")
    size, kind = long.read(data, at), word.read(data, at + 8)
    if kind >= 1 << 31:
        raise Bad("Compressed")
    if size > 1 << 27:
        raise Bad("BlockTooLarge")
    if kind not in (FRAME, STATE, META, CALL, ANNOTATION):
        raise Bad("UnknownBlock")
    end = at + 12 + size
    if end > len(data):
        raise Bad("Truncated")
    return Block(at, end, kind, number_of(kind, data[at + 12 : end], minor))


def read(data):
    """The whole blocks of a file up to the first that breaks a step. No file here has too many blocks."""
    minor, blocks, at = 0, [], 0
    try:
        minor, end = header_of(data)
        blocks.append(Block(0, end, 0, None))
        while end < len(data):
            at = end
            blocks.append(block_at(data, at, minor))
            end = blocks[-1].end
    except Bad as bad:
        return File(minor, blocks, str(bad), at)
    return File(minor, blocks, None, end)
