"""Runs gfxcap as a child of a tool, and ends the tool as the program ends: a line on standard error, and a status."""
import argparse
import contextlib
import functools
import os
import re
import shutil
import stat
import subprocess
import sys
import tempfile

# The program's own statuses, where a tool has the same cause; but 1, which compare.py has for a difference as diff
# does, is 12 here. The last two are the shell's.
BAD_FILE, READ_FAULT, WRITE_FAULT, BAD_LISTING, NO_MEMORY, CANT_RUN, INTERRUPTED = 3, 5, 6, 11, 12, 127, 130
TOP = os.path.dirname(os.path.dirname(os.path.abspath(__file__)))


class Failure(Exception):
    """Why a tool can't go on: its line for standard error, and its status."""

    def __init__(self, line, status):
        super().__init__(line)
        self.line, self.status = line, status


class Refused(Failure):
    """What the program itself said, which is said again as it stands."""


@functools.lru_cache(maxsize=None)
def program():
    """The program's path. `gfxcap` at the top of the repository builds it first, and says so."""
    path = os.environ.get("GFXCAP") or os.path.join(TOP, "gfxcap")
    try:
        ready = subprocess.run([path, "--version"], stdin=subprocess.DEVNULL, stdout=subprocess.DEVNULL, check=False)
    except OSError as error:
        raise Failure(f"can't run {path}: {error.strerror}", CANT_RUN) from None
    if ready.returncode:
        raise Failure(f"can't run {path}: its status is {ready.returncode}", CANT_RUN)
    return path


def opened(path):
    """A file to be read from its beginning."""
    try:
        file = open(path, "rb")
    except (OSError, ValueError) as error:
        raise Failure(f"can't read {path}: {getattr(error, 'strerror', None) or error}", READ_FAULT) from None
    return file


class Input:
    """A stream that is read; where that fails it is a failure with the stream's name."""

    def __init__(self, stream, name):
        if stream is None:
            raise Failure(f"can't read {name}: it is closed", READ_FAULT)
        self.stream, self.name = stream, name

    def attempt(self, read, size):
        try:
            return read(size)
        except OSError as error:
            raise Failure(f"can't read {self.name}: {error.strerror}", READ_FAULT) from None

    def readline(self, size=-1):
        return self.attempt(self.stream.readline, size)

    def read(self, size=-1):
        return self.attempt(self.stream.read, size)


def standard_input():
    return Input(sys.stdin and sys.stdin.buffer, "standard input")


@contextlib.contextmanager
def regular(path):
    """The path of a file that can be read several times: of a pipe, or of `-` for standard input, a copy."""
    with contextlib.ExitStack() as stack:
        source = standard_input() if path == "-" else stack.enter_context(opened(path))
        if path != "-" and stat.S_ISREG(os.fstat(source.fileno()).st_mode):
            yield path
            return
        copy = stack.enter_context(tempfile.NamedTemporaryFile(prefix="gfxcap-"))
        shutil.copyfileobj(source if path == "-" else Input(source, path), copy, 1 << 20)
        copy.flush()
        yield copy.name


class Child:
    """gfxcap at work on a file, or on what another child writes. Its `output` is a stream of bytes."""

    def __init__(self, words, source, name=None):
        self.name, self.earlier = name, source if isinstance(source, Child) else None
        self.notes = tempfile.TemporaryFile()
        entry = self.earlier.output if self.earlier else opened(source)
        try:
            self.process = subprocess.Popen(
                [program(), *words], stdin=entry, stdout=subprocess.PIPE, stderr=self.notes, bufsize=1 << 18
            )
        except OSError as error:
            raise Failure(f"can't run {program()}: {error.strerror}", CANT_RUN) from None
        finally:
            entry.close()
        self.output = self.process.stdout

    def end(self):
        """Waits until it ended. Where something stopped it, or the child from which it reads, that is a failure."""
        if self.earlier:
            self.earlier.end()
        status = self.process.wait()
        if not status:
            return
        self.notes.seek(0)
        said = self.notes.read().decode(errors="replace").rstrip("\n")
        if status == 1:
            said, status = said or "gfxcap is out of memory", NO_MEMORY
        elif status < 0:
            said, status = f"gfxcap was ended by signal {-status}", 128 - status
        said = said or f"gfxcap ended with status {status}"
        raise Refused(f"{self.name}: {said}" if self.name else said, status)

    def __enter__(self):
        return self

    def __exit__(self, *_):
        if self.process.poll() is None:
            self.process.kill()
            self.process.wait()
        self.output.close()
        self.notes.close()
        if self.earlier:
            self.earlier.__exit__()


def frame_range(text):
    """A range of frames, for argparse: `A-B` as the program takes it."""
    found = re.fullmatch(r"(0|[1-9]\d*)-(0|[1-9]\d*)", text)
    if not found or int(found[1]) > int(found[2]):
        raise argparse.ArgumentTypeError(f"{text} is no range: A-B, two numbers, the first not above the second")
    return text


def not_twice(parser, captures):
    """Refuses words that name standard input for two captures."""
    if captures.count("-") > 1:
        parser.error("only one of the captures can be standard input")


def words_for(frames):
    return ["--frames", frames] if frames else []


class Parser(argparse.ArgumentParser):
    """A parser of command lines whose help is the tool's own text."""

    def __init__(self, text):
        form = argparse.RawDescriptionHelpFormatter
        super().__init__(description=text, formatter_class=form, allow_abbrev=False)

    def _print_message(self, message, file=None):
        # argparse leaves out that a write failed.
        print(message, end="", file=file or sys.stderr, flush=True)


def say(line):
    with contextlib.suppress(OSError, ValueError):
        print(line, file=sys.stderr, flush=True)


def name_tool(line):
    return f"{os.path.basename(sys.argv[0])}: {line}"


def status_of(main):
    """The status of a tool, whatever stopped it."""
    if sys.stdout is None:
        raise Failure("can't write standard output: it is closed", WRITE_FAULT)
    try:
        status = main() or 0
        sys.stdout.flush()
    except SystemExit as end:
        status = end.code if isinstance(end.code, int) else 0
        sys.stdout.flush()
    return status


def run(main):
    """Runs a tool and ends with its status. What the program refuses is said in its own words."""
    try:
        status = status_of(main)
    except Failure as failure:
        say(failure.line if isinstance(failure, Refused) else name_tool(failure.line))
        status = failure.status
    except KeyboardInterrupt:
        status = INTERRUPTED
    except BrokenPipeError:
        status = WRITE_FAULT
    except MemoryError:
        say(name_tool("out of memory"))
        status = NO_MEMORY
    except OSError as error:
        say(name_tool(f"can't write {error.filename or 'the output'}: {error.strerror}"))
        status = WRITE_FAULT
    # What is left in the buffer of a pipe that is closed must not be tried again.
    with contextlib.suppress(OSError):
        os.dup2(os.open(os.devnull, os.O_WRONLY), 1)
    sys.exit(status)
