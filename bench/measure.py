"""How the programs of the bench measure: which program, how long it takes, and how much memory."""
import os
import resource
import subprocess
import time

TOP = os.path.dirname(os.path.dirname(os.path.abspath(__file__)))
BUILT = os.path.join(TOP, "crates", "gfxcap", "out", "gfxcap")
FIRST = os.path.join(TOP, "examples", "first.gfxcap")
GNU_TIME = "/usr/bin/time"
ROUNDS = 15


def program_of(words):
    """The program that the first of the words names, or that the script `gfxcap` builds, which says on standard error how far it is."""
    if words:
        return os.path.abspath(words[0])
    with open(FIRST, "rb") as data:
        subprocess.run([os.path.join(TOP, "gfxcap"), "info"], stdin=data, stdout=subprocess.DEVNULL, check=True)
    return BUILT


def run(words, path, out=os.devnull, status=0):
    """Runs a program on a file, what it prints into another, and gives the seconds on the clock."""
    with open(path, "rb") as data, open(out, "wb") as written:
        start = time.perf_counter()
        ended = subprocess.run(words, stdin=data, stdout=written, stderr=subprocess.PIPE, text=True, check=False)
        took = time.perf_counter() - start
    if ended.returncode != status:
        raise SystemExit(f"{' '.join(words)} of {path}: status {ended.returncode}, {ended.stderr.strip()}")
    return took


def spent(words, path, status=0):
    """The seconds of processors that a program takes on a file."""
    before = resource.getrusage(resource.RUSAGE_CHILDREN)
    run(words, path, status=status)
    after = resource.getrusage(resource.RUSAGE_CHILDREN)
    return after.ru_utime + after.ru_stime - before.ru_utime - before.ru_stime


def at_once(words, path, count):
    """The seconds until all of so many runs at once have ended."""
    start = time.perf_counter()
    runs = []
    for _ in range(count):
        with open(path, "rb") as data:
            runs.append(subprocess.Popen(words, stdin=data, stdout=subprocess.DEVNULL))
    assert all(ended.wait() == 0 for ended in runs)
    return time.perf_counter() - start


def turns(*jobs):
    """What each job takes in rounds in which each has its turn, since a machine that others share is faster at one time than at another."""
    return list(zip(*([job() for job in jobs] for _ in range(ROUNDS))))


def least(*jobs):
    """The least that each job takes in such rounds."""
    return [min(times) for times in turns(*jobs)]


def memory(words, path, out=os.devnull):
    """The most memory that a program takes, in kilobytes. Without GNU time it is at least what Python takes."""
    if not os.path.exists(GNU_TIME):
        run(words, path, out)
        return resource.getrusage(resource.RUSAGE_CHILDREN).ru_maxrss
    run([GNU_TIME, "-f", "%M", "-o", "/tmp/gfxcap_memory", *words], path, out)
    with open("/tmp/gfxcap_memory", encoding="ascii") as lines:
        return int(lines.read())


def compare(words, path, other, other_path, most, out):
    """Prints how long a program takes beside another, what both print into a file, and the most memory that it takes."""
    took, beside = least(lambda: run(words, path, out), lambda: run(other, other_path, out))
    print(
        f"{' '.join(words[1:]):12} {took:8.3f} s   {' '.join(other):10} {beside:8.3f} s   quotient {took / beside:5.2f}"
        f" (at most {most})   memory {memory(words, path, out):8,} kB",
        flush=True,
    )
