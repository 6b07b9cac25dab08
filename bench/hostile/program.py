"""Runs a program on bytes, for the scripts that compare what it answers; and what is kept of the answers that are wrong."""
import collections
import os
import re
import subprocess
import threading
import time
from typing import NamedTuple, Optional

MOST_SECONDS = 30  # a process that takes as long hangs


class Answer(NamedTuple):
    status: Optional[int]  # None where it hung, below 0 where a signal ended it
    out: bytes
    notes: str


class Program:
    """The program, how long it took at most, how often each word ended with which status, and which faults it named."""

    def __init__(self, path):
        self.path = os.path.abspath(path)
        self.lock = threading.Lock()
        self.forget()

    def forget(self):
        self.slowest, self.statuses, self.faults = 0.0, collections.Counter(), set()

    def run(self, words, data):
        start = time.perf_counter()
        try:
            done = subprocess.run([self.path, *words.split()], input=data, capture_output=True, timeout=MOST_SECONDS)
            answer = Answer(done.returncode, done.stdout, done.stderr.decode(errors="replace"))
        except subprocess.TimeoutExpired:
            answer = Answer(None, b"", "")
        with self.lock:
            self.slowest = max(self.slowest, time.perf_counter() - start)
            self.statuses[words.split()[0], answer.status] += 1
            self.faults.update(re.findall(r": (\d+) ", answer.notes))
        return answer

    def told(self):
        """A line on all runs since the last one, which are forgotten then."""
        ends = ", ".join(f"{word} {status} {times:,} times" for (word, status), times in sorted(self.statuses.items(), key=str))
        line = f"{ends}; kinds of fault named: {len(self.faults)}; the longest took {self.slowest:.2f} s"
        self.forget()
        return line


class Wrong:
    """Answers that aren't as they should be: each input is kept as a file, and said."""

    def __init__(self, folder):
        self.folder, self.number = folder, 0
        self.lock = threading.Lock()

    def add(self, name, data, said):
        with self.lock:
            self.number += 1
            os.makedirs(self.folder, exist_ok=True)
            path = os.path.join(self.folder, name.replace(" ", "_"))
            with open(path, "wb") as out:
                out.write(data)
        print(f"WRONG {path}: {said}", flush=True)
