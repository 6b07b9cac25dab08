#!/usr/bin/env python3
"""Records programs by the Vulkan layer on Mesa's lavapipe, and compares what is replayed with what they read back.

    vulkan.py PROGRAM

The layer is linked to the proved log, libgfx_log_c.a, in the folder that GFXCAP_LOG names or in crates/gfx_log_c/out.
Where that, the compiler, the Vulkan headers or the driver is missing, it says so and checks nothing.
With GFXCAP_SANITIZE=address or GFXCAP_SANITIZE=thread all is built with that sanitizer, which has to be silent.
"""
import collections
import glob
import os
import re
import shutil
import signal
import subprocess
import sys
from concurrent.futures import ThreadPoolExecutor

from harness import CHECKS, check, equal, run_all
from samples import TOP, gfxcap, read

FOLDER = os.path.join(TOP, "vulkan")
SANITIZER = os.environ.get("GFXCAP_SANITIZE")
OUT = os.path.join(FOLDER, "out", SANITIZER or "plain")
LOG = os.environ.get("GFXCAP_LOG") or os.path.join(TOP, "crates", "gfx_log_c", "out")
ICD = sorted(glob.glob("/usr/share/vulkan/icd.d/lvp_icd.*.json"))
LAYERS = "/usr/share/vulkan/explicit_layer.d"
RECORD, VALIDATE, INCOHERENT = "VK_LAYER_GFXCAP_record", "VK_LAYER_KHRONOS_validation", "VK_LAYER_GFXCAP_incoherent"
FOLDERS = {RECORD: OUT, VALIDATE: LAYERS, INCOHERENT: os.path.join(OUT, "below")}
VALIDATION = os.path.join(LAYERS, "VkLayer_khronos_validation.json")
# Each program that ends well, and how many frames it shows.
WHOLE = {"single": 12, "single again": 12, "threads": 40, "several": 12, "forms": 3}
WHOLE |= {f"formats {number}": 20 for number in (13, 37, 41, 44, 98)}
ENDS = {  # what ends a recording; how many frames are in the file, and how many the program shows
    "draws": ("vkCreateRenderPass of thread 0, after 70 blocks and 3 frames: the profile lacks this call", 3, 6),
    "format": ("vkCreateImage of thread 0, after 70 blocks and 3 frames: the profile lacks format 74", 3, 6),
    "twice": ("vkQueueSubmit of thread 0, after 73 blocks and 3 frames: 21 CommandState", 3, 6),
    "leaks": ("vkDestroyDevice of thread 0, after 132 blocks and 6 frames: 14 HasChildren", 6, 6),
}
WORKER = "BeginCommandBuffer CmdCopyBufferToImage CmdPipelineBarrier EndCommandBuffer"
COPY = "BeginCommandBuffer CmdCopyBuffer CmdPipelineBarrier EndCommandBuffer"
SUBMITTER = f"{COPY} QueueSubmit WaitForFences ResetFences {WORKER}"
RUNS_OF_THREADS, THREADS_FRAMES = 10, 40
SECONDS = 60

Recorded = collections.namedtuple("Recorded", "status frames said file")


def missing():
    """What isn't there, or None."""
    for tool in ("g++", "make", "rt"):
        if not shutil.which(tool):
            return f"there is no {tool}"
    if subprocess.run(["g++", "-E", "-x", "c++", "-"], input=b"#include <vulkan/vk_layer.h>\n", capture_output=True,
                      check=False).returncode:
        return "the Vulkan headers aren't installed"
    if not ICD:
        return "Mesa's lavapipe isn't installed"
    if not os.path.exists(os.path.join(LOG, "libgfx_log_c.a")):
        return f"libgfx_log_c.a isn't in {LOG}; `rt lib gfx_log_c` proves and builds it"
    return None


def environment(layers=(), **more):
    """Of programs on the driver, which may itself leak, under layers, the first of which is next to the program."""
    if layers:  # the loader stacks them in the order in which it finds them
        more["VK_INSTANCE_LAYERS"] = os.pathsep.join(layers)
        more["VK_LAYER_PATH"] = os.pathsep.join(FOLDERS[layer] for layer in layers)
    suppressions = os.path.join(FOLDER, "tsan.txt")
    return dict(os.environ, VK_ICD_FILENAMES=ICD[0], LP_NUM_THREADS="1", ASAN_OPTIONS="detect_leaks=0",
                TSAN_OPTIONS=f"suppressions={suppressions}:print_suppressions=0", **more)


def frames_of(text):
    return [line for line in text.splitlines() if line.startswith("frame ")]


def record(folder, words, layers=(RECORD,), **more):
    """A program's run under these layers."""
    path = os.path.join(folder, words.replace(" ", "_") + ".gfxcap")
    name, *rest = words.split()
    given = environment(layers, **{"GFXCAP_FILE": path, **more})
    done = subprocess.run([os.path.join(OUT, name), *rest], env=given, capture_output=True, text=True, timeout=SECONDS,
                          check=False)
    other = [line for line in done.stdout.splitlines() if not line.startswith("frame")]
    said = "\n".join(other + done.stderr.splitlines())
    return Recorded(done.returncode, frames_of(done.stdout), said, path)


def replayed(data):
    """The frames of a capture, all of whose blocks are good."""
    done = subprocess.run([os.environ["GFXCAP"], "replay"], input=data, capture_output=True, check=False)
    equal((done.returncode, done.stderr), (0, b""), "what replay ends with")
    return frames_of(done.stdout.decode())


def drawn(data):
    """The frames that the driver draws of a capture."""
    player = os.path.join(OUT, "player")
    done = subprocess.run([player], input=data, env=environment(), capture_output=True, check=False)
    equal((done.returncode, done.stderr), (0, b""), "what the player ends with")
    return frames_of(done.stdout.decode())


def accepted(folder, words, frames, layers=(RECORD,), **more):
    """The bytes of a recording that is accepted whole, and that shows what the program read back."""
    run = record(folder, words, layers, **more)
    equal((run.status, run.said), (0, ""), words)
    data = read(run.file)
    equal(replayed(data), run.frames, words)
    equal(len({line.split(".")[0] for line in run.frames}), frames, f"frames of {words}")
    return data


def number_of(line):
    return int(re.match(r"frame (\d+)", line)[1])


def compare_cuts(data, show):
    """Every cut of a capture, by trim and by lean, shows the frames that the whole does."""
    whole = show(data)
    last = number_of(whole[-1])
    ranges = [(word, a, b) for word in ("trim", "lean") for a in range(1, last + 1) for b in range(a, last + 1)]

    def compare(cut):
        word, first, end = cut
        asked = [line for line in whole if first <= number_of(line) <= end]
        equal(show(gfxcap([word, f"{first}-{end}"], data)), asked, f"{word} {first}-{end}:")

    with ThreadPoolExecutor(2) as pool:
        for _ in pool.map(compare, ranges):
            pass


@check
def recordings_show_what_the_programs_read_back(folder):
    for words, frames in WHOLE.items():
        accepted(folder, words, frames)


@check
def the_validation_layer_is_silent(folder):
    for words, frames in WHOLE.items():
        accepted(folder, words, frames, (VALIDATE, RECORD))
        accepted(folder, words, frames, (RECORD, VALIDATE))


@check
def all_cuts_show_the_same_frames_by_replay(folder):
    for words in ("single again", "several"):
        compare_cuts(accepted(folder, words, WHOLE[words]), replayed)


@check
def all_cuts_show_the_same_frames_on_the_driver(folder):
    data = accepted(folder, "single", WHOLE["single"])
    equal(drawn(data), replayed(data), "the driver draws")
    compare_cuts(data, drawn)


@check
def each_thread_has_its_calls_in_its_order(folder):
    for _ in range(RUNS_OF_THREADS):
        data, calls = accepted(folder, "threads", THREADS_FRAMES), collections.defaultdict(list)
        for thread, name in re.findall(r"^thread=(\d+) vk(\w+)", gfxcap(["list"], data).decode(), re.M):
            calls[int(thread)].append(name)
        equal(sorted(calls), list(range(5)), "threads")
        kinds = collections.Counter()
        for thread in range(1, 5):
            text = " ".join(calls[thread])
            match = re.search(f"CreateFence ((?:{SUBMITTER} )+|(?:{WORKER} )+)DestroyFence", text)
            kinds[match[1].count("CmdCopyBufferToImage"), "QueueSubmit" in text] += 1
        equal(kinds, {(THREADS_FRAMES, True): 2, (THREADS_FRAMES, False): 2}, "calls of the workers")


@check
def what_ends_a_recording_is_named_and_the_program_goes_on(folder):
    for how, (line, recorded, shown) in ENDS.items():
        run = record(folder, f"ends {how}")
        equal((run.status, run.said, len(run.frames)), (0, f"gfxcap: the recording ends at {line}", shown), how)
        equal(replayed(read(run.file)), run.frames[:recorded], how)


@check
def a_killed_program_leaves_its_frames(folder):
    run = record(folder, "ends killed")
    equal((run.status, run.said), (-signal.SIGKILL, ""), "the program ends with")
    equal(replayed(read(run.file)), run.frames, "killed")
    equal(len(run.frames), 3, "killed")


@check
def comparison_stands_in_for_write_protection(folder):
    watched = accepted(folder, "single", WHOLE["single"])
    equal(accepted(folder, "single", WHOLE["single"], GFXCAP_COMPARE="1"), watched, "the file")


@check
def memory_that_is_not_coherent_is_recorded(folder):
    accepted(folder, "flushes", 8, (RECORD, INCOHERENT))


@check
def the_frames_that_are_asked_for_are_recorded(folder):
    whole = accepted(folder, "single", WHOLE["single"])
    for asked, frames in (("1-5", "1-5"), ("4-6", "4-6"), ("12-12", "12-12"), ("10-100", "10-12")):
        run = record(folder, "single", GFXCAP_FRAMES=asked)
        equal((run.status, run.said), (0, ""), asked)
        equal(read(run.file), gfxcap(["trim", frames], whole), asked)
    run = record(folder, "single", GFXCAP_FRAMES="13-14")
    equal(run.said, f"gfxcap: {run.file} begins at frame 1, because it has fewer frames", "13-14")
    equal(read(run.file), whole, "13-14")
    run = record(folder, "single", GFXCAP_FRAMES="2")
    equal(run.said, "gfxcap: nothing is recorded, because GFXCAP_FRAMES isn't A-B", "2")


@check
def a_file_that_cannot_be_written_is_named(folder):
    path = os.path.join(folder, "none", "out.gfxcap")
    run = record(folder, "several", GFXCAP_FILE=path)
    why = f"gfxcap: nothing is recorded, because {path} can't be written: No such file or directory"
    equal((run.status, run.said, len(run.frames)), (0, why, 16), "the program ends with")


@check
def a_full_log_ends_the_recording(folder):
    mapped = 230  # MiB, all of which are written; a log has up to 256
    run = record(folder, f"cost {mapped}")
    ends = "gfxcap: the recording ends at vkQueueSubmit of thread 0, after [0-9]+ blocks and 0 frames: the log is full"
    equal((run.status, bool(re.search(f"^{ends}$", run.said, re.M))), (0, True), run.said[-200:])
    with open(run.file, "rb") as file:
        done = subprocess.run([os.environ["GFXCAP"], "replay"], stdin=file, capture_output=True, check=False)
    equal((done.returncode, done.stdout), (0, b"frames 0\n"), "what replay ends with")


@check
def the_page_shows_what_is_printed(folder):
    """Lines of the blocks of docs/real.md, but for commands and figures, are lines that were printed."""
    whole, ended = record(folder, "single"), record(folder, "ends twice")
    cut = replayed(gfxcap(["trim", "7-8"], read(whole.file)))
    printed = {*whole.frames, *cut, *ended.frames, *ended.said.splitlines(), "frames 12", "frames 6", "frames 2"}
    page = read(os.path.join(TOP, "docs", "real.md")).decode()
    shown = [line for block in re.findall(r"^```\n(.*?)^```", page, re.M | re.S) for line in block.splitlines()]
    equal([line for line in shown if line and line[0] not in "$>." and line not in printed], [], "lines of the page")


def main():
    why = missing()
    if why:
        print(f"skipped the Vulkan layer: {why}")
        return
    words = [f"LOG={LOG}", f"OUT={OUT}"] + ([f"CXXFLAGS=-O1 -g -fsanitize={SANITIZER}"] if SANITIZER else [])
    made = subprocess.run(["make", "-C", FOLDER, "-j2", *words], capture_output=True, text=True, check=False)
    if made.returncode:
        print(f"FAILED the layer builds: {made.stderr.strip().splitlines()[-5:]}")
        sys.exit(1)
    print("ok the layer, the player and the programs build", flush=True)
    why = "" if os.path.exists(VALIDATION) else "it isn't installed"
    if why or SANITIZER:
        why = why or "it isn't built with the sanitizer"
        print(f"skipped the validation layer: {why}")
        CHECKS.remove(the_validation_layer_is_silent)
    run_all()


if __name__ == "__main__":
    main()
