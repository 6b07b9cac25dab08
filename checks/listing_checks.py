"""Checks of tools/names.py and tools/stats.py, and of the state that tools/gfxcap_state.py follows."""
import io
import json
import os
import sys

from harness import check, ends, equal, files, tool
from samples import TOP, example, gfxcap, gradient, lively, made, many_frames, read


def listing_of_all_names():
    """Lines of each field that has names, with known numbers, unknown ones, and bits with and without names."""
    layouts, formats = (0, 1, 6, 7, 1000001002, 2, 4294967295), (13, 37, 41, 44, 98, 0, 14)
    bits, whole = (0, 1, 2, 3, 255, 256, 511, 512, 2147483649, 4294967295), 2**64 - 1
    lines = ["gfxr 1000.1 7=7"]
    for a in layouts:
        lines += [f"InitImage image=7 layout={a} bytes=", f"InitImage image=7 layout={a} bytes=07"]
        lines += [f"vkCmdPipelineBarrier cb=7 barriers=[(7,{a},{b}),({b},{b},{a})]" for b in layouts]
        lines += [f"vkCmdCopyImage cb=7 source=7 source_layout={a} target=7 target_layout=7 regions=[(7,7,7,7,7,7)]"]
        lines += [f"vkCmdCopyBufferToImage cb=7 source=7 target=7 layout={a} regions=[(7,0,0,1,1,6,6)]"]
        lines += [f"vkCmdCopyImageToBuffer cb=7 source=7 layout={a} target=7 regions=[]"]
        lines += [f"vkCmdClearColorImage cb=7 image=7 layout={a} c0=1 c1=6 c2=7 c3=0"]
    for form in formats:
        lines += [f"vkCreateImage device=7 image=1 format={form} width=13 height=37 usage={one}" for one in bits]
        swapchain = "vkCreateSwapchainKHR device=7 swapchain=1 surface=1 images=1"
        lines += [f"{swapchain} format={form} width=7 height=7 usage=5"]
    for one in bits:
        lines += [f"vkCreateBuffer device=7 buffer=1 size={whole} usage={one}"]
        lines += [f"vkCreateFence device=7 fence=1 flags={one}"]
        lines += [f"vkCreateCommandPool device=7 pool=1 flags={one}", f"vkBeginCommandBuffer cb=1 flags={one}"]
        lines += [f"vkWaitForFences device=1 fences=[1,2] wait_all=1 answer={one}"]
        lines += [f"vkGetFenceStatus device=1 fence=1 answer={one}"]
        lines += [f"vkAcquireNextImageKHR device=1 swapchain=1 semaphore=0 fence=1 index=1 answer={one}"]
    for size in (7, whole - 1, whole):
        lines += [f"vkMapMemory device=1 memory=1 offset=0 size={size}"]
        lines += [f"vkCmdFillBuffer cb=1 buffer=1 offset=0 size={size} word=7"]
    lines += ["vkQueueSubmit queue=4 submits=[([],[13],[]),([7],[],[7])] fence=0"]
    head, *blocks = lines
    return "".join([f"{head}\n", *(f"thread=7 {line}\n" for line in blocks)]).encode() + b"annotation bytes=07\n"


@check
def names_go_there_and_back(_):
    listings = [gfxcap(["list"], read(example(name))) for name in os.listdir(example("")) if name.endswith(".gfxcap")]
    listings += [gfxcap(["list"], gradient()), listing_of_all_names(), b"", b"no listing", b"\n \n\xff\n"]
    for listing in listings:
        named = tool("names", given=listing)
        ends(named, 0)
        ends(again := tool("names", given=named.stdout), 0)
        equal(again.stdout, named.stdout, "named twice")
        ends(back := tool("names", "--numbers", given=named.stdout), 0)
        equal(back.stdout, listing, "there and back")
    file = gfxcap(["unlist"], listing_of_all_names())
    equal(gfxcap(["list"], file), listing_of_all_names(), "the listing is one")


@check
def names_are_those_of_vulkan(_):
    named = tool("names", given=listing_of_all_names()).stdout.decode()
    for part in (
        "barriers=[(7,UNDEFINED,TRANSFER_DST_OPTIMAL),(7,TRANSFER_DST_OPTIMAL,UNDEFINED)]",
        "barriers=[(7,GENERAL,PRESENT_SRC_KHR),(1000001002,PRESENT_SRC_KHR,GENERAL)]",
        "source_layout=TRANSFER_SRC_OPTIMAL target=7 target_layout=TRANSFER_DST_OPTIMAL regions=[(7,7,7,7,7,7)]",
        "format=B8G8R8A8_UNORM width=13 height=37 usage=TRANSFER_SRC|TRANSFER_DST\n",
        "format=14 width=13 height=37 usage=0\n",
        "usage=TRANSFER_SRC|2147483648\n",
        "vkCreateFence device=7 fence=1 flags=SIGNALED\n",
        "vkCreateCommandPool device=7 pool=1 flags=RESET_COMMAND_BUFFER\n",
        "vkBeginCommandBuffer cb=1 flags=ONE_TIME_SUBMIT\n",
        "wait_all=1 answer=TIMEOUT\n",
        "index=1 answer=NOT_READY\n",
        "vkMapMemory device=1 memory=1 offset=0 size=WHOLE_SIZE\n",
        "vkCmdFillBuffer cb=1 buffer=1 offset=0 size=WHOLE_SIZE word=7\n",
    ):
        if part not in named:
            raise AssertionError(f"{part!r} isn't in the named listing")


@check
def names_refuses_a_name_that_is_none(_):
    lines = b"gfxr 1000.1\nthread=0 vkBeginCommandBuffer cb=1 flags="
    for value in (b"SIGNALED", b"ONE_TIME_SUBMIT|", b"1|x", b"", b"-1"):
        run = tool("names", "--numbers", given=lines + value + b"\n")
        ends(run, 11, "bad listing line 2: flags=" + value.decode())
        equal(run.stdout, b"gfxr 1000.1\n")


@check
def names_streams_long_lines(_):
    long = b"thread=0 InitImage image=1 layout=7 bytes=" + b"07" * 3_000_000 + b"\n"
    many = b"thread=0 vkCmdPipelineBarrier cb=1 barriers=[" + b",".join([b"(1,0,7)"] * 300_000) + b"]\n"
    listing = long + many + b"thread=0 vkCreateFence device=1 fence=1 flags=1\n"
    named = tool("names", given=listing)
    ends(named, 0)
    equal(named.stdout.count(b"TRANSFER_DST_OPTIMAL"), 300_001)
    equal(named.stdout[-15:], b"flags=SIGNALED\n")
    equal(tool("names", "--numbers", given=named.stdout).stdout, listing)


def counted(capture, folder, *words):
    run = tool("stats", *files(folder, capture), "--json", *words)
    ends(run, 0)
    return json.loads(run.stdout)


@check
def stats_counts_what_info_counts(folder):
    captures = [gradient(), made("three_recorders.script"), lively(1), lively(2)]
    captures += [read(example(name)) for name in sorted(os.listdir(example(""))) if name.endswith(".gfxcap")]
    captures += [gfxcap(["trim", "3-5"], gradient()), gfxcap(["lean", "2-4"], lively())]
    for capture in captures:
        told = counted(capture, folder)
        info = dict(line.split() for line in gfxcap(["info"], capture).decode().splitlines())
        got = told["blocks"], told["calls"]["total"], len(told["frames"])
        equal(got, tuple(int(info[word]) for word in ("blocks", "calls", "frames")), "info")
        parts = [*told["frames"], told["behind_the_last_frame"], *filter(None, [told["section"]])]
        calls = told["calls"]
        for sums in (calls["names"].values(), calls["threads"].values(), [part["calls"] for part in parts]):
            equal(sum(sums), calls["total"], "a sum of calls")
        for way, size in told["bytes"].items():
            equal(sum(part["bytes"][way] for part in parts), size, f"a sum of {way}")


@check
def stats_counts_bytes_where_they_are_written(folder):
    told = counted(lively(), folder)
    ways = ("writes", "fills", "updates", "clears", "copies")
    frames = [tuple(frame["bytes"][way] for way in ways) for frame in told["frames"]]
    nothing = (0,) * 5
    equal(frames, [(0, 4092, 8, 0, 0), (2, 0, 0, 60, 96), nothing, (0, 16, 0, 0, 0), nothing, nothing])
    equal(told["count"], {"writes": 1, "fills": 3, "updates": 1, "clears": 1, "copies": 4})
    equal(told["largest_frames"], [1, 2, 4, 6, 5, 3])
    live = {"Instance": 1, "Surface": 1, "Device": 1, "Queue": 1, "Memory": 2, "Buffer": 3, "Image": 1, "Swapchain": 1,
            "Fence": 1, "Semaphore": 1, "Pool": 1, "CommandBuffer": 2}  # fmt: skip
    equal(told["live_objects"], live)
    equal(told["live_bytes"], 4096 + 16 + 4)
    equal(told["frames"][5]["images"], ["2x2 R8_UINT"])
    equal(counted(read(example("two_swapchains.gfxcap")), folder)["frames"][0]["images"], ["1x1 R8_UINT"] * 2)


@check
def stats_tells_in_text(folder):
    run = tool("stats", *files(folder, gradient()), "--frames", "3-4")
    ends(run, 0)
    said = run.stdout.decode().splitlines()
    equal(said[0], "calls 48, blocks 54, frames 2, threads 1")
    row = "        3     12       0    256        0   6,144   5,632  48x32 R8G8B8A8_UINT"
    for line in (row, "      4  11,264  copies"):
        if line not in said:
            raise AssertionError(f"{line!r} isn't said")
    many = files(folder, many_frames(40))
    equal(len(tool("stats", *many, "--all").stdout.splitlines()) - len(tool("stats", *many).stdout.splitlines()), 30)


@check
def stats_says_nothing_of_what_is_refused(folder):
    whole = gradient()
    torn, listed = whole[:-1], gfxcap(["list"], whole)
    broken = gfxcap(["unlist"], listed.replace(b" fences=[7]", b" fences=[9]"))
    for capture, note in ((torn, "bad block 143 at "), (b"", "bad block 0"), (broken, ": 11 NotLive\n")):
        for words in ([], ["--json"]):
            run = tool("stats", *files(folder, capture), *words)
            ends(run, 3, note)
            equal((run.stdout, run.stderr[:9]), (b"", b"bad block"))
    ends(tool("stats", *files(folder, whole), "--frames", "8-9"), 4, "no such frame: the file has 1 to 8")
    ends(tool("stats", "-", given=whole), 0)
    ends(tool("stats", "-", given=torn), 3, "bad block 143 at ")


def snapshot(state):
    """What lives, as far as a section says it: an invalid command buffer is initial after it, a signal no field."""
    taken = {}
    for id, one in state.live.items():
        fields = {} if one.kind == "Fence" else one.fields
        taken[id] = (one.kind, one.parent, fields, one.describe_state().replace("invalid", "initial"))
    return taken


@check
def state_is_that_of_the_section(_):
    sys.path.insert(0, os.path.join(TOP, "tools"))
    from gfxcap_listing import lines
    from gfxcap_state import State

    for capture in (gradient(), lively(1), lively(2), gfxcap(["trim", "2-5"], lively())):
        state, before, count = State(), {}, 0
        for line in lines(io.BytesIO(gfxcap(["list"], capture)), None):
            state.take(line)
            count += line.name == "vkQueuePresentKHR"
            if line.name in ("end", "vkQueuePresentKHR"):
                before[state.first + count] = snapshot(state)
        for number in list(before)[:-1]:
            cut = State()
            listing = gfxcap(["list"], gfxcap(["trim", f"{number}-{number}"], capture))
            for line in lines(io.BytesIO(listing), None):
                cut.take(line)
                if line.name == "end":
                    break
            equal(snapshot(cut), before[number], f"before frame {number}")
