"""Checks of tools/frames.py and tools/compare.py."""
import os
import re

from harness import check, ends, equal, files, png, tool, write
from samples import example, gfxcap, gradient, made, many_frames, read, shown, white


def drawn(capture, folder, *words):
    run = tool("frames", folder, *words, given=gfxcap(["replay", "--pixels"], capture))
    ends(run, 0)
    return run.stdout.decode()


@check
def frames_draws_each_format(folder):
    texels = bytes(range(16)) + bytes([10, 20, 30, 255] * 4)
    expected = {
        13: (8, 4, [bytes(texel for texel in texels[:8] for _ in range(3))]),
        98: (4, 2, [bytes(texel for texel in texels[0:16:4] for _ in range(3))]),
        41: (4, 2, [None, bytes([10, 20, 30] * 4)]),
        37: (4, 2, [None, bytes([10, 20, 30] * 4)]),
        44: (4, 2, [None, bytes([30, 20, 10] * 4)]),
    }
    for form, (width, height, rows) in expected.items():
        drawn(shown(texels, form=form, width=width, height=height), folder, "1")
        got = png(os.path.join(folder, "frame-1.png"))
        equal(got[:2], (width, height), f"extent in format {form}")
        for row, wanted in zip(got[2], rows):
            equal(row, row if wanted is None else wanted, f"row in format {form}")


@check
def frames_shows_alpha_on_a_checkerboard(folder):
    texels = bytes([200, 100, 50, 255] + [200, 100, 50, 0] + [200, 100, 50, 128] + [0, 0, 0, 0]) * 4
    drawn(shown(texels, width=16, height=1), folder, "1")
    row = png(os.path.join(folder, "frame-1.png"))[2][0]
    light, dark = 0xCC, 0x99
    half = [channel * 128 // 255 + light * 127 // 255 for channel in (200, 100, 50)]
    equal(row[:12], bytes([200, 100, 50, light, light, light, *half, light, light, light]), "first square")
    equal(row[24:30], bytes([200, 100, 50, dark, dark, dark]), "second square")
    drawn(shown(texels, width=16, height=1), folder, "1", "--opaque")
    equal(png(os.path.join(folder, "frame-1.png"))[2][0][:9], bytes([200, 100, 50] * 3), "without alpha")


@check
def frames_draws_a_sheet(folder):
    said = drawn(gradient(), folder)
    equal(said, f"8 images and sheet.png in {folder}\n")
    equal(sorted(os.listdir(folder)), [*(f"frame-{number}.png" for number in range(1, 9)), "sheet.png"])
    equal(png(os.path.join(folder, "frame-1.png"))[:2], (240, 160), "extent of a frame")
    width, height, rows = png(os.path.join(folder, "sheet.png"))
    equal((width, height), (736, 496), "extent of the sheet")
    frame = png(os.path.join(folder, "frame-5.png"))[2]
    left, top = 3 * (4 + (4 + 240)), 4 + (4 + 160)
    equal([row[left : left + 720] for row in rows[top : top + 160]], frame, "fifth thumbnail")


@check
def frames_makes_several_sheets(folder):
    said = drawn(many_frames(300), folder)
    equal(said, f"300 images and 2 sheets in {folder}\n")


@check
def frames_writes_ppm(folder):
    drawn(shown(bytes([1, 2, 3, 255]) * 8), folder, "2", "--ppm")
    equal(read(os.path.join(folder, "frame-1.ppm")), b"P6\n8 4\n255\n" + bytes([1, 2, 3]) * 32)
    equal(read(os.path.join(folder, "sheet.ppm"))[:2], b"P6")


@check
def frames_names_the_images_of_a_present(folder):
    drawn(read(example("two_swapchains.gfxcap")), folder)
    equal(sorted(os.listdir(folder)), ["frame-1.1.png", "frame-1.2.png", "sheet.png"])


@check
def frames_refuses_other_texts(folder):
    whole = gfxcap(["replay", "--pixels"], gradient())
    cases = {
        gfxcap(["replay"], gradient()): "replay with --pixels",
        b"": "was stopped",
        b"hello\n": "line 1 isn't from gfxcap replay --pixels",
        whole[:-9]: "ends before its last line",
        whole[: len(whole) // 2]: "",
        whole + b"frames 8\n": "something follows the last line",
        whole.replace(b"R8G8B8A8_UINT", b"R9"): "R9 is no format",
        re.sub(rb"\n[0-9a-f]{6}", b"\nx12345", whole, count=2): "isn't hexadecimal",
        whole.replace(b"48x32", b"0x0", 1): "line 1 isn't from gfxcap replay --pixels: it begins no frame",
        whole.replace(b"48x32", b"48x33", 1): "frame 1 has 32 rows, not 33",
        whole.replace(b"frame 1 ", b"frame " + b"1" * 5000 + b" "): "it begins no frame",
        re.sub(rb"\n[0-9a-f]{2}", b"\n  ", whole, count=2): "isn't hexadecimal",
        bytes(range(256)) * 9: "line 1",
        b"a" * 10**6: "line 1",
    }
    for text, note in cases.items():
        ends(tool("frames", folder, given=text), 3, note)


@check
def frames_draws_what_came_before_a_fault(folder):
    whole = gfxcap(["replay", "--pixels"], gradient())
    ends(tool("frames", folder, given=whole[: len(whole) // 2]), 3)
    equal(sorted(os.listdir(folder)), [*(f"frame-{number}.png" for number in range(1, 5)), "sheet.png"])


@check
def frames_refuses_bad_words(folder):
    for words in ([], [folder, "0"], [folder, "x"], [folder, "65"], [folder, "1", "2"], [folder, "--png"]):
        ends(tool("frames", *words), 2, "usage: frames.py")
    path = write(os.path.join(folder, "file"), b"")
    ends(tool("frames", path, given=gfxcap(["replay", "--pixels"], gradient())), 6, path)
    ends(tool("frames", "/proc/nothing", given=b""), 6, "/proc/nothing")


@check
def compare_tells_which_texels_differ(folder):
    texels = bytes(range(64))
    for form, at, size in ((13, 21, 1), (41, 44, 4), (98, 47, 4), (44, 45, 4)):
        changed = bytearray(texels)
        changed[at] ^= 0x80
        changed[at + size] ^= 1
        width, height = (8, 8) if size == 1 else (4, 4)
        x, y = at // size % width, at // size // width
        paths = files(folder, *(shown(bytes(one), form=form, width=width, height=height) for one in (texels, changed)))
        run = tool("compare", *paths)
        ends(run, 1)
        last = (x + 1, y) if x + 1 < width else (0, y + 1)
        where = f"from ({min(x, last[0])},{y}) to ({max(x, last[0])},{last[1]})"
        equal(run.stdout.decode(), f"frame 1: 2 of {width * height} texels, {where}\n1 of 1 images differ\n")


@check
def compare_finds_equal_captures_equal(folder):
    whole = gradient()
    paths = files(folder, whole, gfxcap(["upgrade"], whole), gfxcap(["lean", "1-8"], whole))
    for other in paths[::2]:
        run = tool("compare", paths[0], other)
        ends(run, 0)
        equal(run.stdout, b"0 of 8 images differ\n")


@check
def compare_takes_ranges(folder):
    path, cut, changed = files(folder, gradient(), gfxcap(["trim", "3-5"], gradient()), white(gradient()))
    ends(tool("compare", path, cut, "--frames", "3-5"), 0)
    ends(tool("compare", path, path, "--frames", "3-5", "--with", "3-5"), 0)
    run = tool("compare", path, changed, "--frames", "4-4")
    equal(run.stdout, b"frame 4: 64 of 1536 texels, from (17,12) to (24,19)\n1 of 1 images differ\n")
    run = tool("compare", path, path, "--frames", "1-2", "--with", "2-3")
    equal(run.stdout.splitlines()[0], b"frames 1 and 2: 1344 of 1536 texels, from (0,2) to (47,29)")
    run = tool("compare", path, cut)
    ends(run, 1)
    equal(run.stdout.splitlines()[:2], [f"frame {number}: only in {path}".encode() for number in (1, 2)])
    equal(run.stdout.splitlines()[-1], b"5 of 8 images differ")


@check
def compare_draws_both_and_the_difference(folder):
    ones, others = bytes([1, 2, 3, 255] * 8), bytes([1, 2, 3, 255] * 3 + [9, 9, 9, 255] + [1, 2, 3, 255] * 4)
    run = tool("compare", *files(folder, shown(ones), shown(others)), "--pictures", folder)
    ends(run, 1)
    width, height, rows = png(os.path.join(folder, "frame-1.png"))
    equal((width, height), ((4 + 2 + 4 + 2 + 4) * 64, 2 * 64), "extent")
    row = [rows[0][3 * 64 * x : 3 * 64 * x + 3] for x in range(16)]
    gray, same, dark = b"\x60" * 3, bytes([1, 2, 3]), bytes([0, 0, 0])
    both = [*[same] * 4, gray, gray, *[same] * 3, b"\t" * 3]
    equal(row, [*both, gray, gray, *[dark] * 3, b"\xff\0\xff"], "first row")


@check
def compare_tells_extents_and_formats(folder):
    texels = bytes([1] * 64)
    others = shown(texels, height=3), shown(texels, form=37), shown(texels, form=13, width=9)
    paths = files(folder, shown(texels), *others)
    for other, said in ((1, "4x3 R8G8B8A8_UINT"), (2, "4x2 R8G8B8A8_UNORM"), (3, "9x2 R8_UINT")):
        run = tool("compare", paths[0], paths[other], "--pictures", os.path.join(folder, "pictures"))
        ends(run, 1)
        equal(run.stdout.decode(), f"frame 1: 4x2 R8G8B8A8_UINT and {said}\n1 of 1 images differ\n")
        width, height, _ = png(os.path.join(folder, "pictures", "frame-1.png"))
        wide, high = map(int, re.match(r"(\d+)x(\d+)", said).groups())
        scale = 256 // max(4, wide)
        equal((width, height), ((4 + 2 + wide) * scale, max(2, high) * scale), "extent")


@check
def compare_says_what_the_program_refuses(folder):
    whole = gradient()
    paths = files(folder, whole, whole[:-1], b"", b"GFXR", made("one_fault.script"))
    run = tool("compare", paths[0], paths[1])
    ends(run, 3, f"{paths[1]}: bad block 143 at ")
    equal(run.stdout, b"")
    ends(tool("compare", paths[2], paths[0]), 3, f"{paths[2]}: bad block 0 at 0: 5 Truncated")
    ends(tool("compare", paths[0], paths[3]), 3, "bad block 0 at 0: 5 Truncated")
    ends(tool("compare", paths[0], paths[0], "--frames", "8-9"), 4, "no such frame: the file has 1 to 8")
    ends(tool("compare", paths[0], paths[0], "--frames", "0-1"), 4, "no such frame: the file has 1 to 8")
