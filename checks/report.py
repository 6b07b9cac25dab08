#!/usr/bin/env python3
"""Opens pages of tools/report.py in a headless Chromium, and looks at what they show.

    python3 checks/report.py PROGRAM [PICTURE]

PROGRAM is gfxcap as it was built; PICTURE, where it is given, gets a picture of the window. Each check is a line
`ok NAME` or `FAILED NAME: why`. Status 1 where one failed. Without a browser the line is `skipped: ..`, status 0.
"""
import io
import json
import os
import re
import sys
import time

from browser import Browser, installed
from harness import check, ends, equal, files, run_all, tool, write
from samples import TOP, example, gfxcap, gradient, lively, made, many_frames, read, shown, white

sys.path.insert(0, os.path.join(TOP, "tools"))
from gfxcap_frames import images
from gfxcap_listing import lines
from gfxcap_names import changed
from gfxcap_pictures import colors
from gfxcap_state import State

PAGE = "page.html"
WINDOW = {}
# What stands on a canvas of the page, read from a copy of it that is made to be read.
COLORS_ON = """window.colorsOn = (canvas) => {
  const copy = new OffscreenCanvas(canvas.width, canvas.height).getContext("2d", { willReadFrequently: true });
  copy.drawImage(canvas, 0, 0);
  return copy.getImageData(0, 0, canvas.width, canvas.height);
}; undefined"""


def page(folder, *captures, words=()):
    """The window with a page of these captures."""
    path = os.path.join(folder, PAGE)
    ends(tool("report", *files(folder, *captures), path, *words), 0)
    if "browser" not in WINDOW:
        WINDOW["browser"] = Browser()
    WINDOW["browser"].errors.clear()
    WINDOW["browser"].open(path)
    WINDOW["browser"].value(COLORS_ON)
    return WINDOW["browser"]


def is_quiet(browser):
    equal(browser.errors, [], "the console")


def wait_for(browser, number):
    browser.wait(f"document.getElementById('frame-title').textContent === 'Frame {number}'", 10)
    asked = "frames[chosen.index].sides.map((one) => one?.images[chosen.item] ?? null)"
    browser.value(f"Promise.all([showImages({asked}), showSide(chosen.side)])")


def text(browser, name):
    return browser.value(f"document.getElementById({json.dumps(name)}).textContent")


def go(browser, number):
    browser.value(f"choose(frames.findIndex((pair) => pair.number === {number}))")
    wait_for(browser, number)


def cell(number):
    return f"#film [data-index='{number - 1}']"


@check
def frames_are_chosen_by_key_and_by_pointer(folder):
    browser = page(folder, gradient())
    equal(browser.value("document.querySelectorAll('#film .cell').length"), 8, "cells")
    wait_for(browser, 1)
    keys = {2: "ArrowRight", 3: "ArrowRight", 8: "End", 7: "ArrowLeft", 1: "Home"}
    for number, key in keys.items():
        browser.key(key)
        wait_for(browser, number)
    for number in (5, 2, 8):
        browser.click(*browser.middle(cell(number)))
        wait_for(browser, number)
        equal(browser.value(f"document.querySelector({json.dumps(cell(number))}).classList.contains('chosen')"), True)
    browser.key("g")
    browser.type("6")
    browser.key("Enter")
    wait_for(browser, 6)
    is_quiet(browser)


def shown_images(browser):
    """What the page has of the chosen image: its bytes, and the colors of its canvas at 1:1."""
    words = """(() => {
      const colors = colorsOn(picture.views[0].canvas);
      const hex = (bytes) => Array.from(bytes, (byte) => byte.toString(16).padStart(2, "0")).join("");
      return [colors.width, colors.height, hex(picture.shown[0].bytes), hex(colors.data)];
    })()"""
    width, height, octets, drawn = browser.value(words)
    return width, height, bytes.fromhex(octets), bytes.fromhex(drawn)


@check
def pictures_are_those_of_replay(folder):
    texels = bytes(range(1, 129))
    captures = [shown(texels, form=form, width=8, height=4) for form in (13, 37, 41, 44, 98)]
    for capture in [*captures, gradient(), lively(1), lively(2), read(example("two_swapchains.gfxcap"))]:
        browser = page(folder, capture)
        browser.click(*browser.middle("#alpha"))
        for image in images(io.BytesIO(gfxcap(["replay", "--pixels"], capture))):
            browser.value(f"choose(frames.findIndex((pair) => pair.number === {image.frame}), {image.item - 1})")
            wait_for(browser, image.frame)
            rows = list(image.rows())
            width, height, octets, drawn = shown_images(browser)
            equal((width, height), (image.width, image.height), "extent")
            equal(octets, b"".join(rows), f"bytes of frame {image.name}")
            wanted = b"".join(colors(row, image, y, True) for y, row in enumerate(rows))
            equal(bytes(byte for at, byte in enumerate(drawn) if at % 4 < 3), wanted, f"colors of frame {image.name}")
            equal(set(drawn[3::4]), {255}, "alpha")
        is_quiet(browser)


@check
def alpha_is_that_of_replay(folder):
    browser = page(folder, shown(bytes([1, 2, 3, 255, 4, 5, 6, 0, 7, 8, 9, 128, 10, 11, 12, 254] * 2)))
    wait_for(browser, 1)
    equal(shown_images(browser)[3][3::4], bytes([255, 0, 128, 254] * 2), "alpha")
    is_quiet(browser)


@check
def the_texel_under_the_pointer_is_told(folder):
    browser = page(folder, gradient())
    go(browser, 3)
    image = next(images(io.BytesIO(gfxcap(["replay", "--pixels", "--frames", "3-3"], gradient()))))
    rows = list(image.rows())
    left, top, *_ = browser.box(".actual canvas")
    for x, y in ((0, 0), (47, 31), (13, 12), (20, 3)):
        browser.move(left + x + 0.5, top + y + 0.5)
        red, green, blue, alpha = texel = rows[y][4 * x : 4 * x + 4]
        wanted = f"x {x}, y {y}".ljust(16) + f"R {red:3}  G {green:3}  B {blue:3}  A {alpha:3}   {texel.hex(' ')}"
        equal(text(browser, "texel"), wanted)
    left, top, width, height = browser.box(".large")
    scale = int(text(browser, "scale").split(":")[0])
    x, y = 40, 9
    from_left = left + round(width / 2 - 24 * scale) + (x + 0.5) * scale
    browser.move(from_left, top + round(height / 2 - 16 * scale) + (y + 0.5) * scale)
    equal(text(browser, "texel")[:9], f"x {x}, y {y} "[:9])
    browser.wheel(from_left, top + height / 2, -100)
    browser.wait(f"document.getElementById('scale').textContent !== '{scale}:1'", 10)
    is_quiet(browser)


def rows_of(browser):
    """The calls that are in sight: block, name and fields of each."""
    words = "[...document.querySelectorAll('#calls .row')].sort((a, b) => a.dataset.index - b.dataset.index)"
    parts = "['.block', '.name', '.fields'].map((part) => row.querySelector(part).textContent.trim())"
    return browser.value(f"{words}.map((row) => {parts})")


@check
def calls_are_those_of_the_listing(folder):
    for capture in (gradient(), lively(1), made("three_recorders.script")):
        browser = page(folder, capture)
        listing = gfxcap(["list"], capture).decode().splitlines()[1:]
        number, at = 1, 0
        for place, line in enumerate(listing):
            if "vkQueuePresentKHR" not in line:
                continue
            go(browser, number)
            wanted = [changed(one) for one in listing[at : place + 1]]
            told = browser.value("calls.lines.map((line) => line.slice(0, 100))")
            equal(told, [one[:100] for one in wanted], f"calls of frame {number}")
            first = rows_of(browser)[0]
            equal(first[:2], [str(at + 1), wanted[0].split(" ")[1]], "the first row")
            number, at = number + 1, place + 1
        is_quiet(browser)


@check
def each_thread_has_a_lane(folder):
    browser = page(folder, made("three_recorders.script"))
    words = """[...document.querySelectorAll('#calls .row')].sort((a, b) => a.dataset.index - b.dataset.index)
      .map((row) => row.querySelector('.lanes i').offsetLeft)"""
    places = browser.value(words)
    threads = browser.value("calls.lines.map((line) => parsed(line).thread)")
    lanes = dict(zip(threads, places))
    equal(places, [lanes[thread] for thread in threads[: len(places)]], "lanes")
    equal(sorted(lanes), [0, 1, 2, 3], "threads")
    equal(sorted(lanes.values()), [lanes[thread] for thread in sorted(lanes)], "lanes from left to right")
    labels = browser.value("[...document.querySelectorAll('#lanes .threads span')].map((one) => one.textContent)")
    equal(labels, ["0", "1", "2", "3"])
    is_quiet(browser)


@check
def calls_are_searched(folder):
    browser = page(folder, lively(1))
    wait_for(browser, 1)
    browser.key("/")
    browser.type("COPY buffer")
    equal(text(browser, "found"), "1 of 31")
    equal([row[1] for row in rows_of(browser)], ["vkCmdCopyBuffer"])
    equal(browser.value("document.querySelector('#calls mark').textContent"), "CopyBuffer", "marks")
    browser.key("Enter", "\r")
    wait_for(browser, 2)
    equal(text(browser, "found"), "2 of 29")
    browser.click(*browser.middle("#calls [data-index='1']"))
    if not text(browser, "call").startswith("vkCmdCopyImageToBuffer"):
        raise AssertionError(f"the chosen call is told as {text(browser, 'call')!r}")
    browser.click(*browser.middle("#search"))
    browser.key("Escape")
    equal(text(browser, "found"), "29")
    browser.key("/")
    browser.type("no such call")
    equal(rows_of(browser), [])
    browser.key("Enter", "\r")
    browser.wait("document.getElementById('found').textContent === '0 of 29'", 10)
    is_quiet(browser)


@check
def calls_that_name_an_object_are_found(folder):
    browser = page(folder, lively(1))
    go(browser, 2)
    for id, wanted in {
        9: ["vkCmdCopyBuffer", "vkCmdCopyImageToBuffer"],
        42: ["vkCreateBuffer", "vkBindBufferMemory", "vkCmdCopyBuffer", "vkCmdFillBuffer"],
        60: ["vkCmdPipelineBarrier", "vkCmdCopyImage", "vkCmdPipelineBarrier"],
        22: ["vkResetFences", "vkQueueSubmit", "vkWaitForFences"],
        12: ["vkCmdCopyBuffer", "vkEndCommandBuffer", "vkQueueSubmit"],
        5: ["vkQueuePresentKHR"],
        64: [],
    }.items():
        browser.value(f"searchFor('#{id}')")
        equal([row[1] for row in rows_of(browser)], wanted, f"calls that name {id}")
    go(browser, 3)
    browser.click(*browser.middle("#objects [data-index='5']"))
    equal(browser.value("document.getElementById('search').value"), "#40")
    equal([row[1] for row in rows_of(browser)], ["vkFreeMemory"])
    is_quiet(browser)


@check
def objects_are_those_of_the_section(folder):
    capture = lively(1)
    browser = page(folder, capture)
    for number in range(2, 7):
        go(browser, number)
        told = browser.value("objects.live.map(([id, kind, , , state]) => [id, summary.kinds[kind], state])")
        state = State()
        listing = gfxcap(["list"], gfxcap(["trim", f"{number}-{number}"], capture))
        for line in lines(io.BytesIO(listing), None):
            state.take(line)
            if line.name == "end":
                break
        wanted = [[one.id, one.kind, one.describe_state()] for one in state.live.values()]
        equal(sorted([id, kind, text.replace("invalid", "initial")] for id, kind, text in told), sorted(wanted))
        equal(int(text(browser, "object-count")), len(wanted))
    equal(browser.value("document.querySelectorAll('#objects .row').length > 3"), True, "rows")
    is_quiet(browser)


@check
def what_a_frame_wrote_is_what_stats_counts(folder):
    browser = page(folder, lively(1))
    stats = json.loads(tool("stats", *files(folder, lively(1)), "--json").stdout)
    browser.click(*browser.middle("[data-tab='written']"))
    for frame in stats["frames"]:
        go(browser, frame["frame"])
        cells = browser.value("[...document.querySelectorAll('#written tr')].slice(1, -1).map((row) => "
                              "[...row.cells].slice(0, 3).map((one) => one.textContent))")  # fmt: skip
        equal(cells, [[way, f"{frame['count'][way]:,}", f"{size:,}"] for way, size in frame["bytes"].items()])
    is_quiet(browser)


@check
def the_look_is_dark_or_light(folder):
    browser = page(folder, gradient())
    back = "getComputedStyle(document.body).backgroundColor"
    looks = []
    for _ in range(2):
        browser.key("t")
        looks.append((browser.value(back), text(browser, "theme")))
    browser.click(*browser.middle("#theme"))
    equal((browser.value(back), text(browser, "theme")), looks[0])
    equal(sorted(looks), [("rgb(241, 242, 244)", "Dark"), ("rgb(27, 29, 33)", "Light")])
    is_quiet(browser)


@check
def two_captures_stand_side_by_side(folder):
    one, other = gradient(), white(gradient(), from_line=100)
    paths = files(folder, one, other)
    browser = page(folder, one, other)
    wait_for(browser, 5)
    cells = "[...document.querySelectorAll('#film .differs')]"
    marked = browser.value(f"{cells}.map((one) => Number(one.dataset.index) + 1)")
    said = tool("compare", *paths).stdout.decode().splitlines()[:-1]
    equal(sorted(marked), [int(re.match(r"frame (\d+)", line)[1]) for line in said], "frames that differ")
    for line in said:
        number, told = re.fullmatch(r"frame (\d+): (.*) texels, (.*)", line).group(1, 2), line.split(", from")[1]
        wait_for(browser, int(number[0]))
        equal(text(browser, "difference"), f"{number[1]} texels differ, from{told}")
        magenta = """(() => {
          const { data } = colorsOn(picture.views[2].canvas);
          let count = 0;
          for (let at = 0; at < data.length; at += 4) {
            count += data[at] === 255 && data[at + 1] === 0 && data[at + 2] === 255;
          }
          return count;
        })()"""
        equal(browser.value(magenta), int(number[1].split(" ")[0]), "texels in magenta")
        browser.key("d")
    go(browser, 2)
    equal(text(browser, "difference"), "no texel differs")
    browser.value("document.querySelectorAll('#side button')[1].click()")
    equal(browser.value("chosen.side"), 1)
    is_quiet(browser)
    browser = page(folder, one, gfxcap(["trim", "3-5"], one))
    equal(browser.value("document.querySelectorAll('#film .differs').length"), 5, "frames of one capture alone")
    equal(text(browser, "difference"), "only in one of the captures")
    is_quiet(browser)


@check
def ranges_and_captures_without_a_frame_have_pages(folder):
    browser = page(folder, gradient(), words=("--frames", "3-5"))
    equal(browser.value("frames.map((pair) => pair.number)"), [3, 4, 5])
    equal(text(browser, "object-count"), "13")
    is_quiet(browser)
    browser = page(folder, made("one_fault.script"))
    equal(browser.value("frames.length"), 0)
    is_quiet(browser)


@check
def numbers_of_64_bits_are_exact(folder):
    first, fence = 2**62 - 2, 2**64 - 1
    listing = gfxcap(["list"], gfxcap(["trim", "3-5"], gradient())).decode()
    listing = listing.replace("frame=3", f"frame={first}").replace("fence=7", f"fence={fence}")
    capture = gfxcap(["unlist"], listing.replace("fences=[7]", f"fences=[{fence}]").encode())
    browser = page(folder, capture, gfxcap(["upgrade"], capture))
    numbers = [str(first + place) for place in range(3)]
    equal(browser.value("frames.map((pair) => pair.number)"), numbers)
    browser.key("ArrowRight")
    wait_for(browser, numbers[1])
    equal(browser.value("objects.live.find(([, kind]) => summary.kinds[kind] === 'Fence')[0]"), str(fence))
    is_quiet(browser)


@check
def a_thousand_frames_are_drawn_as_they_are_looked_at(folder):
    browser = page(folder, many_frames(1000))
    equal(browser.value("document.querySelectorAll('#film .cell').length < 30"), True, "cells")
    browser.key("End")
    wait_for(browser, 1000)
    begun = time.monotonic()
    browser.value("document.getElementById('film').scrollLeft = 60000")
    browser.wait("document.querySelector(\"#film [data-index='480']\")", 10)
    if time.monotonic() - begun > 2:
        raise AssertionError("scrolling took more than two seconds")
    is_quiet(browser)


def take_picture(path):
    """A picture of the window, for the tutorial."""

    @check
    def a_picture_of_the_window(folder):
        capture, made_page = os.path.join(folder, "gradient.gfxcap"), os.path.join(folder, PAGE)
        ends(tool("report", write(capture, gradient()), made_page), 0)
        with Browser(1280, 800) as browser:
            browser.open(made_page)
            browser.value("setLook('dark', false)")
            go(browser, 4)
            left, top, width, height = browser.box(".large")
            browser.move(left + width * 0.6, top + height * 0.6)
            browser.value("chooseCall(5)")
            browser.wait("!film.isBusy && !film.waiting.length", 10)
            browser.picture(path)
            is_quiet(browser)


def main():
    if not installed():
        print("skipped: chromium is not installed")
        return
    if len(sys.argv) == 3:
        take_picture(sys.argv.pop())
    try:
        run_all()
    finally:
        if "browser" in WINDOW:
            WINDOW["browser"].__exit__()


if __name__ == "__main__":
    main()
