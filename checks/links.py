#!/usr/bin/env python3
"""Looks whether each link of a page leads somewhere, and whether the counts that pages give are those of the repository.

    links.py [PROGRAM]

A count is a number before the words 'must-fail edits', 'crates' or 'tests', and is one that can be counted here.
"""
import glob
import os
import re
import sys

TOP = os.path.dirname(os.path.dirname(os.path.abspath(__file__)))
LINK = re.compile(r"\[[^\]\[]*\]\(([^)\s]+)\)")
COUNT = re.compile(r"\b(\d[\d,]*) (must-fail edits|crates|tests)\b")


def pages():
    return sorted(glob.glob(os.path.join(TOP, "*.md")) + [path for folder in ("docs", "bench", "examples", "tools", "vulkan", "checks")
                  for path in glob.glob(os.path.join(TOP, folder, "**", "*.md"), recursive=True)])


def read(path):
    with open(path, encoding="utf-8") as file:
        return file.read()


def anchors(path):
    """The anchors of a page's headings, as the usual viewers make them."""
    found = set()
    for line in re.sub(r"```.*?```", "", read(path), flags=re.S).splitlines():
        if heading := re.match(r"#{1,6} (.*)", line):
            text = re.sub(r"\[([^\]]*)\]\([^)]*\)", r"\1", heading[1]).strip().lower()
            found.add(re.sub(r"[^\w\- ]", "", text).replace(" ", "-"))
    return found


def wrong_links(page):
    for target in LINK.findall(re.sub(r"```.*?```", "", read(page), flags=re.S)):
        if re.match(r"[a-z]+:", target):
            continue
        path, _, anchor = target.partition("#")
        whole = os.path.normpath(os.path.join(os.path.dirname(page), path)) if path else page
        if not os.path.exists(whole):
            yield f"{target} isn't there"
        elif anchor and whole.endswith(".md") and anchor not in anchors(whole):
            yield f"{target} has no such heading"


def counted():
    """The counts that a page may give, for each word."""
    crates = [line.split(":")[0].split()[0] for line in read(os.path.join(TOP, "crates.txt")).splitlines() if re.match("[a-z]", line)]
    uses = {line.split(":")[0].split()[0]: line.split(":")[1].split() for line in read(os.path.join(TOP, "crates.txt")).splitlines()
            if re.match("[a-z]", line)}
    needed, queue = set(), ["gfxcap"]
    while queue:
        name = queue.pop()
        if name in uses and name not in needed:
            needed.add(name)
            queue += uses[name]
    sources = [path for crate in crates for path in glob.glob(os.path.join(TOP, "crates", crate, "src", "**", "*.rt"), recursive=True)]
    return {
        "must-fail edits": {sum(len(glob.glob(os.path.join(TOP, "crates", crate, "must-fail", "*.edit"))) for crate in crates)},
        "crates": {len(crates), len(needed), len(crates) - len(needed)},
        "tests": {sum(len(re.findall(r"^\s*#\[test\]", read(path), flags=re.M)) for path in sources)},
    }


def main():
    right, counts = True, counted()
    for page in pages():
        name = os.path.relpath(page, TOP)
        wrong = list(wrong_links(page))
        for number, word in COUNT.findall(read(page)):
            if int(number.replace(",", "")) not in counts[word]:
                wrong.append(f"it says {number} {word}; counted are {' or '.join(map(str, sorted(counts[word])))}")
        right = right and not wrong
        print(f"FAILED {name}: {'; '.join(wrong)}" if wrong else f"ok {name}: links and counts")
    return 0 if right else 1


if __name__ == "__main__":
    sys.exit(main())
