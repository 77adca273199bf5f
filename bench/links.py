#!/usr/bin/env python3
"""Checks the links of README.md, docs/*.md and crates/*/*.md that lead to something in this repository.

    bench/links.py

A link resolves where there is such a file or folder below the top, and where its anchor is a heading of that page, named as GitHub names
headings, or a line (`#L12`) that a file of another kind has. Links with a scheme, as https:, aren't looked at, nor what stands in code. It
prints a line for each link that doesn't resolve, and ends with status 1 where there is one.
"""
import glob
import os
import re
import sys
import urllib.parse

TOP = os.path.dirname(os.path.dirname(os.path.abspath(__file__)))
PAGES = ["README.md", "docs/*.md", "crates/*/*.md"]
LINK = re.compile(r"\[(?:[^\[\]]|\[[^\]]*\])*\]\(\s*<?([^\s<>()]*(?:\([^\s()]*\)[^\s()]*)*)>?(?:\s+\"[^\"]*\")?\s*\)")
FENCE = re.compile(r"\s*(`{3,}|~{3,})")


def outside_code(text):
    """The lines of a page, each with its number; those of code blocks are left out."""
    fence = None
    for number, line in enumerate(text.split("\n"), 1):
        mark = FENCE.match(line)
        if mark and (fence is None or mark.group(1).startswith(fence)):
            fence = mark.group(1) if fence is None else None
        elif fence is None:
            yield number, line


def links_of(text):
    """The links of a page, each with the number of its line."""
    for number, line in outside_code(text):
        for found in LINK.finditer(re.sub(r"`[^`]*`", "", line)):
            yield number, found.group(1)


def anchors_of(text):
    """The names of a page's headings, and those that it gives itself."""
    names, seen = set(re.findall(r"<a (?:name|id)=\"([^\"]+)\"", text)), {}
    for _number, line in outside_code(text):
        heading = re.match(r"#{1,6}\s+(.*?)\s*#*$", line)
        if heading:
            words = re.sub(r"\[([^\]]*)\]\([^)]*\)", r"\1", heading.group(1))
            name = re.sub(r"[^\w\- ]", "", words.lower()).replace(" ", "-")
            count = seen.get(name, 0)
            seen[name] = count + 1
            names.add(f"{name}-{count}" if count else name)
    return names


class Places:
    """Where links may lead."""

    def __init__(self):
        self.anchors = {}

    def why_not(self, page, target):
        """Why a link of a page doesn't resolve, or none."""
        path, _sharp, anchor = urllib.parse.unquote(target).partition("#")
        there = os.path.normpath(os.path.join(TOP, os.path.dirname(page), path)) if path else os.path.join(TOP, page)
        if os.path.commonpath([TOP, there]) != TOP:
            return "it leads out of the repository"
        if not os.path.exists(there):
            return "there is no such file"
        if not anchor:
            return None
        if there.endswith(".md"):
            return None if anchor in self.of(there) else "the page has no such heading"
        lines = re.fullmatch(r"L(\d+)(?:-L(\d+))?", anchor)
        if not lines or not os.path.isfile(there):
            return "there is no such place in it"
        with open(there, encoding="utf-8") as file:
            count = sum(1 for _line in file)
        return None if int(lines.group(2) or lines.group(1)) <= count else "the file has fewer lines"

    def of(self, path):
        if path not in self.anchors:
            with open(path, encoding="utf-8") as file:
                self.anchors[path] = anchors_of(file.read())
        return self.anchors[path]


def main():
    places, count, broken = Places(), 0, 0
    pages = sorted({os.path.relpath(path, TOP) for some in PAGES for path in glob.glob(os.path.join(TOP, some))})
    for page in pages:
        with open(os.path.join(TOP, page), encoding="utf-8") as file:
            text = file.read()
        for number, target in links_of(text):
            if re.match(r"[a-z][a-z0-9+.-]*:", target):
                continue
            count += 1
            why = places.why_not(page, target)
            if why:
                broken += 1
                print(f"{page}:{number}: {target}: {why}")
    print(f"{count} links on {len(pages)} pages, {broken} broken")
    sys.exit(1 if broken else 0)


if __name__ == "__main__":
    main()
