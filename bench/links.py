#!/usr/bin/env python3
"""Checks the relative links of all Markdown files: that each file and heading exists, and that docs/NAME.md in prose is a page.

Usage: python3 bench/links.py, at the top of the repository. The status is 1 if something is missing.
"""
import os
import re
import subprocess
import sys

LINK = re.compile(r"!?\[[^\]]*\]\(([^)\s]+)\)")
PROSE = re.compile(r"(?<![\w/(])(docs/[A-Z-]+\.md|bench/\w+\.(?:py|sh|rs|md))\b")
SOURCE = re.compile(r"`(crates/[\w/]+\.(?:antt|rt|md|tbl))`")


def anchors(path):
    """The anchors of a page's headings, as GitHub makes them."""
    found, fenced = set(), False
    for line in open(path, encoding="utf-8"):
        fenced ^= line.startswith("```")
        if line.startswith("#") and not fenced:
            words = line.lstrip("#").strip().lower()
            found.add(re.sub(r"[^\w\- ]", "", words).replace(" ", "-"))
    return found


def problems(page):
    text = open(page, encoding="utf-8").read()
    for link in LINK.findall(re.sub(r"```.*?```", "", text, flags=re.S)):
        if "://" in link:
            continue
        name, _, anchor = link.partition("#")
        path = os.path.normpath(os.path.join(os.path.dirname(page), name)) if name else page
        if not os.path.exists(path):
            yield "%s: no file %s" % (page, path)
        elif anchor and anchor not in anchors(path):
            yield "%s: no heading #%s in %s" % (page, anchor, path)
    for path in PROSE.findall(text) + SOURCE.findall(text):
        if not os.path.exists(path):
            yield "%s: names %s, which is not there" % (page, path)


def main():
    pages = subprocess.run(["git", "ls-files", "-co", "--exclude-standard", "*.md"], capture_output=True, text=True, check=True).stdout
    found = [problem for page in pages.splitlines() if os.path.isfile(page) for problem in problems(page)]
    print("\n".join(found) if found else "every link resolves")
    return 1 if found else 0


if __name__ == "__main__":
    sys.exit(main())
