#!/usr/bin/env python3
"""Compares the quotations of the documents with the files that they quote. At the top of the repository:

    python3 bench/quotes.py            names each quotation that differs; the status is then 1
    python3 bench/quotes.py --write    copies each anew: from its first line to the next empty line of the file

A quotation is a fenced block after a line '<!-- from PATH -->'. A paragraph before it may say '`PATH`, line N'.
"""
import glob
import re
import sys

QUOTATION = re.compile(r"(?:(`(?P<named>[^`\n]+)`, line )(?P<number>\d+)(?P<rest>[^\n]*\n\n))?"
                       r"<!-- from (?P<path>\S+) -->\n```\n(?P<text>.*?)\n```\n", re.S)


def declaration(path, first):
    """(line, text) of what begins with a line in a file, up to an empty line or the clause that comes next; line 0 if there is none."""
    lines = open(path, encoding="utf-8").read().split("\n")
    if first not in lines:
        return 0, ""
    begin = lines.index(first)
    end = begin + 1
    while lines[end].strip() and not (first.lstrip().startswith("ensures") and lines[end].lstrip().startswith(("ensures", "//", "{"))):
        end += 1
    return begin + 1, "\n".join(lines[begin:end])


def main(write):
    bad = 0
    for page in ["README.md", "CONTRIBUTING.md", *sorted(glob.glob("docs/*.md"))]:
        old = open(page, encoding="utf-8").read()

        def quoted(match):
            nonlocal bad
            line, text = declaration(match["path"], match["text"].split("\n")[0])
            if not line:
                print("%s: not in %s: %s" % (page, match["path"], match["text"].split("\n")[0]))
                bad = 2
                return match[0]
            head = (match[1] + str(line) + match["rest"]) if match[1] else ""
            new = "%s<!-- from %s -->\n```\n%s\n```\n" % (head, match["path"], text)
            if new != match[0]:
                print("%s: differs from %s, line %d" % (page, match["path"], line))
                bad = bad or 1
            return new
        new = QUOTATION.sub(quoted, old)
        if write and new != old:
            open(page, "w", encoding="utf-8").write(new)
    return bad // 2 if write else min(bad, 1)


if __name__ == "__main__":
    sys.exit(main("--write" in sys.argv[1:]))
