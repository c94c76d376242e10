#!/usr/bin/env python3
"""Partial reports that were cut or changed, given to merge: python3 bench/shards/hostile.py TABLES

A partial report is cut at each byte, put after itself, and changed: each line there twice, each pair of lines exchanged, each byte replaced
by some others, a sign, a zero or twenty digits put before each number. What is no partial report of the same part has to be refused with
fault 7, 19 or 24 and status 1, and nothing printed. A text that is merged all the same has to be one again, byte for byte, when it is written
by `merge --partial`. The program is `ssbcube` on the path.
"""
import re
import subprocess
import sys
import tempfile

WORDS = ["--set", "cube", "--by", "c_region,d_year", "--agg", "count,avg:revenue,min:profit"]
FAULTS = ("fault 7 BadLayout", "fault 19 SumRange profit", "fault 19 SumRange revenue", "fault 24 BadQuery")


def run(*words):
    return subprocess.run(["ssbcube", *words], capture_output=True)


def changed(text):
    """Texts that are one change apart from a partial report."""
    lines = text.splitlines(keepends=True)
    for end in range(len(text)):
        yield text[:end]
    yield text + text
    for place in range(len(lines)):
        yield b"".join(lines[:place] + [lines[place]] * 2 + lines[place + 1:])
        for other in range(place):
            swapped = list(lines)
            swapped[place], swapped[other] = lines[other], lines[place]
            yield b"".join(swapped)
    for place in range(len(text)):
        for byte in b"|\n0 9A\xff":
            yield text[:place] + bytes([byte]) + text[place + 1:]
    for number in re.finditer(rb"\d+", text):
        for front in (b"+", b"-", b"0", b"9" * 20):
            yield text[:number.start()] + front + text[number.start():]


def main():
    tables = sys.argv[1]
    tried = refused = complaints = 0
    with tempfile.TemporaryDirectory() as folder:
        device, part = f"{folder}/star.dev", f"{folder}/1.part"
        run("create", device, "--tables", tables, "--sectors", "64")
        run("load", device, "--first", "1", f"{tables}/lineorder.tbl")
        text = run("cube", device, "--partial", "1/1", *WORDS).stdout
        for other in changed(text):
            if other == text:
                continue
            with open(part, "wb") as file:
                file.write(other)
            done = run("merge", part)
            tried += 1
            if done.returncode == 1 and done.stderr.decode().split("\n")[0] in FAULTS and not done.stdout:
                refused += 1
            elif done.returncode != 0 or run("merge", "--partial", part).stdout != other:
                complaints += 1
                print(f"status {done.returncode}, {done.stderr[:80]!r}: {other!r}")
    print(f"{tried} texts, {refused} refused, {complaints} complaints")
    return 1 if complaints or not tried else 0


if __name__ == "__main__":
    sys.exit(main())
