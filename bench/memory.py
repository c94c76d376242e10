#!/usr/bin/env python3
"""Refuses each allocation of each command in turn, and looks at what the command says and leaves.

Usage, in an empty folder with ssbcube on the path: memory.py TABLES LIBRARY [EVERY]      (memory.sh calls it)

LIBRARY is refuse.c as a shared library. A command is run once to count its allocations, and then, over the same file, once for each of
them: with that one refused, and with that one and all later ones refused. EVERY 10 tries each tenth one.

Each time the command has to end as without a refusal, or with status 1 and `fault 1 Memory` or `fault 2 Device`, having printed
a beginning of what it prints otherwise. A command that reads no warehouse says nothing after that line. Then the same command with
memory has to succeed (a `create` that was refused after its commit says that there is a warehouse), and lead to the same warehouse: the
same status, the same thirteen reports, and audit says yes.
"""
import os
import shutil
import subprocess
import sys
from pathlib import Path

import crashes

QUERIES = "1.1 1.2 1.3 2.1 2.2 2.3 3.1 3.2 3.3 3.4 4.1 4.2 4.3".split()
DEVICE = Path("star.dev")
DIMENSIONS = [word for name in "customer supplier part date".split() for word in (f"--{name}", f"{name}.tbl")]
FAULTS = ("fault 1 Memory", "fault 2 Device")


class Run:
    """A command that ended: its status, what it printed, and the first line that it printed on standard error."""

    def __init__(self, words, **refused):
        done = subprocess.run(["ssbcube", *words], capture_output=True, text=True, env={**os.environ, **refused})
        self.status, self.out, self.notes = done.returncode, done.stdout, done.stderr
        self.first_note = self.notes.split("\n")[0]


def must(*words):
    done = Run(words)
    if done.status != 0:
        sys.exit(f"ssbcube {' '.join(words)} ended with status {done.status}: {done.notes}")
    return done.out


def put(image):
    """Makes the device that file again, or removes it."""
    DEVICE.unlink(missing_ok=True)
    if image is not None:
        DEVICE.write_bytes(image)


def warehouse():
    """What the device holds: its status but for the generation, which counts commits."""
    lines = must("status", str(DEVICE)).splitlines()
    return [line for line in lines if not line.startswith("generation")]


def answers():
    return [must("report", str(DEVICE), query) for query in QUERIES] + [must("audit", str(DEVICE))]


class Campaign:
    def __init__(self, library, every):
        self.library, self.every = library, every
        self.refusals = self.refused = self.complaints = 0

    def refusing(self, words, **which):
        return Run(words, LD_PRELOAD=self.library, **{name: str(number) for name, number in which.items()})

    def complain(self, what):
        self.complaints += 1
        print(what, flush=True)

    def command(self, *words):
        """Runs a command for each of its allocations over the device as it is, and leaves it as after the command."""
        before = DEVICE.read_bytes() if DEVICE.exists() else None
        plain = self.refusing(words, COUNT="count")
        if plain.status != 0:
            sys.exit(f"ssbcube {' '.join(words)} ended with status {plain.status}: {plain.notes}")
        allocations = int(Path("count").read_text())
        after = DEVICE.read_bytes()
        wanted = warehouse(), answers()
        refused = self.refused
        for number in range(1, allocations + 1, self.every):
            for which in ("REFUSE", "REFUSE_ALL"):
                put(before)
                self.refusals += 1
                for complaint in self.complaints_of(words, plain, wanted, **{which: number}):
                    self.complain(f"{' '.join(words)}, {which}={number}: {complaint}")
        put(after)
        print(f"{' '.join(words)}: {allocations} allocations, {self.refused - refused} refusals were said", flush=True)

    def reading(self, *words):
        """Runs a command that reads files but no warehouse, for each of its allocations."""
        plain = self.refusing(words, COUNT="count")
        if plain.status != 0:
            sys.exit(f"ssbcube {' '.join(words)} ended with status {plain.status}: {plain.notes}")
        allocations = int(Path("count").read_text())
        refused = self.refused
        for number in range(1, allocations + 1, self.every):
            for which in ("REFUSE", "REFUSE_ALL"):
                self.refusals += 1
                done = self.refusing(words, **{which: number})
                self.refused += done.status != 0
                said = done.status == 1 and done.notes.rstrip("\n") in FAULTS and plain.out.startswith(done.out)
                if not said and (done.status, done.out) != (0, plain.out):
                    self.complain(f"{words[0]}, {which}={number}: status {done.status}, {done.notes!r}, {done.out[:80]!r} printed")
        if Run(words).out != plain.out:
            self.complain(f"{words[0]}: with memory it prints another report")
        print(f"{words[0]} of files: {allocations} allocations, {self.refused - refused} refusals were said", flush=True)

    def complaints_of(self, words, plain, wanted, **which):
        """What is wrong where these allocations of a command are refused."""
        done = self.refusing(words, **which)
        found = []
        if done.status != 0:
            self.refused += 1
            if done.status != 1 or done.first_note not in FAULTS or not plain.out.startswith(done.out):
                found.append(f"status {done.status}, {done.first_note!r}, {done.out[:80]!r} printed")
        elif done.out != plain.out:
            found.append(f"it prints {done.out[:80]!r}")
        if done.status != 0:
            again = Run(words)
            committed = words[0] == "create" and again.first_note == "fault 6 AlreadyFormatted"
            if again.status != 0 and not committed:
                found.append(f"given again it ends with status {again.status}, {again.first_note!r}")
        if not DEVICE.exists():
            found.append("there is no file")
        elif warehouse() != wanted[0]:
            found.append("another warehouse is there")
        elif which.get("REFUSE", 0) % 16 == 1 and answers() != wanted[1]:
            found.append("other answers are given")
        return found


def main():
    tables, library = Path(sys.argv[1]), sys.argv[2]
    campaign = Campaign(library, int(sys.argv[3]) if len(sys.argv) > 3 else 1)
    for name in "customer supplier part date lineorder".split():
        shutil.copy(tables / f"star_{name}.tbl", f"{name}.tbl")
    lines = Path("lineorder.tbl").read_text().splitlines(keepends=True)
    Path("first.tbl").write_text("".join(lines[:90]))
    device = str(DEVICE)
    campaign.command("create", device, "--sectors", "1024", *DIMENSIONS)
    campaign.command("load", device, "--first", "1", "first.tbl")
    campaign.command("choose", device, "3")
    campaign.command("upkeep", device)
    campaign.command("load", device, "--first", "1", "--rows", "90", "lineorder.tbl")
    campaign.command("views", device, "59", "86", "162")
    campaign.command("upkeep", device)
    crashes.write_new_customers()
    campaign.command(*crashes.ADDITION)
    for words in (["status"], ["audit"], ["views"], ["report", "1.1"], ["report", "3.1"], ["report", "4.3"],
                  ["cube", "--by", "c_region,d_year", "--agg", "sum:revenue"], ["explain", "3.1"]):
        campaign.command(words[0], device, *words[1:])
    for query in ("1.1", "4.3"):
        campaign.reading("eval", *DIMENSIONS, "--lineorder", "lineorder.tbl", "--query", query)
    for part in ("1", "2"):
        must("cube", device, "--partial", f"{part}/2", "--output", f"{part}.part", "--set", "cube", "--by", "c_region,d_year", "--agg", "avg:revenue")
        must("report", device, "3.1", "--partial", f"{part}/2", "--output", f"3.1-{part}.part")
    for words in (["1.part", "2.part"], ["1.part", "2.part", "--format", "json"], ["--partial", "2.part", "1.part"], ["3.1-1.part", "3.1-2.part"]):
        campaign.reading("merge", *words)
    print(f"{campaign.refusals} refusals, {campaign.refused} of them said, {campaign.complaints} complaints")
    return 1 if campaign.complaints else 0


if __name__ == "__main__":
    sys.exit(main())
