#!/usr/bin/env python3
"""Changes bytes of warehouses at random, and looks at what the program says of them.

Usage, in an empty folder with ssbcube on the path: images.py TABLES [TRIES [SEED]]      (images.sh calls it)

Seven warehouses: without a batch, with batches, with cuboids, with an upkeep that a crash cut off, with batches after the cuboids' marks,
with rows added to the dimensions, and in layout 2 with cuboids by ship mode.
Each try changes 1 to 8 bytes of one of them, by turns anywhere in the file and in the bytes that are in use, and runs one to three
commands. Each has to end within ten seconds as if nothing were wrong, or with status 1 and NotFormatted, BadLayout, DeviceSize or
Memory (audit also with `audit no`, and check with what it finds). Where no byte in use was changed, it has to print what it prints of the unchanged warehouse.
"""
import os
import random
import shutil
import signal
import sys
from pathlib import Path

import crashes
from read_device import SECTOR, Device

FAULTS = {"fault 1 Memory", "fault 5 NotFormatted", "fault 7 BadLayout", "fault 8 DeviceSize"}
CHANGED = "changed.dev"
COMMANDS = [["status"], ["audit"], ["check"], ["views"], ["upkeep"], ["explain", "4.1"], ["cube", "--set", "cube", "--by", "s_nation,p_mfgr", "--agg", "count"]]
COMMANDS += [["report", query] for query in crashes.QUERIES]


class TooLong(Exception):
    """A command had not ended after ten seconds."""


def stop(*_):
    raise TooLong


class Program:
    """Runs commands one after the other, with standard output and standard error in two files that are used again and again."""

    def __init__(self):
        self.path = shutil.which("ssbcube")
        self.files = [os.open(name, os.O_RDWR | os.O_CREAT | os.O_TRUNC) for name in ("out", "notes")]
        self.device = os.open(CHANGED, os.O_RDWR | os.O_CREAT)
        self.actions = [(os.POSIX_SPAWN_DUP2, file, place) for place, file in enumerate(self.files, 1)]
        signal.signal(signal.SIGALRM, stop)

    def put(self, image):
        os.pwrite(self.device, image, 0)

    def said(self, file):
        """What was written to a file of the two, which is empty then."""
        said = os.pread(file, os.fstat(file).st_size, 0)
        if said:
            os.ftruncate(file, 0)
            os.lseek(file, 0, os.SEEK_SET)
        return said

    def run(self, words):
        """Runs a command on the changed file, and gives its status, what it printed, and the first line on standard error."""
        child = os.posix_spawn(self.path, ["ssbcube", words[0], CHANGED, *words[1:]], os.environ, file_actions=self.actions)
        signal.alarm(10)
        try:
            status = os.waitstatus_to_exitcode(os.waitpid(child, 0)[1])
        except TooLong:
            os.kill(child, signal.SIGKILL)
            os.waitpid(child, 0)
            status = None
        signal.alarm(0)
        out, notes = [self.said(file) for file in self.files]
        return status, out, "it did not end" if status is None else notes.decode(errors="replace").split("\n")[0]


class Warehouse:
    """The bytes of a warehouse, which of them are in use, and what each command prints of it."""

    def __init__(self, name, image, program):
        self.name, self.image, self.program = name, image, program
        program.put(image)
        device = Device(CHANGED)
        extents = [(0, 2 * SECTOR), (device.first * SECTOR, device.size)]
        extents += [(first * SECTOR, size) for first, size in device.objects.values()]
        device.file.close()
        self.used = sorted({place for first, size in extents for place in range(first, first + size)})
        self.is_used = set(self.used)
        self.plain = [self.after(words) for words in COMMANDS]

    def after(self, words):
        self.program.put(self.image)
        status, out, note = self.program.run(words)
        if status != 0:
            sys.exit(f"{self.name}: {' '.join(words)} ended with status {status}: {note}")
        return status, out

    def changed(self, random):
        """Another image, and whether a byte in use was changed."""
        image = bytearray(self.image)
        in_use = random.random() < 0.5
        places = [random.choice(self.used) if in_use else random.randrange(len(image)) for _ in range(random.randint(1, 8))]
        for place in places:
            image[place] = random.choice([0, 1, 255, image[place] ^ 1 << random.randrange(8), random.randrange(256)])
        return image, any(place in self.is_used and image[place] != self.image[place] for place in places)


def complaint(words, done, plain, used):
    """What is wrong with the end of a command, if anything."""
    status, out, note = done
    if not used:
        return None if done[:2] == plain else f"no byte in use was changed, but it ends with status {status}, {note!r}"
    if status == 0 or (status == 1 and (note in FAULTS or (words == ["audit"] and out == b"audit no\n") or (words == ["check"] and out.count(b"\n") == 1))):
        return None
    return f"status {status}, {note!r}"


def warehouses(tables, program):
    """The seven."""
    for name in "customer supplier part date lineorder".split():
        shutil.copy(tables / f"star_{name}.tbl", f"{name}.tbl")
    device = crashes.DEVICE
    dimensions = [word for name in "customer supplier part date".split() for word in (f"--{name}", f"{name}.tbl")]
    crashes.must("create", device, "--sectors", "512", *dimensions)
    yield Warehouse("no batch", Path(device).read_bytes(), program)
    crashes.must("load", device, "--first", "1", "--rows", "180", "lineorder.tbl")
    yield Warehouse("batches", Path(device).read_bytes(), program)
    crashes.must("views", device, "59", "86", "162")
    upkeep = crashes.Command("upkeep", ["upkeep", device])
    yield Warehouse("cut upkeep", crashes.half_done(upkeep), program)
    crashes.must("upkeep", device)
    yield Warehouse("cuboids", Path(device).read_bytes(), program)
    crashes.must("load", device, "--first", "3", "--rows", "90", "lineorder.tbl")
    yield Warehouse("batches after the cuboids", Path(device).read_bytes(), program)
    crashes.add_customers()
    yield Warehouse("added rows", Path(device).read_bytes(), program)
    crashes.must("migrate", device)
    crashes.must("views", device, "59", "342", "507")
    crashes.must("upkeep", device)
    yield Warehouse("layout 2", Path(device).read_bytes(), program)


def main():
    tries = int(sys.argv[2]) if len(sys.argv) > 2 else 10000
    chance = random.Random(int(sys.argv[3]) if len(sys.argv) > 3 else 1)
    program = Program()
    found = list(warehouses(Path(sys.argv[1]), program))
    counts = {"in use": 0, "not in use": 0, "refused": 0, "commands": 0, "complaints": 0}
    for turn in range(tries):
        warehouse = found[turn % len(found)]
        image, used = warehouse.changed(chance)
        counts["in use" if used else "not in use"] += 1
        for place in chance.sample(range(len(COMMANDS)), chance.randint(1, 3)):
            program.put(image)
            done = program.run(COMMANDS[place])
            wrong = complaint(COMMANDS[place], done, warehouse.plain[place], used)
            counts["commands"] += 1
            counts["refused"] += done[0] == 1
            if wrong:
                counts["complaints"] += 1
                differing = [(at, image[at]) for at in range(len(image)) if image[at] != warehouse.image[at]]
                print(f"{warehouse.name}, {' '.join(COMMANDS[place])}, bytes {differing}: {wrong}", flush=True)
    print(", ".join(f"{count} {name}" for name, count in counts.items()))
    return 1 if counts["complaints"] else 0


if __name__ == "__main__":
    sys.exit(main())
