#!/usr/bin/env python3
"""Makes the images that a crash may leave of commands on a warehouse, and opens each with the program.

Usage, in an empty folder with ssbcube on the path: crashes.py TABLES      (crashes.sh calls it)

A command is run once under strace. Its writes and syncs of the file, in order, and the lines that it printed between them are the
record. After each call of the record a crash may leave, of each sector, what was there at the last sync or what was written to
it since. Four of these choices are made into a file: all of the old, all of the new, and the two in turn over the sectors that were
written, beginning with either.

Of each image has to hold, while another program has the file open for reading, so that none can write it: the program finds a
warehouse; its batches are those before the command, those whose lines were printed before the crash, and at most one more; it has their
rows; its additions of dimension rows are those before the command or after it, and those after it once their line was printed; so is its layout; its cuboids are those of before or after the command, with no lower mark; audit says yes; each of the thirteen reports is that of
as many batches; a note says where an upkeep was cut off; and the file is as it was. Then, alone: a report finishes an upkeep that was
cut off, is the same, and changes the file only for that; and once the command was given again, and an upkeep after it, all is as
after a run that was not cut off.

Then commands are started with standard input, output and error closed, by themselves and together: the warehouse has to stay whole.
"""
import contextlib
import fcntl
import re
import shutil
import subprocess
import sys
from pathlib import Path

SECTOR = 512
QUERIES = "1.1 1.2 1.3 2.1 2.2 2.3 3.1 3.2 3.3 3.4 4.1 4.2 4.3".split()
DEVICE = "star.dev"
ADDITION = ["add", DEVICE, "--number", "1", "--customer", "new.tbl"]
CALL = re.compile(r'^(pwrite64|write|fdatasync|fsync|ftruncate)\((\d+)<([^>]*)>(?:, "((?:\\x[0-9a-f]{2})*)"(\.\.\.)?)?(?:, (\d+))?(?:, (\d+))?\)\s+= (-?\d+)')
complaints = 0
count = 0
starts = 0


def complain(what):
    global complaints
    complaints += 1
    print(what, flush=True)


def run(*words):
    """Runs the program, and gives its status and what it printed on standard output."""
    return run_with_notes(*words)[:2]


def run_with_notes(*words):
    """Runs the program, and gives its status and what it printed on standard output and on standard error."""
    done = subprocess.run(["ssbcube", *words], capture_output=True, text=True)
    return done.returncode, done.stdout, done.stderr


@contextlib.contextmanager
def read_by_another(device):
    """The file is open for reading in another program: with a lock that lets others read it and none write it."""
    with open(device, "rb") as file:
        fcntl.flock(file, fcntl.LOCK_SH)
        yield


def must(*words):
    status, out = run(*words)
    if status != 0:
        sys.exit(f"ssbcube {' '.join(words)} ended with status {status}")
    return out


def unhexed(text):
    return bytes.fromhex(text.replace("\\x", ""))


def record(words):
    """Runs a command on DEVICE under strace, and gives its calls: ('write', place, bytes), ('sync',) and ('said', text)."""
    strace = ["strace", "-o", "trace", "-y", "-xx", "-s", "1000000", "-e", "trace=pwrite64,pwritev,pwritev2,write,writev,fdatasync,fsync,ftruncate,msync"]
    done = subprocess.run([*strace, "ssbcube", *words], capture_output=True, text=True)
    if done.returncode != 0:
        sys.exit(f"ssbcube {' '.join(words)} ended with status {done.returncode}: {done.stderr}")
    calls = []
    for line in Path("trace").read_text().splitlines():
        if line.startswith("+++"):
            continue
        call = CALL.match(line)
        if call is None or call[5]:
            sys.exit(f"a call that is not known: {line[:120]}")
        name, handle, data, result = call[1], call[2], call[4], int(call[8])
        if handle in ("1", "2"):
            calls.append(("said", unhexed(data).decode()))
        elif name == "pwrite64" and result == len(unhexed(data)):
            calls.append(("write", int(call[7]), unhexed(data)))
        elif name in ("fdatasync", "fsync") and result == 0:
            calls.append(("sync",))
        else:
            sys.exit(f"a call that is not known: {line[:120]}")
    return calls


def sectors_of(place, data):
    """The sectors of a write, each with its bytes."""
    if place % SECTOR or len(data) % SECTOR:
        sys.exit("a write that is not of whole sectors")
    return [((place + at) // SECTOR, data[at : at + SECTOR]) for at in range(0, len(data), SECTOR)]


def images(before, calls):
    """After each call and before the first: the text that was printed so far, and the images that a crash leaves."""
    synced, pending, said = bytearray(before), {}, ""
    yield said, list(choices(synced, pending))
    for call in calls:
        if call[0] == "said":
            said += call[1]
        elif call[0] == "sync":
            for sector, written in pending.items():
                synced[sector * SECTOR : (sector + 1) * SECTOR] = written[-1]
            pending = {}
        else:
            for sector, data in sectors_of(call[1], call[2]):
                pending.setdefault(sector, []).append(data)
        yield said, list(choices(synced, pending))


def choices(synced, pending):
    """The images of four choices: all old, all new, and the two in turn over the sectors, beginning with either."""
    for takes_new in (lambda turn: False, lambda turn: True, lambda turn: turn % 2 == 0, lambda turn: turn % 2 == 1):
        image = bytearray(synced)
        for turn, sector in enumerate(sorted(pending)):
            if takes_new(turn):
                image[sector * SECTOR : (sector + 1) * SECTOR] = pending[sector][-1]
        yield bytes(image)


class Status:
    """The numbers that `status` prints. The generation is left out."""

    def __init__(self, device):
        self.status, out = run("status", device)
        self.cuboids, self.numbers = {}, {}
        for line in out.splitlines():
            words = line.split()
            if words[0] == "cuboid":
                self.cuboids[int(words[1])] = tuple(int(word) for word in words[3::2])
            elif words[0] != "generation":
                self.numbers[words[0]] = int(words[1])

    def marks(self):
        return {view: numbers[0] for view, numbers in self.cuboids.items()}

    def is_unfinished(self):
        return any(mark < self.numbers["target"] for mark in self.marks().values())

    def all(self):
        return self.status, self.numbers, self.cuboids


def reports(device, batches):
    """The thirteen reports of the first batches."""
    return [must("report", device, query, "--as-of", str(batches)) for query in QUERIES]


class Command:
    """A command on the warehouse in DEVICE, which is as before it, and what it leads to where it is not cut off."""

    def __init__(self, name, words):
        self.name, self.words = name, words
        self.image = Path(DEVICE).read_bytes()
        with read_by_another(DEVICE):
            self.before = Status(DEVICE)
        self.calls = record(words)
        self.after = Status(DEVICE)
        self.done = Path(DEVICE).read_bytes()
        self.reports = {}
        for batches in range(self.before.numbers["batches"], self.after.numbers["batches"] + 1):
            self.reports[batches] = reports(DEVICE, batches)
        must("upkeep", DEVICE)
        self.kept_up = Status(DEVICE)
        Path(DEVICE).write_bytes(self.done)

    def cut(self, rows):
        """Opens each image that a crash within the command may leave. It knows how many rows the first batches have."""
        global count
        tried = set()
        for place, (said, found) in enumerate(images(self.image, self.calls)):
            printed = len(re.findall(r"^batch \d+ rows \d+$", said, re.M)), "additions" in said, "layout" in said
            for image in found:
                if (image, printed) not in tried:
                    tried.add((image, printed))
                    for complaint in self.complaints(image, printed, rows):
                        complain(f"{self.name}, after {place} calls: {complaint}")
        count += len(tried)
        writes = sum(call[0] == "write" for call in self.calls)
        syncs = sum(call[0] == "sync" for call in self.calls)
        print(f"{self.name}: {writes} writes, {syncs} syncs, {len(tried)} images", flush=True)

    def complaints(self, image, printed, rows):
        """What is wrong with an image that is left once so many batches were printed, and maybe an addition or a layout."""
        device = "cut.dev"
        Path(device).write_bytes(image)
        with read_by_another(device):
            status = Status(device)
            if status.status != 0:
                return ["no warehouse is found"]
            found = self.other_numbers(status, printed, rows) + self.other_cuboids(status) + self.other_answers(device, status)
        if Path(device).read_bytes() != image:
            found.append("a command that only reads changed the file")
        found += self.unfinished(device, status, image)
        again = [self.words[0], device, *self.words[2:]]
        if run(*again)[0] != 0 or run("upkeep", device)[0] != 0 or Status(device).all() != self.kept_up.all():
            found.append("given again it does not lead to the same")
        if run("audit", device) != (0, "audit yes\n"):
            found.append("audit does not say yes in the end")
        return found

    def other_numbers(self, status, printed, rows):
        """What is wrong with the batches, additions and layout of an image that is left once so many were printed."""
        loaded, added, moved = printed
        first = self.before.numbers["batches"] + loaded
        batches = status.numbers["batches"]
        found = []
        if not first <= batches <= min(first + 1, self.after.numbers["batches"]):
            found.append(f"{batches} batches, {first} of them acknowledged")
        if status.numbers["rows"] != rows[batches]:
            found.append(f"{status.numbers['rows']} rows in {batches} batches")
        additions = status.numbers.get("additions", 0)
        allowed = [self.after] if added else [self.before, self.after]
        if additions not in [one.numbers.get("additions", 0) for one in allowed]:
            found.append(f"{additions} additions")
        layout = status.numbers.get("layout", 1)
        if layout not in [one.numbers.get("layout", 1) for one in ([self.after] if moved else [self.before, self.after])]:
            found.append(f"layout {layout}")
        return found

    def other_answers(self, device, status):
        """What is wrong with the answers over an image, and with the note on an upkeep that was cut off."""
        found = []
        if run("audit", device) != (0, "audit yes\n"):
            found.append("audit does not say yes")
        asked = [run_with_notes("report", device, query) for query in QUERIES]
        if [answer[:2] for answer in asked] != [(0, report) for report in self.reports.get(status.numbers["batches"], [])]:
            found.append("a report is another")
        if any(notes.startswith("note: an upkeep ") != status.is_unfinished() for _, _, notes in asked):
            found.append("a note on an upkeep is missing, or one too many")
        return found

    def unfinished(self, device, status, image):
        """What is wrong where a report has the file for itself."""
        report = self.reports.get(status.numbers["batches"], [None])[0]
        if run_with_notes("report", device, QUERIES[0]) != (0, report, ""):
            return ["a report that finishes an upkeep is another, or has a note"]
        if not status.is_unfinished():
            return ["a report changed the file"] if Path(device).read_bytes() != image else []
        finished = Status(device)
        same = (finished.numbers, finished.cuboids.keys()) == (status.numbers, status.cuboids.keys())
        return [] if same and not finished.is_unfinished() else ["a report does not finish the upkeep"]

    def other_cuboids(self, status):
        """What is wrong with the cuboids of an image."""
        for one in (self.before, self.after):
            if status.cuboids.keys() == one.cuboids.keys():
                lower = [view for view, mark in status.marks().items() if mark < self.before.marks().get(view, 0)]
                higher = [view for view, mark in status.marks().items() if mark > status.numbers["batches"]]
                return [f"view {view}: its mark is {status.marks()[view]}" for view in lower + higher]
        return [f"other cuboids: {sorted(status.cuboids)}"]


def closed_streams(rows):
    """Commands that are started with a standard stream closed. None may write what it prints into the warehouse."""
    global starts
    for words in (["choose", DEVICE, "2"], ["upkeep", DEVICE], ["load", DEVICE, "--first", "1", "first.tbl"], ["views", DEVICE, "59"], ["load", DEVICE, "--first", "9", "-"]):
        for closed in ("<&-", ">&-", "2>&-", "<&- >&-", ">&- 2>&-", "<&- >&- 2>&-"):
            before = Status(DEVICE)
            subprocess.run(["sh", "-c", f'exec ssbcube "$@" {closed}', "sh", *words], stdin=subprocess.DEVNULL, capture_output=True)
            status = Status(DEVICE)
            starts += 1
            if status.numbers.get("batches") != before.numbers["batches"] or status.numbers["rows"] != rows[status.numbers["batches"]]:
                complain(f"{' '.join(words)} {closed}: the warehouse is another")
            if run("audit", DEVICE) != (0, "audit yes\n") or b"view " in Path(DEVICE).read_bytes()[:1024]:
                complain(f"{' '.join(words)} {closed}: what was printed is in the warehouse")


def write_new_customers():
    """A table of two customers that the warehouse does not have."""
    customers = Path("customer.tbl").read_text().splitlines(keepends=True)[:2]
    Path("new.tbl").write_text("".join(f"{900001 + place}|{line.partition('|')[2]}" for place, line in enumerate(customers)))


def add_customers():
    """Adds them."""
    write_new_customers()
    must(*ADDITION)


def half_done(command):
    """An image of a crash within an upkeep, once its target is durable and a cuboid is still to be brought to it."""
    for said, found in images(command.image, command.calls):
        Path("half.dev").write_bytes(found[1])
        with read_by_another("half.dev"):
            status = Status("half.dev")
        marks = status.marks().values()
        if status.numbers["target"] == command.after.numbers["target"] and min(marks) < max(marks):
            return found[1]
    sys.exit("no crash within the upkeep leaves it half done")


def main():
    tables = Path(sys.argv[1])
    for name in "customer supplier part date lineorder".split():
        shutil.copy(tables / f"star_{name}.tbl", f"{name}.tbl")
    lines = Path("lineorder.tbl").read_text().splitlines(keepends=True)
    Path("first.tbl").write_text("".join(lines[:90]))
    rows = [90 * batches for batches in range(7)]
    dimensions = [word for name in "customer supplier part date".split() for word in (f"--{name}", f"{name}.tbl")]
    must("create", DEVICE, "--sectors", "1024", *dimensions)
    must("load", DEVICE, "--first", "1", "first.tbl")
    Command("choose", ["choose", DEVICE, "3"]).cut(rows)
    # These serve 2.1 to 2.3, 3.1, 4.1 and 4.2.
    Command("views", ["views", DEVICE, "59", "86", "162"]).cut(rows)
    Command("the first upkeep", ["upkeep", DEVICE]).cut(rows)
    Command("load of three batches", ["load", DEVICE, "--first", "1", "--rows", "90", "lineorder.tbl"]).cut(rows)
    upkeep = Command("a further upkeep", ["upkeep", DEVICE])
    upkeep.cut(rows)
    half = half_done(upkeep)
    Path(DEVICE).write_bytes(half)
    Command("opening that finishes an upkeep", ["load", DEVICE, "--first", "1", "first.tbl"]).cut(rows)
    Path(DEVICE).write_bytes(half)
    Command("opening that finishes an upkeep, and a load", ["load", DEVICE, "--first", "5", "first.tbl"]).cut(rows)
    write_new_customers()
    Command("addition of two customers", ADDITION).cut(rows)
    Command("choose of one", ["choose", DEVICE, "1"]).cut(rows)
    Command("move to layout 2", ["migrate", DEVICE]).cut(rows)
    Command("views by ship mode", ["views", DEVICE, "59", "342", "507"]).cut(rows)
    Command("upkeep by ship mode", ["upkeep", DEVICE]).cut(rows)
    Path("modes.tbl").write_text("".join(re.sub(r"[^|]*\|$", f"DRONE {place}|", line.rstrip("\n")) + "\n" for place, line in enumerate(lines[:90])))
    Command("load of new ship modes", ["load", DEVICE, "--first", "6", "modes.tbl"]).cut(rows)
    closed_streams(rows)
    print(f"{count} images, {starts} starts with closed streams, {complaints} complaints")
    return 1 if complaints else 0


if __name__ == "__main__":
    sys.exit(main())
