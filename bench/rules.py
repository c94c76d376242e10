#!/usr/bin/env python3
"""Judges the images of `test_hostile` by docs/FILE-FORMAT.md alone, without ssbcube.

Usage, at the top of the repository: python3 bench/rules.py

The warehouse of the tests is made here byte by byte: the sample tables, one batch of three rows, and the cuboids of views 59, 203 and 248, on
64 sectors; for the last table also the same after a third customer was added. Each row of the tables in crates/test_hostile/src/rules.rt changes some of its bytes. A reader that knows the format says what
is found then: how the opening is refused; or the generation, how the revenue by year is refused, which is read from the run of view 248 or
from the batch, whichever has fewer cells or rows, and what an audit answers. The table has to say the same.
"""
import re
import struct
import sys
from pathlib import Path

from read_device import SECTOR, BadLayout, Bytes, superblock

FORMS = "QIIIII--BQQBQQB--"
MOST = 2**63 - 1
ALL = 65535
ROWS = [(1, 1, 1, 1, 1, 19930105, b"1-URGENT", b"0", 17, 1000, 1000, 2, 980, 600, 0, b"19930201", b"AIR"),
        (2, 1, 2, 2, 2, 19971202, b"5-LOW", b"0", 24, 2000, 2000, 3, 1940, 2000, 0, b"19980101", b"RAIL"),
        (3, 1, 1, 2, 1, 19971202, b"5-LOW", b"0", 25, 500, 500, 1, 495, 100, 0, b"19980101", b"AIR")]
# For each axis: the texts, the codes of upper levels, the keys, the codes of the rows.
PLACES = [[b"UNITED KINGDOM", b"UNITED STATES"], [b"EUROPE", b"AMERICA"]]
AXES = [([[b"UNITED KI1", b"UNITED ST3"], *PLACES], [0, 1, 0, 1], [1, 2], [0, 1]),
        ([[b"UNITED KI5", b"UNITED ST0"], *PLACES], [0, 1, 0, 1], [1, 2], [0, 1]),
        ([[b"MFGR#1210", b"MFGR#142"], [b"MFGR#12", b"MFGR#14"], [b"MFGR#1"]], [0, 1, 0, 0], [1, 2], [0, 1]),
        ([[b"199301", b"199712"], [b"Jan1993", b"Dec1997"], [b"1993", b"1997"], [b"1", b"49"]], [0, 1, 0, 1], [19930105, 19971202], [0, 1, 0, 1])]
# The customers with a third one, of a new city.
MORE_CUSTOMERS = ([[b"UNITED KI1", b"UNITED ST3", b"UNITED ST1"], *PLACES], [0, 1, 1, 0, 1], [1, 2, 3], [0, 1, 2])


def refuse(is_broken):
    if is_broken:
        raise BadLayout


# The warehouse.

def numbers(form, values):
    return struct.pack(f"<{len(values)}{form}", *values)


def dictionary(texts):
    return numbers("I", [len(texts)]) + b"".join(bytes([len(text)]) + text for text in texts)


def dimension_bytes(axis, parts):
    texts, uppers, keys, codes = parts
    return b"DIM1" + numbers("I", [axis, len(keys)]) + b"".join(map(dictionary, texts)) + numbers("H", uppers) + numbers("I", keys) + numbers("H", codes)


def segment_bytes(rows):
    out = b"SEG1" + numbers("I", [1, len(rows)])
    out += b"".join(numbers(form, [row[place] for row in rows]) for place, form in enumerate(FORMS) if form != "-")
    for column in ([row[place] for row in rows] for place, form in enumerate(FORMS) if form == "-"):
        texts = list(dict.fromkeys(column))
        out += dictionary(texts) + numbers("H", [texts.index(text) for text in column])
    return out


def levels(view):
    return view >> 6 & 3, view >> 4 & 3, view >> 2 & 3, view & 3


def cells(view, rows, dimensions):
    """The cells of a view: the codes, and how many rows, and the sum, least and greatest of each measure."""
    groups = {}
    for row in rows:
        keys = (row[2], row[4], row[3], row[5])
        codes = tuple(ALL if level == 3 else rows_of[key][level] for level, key, (rows_of, _) in zip(levels(view), keys, dimensions))
        groups.setdefault(codes, []).append((row[8], row[9], row[12], row[13], row[9] * row[11], row[12] - row[13]))
    return {codes: (len(found), [(sum(one), min(one), max(one)) for one in zip(*found)]) for codes, found in sorted(groups.items())}


def run_bytes(view, found):
    out = b"CEL1" + numbers("I", [view, 0, 1, len(found)])
    for codes, (count, measures) in found.items():
        out += numbers("H", codes) + numbers("Q", [count]) + b"".join(numbers("q", one) for one in measures)
    return out


def catalogue_bytes(entries, cuboids, additions):
    totals = [66, 3500, 3415, 2700, 8500, 835]
    root = numbers("I", [1, 1, additions, len(cuboids)]) + numbers("Q", totals) + numbers("I", [3]) + b"".join(struct.pack("<HHII", *one) for one in cuboids)
    return b"CAT1" + numbers("I", [len(entries), len(root)]) + b"".join(struct.pack("<IIQ", *one) for one in entries) + root


def warehouse(is_added):
    """64 sectors: generation 6, before the last commit of an upkeep, in slot 0, and generation 7 in slot 1; or generation 8 in slot 0, after the addition."""
    objects = [(axis + 1, axis + 2, dimension_bytes(axis, AXES[axis])) for axis in range(4)] + [(65537, 7, segment_bytes(ROWS))]
    dimensions = [dimension(data, axis) for axis, (_, _, data) in enumerate(objects[:4])]
    objects += [(131072 + 16 * view, first, run_bytes(view, cells(view, ROWS, dimensions))) for view, first in ((59, 6), (203, 8), (248, 9))]
    added = [(1, 10, dimension_bytes(0, MORE_CUSTOMERS)), *objects[1:]]
    stored = [(59, 1, 1, 2), (203, 1, 1, 2)]
    states = [(6, 10, objects[:-1], [*stored, (248, 0, 0, 0)]), (7, 11, objects, [*stored, (248, 1, 1, 2)]), (8, 12, added, [*stored, (248, 1, 1, 2)])]
    disk = bytearray(64 * SECTOR)
    for generation, first, present, cuboids in states if is_added else states[:-1]:
        catalogue = catalogue_bytes([(number, at, len(data)) for number, at, data in present], cuboids, generation // 8)
        pieces = [(at, data) for _, at, data in present] + [(first, catalogue)]
        pieces += [(generation % 2, struct.pack("<8sIIQII", b"SSBCUBE1", 1, 64, generation, first, len(catalogue)))]
        for at, data in pieces:
            disk[at * SECTOR:(at + 1) * SECTOR] = data.ljust(SECTOR, b"\0")
    return disk


# The reader.

def texts_of(data, most):
    texts = data.dictionary()
    refuse(len(texts) > most or len(set(texts)) != len(texts))
    return texts


def check_codes(codes, count):
    """Each code is a place, and the places are used in their order, and all of them."""
    used = 0
    for code in codes:
        refuse(code > used)
        used += code == used
    refuse(used != count)


def dimension(found, axis):
    """The codes of each key by level, and how many codes each level has."""
    data = Bytes(found)
    data.name(b"DIM1")
    own, count = data.take("II")
    refuse(own != axis or count > (65535 if axis == 3 else 4194304))
    texts = [texts_of(data, 65535) for _ in range(4 if axis == 3 else 3)]
    refuse(any(b"ALL" in some for some in texts))
    lowest, middle, highest = texts[:3]
    first = data.take("%dH" % len(lowest))
    second = data.take("%dH" % len(lowest if axis == 3 else middle))
    keys, codes = data.take("%dI" % count), data.take("%dH" % count)
    weeks = data.take("%dH" % count) if axis == 3 else ()
    data.end()
    refuse(len(set(keys)) != count)
    check_codes(codes, len(lowest))
    check_codes(first, len(middle))
    check_codes(second, len(highest))
    if axis == 3:
        check_codes(weeks, len(texts[3]))
        return {key: (place, code, second[code]) for place, (key, code) in enumerate(zip(keys, codes))}, (count, len(lowest), len(highest))
    return {key: (code, first[code], second[first[code]]) for key, code in zip(keys, codes)}, tuple(map(len, texts))


def batch(found, rows, dimensions):
    """The rows of batch 1, which are to be so many."""
    data = Bytes(found)
    data.name(b"SEG1")
    refuse(data.take("II") != (1, rows) or rows > 65536)
    columns = [data.take("%d%s" % (rows, form)) if form != "-" else None for form in FORMS]
    for place, form in enumerate(FORMS):
        refuse(form == "Q" and any(number > MOST for number in columns[place]))
    for place, form in enumerate(FORMS):
        if form == "-":
            texts, codes = texts_of(data, 65536), data.take("%dH" % rows)
            check_codes(codes, len(texts))
            columns[place] = [texts[code] for code in codes]
    data.end()
    for axis, place in enumerate((2, 4, 3, 5)):
        refuse(any(key not in dimensions[axis][0] for key in columns[place]))
    return list(zip(*columns))


def run(found, view):
    data = Bytes(found)
    data.name(b"CEL1")
    own, first, last, count = data.take("IIII")
    refuse(own != view or first >= last or count > 262144)
    found, before = {}, ()
    for _ in range(count):
        codes, rows = data.take("4H"), data.take("Q")[0]
        measures = [data.take("qqq") for _ in range(6)]
        refuse(codes <= before or rows < 1 or any((level == 3) != (code == ALL) for level, code in zip(levels(view), codes)))
        found[codes], before = (rows, measures), codes
    data.end()
    return first, last, found


class Image:
    """What the current superblock of an image leads to."""

    def __init__(self, disk):
        self.disk = disk
        found = [superblock(disk[slot * SECTOR:(slot + 1) * SECTOR], slot, 64) for slot in (0, 1)]
        if found == [None, None]:
            raise LookupError("NotFormatted")
        self.generation, first, size, layout = max(block for block in found if block)
        if struct.unpack_from("<I", disk, self.generation % 2 * SECTOR + 12) != (64,):
            raise LookupError("DeviceSize")
        refuse(layout != 1)
        data = Bytes(bytes(disk[first * SECTOR:first * SECTOR + size]))
        data.name(b"CAT1")
        entries, root = data.take("II")
        refuse(entries > 65536 or root > 65536 or size != 12 + 16 * entries + root)
        self.entries = [data.take("IIQ") for _ in range(entries)]
        self.check_places(first, size)
        self.read_root(Bytes(data.take("%ds" % root)[0]))
        self.dimensions = [dimension(self.object(axis + 1), axis) for axis in range(4)]

    def check_places(self, first, size):
        ids = [number for number, _, _ in self.entries]
        refuse(ids != sorted(set(ids)) or any(not 1 <= size <= 1 << 27 for _, _, size in self.entries))
        end = 2
        for start, sectors in sorted([(first, -(-size // SECTOR))] + [(start, -(-size // SECTOR)) for _, start, size in self.entries]):
            refuse(start < end)
            end = start + sectors
        refuse(end > 64)

    def read_root(self, data):
        batches, target, additions, cuboids = data.take("IIII")
        refuse(len(data.data) != 64 + 4 * batches + 12 * cuboids)
        totals, self.rows = data.take("6Q"), data.take("%dI" % batches)
        self.cuboids = [data.take("HHII") for _ in range(cuboids)]
        data.end()
        views = [view for view, _, _, _ in self.cuboids]
        refuse(batches > 4096 or target > batches or additions > 4096 or cuboids > 16 or max(totals) > MOST or any(rows > 65536 for rows in self.rows))
        refuse(views != sorted(set(views)) or any(view > 255 for view in views))
        refuse(any(runs > 8 or (runs == 0) != (mark == 0) or mark > batches or count > 262144 for _, runs, mark, count in self.cuboids))
        wanted = [1, 2, 3, 4, *(65537 + batch for batch in range(batches))]
        wanted += [131072 + 16 * view + run for view, runs, _, _ in self.cuboids for run in range(runs)]
        refuse(wanted != [number for number, _, _ in self.entries])

    def object(self, number):
        first, size = next((first, size) for own, first, size in self.entries if own == number)
        return bytes(self.disk[first * SECTOR:first * SECTOR + size])

    def batch_rows(self):
        return batch(self.object(65537), self.rows[0], self.dimensions)

    def cuboid_cells(self, cuboid):
        view, runs, mark, count = cuboid
        end, all_cells = 0, {}
        for place in range(runs):
            first, end_of_run, found = run(self.object(131072 + 16 * view + place), view)
            refuse(first != end)
            end = end_of_run
            all_cells.update(found)
        refuse(end != mark or len(all_cells) != count)
        return all_cells

    def is_year_refused(self):
        """Whether the revenue by year is: from the cuboid that has days, if it has fewer cells than the batch has rows."""
        able = [cuboid for cuboid in self.cuboids if levels(cuboid[0])[3] < 3 and cuboid[2] == 1 and cuboid[3] < self.rows[0]]
        try:
            if not able:
                self.batch_rows()
            for codes in self.cuboid_cells(able[0]) if able else ():
                refuse(any(level < 3 and code >= self.dimensions[axis][1][level] for axis, (level, code) in enumerate(zip(levels(able[0][0]), codes))))
        except BadLayout:
            return True
        return False

    def audit(self):
        for cuboid in self.cuboids:
            try:
                found = self.cuboid_cells(cuboid)
            except BadLayout:
                return "Ok(false)"
            try:
                rows = self.batch_rows() if cuboid[2] == 1 else []
            except BadLayout:
                return "Err(BadLayout)"
            if found != cells(cuboid[0], rows, self.dimensions):
                return "Ok(false)"
        return "Ok(true)"


def found_on(disk):
    try:
        image = Image(disk)
    except LookupError as refused:
        return f"Refused({refused})"
    except BadLayout:
        return "Refused(BadLayout)"
    return f"Opened({image.generation}, {'Some(BadLayout)' if image.is_year_refused() else 'None'}, {image.audit()})"


# The table.

def rows_of(source):
    """The rows of the tables: whether they are of the warehouse with the addition, the rule, the changes, and what is found."""
    numbers = {name: int(number) for name, number in re.findall(r"const (\w+): u32 = (\d+);", source)}
    named = dict(re.findall(r"const (\w+): Found = Found::(.*);", source))
    row = re.compile(r'\(\s*"([^"]*)",\s*&\[(.*?)\],\s*(\w+|Found::\w+\((?:[^()]|\((?:[^()]|\([^()]*\))*\))*\)),?\s*\)', re.S)
    change = re.compile(r'\(\s*(\w+),\s*(\d+),\s*b"((?:[^"\\]|\\.)*)",?\s*\)')
    for name, table in re.findall(r"static (\w+): \[Rule; \d+\] = \[(.*?)\n\];", source, re.S):
        for rule, changes, found in row.findall(re.sub(r"//.*", "", table)):
            found = re.sub(r"\s|Found::|Fault::", "", named.get(found, found)).replace(",)", ")").replace(",", ", ")
            yield name == "OF_ADDITIONS", rule, [(numbers.get(at, at), int(place), text.encode().decode("unicode_escape").encode("latin-1")) for at, place, text in change.findall(changes)], found


def main():
    source = Path("crates/test_hostile/src/rules.rt").read_text()
    wholes = [warehouse(False), warehouse(True)]
    total, wrong = 0, 0
    for is_added, rule, changes, wanted in rows_of(source):
        whole = wholes[is_added]
        disk = bytearray(whole)
        for sector, place, data in changes:
            at = int(sector) * SECTOR + place
            disk[at:at + len(data)] = data
        found = found_on(disk)
        total += 1
        if found != wanted or disk == whole:
            wrong += 1
            print(f"{rule}: {found} in place of {wanted}")
    claimed = sum(map(int, re.findall(r"\[Rule; (\d+)\]", source)))
    print(f"{total} images of {claimed}, {wrong} complaints")
    return 1 if wrong or total != claimed else 0


if __name__ == "__main__":
    sys.exit(main())
