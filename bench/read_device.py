#!/usr/bin/env python3
"""Reads the file of a warehouse as docs/FILE-FORMAT.md describes it, without ssbcube, and answers query 1.1.

Usage: read_device.py DEV            prints the report of query 1.1 over all batches
       read_device.py --map DEV      prints what each run of sectors holds
"""
import fcntl
import struct
import sys

SECTOR = 512
COLUMNS = (("orderkey", "Q"), ("linenumber", "I"), ("custkey", "I"), ("partkey", "I"), ("suppkey", "I"), ("orderdate", "I"),
           ("quantity", "B"), ("extendedprice", "Q"), ("ordtotalprice", "Q"), ("discount", "B"), ("revenue", "Q"),
           ("supplycost", "Q"), ("tax", "B"))
TEXTS = ("orderpriority", "shippriority", "commitdate", "shipmode")


class BadLayout(Exception):
    """Bytes that the format refuses."""


class Bytes:
    """Bytes that are read from the front."""
    def __init__(self, data):
        self.data, self.at = data, 0

    def take(self, form):
        """The numbers of a struct format, little-endian and without gaps."""
        size = struct.calcsize("<" + form)
        if self.at + size > len(self.data):
            raise BadLayout("too few bytes")
        self.at += size
        return struct.unpack_from("<" + form, self.data, self.at - size)

    def name(self, wanted):
        if self.take("4s") != (wanted,):
            raise BadLayout("not " + wanted.decode())

    def dictionary(self):
        """The texts of a column, in the order of first use."""
        return [self.take("%ds" % self.take("B")[0])[0] for _ in range(*self.take("I"))]

    def end(self):
        if self.at != len(self.data):
            raise BadLayout("bytes are left over")


def superblock(sector, slot, total):
    """(generation, first sector, bytes) of the catalogue and the layout, or 0 where the file has another length. None where the sector is
    no valid superblock of its slot."""
    name, layout, sectors, generation, first, size = struct.unpack_from("<8sIIQII", sector)
    proper = (name == b"SSBCUBE1" and layout in (1, 2) and sectors >= 64 and generation >= 1 and generation % 2 == slot
              and first >= 2 and 12 <= size <= 1 << 27 and first + -(-size // SECTOR) <= sectors and not any(sector[32:]))
    return (generation, first, size, layout if sectors == total else 0) if proper else None


class Device:
    """A warehouse's file: the current superblock, the objects and the root."""
    def __init__(self, path):
        self.file = open(path, "rb")
        fcntl.flock(self.file, fcntl.LOCK_SH | fcntl.LOCK_NB)
        length = self.file.seek(0, 2)
        self.sectors = length // SECTOR
        if length % SECTOR or self.sectors < 64:
            raise BadLayout("no whole number of sectors, or fewer than 64")
        found = [superblock(self.extent(slot, SECTOR), slot, self.sectors) for slot in (0, 1)]
        if found == [None, None]:
            raise BadLayout("no valid superblock")
        self.generation, self.first, self.size, self.layout = max(block for block in found if block)
        if not self.layout:
            raise BadLayout("a file of another length")
        self.read_catalogue(Bytes(self.extent(self.first, self.size)))

    def extent(self, first, size):
        self.file.seek(first * SECTOR)
        return self.file.read(size)

    def read_catalogue(self, data):
        data.name(b"CAT1")
        entries, root = data.take("II")
        self.objects = {number: (first, size) for number, first, size in (data.take("IIQ") for _ in range(entries))}
        self.root = Bytes(data.take("%ds" % root)[0])
        data.end()
        if (5 in self.objects) != (self.layout == 2):
            raise BadLayout("ship modes are an object of layout 2 alone")
        batches, self.target, self.additions, cuboids = self.root.take("IIII")
        self.totals = self.root.take("6Q")
        self.batch_rows = self.root.take("%dI" % batches)
        self.cuboids = [dict(zip(("view", "runs", "mark", "cells"), self.root.take("HHII"))) for _ in range(cuboids)]
        self.root.end()

    def object(self, number):
        return Bytes(self.extent(*self.objects[number]))

    def map(self):
        """(first sector, sectors, what) of all that is in use, by place."""
        names = {1: "customers", 2: "suppliers", 3: "parts", 4: "dates", 5: "ship modes"}
        used = [(0, 1, "superblock slot 0"), (1, 1, "superblock slot 1"), (self.first, -(-self.size // SECTOR), "catalogue")]
        for number, (first, size) in self.objects.items():
            view, run = divmod(number - 131072, 16)
            what = names.get(number) or ("view %d run %d" % (view, run) if view >= 0 else "batch %d" % (number - 65536))
            used.append((first, -(-size // SECTOR), what))
        return sorted(used)


def years(data):
    """The year of each date key."""
    data.name(b"DIM1")
    axis, rows = data.take("II")
    months, yearmonths, year_texts, _ = [data.dictionary() for _ in range(4)]
    _, year_of_month = [data.take("%dH" % len(months)) for _ in ("yearmonth", "year")]
    keys = data.take("%dI" % rows)
    month_of_row = data.take("%dH" % rows)
    data.take("%dH" % rows)
    data.end()
    return {key: year_texts[year_of_month[month]] for key, month in zip(keys, month_of_row)}


def segment(data, batch):
    """The columns of a batch by name; texts as a list of texts and a list of codes."""
    data.name(b"SEG1")
    number, rows = data.take("II")
    columns = {name: data.take("%d%s" % (rows, form)) for name, form in COLUMNS}
    columns.update({name: (data.dictionary(), data.take("%dH" % rows)) for name in TEXTS})
    data.end()
    if number != batch:
        raise BadLayout("another batch")
    return columns


def query_1_1(device):
    """The sum of extendedprice times discount, or None where no row is selected."""
    year_of, total = years(device.object(4)), None
    for batch in range(1, len(device.batch_rows) + 1):
        columns = segment(device.object(65536 + batch), batch)
        rows = zip(columns["orderdate"], columns["quantity"], columns["discount"], columns["extendedprice"])
        for day, quantity, discount, price in rows:
            if 1 <= discount <= 3 and quantity <= 24 and year_of[day] == b"1993":
                total = (total or 0) + price * discount
    return total


def main(words):
    device = Device(words[-1])
    if words[0] == "--map":
        print("\n".join("%d\t%d\t%s" % run for run in device.map()))
    else:
        total = query_1_1(device)
        print("sum(discounted)\nrows 0" if total is None else "sum(discounted)\n%d\nrows 1" % total)


if __name__ == "__main__":
    main(sys.argv[1:] or sys.exit(__doc__))
