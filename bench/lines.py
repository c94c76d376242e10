#!/usr/bin/env python3
"""Makes lines of the tables that are one rule apart from good ones, and compares what the program makes of them with the rules.

Usage, in an empty folder with ssbcube on the path: lines.py LIBRARY      (lines.sh calls it)

The rules of a text are written out below once more, by plain splitting at LF and at bars, as docs/TABLES.md says them. From a good line of
each table further ones are made: each field empty, at its limit, one past it, with leading zeros, with signs, spaces and 20 digits, with
each byte from 0 to 255 in it and after it, texts of 254, 255 and 256 bytes; bars that are missing, doubled and after the end; CR once,
twice and inside; lines of 8,191, 8,192 and 8,193 bytes, with and without a CR; and texts that are cut off at each place.

Accepted lines are loaded together, and the columns in the warehouse's file are compared field by field with the lines, by
read_device.py, which knows the format alone. A refused line is loaded after some good ones, and its fault has to be the printed one. LIBRARY
is short.c as a shared library: each text is read whole, byte by byte (PIECE=1), and some with a first read of each length (CUT=N).
"""
import os
import shutil
import subprocess
import sys
from pathlib import Path

from read_device import TEXTS, Device, segment

U32, I63, U8 = 2**32 - 1, 2**63 - 1, 255
# The columns of each table: the greatest number, 'text' for one that is kept, None for one that is only counted.
COLUMNS = {
    "customer": [U32, None, None, "text", "text", "text", None, None],
    "supplier": [U32, None, None, "text", "text", "text", None],
    "part": [U32, None, "text", "text", "text", None, None, None, None],
    "date": [U32, None, None, None, "text", "text", "text", None, None, None, None, "text", None, None, None, None, None],
    "lineorder": [I63, U32, U32, U32, U32, U32, "text", "text", U8, I63, I63, U8, I63, I63, U8, "text", "text"],
}
GOOD = {
    "customer": b"1|C1|a|UNITED KI1|UNITED KINGDOM|EUROPE|p|M|",
    "supplier": b"1|S1|a|UNITED KI5|UNITED KINGDOM|EUROPE|p|",
    "part": b"1|n|MFGR#1|MFGR#12|MFGR#1210|red|t|7|box|",
    "date": b"19930105|January 5, 1993|Tuesday|January|1993|199301|Jan1993|3|5|5|1|1|Winter|0|0|0|1|",
    "lineorder": b"1|1|1|1|1|19930105|1-URGENT|0|17|1000|1000|2|980|600|0|19930201|AIR|",
}
DIMENSIONS = ["customer", "supplier", "part", "date"]
NAMES = ["orderkey", "linenumber", "custkey", "partkey", "suppkey", "orderdate", "orderpriority", "shippriority", "quantity", "extendedprice",
         "ordtotalprice", "discount", "revenue", "supplycost", "tax", "commitdate", "shipmode"]
# The keys that are there, and the faults of others, in the order in which a row is checked.
KEYS = [(2, 1, "15 UnknownCustomer"), (4, 1, "16 UnknownSupplier"), (3, 1, "17 UnknownPart"), (5, 19930105, "18 UnknownDate")]


class Refused(Exception):
    """A fault as it is printed."""


# The rules.

def read_line(table, line, number):
    """The kept fields of a line."""
    if len(line) > 8192:
        raise Refused(f"fault 11 FieldTooLong line {number} field 0")
    if line.endswith(b"\r"):
        line = line[:-1]
    columns = COLUMNS[table]
    parts = line.split(b"|")
    if len(parts) == len(columns) + 1 and parts[-1] == b"":
        parts.pop()
    if len(parts) != len(columns):
        raise Refused(f"fault 9 FieldCount line {number}")
    fields = []
    for place, (part, column) in enumerate(zip(parts, columns), 1):
        if column == "text":
            if len(part) > 255:
                raise Refused(f"fault 11 FieldTooLong line {number} field {place}")
            fields.append(part)
        elif column is not None:
            if part == b"" or part.strip(b"0123456789") != b"" or int(part.lstrip(b"0") or b"0") > column:
                raise Refused(f"fault 10 BadNumber line {number} field {place}")
            fields.append(int(part.lstrip(b"0") or b"0"))
    return fields


def read_text(table, text):
    """The rows of a text."""
    lines = text.split(b"\n")
    if lines[-1] == b"":
        lines.pop()
    return [read_line(table, line, number) for number, line in enumerate(lines, 1)]


def check_batch(rows):
    """Keys that are there, and sums that keep the limit, over one customer, supplier, part and day."""
    for number, row in enumerate(rows, 1):
        for place, key, fault in KEYS:
            if row[place] != key:
                raise Refused(f"fault {fault} row {number}")
    sums = [("quantity", sum(row[8] for row in rows)), ("extendedprice", sum(row[9] for row in rows)),
            ("revenue", sum(row[12] for row in rows)), ("supplycost", sum(row[13] for row in rows)),
            ("discounted", sum(row[9] * row[11] for row in rows)), ("profit", sum(abs(row[12] - row[13]) for row in rows))]
    for measure, total in sums:
        if total > I63:
            raise Refused(f"fault 19 SumRange {measure}")


def wanted_of(table, text):
    """The rows of a text, or the fault that is printed."""
    try:
        rows = read_text(table, text)
        if table == "lineorder":
            check_batch(rows)
        elif len({row[0] for row in rows}) != len(rows):
            number = next(n for n, row in enumerate(rows, 1) if row[0] in [other[0] for other in rows[:n - 1]])
            raise Refused(f"fault 12 DuplicateKey {table} row {number}")
        return rows
    except Refused as fault:
        return str(fault)


# The lines.

def numbers(limit, every):
    """Fields for a number of a limit; each byte is in four places where `every` says so, else in one."""
    most = str(limit).encode()
    yield from (b"", b"0", b"00", b"1", b"7", most, str(limit - 1).encode(), str(limit + 1).encode(), b"0" * 13 + most, b"0" * 300 + b"5", most + b"0")
    yield from (b"0" * 19 + b"7", b"1" + b"0" * 19, b"9" * 20, b"18446744073709551615", b"18446744073709551616", b"9" * 300, b"0" * 20 + str(limit + 1).encode())
    yield from (b"+1", b"-1", b"-0", b" 1", b"1 ", b"1.0", b"1e1", b"0x1", b"1_0", b"1,0", b"\xd9\xa1", b"\xb2", b"1\r", b"\r1", b"\r", b"\0", b"12345678x", b"x12345678")
    for byte in range(256):
        if byte not in b"\n|":
            yield b"1" + bytes([byte])
            if every:
                yield from (bytes([byte]), bytes([byte]) + b"1234567", b"1234567" + bytes([byte]) + b"9")


def texts(every):
    """Fields for a text, of each byte alone where `every` says so."""
    yield from (b"", b"a", b" ", b"\r", b"\r\r", b"a\rb", b"\0", b"a\0b", b'"a"', b"y" * 254, b"y" * 255, b"y" * 256, b"\xff" * 255, b"\xff" * 256, b"0" * 8000)
    for byte in range(256) if every else ():
        if byte not in b"\n|":
            yield bytes([byte])


def with_field(line, place, field):
    parts = line.split(b"|")
    parts[place] = field
    return b"|".join(parts)


def with_fields(table):
    for place, column in enumerate(COLUMNS[table]):
        for field in texts(column or place == 1) if column in ("text", None) else numbers(column, place in (0, 8)):
            yield with_field(GOOD[table], place, field)


def with_bars(table):
    """Bars that are missing, doubled and after the end."""
    line = GOOD[table]
    bars = [place for place, byte in enumerate(line) if byte == b"|"[0]]
    for bar in bars:
        yield from (line[:bar] + line[bar + 1:], line[:bar] + b"|" + line[bar:], line[:bar], line[:bar + 1], line[bar:], line[bar + 1:])
    for bar in bars[1:-1]:
        yield from (line[:bar] + line[bar + 1:] + b"|", line[:bar] + line[bar + 1:] + b"||")
    yield from (line + b"|", line + b"||", line + b"x", line + b"x|", line + b" ", b"", b"|", b"||", b"x")
    for count in range(len(bars) - 2, len(bars) + 3):
        yield b"|" * count


def with_returns(table):
    line, bare = GOOD[table], GOOD[table][:-1]
    yield from (line + b"\r", line + b"\r\r", bare, bare + b"\r", bare + b"\r\r", line[:-1] + b"\r|", b"\r", b"\r\r", b"\r" + line, line + b"\r|")


def of_lengths(table):
    """Lines of about 8,192 bytes: by zeros before a number, by a text that is only counted, by one byte alone."""
    line = GOOD[table]
    for length in range(8189, 8197):
        yield b"0" * (length - len(line)) + line
        yield b"0" * (length - len(line)) + line + b"\r"
        yield from (b"x" * length, b"|" * length, b"\r" * length, b"\xff" * length)
        for place, column in enumerate(COLUMNS[table]):
            if column is None:
                field = line.split(b"|")[place]
                yield with_field(line, place, field + b"y" * (length - len(line)))


def lines_of(table):
    seen = set()
    for source in (with_fields, with_bars, with_returns, of_lengths):
        for line in source(table):
            if line not in seen:
                seen.add(line)
                yield line


# The program.

class Campaign:
    def __init__(self, library):
        self.library = library
        self.texts = self.runs = self.refused = self.rows = self.complaints = 0

    def run(self, words, **how):
        self.runs += 1
        extra = {name: str(value) for name, value in how.items()}
        done = subprocess.run(["ssbcube", *words], capture_output=True, env={**os.environ, "LD_PRELOAD": self.library, **extra} if extra else None)
        return done.returncode, done.stdout, done.stderr.decode(errors="replace").split("\n")[0]

    def complain(self, what):
        self.complaints += 1
        print(what[:400], flush=True)

    def outcome(self, table, **how):
        """What the program makes of a text: its rows, as the file of the warehouse has them, or the fault."""
        device = Path("line.dev")
        if table == "lineorder":
            shutil.copy("star.dev", device)
            status, _, note = self.run(["load", str(device), "--first", "1", "text.tbl"], **how)
        else:
            device.unlink(missing_ok=True)
            files = [word for name in DIMENSIONS for word in (f"--{name}", "text.tbl" if name == table else f"{name}.tbl")]
            status, _, note = self.run(["create", str(device), "--sectors", "4096", *files], **how)
        if status != 0:
            return note if status == 1 else f"status {status}: {note}"
        return stored(table, Device(device))

    def check(self, table, text, **how):
        Path("text.tbl").write_bytes(text)
        wanted = wanted_of(table, text)
        found = self.outcome(table, **how)
        if isinstance(wanted, str):
            self.refused += 1
        else:
            self.rows += len(wanted)
            if table != "lineorder":
                wanted = [kept(table, row) for row in wanted]
        if found != wanted:
            self.complain(f"{table} {how} {text[-300:]!r}: {found!r} in place of {wanted!r}")

    def check_whole_and_in_bytes(self, table, text):
        self.texts += 1
        self.check(table, text)
        self.check(table, text, PIECE=1)


def kept(table, row):
    """What a dimension keeps of a row: its key, and its texts by level."""
    key, *fields = row
    if table == "part":
        return [key, *reversed(fields)]
    if table == "date":
        year, yearmonthnum, yearmonth, week = fields
        return [key, yearmonthnum, yearmonth, year, week]
    return [key, *fields]


def stored(table, device):
    """The rows of the first batch, or of a dimension, in a warehouse's file."""
    if table == "lineorder":
        if not device.batch_rows:
            return []
        columns = segment(device.object(65537), 1)
        rows = [[] for _ in range(device.batch_rows[0])]
        for name in NAMES:
            column = columns[name]
            values = [column[0][code] for code in column[1]] if name in TEXTS else column
            for row, value in zip(rows, values):
                row.append(value)
        device.file.close()
        return rows
    data = device.object(DIMENSIONS.index(table) + 1)
    device.file.close()
    data.name(b"DIM1")
    _, count = data.take("II")
    if table == "date":
        months, yearmonths, years, weeks = [data.dictionary() for _ in range(4)]
        yearmonth, year = [data.take("%dH" % len(months)) for _ in range(2)]
        keys, month, week = data.take("%dI" % count), data.take("%dH" % count), data.take("%dH" % count)
        return [[key, months[m], yearmonths[yearmonth[m]], years[year[m]], weeks[w]] for key, m, w in zip(keys, month, week)]
    lowest, middle, highest = [data.dictionary() for _ in range(3)]
    up, top = data.take("%dH" % len(lowest)), data.take("%dH" % len(middle))
    keys, codes = data.take("%dI" % count), data.take("%dH" % count)
    return [[key, lowest[c], middle[up[c]], highest[top[up[c]]]] for key, c in zip(keys, codes)]


def fact_lines(campaign):
    """Lines of fact rows: the accepted ones together, each refused one after up to two good ones and before another."""
    good, accepted = GOOD["lineorder"] + b"\n", []
    for number, line in enumerate(lines_of("lineorder")):
        if isinstance(wanted_of("lineorder", line + b"\n"), str):
            campaign.check_whole_and_in_bytes("lineorder", good * (number % 3) + line + (b"\n" + good if number % 2 else b""))
        else:
            accepted.append(line)
    small = [line for line in accepted if not isinstance(wanted_of("lineorder", (line + b"\n") * 1000), str)]
    for line in accepted:
        if line not in small:
            campaign.check_whole_and_in_bytes("lineorder", line)
    for first in range(0, len(small), 1000):
        campaign.check_whole_and_in_bytes("lineorder", b"\n".join(small[first:first + 1000]))
    print(f"lineorder: {len(accepted)} lines are accepted", flush=True)


def dimension_lines(campaign, table):
    """Lines of a dimension, each alone or, where its key is another, after a good one."""
    good = GOOD[table]
    for line in lines_of(table):
        campaign.texts += 1
        campaign.check(table, line + b"\n")
        wanted = wanted_of(table, line + b"\n")
        if isinstance(wanted, str):
            campaign.check(table, good + b"\r\n" + line, PIECE=1)
        else:
            campaign.check(table, line, PIECE=1)


def cut_lines(campaign):
    """Texts that end at each place, and texts whose first read ends at each place."""
    text = GOOD["lineorder"] + b"\r\n" + with_field(GOOD["lineorder"], 8, b"255") + b"\n"
    bad = with_field(GOOD["lineorder"], 8, b"256")
    for place in range(len(text) + 1):
        campaign.check_whole_and_in_bytes("lineorder", text[:place])
    for whole in (text, text + bad, text + b"\n" + text, text + with_field(GOOD["lineorder"], 16, b"y" * 256), text + b"0" * 8125 + GOOD["lineorder"]):
        campaign.texts += 1
        for place in [*range(1, 260), *range(8300, len(whole) + 1)]:
            if place <= len(whole):
                campaign.check("lineorder", whole, CUT=place)
    for table in DIMENSIONS:
        line = GOOD[table] + b"\n"
        for place in range(1, len(line) + 1):
            campaign.texts += 1
            campaign.check(table, line[:place])
            campaign.check(table, line, CUT=place)


def main():
    campaign = Campaign(sys.argv[1])
    for table in DIMENSIONS:
        Path(f"{table}.tbl").write_bytes(GOOD[table] + b"\n")
    files = [word for name in DIMENSIONS for word in (f"--{name}", f"{name}.tbl")]
    status, _, note = campaign.run(["create", "star.dev", "--sectors", "4096", *files])
    if status != 0:
        sys.exit(f"create ended with status {status}: {note}")
    for part in (fact_lines, cut_lines):
        part(campaign)
    for table in DIMENSIONS:
        dimension_lines(campaign, table)
    print(f"{campaign.texts} texts, {campaign.runs} runs, {campaign.refused} refused, {campaign.rows} rows compared, {campaign.complaints} complaints")
    return 1 if campaign.complaints else 0


if __name__ == "__main__":
    sys.exit(main())
