#!/usr/bin/env python3
"""Random queries, each answered as bars, csv, tsv and json, read back by Python's own modules and compared.

At the top of the repository, once crates/ssbcube/out/ssbcube is built: python3 bench/formats.py [QUERIES [SEED]]

The tables are the sample tables, whose texts get commas, quotation marks, tabs, backslashes, letters of UTF-8 and bytes that are none;
one text is empty. `eval` answers each query in each format. The fields of csv and tsv and the values of json have to be those of the
report with bars: numbers as numbers, ALL as null, an average as a fraction or, with --decimals, as Python's decimal module rounds it
half up. It prints how many queries were asked and how many differ. Another program is taken from the folder SSBCUBE_AT.
"""
import csv
import decimal
import io
import json
import random
import re
import sys
import tempfile
from decimal import Decimal
from fractions import Fraction
from pathlib import Path

from random_queries import ATTRIBUTES, TABLES, condition, query, run

# What is put after a text, by its place among those of its attribute.
MARKS = [b"", b",", b'"', b'a"b,', b"\t", b"\\", b"\\t", b"\xc3\xa9", b"\xff", b"\x01", b" ", b"'", b"/", b"\xed\xa0\x80"]
ESCAPES = {b"t": b"\t", b"n": b"\n", b"r": b"\r", b"\\": b"\\"}


def write_tables(folder):
    """The sample tables with marks after their texts, and of each attribute the texts that it has now."""
    found = {}
    for table, places in ATTRIBUTES.items():
        marked = {}
        rows = [line.split(b"|") for line in (TABLES / f"star_{table}.tbl").read_bytes().splitlines()]
        for attribute, place in places.items():
            texts = sorted({row[place] for row in rows})
            if attribute in ("d_datekey", "p_brand1"):
                marked[place] = {text: text for text in texts}
            else:
                marked[place] = {text: text + MARKS[at % len(MARKS)] for at, text in enumerate(texts)}
        if table == "supplier":
            marked[places["s_region"]][max(marked[places["s_region"]])] = b""
        for row in rows:
            for place, others in marked.items():
                row[place] = others[row[place]]
        (folder / f"star_{table}.tbl").write_bytes(b"".join(b"|".join(row) + b"\n" for row in rows))
        for attribute, place in places.items():
            found[attribute] = sorted({row[place].decode("utf-8", "surrogateescape") for row in rows})
    return found


def of_bars(report):
    """The header and the lines of a report with bars, ALL as it is."""
    lines = [line.split(b"|") for line in report.split(b"\n")[:-1]]
    assert lines[-1] == [b"rows %d" % (len(lines) - 2)], lines[-1]
    return lines[0], lines[1:-1]


def of_csv(report):
    assert report.endswith(b"\r\n") and report.count(b"\n") == report.count(b"\r\n")
    text = io.StringIO(report.decode("utf-8", "surrogateescape"), newline="")
    lines = [[field.encode("utf-8", "surrogateescape") for field in line] for line in csv.reader(text, strict=True)]
    return lines[0], lines[1:]


def of_tsv(report):
    lines = [[re.sub(rb"\\(.)", lambda sign: ESCAPES[sign[1]], field) for field in line.split(b"\t")] for line in report.split(b"\n")[:-1]]
    return lines[0], lines[1:]


def same_field(bars, other):
    """An empty field is ALL or an empty text."""
    return bars == other or (other == b"" and bars == b"ALL")


def same_value(bars, value, digits):
    """A value of json is that of a field with bars."""
    if value is None:
        return bars == b"ALL"
    if isinstance(value, str):
        return value.encode("utf-8", "surrogateescape") == bars
    if isinstance(value, dict):
        return Fraction(value["sum"], value["count"]) == Fraction(bars.decode())
    if digits is not None and isinstance(value, Decimal):
        return format(value, "f") == bars.decode()
    return type(value) is int and b"%d" % value == bars


def rounded(fraction, digits):
    """A fraction with so many digits after the point, rounded half up."""
    with decimal.localcontext() as context:
        context.prec = 60
        value = Decimal(fraction.numerator) / Decimal(fraction.denominator)
        scale = Decimal(1).scaleb(-digits)
        exact = fraction * 10**digits
        half_up = (abs(exact) * 2 + 1) // 2
        value = Decimal(int(half_up)) * scale
        return format((-value if exact < 0 and half_up else value).quantize(scale), "f")


def check(words, digits):
    """What is wrong with the reports of a query, or nothing."""
    decimals = [] if digits is None else ["--decimals", digits]
    bars, comma, tab, objects = (run("eval", *words, *decimals, "--format", name)[1] for name in ("bars", "csv", "tsv", "json"))
    head, lines = of_bars(bars)
    for name, (other_head, others) in ("csv", of_csv(comma)), ("tsv", of_tsv(tab)):
        if other_head != head or len(others) != len(lines):
            return f"{name}: the header or the number of lines"
        if not all(len(one) == len(other) and all(map(same_field, one, other)) for one, other in zip(lines, others)):
            return f"{name}: a field"
    read = [json.loads(line, parse_float=Decimal) for line in objects.splitlines()]
    names = [name.decode() for name in head]
    if len(read) != len(lines) or any(list(one) != names for one in read):
        return "json: the names or the number of lines"
    if not all(same_value(field, one[name], digits) for line, one in zip(lines, read) for name, field in zip(names, line)):
        return "json: a value"
    if digits is not None:
        plain = of_bars(run("eval", *words)[1])[1]
        for line, other in zip(lines, plain):
            for name, field, fraction in zip(names, line, other):
                if name.startswith("avg(") and field.decode() != rounded(Fraction(fraction.decode()), digits):
                    return "--decimals: an average"
    return None


def main():
    asked_for = int(sys.argv[1]) if len(sys.argv) > 1 else 1000
    chance = random.Random(int(sys.argv[2]) if len(sys.argv) > 2 else 1)
    differ = 0
    with tempfile.TemporaryDirectory() as scratch:
        folder = Path(scratch)
        texts = write_tables(folder)
        spelled = {name: [text for text in some if text.isprintable() and "'" not in text] or ["none"] for name, some in texts.items()}
        tables = [word for table in ATTRIBUTES for word in (f"--{table}", folder / f"star_{table}.tbl")]
        for _ in range(asked_for):
            words = [*tables, "--lineorder", TABLES / "star_lineorder.tbl", *query(chance, spelled)]
            wrong = check(words, chance.choice([None, None, 0, 1, 2, 5, 18]))
            if wrong:
                differ += 1
                print(f"{wrong}: {' '.join(map(str, words[10:]))}")
    print(f"{asked_for} queries, {differ} differ")
    return 1 if differ else 0


if __name__ == "__main__":
    sys.exit(main())
