#!/usr/bin/env python3
"""Tests ssbcube.py with the program that SSBCUBE names and the library that SSBCUBE_LIBRARY names:
python3 python/test_ssbcube.py, at the top of the repository."""
import fcntl
import os
import sys
import tempfile
from fractions import Fraction

sys.path.insert(0, os.path.dirname(os.path.abspath(__file__)))
import ssbcube

TABLES = "crates/user_pages/data"


def merges_what_is_asked(folder, star):
    """The partial reports of two warehouses, merged into the report of one with all rows."""
    words = ["--set", "cube", "--by", "c_region,d_year", "--agg", "count,avg:revenue,min:profit"]
    files = []
    for number, table in ((1, "lineorder.tbl"), (2, "more.tbl")):
        part = ssbcube.create(f"{folder}/part{number}.dev", TABLES, sectors=64)
        part.load(f"{TABLES}/{table}")
        star.load(f"{TABLES}/{table}")
        files.append(f"{folder}/{number}.part")
        with open(files[-1], "wb") as file:
            file.write(ssbcube.run("cube", part.path, "--partial", f"{number}/2", *words))
    assert ssbcube.merge(*files) == ssbcube.merge(*reversed(files)) == ssbcube.run("cube", star.path, *words).decode()
    assert refusal(lambda: ssbcube.merge(files[0], files[0])) == (24, "BadQuery")


def writes_what_the_program_writes(folder):
    """The files that the library makes and loads are those of the program, byte for byte."""
    ours, theirs = (f"{folder}/{name}.dev" for name in ("ours", "theirs"))
    star = ssbcube.create(ours, TABLES, sectors=64)
    ssbcube.run("create", theirs, "--tables", TABLES, "--sectors", 64)
    assert contents(ours) == contents(theirs)
    files = [f"{TABLES}/lineorder.tbl", f"{TABLES}/more.tbl"]
    assert star.load(*files, first=1, rows=2) == int(ssbcube.run("load", theirs, "--first", 1, "--rows", 2, *files).split()[-1])
    assert contents(ours) == contents(theirs)


def refuses_and_changes_nothing(folder):
    """A load that is refused at its second batch leaves the file as it was, and a creation that is refused leaves none."""
    path = f"{folder}/kept.dev"
    star = ssbcube.create(path, TABLES, sectors=64)
    before = contents(path)
    with open(f"{folder}/half.tbl", "wb") as file:
        file.write(contents(f"{TABLES}/lineorder.tbl") + b"4|2|x|\n")
    assert refusal(lambda: star.load(f"{folder}/half.tbl", first=1, rows=1)) == (9, "FieldCount")
    assert line_of(lambda: star.load(f"{folder}/half.tbl", first=1, rows=1)) == "fault 9 FieldCount line 4"
    assert contents(path) == before
    assert refusal(lambda: star.load(f"{TABLES}/lineorder.tbl", first=3)) == (23, "Gap")
    assert refusal(lambda: star.load(f"{folder}/none.tbl", first=1)) == (29, "Input")
    assert refusal(lambda: ssbcube.create(path, TABLES, sectors=64)) == (6, "AlreadyFormatted")
    assert refusal(lambda: ssbcube.create(f"{folder}/small.dev", TABLES, sectors=63)) == (8, "DeviceSize")
    assert not os.path.exists(f"{folder}/small.dev")
    with open(path, "rb") as other:
        fcntl.flock(other, fcntl.LOCK_SH)
        assert refusal(lambda: star.load(f"{TABLES}/lineorder.tbl", first=1)) == (2, "Device")
        assert star.query() == []
    assert contents(path) == before


def contents(path):
    with open(path, "rb") as file:
        return file.read()


def main():
    with tempfile.TemporaryDirectory() as folder:
        writes_what_the_program_writes(folder)
        refuses_and_changes_nothing(folder)
    with tempfile.TemporaryDirectory() as folder:
        merges_what_is_asked(folder, ssbcube.create(f"{folder}/all.dev", TABLES, sectors=64))
    with tempfile.TemporaryDirectory() as folder, ssbcube.create(f"{folder}/star.dev", TABLES, sectors=64) as star:
        assert star.load(f"{TABLES}/lineorder.tbl") == 1
        assert star.query(by=["d_year"], agg=["count", "avg:revenue"], set="rollup") == [
            {"d_year": "1993", "count": 1, "avg(revenue)": Fraction(980)},
            {"d_year": "1997", "count": 2, "avg(revenue)": Fraction(2435, 2)},
            {"d_year": None, "count": 3, "avg(revenue)": Fraction(3415, 3)},
        ]
        assert star.query(agg=["sum:revenue"], where=["c_region=EUROPE", "d_year=1993"]) == [{"sum(revenue)": 980}]
        assert star.report("1.1") == [{"sum(discounted)": 2000}]
        assert star.report("1.1", as_of=0) == []
        assert star.status()["rows"] == 3
        assert refusal(lambda: star.query(by=["d_yeer"])) == (24, "BadQuery")
        assert refusal(lambda: ssbcube.open(f"{folder}/none.dev")) == (2, "Device")
        has_pandas(star)
    print("python: passed")


def has_pandas(star):
    try:
        import pandas
    except ImportError:
        return
    frame = star.frame(by=["d_year"], agg=["sum:revenue"])
    assert list(frame.columns) == ["d_year", "sum(revenue)"] and list(frame["sum(revenue)"]) == [980, 2435]


def line_of(call):
    try:
        call()
    except ssbcube.Refused as refused:
        return str(refused)
    return None


def refusal(call):
    try:
        call()
    except ssbcube.Refused as refused:
        return refused.number, refused.name
    return None


main()
