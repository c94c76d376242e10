#!/usr/bin/env python3
"""Random queries of warehouses with cuboids, each compared with an evaluation of the same rows, byte by byte.

At the top of the repository, once crates/ssbcube/out/ssbcube is built: python3 bench/random_queries.py [QUERIES [SEED]]

Each warehouse has other fact rows of the sample tables with other ship modes, in other batches, one of the two layouts, and cuboids that
hold more or fewer of the batches: views are chosen or set, kept up, and batches are loaded before and after. `cube` answers over some
first batches, by its plan; `eval` reads the text of the same rows. It prints how many queries were asked, of these by ship mode, how
many of them a cuboid answered, and how many reports differ. Another program is taken from the folder SSBCUBE_AT.
"""
import os
import random
import subprocess
import sys
import tempfile
from pathlib import Path

ROOT = Path(__file__).resolve().parent.parent
PROGRAM = Path(os.environ.get("SSBCUBE_AT", ROOT / "crates/ssbcube/out")) / "ssbcube"
TABLES = ROOT / "crates/user_pages/data"
QUERIES_EACH = 100

# The place of each attribute in the lines of its table.
ATTRIBUTES = {
    "customer": {"c_city": 3, "c_nation": 4, "c_region": 5},
    "supplier": {"s_city": 3, "s_nation": 4, "s_region": 5},
    "part": {"p_mfgr": 2, "p_category": 3, "p_brand1": 4},
    "date": {"d_datekey": 0, "d_year": 4, "d_yearmonthnum": 5, "d_yearmonth": 6, "d_weeknuminyear": 11},
}
MODE_PLACE = 16
MODES = ["", "AIR", "FOB", "MAIL", "RAIL", "REG AIR", "SHIP", "TRUCK"]
MEASURES = ["quantity", "extendedprice", "revenue", "supplycost", "discounted", "profit"]


def members():
    """Of each attribute the texts that its table has, and the ship modes."""
    found = {"lo_shipmode": MODES}
    for table, places in ATTRIBUTES.items():
        lines = (TABLES / f"star_{table}.tbl").read_text().splitlines()
        for attribute, place in places.items():
            found[attribute] = sorted({line.split("|")[place] for line in lines})
    return found


def tables(folder):
    """The words that name the tables of dimensions."""
    return [word for table in ATTRIBUTES for word in (f"--{table}", str(folder / f"star_{table}.tbl"))]


def run(*words):
    """What the program prints, and its exit status."""
    done = subprocess.run([PROGRAM, *map(str, words)], capture_output=True, check=False)
    return done.returncode, done.stdout


def must(*words):
    status, printed = run(*words)
    if status != 0:
        sys.exit(f"status {status} of {' '.join(map(str, words))}\n{printed.decode()}")
    return printed.decode()


def condition(chance, texts):
    """One condition, of an attribute or of a number."""
    if chance.random() < 0.15:
        name, most = chance.choice([("quantity", 50), ("discount", 10)])
        low = chance.randint(0, most)
        return f"{name}:{low}|{chance.randint(low, most)}"
    attribute = chance.choice(list(texts))
    if chance.random() < 0.5:
        some = chance.sample(texts[attribute], chance.randint(1, min(3, len(texts[attribute]))))
        return f"{attribute}={'|'.join(some)}"
    low, high = sorted(chance.choices(texts[attribute], k=2))
    return f"{attribute}:{low}|{high}"


def query(chance, texts):
    """The words of a query of any kind."""
    kind = chance.choice(["plain", "rollup", "cube"])
    by = chance.sample(list(texts), chance.randint(0, 4 if kind == "plain" else 3))
    aggregates = ["count"] + [f"{name}:{measure}" for name in ("sum", "min", "max", "avg") for measure in MEASURES]
    words = ["--set", kind, "--agg", ",".join(chance.sample(aggregates, chance.randint(1, 4)))]
    if by:
        words += ["--by", ",".join(by)]
    return words + [condition(chance, texts) for _ in range(chance.choice([0, 0, 1, 1, 2]))]


def fact_rows(chance):
    """Some of the sample fact rows, also more than once, each with some ship mode."""
    lines = (TABLES / "star_lineorder.tbl").read_text().splitlines(keepends=True)
    modes = chance.sample(MODES, chance.randint(1, len(MODES)))
    rows = [line.split("|") for line in chance.choices(lines, k=chance.randint(12, 4 * len(lines)))]
    return ["|".join(row[:MODE_PLACE] + [chance.choice(modes)] + row[MODE_PLACE + 1 :]) for row in rows]


def warehouse(chance, folder, device):
    """Makes a warehouse with cuboids at some mark, and returns the rows of its batches."""
    rows = fact_rows(chance)
    layout = chance.randint(1, 2)
    device.unlink(missing_ok=True)
    must("create", device, "--sectors", 16384, "--layout", layout, *tables(TABLES))
    batches = []
    parts = chance.randint(1, 4)
    for part in range(parts):
        share = rows[len(rows) * part // parts : len(rows) * (part + 1) // parts]
        if not share:
            continue
        size = chance.randint(1 + len(share) // 6, len(share))
        facts = folder / "part.tbl"
        facts.write_text("".join(share))
        must("load", device, "--first", len(batches) + 1, "--rows", size, facts)
        batches += [share[first : first + size] for first in range(0, len(share), size)]
        if chance.random() < 0.5:
            must("choose", device, chance.randint(1, 6))
        elif chance.random() < 0.5:
            must("views", device, *chance.sample(range(256 * (layout - 1), 256 * layout - 1), chance.randint(1, 16)))
        if chance.random() < 0.7:
            must("upkeep", device)
    return batches


def main():
    asked_for = int(sys.argv[1]) if len(sys.argv) > 1 else 10000
    seed = int(sys.argv[2]) if len(sys.argv) > 2 else 1
    chance = random.Random(seed)
    texts = members()
    asked = by_cuboid = by_mode = by_mode_cuboid = differ = warehouses = 0
    with tempfile.TemporaryDirectory() as scratch:
        folder = Path(scratch)
        device = folder / "star.dev"
        while asked < asked_for:
            batches = warehouse(chance, folder, device)
            warehouses += 1
            for _ in range(min(QUERIES_EACH, asked_for - asked)):
                as_of = chance.choice([len(batches), chance.randint(1, len(batches))])
                facts = folder / "facts.tbl"
                facts.write_text("".join(line for batch in batches[:as_of] for line in batch))
                words = query(chance, texts)
                found = run("cube", device, "--as-of", as_of, *words)
                wanted = run("eval", *tables(TABLES), "--lineorder", facts, *words)
                plan = run("explain", device, "--as-of", as_of, *words)[1]
                from_cuboid = plan.startswith(b"plan view")
                asked += 1
                by_cuboid += from_cuboid
                if "lo_shipmode" in " ".join(words):
                    by_mode += 1
                    by_mode_cuboid += from_cuboid
                if found != wanted:
                    differ += 1
                    print(f"warehouse {warehouses}, as of {as_of}: {' '.join(words)}")
    print(f"{asked} queries of {warehouses} warehouses, {by_cuboid} answered from a cuboid, {differ} differ")
    print(f"by ship mode {by_mode}, {by_mode_cuboid} answered from a cuboid")
    return 1 if differ else 0


if __name__ == "__main__":
    sys.exit(main())
