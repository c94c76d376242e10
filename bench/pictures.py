#!/usr/bin/env python3
"""Draws a real warehouse as SVG, for the documents.

Usage: pictures.py layout DEV > docs/layout.svg      what each sector holds (a small file; read as read_device.py does)
       pictures.py lattice DEV > docs/lattice.svg    the 256 views, with the stored ones as 'ssbcube views DEV' lists them
"""
import subprocess
import sys

from read_device import Device

COLOURS = {"superblock": "#d95f02", "catalogue": "#e6ab02", "batch": "#1b9e77", "view": "#7570b3", "free": "#eeeeee"}
LEVELS = (("city", "nation", "region", "ALL"), ("city", "nation", "region", "ALL"), ("brand1", "category", "mfgr", "ALL"),
          ("day", "month", "year", "ALL"))


def svg(width, height, parts):
    head = '<svg xmlns="http://www.w3.org/2000/svg" width="%d" height="%d" viewBox="0 0 %d %d" font-family="sans-serif" font-size="11">'
    return "\n".join([head % (width, height, width, height), '<rect width="100%" height="100%" fill="#fff"/>', *parts, "</svg>"])


def text(x, y, words, more=""):
    return '<text x="%g" y="%g"%s>%s</text>' % (x, y, more, words)


def layout(path):
    """Sixteen sectors a row, each with its colour and a word of what it holds."""
    device = Device(path)
    holds = {first + i: what for first, count, what in device.map() for i in range(count)}
    side, short = 54, {"superblock slot 0": "slot 0", "superblock slot 1": "slot 1"}
    parts = []
    for sector in range(device.sectors):
        x, y = 10 + sector % 16 * side, 10 + sector // 16 * side
        what = holds.get(sector, "free")
        colour = COLOURS.get(what.split()[0], "#66a61e")
        parts.append('<rect x="%d" y="%d" width="%d" height="%d" fill="%s" stroke="#555"/>' % (x, y, side - 2, side - 2, colour))
        parts.append(text(x + 3, y + 13, sector, ' fill="#333" font-size="10"'))
        words = short.get(what, what).replace("catalogue", "catalog.").replace(" run", ",run").split(",")
        words = [] if what == "free" else words
        parts += [text(x + 3, y + 30 + 13 * i, word, ' font-size="10"') for i, word in enumerate(words)]
    rows = -(-device.sectors // 16)
    newest = "slot %d" % (device.generation % 2)
    caption = "%d sectors, generation %d (current superblock: %s), %d batches, %d cuboids; grey is free"
    parts.append(text(10, 26 + rows * side, caption % (device.sectors, device.generation, newest, len(device.batch_rows), len(device.cuboids))))
    return svg(20 + 16 * side, 36 + rows * side, parts)


def levels(view):
    return view // 64 % 4, view // 16 % 4, view // 4 % 4, view % 4


def lattice(path):
    """The Hasse diagram of the views: finer views above, the stored ones in colour, those that one of them answers in grey."""
    listed = subprocess.run(["ssbcube", "views", path], capture_output=True, text=True, check=True).stdout
    stored = [int(line.split()[1]) for line in listed.splitlines()]
    ranks = [[view for view in range(256) if sum(levels(view)) == rank] for rank in range(13)]
    width = 20 * max(map(len, ranks)) + 20
    at = {view: (width / 2 + 20 * (i - (len(rank) - 1) / 2), 20 + 44 * sum(levels(view))) for rank in ranks for i, view in enumerate(rank)}
    steps = [(view, view + step) for view in range(256) for step, level in zip((64, 16, 4, 1), levels(view)) if level < 3]
    edges = " ".join("M%g %gL%g %g" % (at[low] + at[high]) for low, high in steps)
    parts = ['<path d="%s" stroke="#e4e4e4" stroke-width="0.6" fill="none"/>' % edges]
    for view, (x, y) in at.items():
        answered = any(all(a <= b for a, b in zip(levels(one), levels(view))) for one in stored)
        colour = "#7570b3" if view in stored else "#b8b8b8" if answered else "#ffffff"
        parts.append('<circle cx="%g" cy="%g" r="%d" fill="%s" stroke="#777"/>' % (x, y, 7 if view in stored else 4, colour))
    for i, view in enumerate(stored):
        x, y = at[view]
        crowded = any(at[other] == (x - 20, y) for other in stored)
        parts.append(text(x, y - (20 if crowded else 9), view, ' text-anchor="middle" font-weight="bold"'))
        name = ", ".join(names[level] for names, level in zip(LEVELS, levels(view)))
        parts.append(text(10, 20 + 15 * i, "%d: %s" % (view, name)))
    parts.append(text(width / 2 + 12, 24, "0: city, city, brand1, day"))
    parts.append(text(width / 2 + 12, 24 + 44 * 12, "255: ALL, ALL, ALL, ALL"))
    parts.append(text(10, 40 + 44 * 12, "Filled: stored. Grey: answered by a stored view. White: by none, so by a scan."))
    return svg(width, 56 + 44 * 12, parts)


if __name__ == "__main__":
    if len(sys.argv) != 3 or sys.argv[1] not in ("layout", "lattice"):
        sys.exit(__doc__)
    print({"layout": layout, "lattice": lattice}[sys.argv[1]](sys.argv[2]))
