#!/usr/bin/env python3
"""Checks that a definition in specs/ has a name of its own: no other file of any crate defines one of that name.

Usage: python3 bench/names.py, at the top of the repository. The status is 1 if two files define a name.
"""
import collections
import glob
import re
import sys

# What several crates define under one name, each of its own type, and why it is one idea.
ALIKE = {
    "state_of": "what a device shows",
    "failures_of": "how often a device has failed",
    "KeepsWord": "a device kept its word",
    "inner_of": "the device under another one",
    "has_failed": "a store, and a session over it, met Device before",
    "Breaks": "a store, and a session over it, met Device in this call",
    "device_of": "the device of a store, and of a session over it",
    "disk_of": "what a store, and a session over it, has on its device",
    "content_of": "the content of a store, and of a session over it",
    "room_of": "the free sectors of a store, and of a session over it",
    "UnlessMemory": "something holds of a result, unless memory ran out",
}
DEFINITION = re.compile(r"(?:(?:abbrev|unfoldable|private) )*pub (?:(?:abbrev|record|data|unfoldable) )*([A-Za-z_][\w'-]*)")
RECORD = re.compile(r"(?:unfoldable )?(?:pub )?record\b|(?:unfoldable )?pub record\b")


def definitions(path):
    """The names that a file defines. Fields of records, and modules of the crate, are none."""
    inside_record, indent = False, 0
    for line in open(path, encoding="utf-8"):
        depth = len(line) - len(line.lstrip())
        if inside_record and line.strip() and depth <= indent and not line.strip().startswith("--"):
            inside_record = line.lstrip().startswith(":") or depth == indent and line.lstrip()[0] in "({:"
        found = DEFINITION.match(line.lstrip())
        if inside_record or not found or line.lstrip().startswith("pub mod"):
            continue
        yield found.group(1)
        if RECORD.match(line.lstrip()):
            inside_record, indent = True, depth


def main():
    where = collections.defaultdict(set)
    for path in sorted(glob.glob("crates/*/specs/**/*.antt", recursive=True)):
        for name in definitions(path):
            where[name].add(path)
    twice = {name: paths for name, paths in where.items() if len(paths) > 1 and name not in ALIKE}
    for name, paths in sorted(twice.items()):
        print("%s: %s" % (name, ", ".join(sorted(paths))))
    return 1 if twice else 0


if __name__ == "__main__":
    sys.exit(main())
