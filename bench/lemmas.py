#!/usr/bin/env python3
"""Checks that the lemmas of one source file are one file with its name, ReadingLemmas.antt for reading.rt, and that
no file of specs/ has a lemma.

Usage: python3 bench/lemmas.py, at the top of the repository. The status is 1 if a file of lemmas serves one source
file alone and has another name, or if something of specs/ is no definition. What other crates cite, or several source
files, has the name of its subject.
"""
import collections
import glob
import os
import re
import sys

CITES = re.compile(r"Rattle\.(\w+)\.proofs\.([A-Z]\w*)|\b(\w+)::proofs::([A-Z]\w*)")


def user(path):
    """What a file is part of: a crate, and a source file of it or, for a file of lemmas, its own name."""
    _, crate, folder, *rest = path.split("/")
    if folder == "proofs" and len(rest) == 1:
        return crate, rest[0].removesuffix(".antt")
    return crate, rest[0].removesuffix(".rt").removesuffix(".antt") + ".rt"


def cited():
    """For each file of lemmas, who cites it."""
    users = collections.defaultdict(set)
    for path in glob.glob("crates/*/*/**/*.antt", recursive=True) + glob.glob("crates/*/src/*.rt"):
        crate, name = user(path)
        for found in CITES.finditer(open(path, encoding="utf-8").read()):
            lemmas = (found.group(1), found.group(2))
            if found.group(3):
                lemmas = (crate if found.group(3) == "crate" else found.group(3), found.group(4))
            if lemmas != (crate, name):
                users[lemmas].add((crate, name))
    return users


def own_name(crate, name):
    """The source file that a file of lemmas is named for, if there is one."""
    word = name.removesuffix("Lemmas").lower()
    for path in glob.glob(f"crates/{crate}/src/*.rt"):
        if os.path.basename(path).removesuffix(".rt").replace("_", "") == word:
            return os.path.basename(path)
    return None


def served(lemmas, users, seen):
    """Which source files of its crate a file of lemmas serves, also through others, and other crates."""
    for crate, name in users[lemmas]:
        source = name if name.endswith(".rt") else own_name(crate, name)
        if crate != lemmas[0]:
            yield crate
        elif source:
            yield source
        elif (crate, name) not in seen:
            yield from served((crate, name), users, seen | {(crate, name)})


def proved_in(path):
    """The lines of a file of specs/ that state what would be proved: outside records, what no `abbrev` begins."""
    record = None
    for number, line in enumerate(open(path, encoding="utf-8"), 1):
        text = line.strip()
        depth = len(line) - len(line.lstrip())
        if record is not None and text and depth <= record:
            record = None
        if re.match(r"(abbrev )?(pub )?(record|data)\b", text):
            record = depth
        elif record is None and re.match(r"pub [^\s:]+ :( |$)", text):
            yield number


def main():
    users = cited()
    found = 0
    for path in sorted(glob.glob("crates/*/specs/**/*.antt", recursive=True)):
        for number in proved_in(path):
            print(f"{path}:{number}: a lemma")
            found += 1
    for path in sorted(glob.glob("crates/*/proofs/*.antt")):
        crate, name = user(path)
        if name == "Lib" or own_name(crate, name):
            continue
        serves = set(served((crate, name), users, {(crate, name)}))
        if len(serves) == 1 and next(iter(serves)).endswith(".rt"):
            print(f"{path}: serves {next(iter(serves))} alone")
            found += 1
    sys.exit(1 if found else 0)


if __name__ == "__main__":
    main()
