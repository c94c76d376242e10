#!/usr/bin/env python3
"""Plants faults in a copy of the repository, one at a time, and looks for the tests of `test_hostile` that find them.

Usage: planted.py EDITS COPY [NAME..]      (planted.sh calls it)

EDITS has a file NAME.edit for each fault: lines `file: PATH`, `old: TEXT`, `new: TEXT`, where the file has the text exactly once, and
which may be repeated. Of the tests those of MODULES are kept, as the others take long when they are compiled with checks. First they are run
as they are, and have to pass. Then each edit is made, the tests are compiled without proof and run, and at least one has to fail: by an
assertion, not for want of time. Printed are the tests that failed, and how long compiling and running took.
"""
import os
import re
import shutil
import subprocess
import sys
import time
from pathlib import Path

CRATE = "test_hostile"
MODULES = ["replaced", "rules"]
ENDS = re.compile(r"^test (\S+) \.\.\. (ok|FAILED)$", re.M)


def replacements(text):
    """The files of an edit, each with an old text and a new one."""
    lines = [line.partition(": ") for line in text.splitlines() if line]
    if len(lines) % 3 or [name for name, _, _ in lines] != ["file", "old", "new"] * (len(lines) // 3):
        sys.exit("an edit has lines file, old and new")
    texts = [text for _, _, text in lines]
    return list(zip(texts[::3], texts[1::3], texts[2::3]))


def keep_modules(source):
    """Takes the other modules of tests away."""
    for path in source.glob("*.rt"):
        if path.stem not in ["lib", *MODULES]:
            path.unlink()
            shutil.rmtree(source / path.stem, ignore_errors=True)
            root = source / "lib.rt"
            root.write_text(root.read_text().replace(f"#[cfg(test)]\nmod {path.stem};\n", ""))


def run_tests(copy):
    """The tests that passed, those that failed by an assertion, and those that did not end. Nothing if they did not compile."""
    words = [*os.environ.get("RT", "rt").split(), "try", "--test", "--seconds", "300"]
    done = subprocess.run(words, cwd=copy / "crates" / CRATE, capture_output=True, text=True)
    said = done.stdout + done.stderr
    passed, failed, unended = [], [], []
    found = list(ENDS.finditer(said))
    for one, following in zip(found, [*found[1:], None]):
        reason = said[one.end():following.start() if following else len(said)]
        if one[2] == "ok":
            passed.append(one[1])
        else:
            (unended if "no-answer" in reason else failed).append(one[1])
    if not found:
        print(said[-2000:])
        return None
    return passed, failed, unended


def main():
    edits, copy = Path(sys.argv[1]), Path(sys.argv[2])
    names = sys.argv[3:] or sorted(path.stem for path in edits.glob("*.edit"))
    keep_modules(copy / "crates" / CRATE / "src")
    found = run_tests(copy)
    if found is None or found[1] or found[2]:
        sys.exit(f"as they are the tests fail: {found}")
    print(f"no fault: {len(found[0])} tests pass", flush=True)
    missed = []
    for name in names:
        before = {}
        for file, old, new in replacements((edits / f"{name}.edit").read_text()):
            text = (copy / file).read_text()
            before.setdefault(file, text)
            if text.count(old) != 1:
                sys.exit(f"{name}: {file} has {old!r} {text.count(old)} times")
            (copy / file).write_text(text.replace(old, new))
        start = time.monotonic()
        found = run_tests(copy)
        for file, text in before.items():
            (copy / file).write_text(text)
        if found is None:
            print(f"{name}: does not compile")
        if not found or not found[1]:
            missed.append(name)
        print(f"{name}: {'found by ' + ', '.join(found[1]) if found and found[1] else 'NOT FOUND'} ({time.monotonic() - start:.0f} s)", flush=True)
    print(f"{len(names)} faults, {len(names) - len(missed)} found")
    return 1 if missed else 0


if __name__ == "__main__":
    sys.exit(main())
