#!/usr/bin/env python3
"""Keeps the lines of crates/ within 120 columns. At the top of the repository:

    python3 bench/columns.py            names each longer line that can be broken; the status is then 1
    python3 bench/columns.py --write    breaks it where few brackets are open, and fills comments anew. Then run rt fmt in each crate
                                        that changed, which lays records and cases out, and this once more

It breaks terms (.antt files and clauses), lists of imports and comments, and leaves code and strings as they are.
"""
import os
import re
import sys

WIDTH = 120
# After the words and before the signs that a term is broken at, best first.
COSTS = {"→": 0, "∙": 1, "⊎": 1, "×": 2, "↔": 1, "++": 4, "∷": 4, "≡": 5, "+": 6}
COMMENT = re.compile(r"^(\s*)(///|//!|//|--)( .*)$")
CLAUSE = re.compile(r"^\s*(ensures|requires|invariant|ghost)\b[^{]*\{ ")
IMPORT = re.compile(r"^(\s*)((?:ghost )?use [^{]*\.\{)(.*)(\};?)$")
# How many columns a continued line is further to the right.
STEP = 4


def clause_lines(lines):
    """Which lines of a source file are of a clause."""
    depth, found = 0, set()
    for number, line in enumerate(lines):
        starts = re.match(r"\s*(ensures|requires|invariant|ghost)\b", line) and not re.match(r"\s*ghost use\b", line)
        if starts or depth > 0:
            found.add(number)
            depth += sum(line.count(it) for it in "({[") - sum(line.count(it) for it in ")}]")
    return found


def breaks(line, start):
    """The places after a column at which a term may be broken, each with its cost."""
    # (a clause is broken within its braces)
    clause = CLAUSE.match(line)
    depth, is_text, at = 0, False, clause.end() if clause else 0
    while at < len(line):
        sign = line[at]
        if sign == '"':
            is_text = not is_text
        elif not is_text and sign in "({[":
            depth += 1
        elif not is_text and sign in ")}]":
            depth -= 1
        elif not is_text and sign == " " and at > start:
            before, after = line[:at].rsplit(" ", 1)[-1], line[at + 1 :].split(" ", 1)[0]
            if before in ("=", "in", "↦"):
                cost = 1 if depth == 0 else 6
            elif before.endswith((",", ";")):
                cost = 5
            elif before == "[" or before == "{" and line[: at - 2].endswith("record"):
                # (rt fmt then puts each field or case on a line of its own)
                cost = -10
            elif before in COSTS or after in ("=", ":", ".", "in", "}", "]", "|", "as") or before in ("λ", ":", "|"):
                cost = 30
            else:
                cost = COSTS.get(after, 9)
            yield at, 12 * depth + cost
        at += 1


def broken(line):
    """The lines of a term that is too long, the rest of it further to the right."""
    indent = len(line) - len(line.lstrip())
    made, first = [], True
    while len(line) > WIDTH:
        start = indent + (0 if first else STEP)
        found = [(cost + (WIDTH - at) / 10, at) for at, cost in breaks(line, start + 10) if at <= WIDTH]
        if not found:
            break
        at = min(found)[1]
        made.append(line[:at])
        line, first = " " * (indent + STEP) + line[at + 1 :], False
        if made[-1].endswith(("{", "[")):
            break
    return [*made, line]


def imports(line):
    """The lines of a list of imports that is too long: as many lists as it needs."""
    indent, head, names, end = IMPORT.match(line).groups()
    made, held = [], []
    for name in re.split(r", ", names):
        if held and len(f"{indent}{head}{', '.join([*held, name])}{end}") > WIDTH:
            made.append(held)
            held = []
        held.append(name)
    return [f"{indent}{head}{', '.join(it)}{end}" for it in [*made, held]]


def filled(indent, sign, words):
    """A paragraph of a comment."""
    made, line = [], f"{indent}{sign}"
    for word in words:
        if len(f"{line} {word}") > WIDTH and line != f"{indent}{sign}":
            made.append(line)
            line = f"{indent}{sign}"
        line = f"{line} {word}"
    return [*made, line]


def paragraph(lines, number):
    """The lines of the comment's paragraph that begins with a line, as far as they may be filled anew."""
    indent, sign, _ = COMMENT.match(lines[number]).groups()
    end = number
    while end < len(lines):
        found = COMMENT.match(lines[end])
        is_other = not found or found.groups()[:2] != (indent, sign)
        if is_other or end > number and re.match(r" (\||-|\*|#|```|\d+\.|  )", found[3]):
            break
        end += 1
    return end


def laid_out(lines, is_source):
    """The lines of a file, the long ones broken."""
    clauses, made, number, is_code = clause_lines(lines) if is_source else range(len(lines)), [], 0, False
    while number < len(lines):
        line = lines[number]
        if COMMENT.match(line):
            is_code ^= "```" in line
            end = paragraph(lines, number)
            if not is_code and "```" not in line and any(len(it) > WIDTH for it in lines[number:end]):
                indent, sign, _ = COMMENT.match(line).groups()
                made += filled(indent, sign, [word for it in lines[number:end] for word in COMMENT.match(it)[3].split()])
                number = end
                continue
            made.append(line)
        elif len(line) > WIDTH and IMPORT.match(line) and (not is_source or "ghost" in line):
            made += imports(line)
        elif len(line) > WIDTH and number in clauses and not re.match(r"\s*(ghost )?use ", line):
            made += broken(line)
        else:
            made.append(line)
        number += 1
    return made


def files():
    for at, folders, names in os.walk("crates"):
        folders[:] = sorted(it for it in folders if it != "out")
        yield from (f"{at}/{name}" for name in sorted(names) if name.endswith((".rt", ".antt")))


def main(is_writing):
    found = 0
    for path in files():
        with open(path, encoding="utf-8") as it:
            lines = it.read().split("\n")
        made = laid_out(lines, path.endswith(".rt"))
        if made == lines:
            continue
        if is_writing:
            with open(path, "w", encoding="utf-8") as it:
                it.write("\n".join(made))
        else:
            found += 1
            for number, line in enumerate(lines):
                if len(line) > WIDTH and len(made) != len(lines):
                    print(f"{path}:{number + 1}: {len(line)} columns")
    return 1 if found else 0


if __name__ == "__main__":
    sys.exit(main("--write" in sys.argv[1:]))
