#!/usr/bin/env python3
"""Wraps lines of more than 100 columns in .rt and .antt files.

    docs/wrap.py FILES

Imports become several, comments are filled again, and a signature, an equation or a clause is broken
at the outermost place that is far enough to the right. What can't be broken so is listed. Nothing but
blanks and line ends changes, so that proofs stay; run 'rt fmt' behind it, and see that the must-fail
edits still find their lines.
"""
import re
import sys

WIDTH = 100
BEFORE = ("&&", "++", "×", "↔", "∷", "then", "else", "≡", "||", "⊎", "|", "+")
OPEN, CLOSE = "([{⟨", ")]}⟩"


def preference(line, at, depth):
    """How unwelcome a break at a blank is: the less the better."""
    after = line[at + 1:].split(" ", 1)[0]
    before = line[:at].rsplit(" ", 1)[-1]
    if after in BEFORE:
        return 0
    if before == "=" and depth > 0:
        return 3
    if before.endswith(";"):
        return -1
    if before in ("→", "=", ",") or before.endswith(","):
        return 0
    if after in ("→", ")", ";", ",", "=") or before in BEFORE:
        return None
    return 1 if after.startswith("(") else 2


def places(line, start):
    """The blanks at which a line may be broken: place, depth and preference."""
    depth, quoted = 0, False
    for at, sign in enumerate(line):
        quoted ^= sign == '"'
        if quoted:
            continue
        depth += (sign in OPEN) - (sign in CLOSE)
        if sign == " " and start < at <= WIDTH:
            found = preference(line, at, depth)
            if found is not None:
                yield at, depth, found


def broken(line, indent):
    """The pieces of a line, those behind the first one set in."""
    lead, pieces = len(line) - len(line.lstrip()), []
    while len(line) > WIDTH:
        start = len(line) - len(line.lstrip()) + 8
        found = list(places(line, start))
        if not found:
            return None
        at = min(found, key=lambda p: p[1] + p[2] * 0.7 - p[0] / WIDTH * 1.2)[0]
        pieces.append(line[:at].rstrip())
        line = " " * (lead + indent) + line[at + 1:].lstrip()
    return pieces + [line]


def filled(line, mark):
    """A comment filled again."""
    lead = " " * (len(line) - len(line.lstrip())) + mark
    pieces = [lead]
    for word in line.strip()[len(mark):].split():
        if len(pieces[-1]) + 1 + len(word) > WIDTH:
            pieces.append(lead)
        pieces[-1] += " " + word
    return pieces


def imports(line, end):
    """An import cut into several."""
    found = re.match(r"^(\s*(?:ghost )?(?:pub )?use [^{]*\.)\{(.*)\}" + end + "$", line)
    if not found:
        return None
    head, rows = found.group(1), [[]]
    for name in found.group(2).split(","):
        if len(head + "{" + ", ".join(rows[-1] + [name.strip()]) + "}" + end) > WIDTH:
            rows.append([])
        rows[-1].append(name.strip())
    return [head + "{" + ", ".join(row) + "}" + end for row in rows]


def equation(line):
    """A definition broken behind its sign of equality, or else as it comes."""
    depth = 0
    for at, sign in enumerate(line[:WIDTH - 2]):
        depth += (sign in OPEN) - (sign in CLOSE)
        if depth == 0 and line[at:at + 3] == " = ":
            rest = " " * (len(line) - len(line.lstrip()) + 4) + line[at + 3:].lstrip()
            behind = [rest] if len(rest) <= WIDTH else broken(rest, 0)
            return [line[:at + 2]] + (behind or [rest])
    return broken(line, 4)


def wrapped(line, rust):
    """The lines that a long line becomes, or nothing where it stays."""
    words = line.strip()
    if re.match(r"(ghost |pub )?use ", words):
        return imports(line, ";" if rust else "")
    mark = re.match(r"///|//!|//" if rust else r"--", words)
    if mark:
        return filled(line, mark.group())
    if not rust:
        return equation(line)
    return broken(line, 4) if re.match(r"ensures|requires|[≡×(λ→↔]", words) else None


for path in sys.argv[1:]:
    lines = open(path, encoding="utf8").read().split("\n")
    new = []
    for number, line in enumerate(lines, 1):
        pieces = [line] if len(line) <= WIDTH else wrapped(line, path.endswith(".rt"))
        if pieces is None:
            print(f"{path}:{number}: stays at {len(line)} columns")
        new += pieces or [line]
    if new != lines:
        open(path, "w", encoding="utf8").write("\n".join(new))
