#!/usr/bin/env python3
"""Tells each clause of a source that has more than 120 characters when its lines are joined.

    tests/clauses.py [CRATE..]

A line for each, with its file, line and length; status 1 where there is one."""
import re
import sys
from pathlib import Path

TOP = Path(__file__).resolve().parents[1]
MOST = 120
CLAUSE = re.compile(r"^[ \t]*(?:requires|ensures)\b[^{\n]*\{", re.M)


def clauses(text):
    """Each clause of a source: its line, and its text on one line."""
    for found in CLAUSE.finditer(text):
        depth, end = 1, found.end()
        while depth:
            depth += {"{": 1, "}": -1}.get(text[end], 0)
            end += 1
        yield text.count("\n", 0, found.start()) + 1, " ".join(text[found.start() : end].split())


def main():
    names = sys.argv[1:] or sorted(p.name for p in (TOP / "crates").iterdir())
    many, long = 0, 0
    for name in names:
        for page in sorted((TOP / "crates" / name / "src").rglob("*.rt")):
            for line, clause in clauses(page.read_text(encoding="utf-8")):
                many += 1
                if len(clause) > MOST:
                    long += 1
                    print(f"clauses: {page.relative_to(TOP)}:{line} has {len(clause)}")
    print(f"clauses: {many}, of more than {MOST} characters {long}")
    return 1 if long else 0


if __name__ == "__main__":
    sys.exit(main())
