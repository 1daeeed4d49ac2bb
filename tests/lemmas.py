#!/usr/bin/env python3
"""Tells each public lemma, and definition beside lemmas, with no line above it that says what for.

    tests/lemmas.py [CRATE..]

What stands in a module counts too. A page that names goals has answers to them, which are no lemmas, and a record's fields are none. A line
for each, with its file and line; status 1 where there is one."""
import re
import sys
from pathlib import Path

TOP = Path(__file__).resolve().parents[1]
LEMMA = re.compile(r"(?:abbrev |unfoldable )?pub (\S+) :")
RECORD = re.compile(r"(?:abbrev |pub )*record [^{]")
ANSWER = re.compile(r"^use .*\.(?:Goals|Given) as goal\b", re.M)


def lemmas(text):
    """Each lemma of a page: its line, its name, and whether a line stands above it."""
    lines = ["", *text.splitlines()]
    around = []
    for number, line in enumerate(lines):
        code = line.lstrip()
        if not code or code.startswith("--"):
            continue
        indent = len(line) - len(code)
        while around and around[-1][0] >= indent:
            around.pop()
        in_record = bool(around) and around[-1][1]
        if (found := LEMMA.match(code)) and not in_record:
            yield number, found[1], lines[number - 1].lstrip().startswith("-- ")
        around.append((indent, bool(RECORD.match(code))))


def main():
    names = sys.argv[1:] or sorted(p.name for p in (TOP / "crates").iterdir())
    many, bare = 0, 0
    for page in (page for name in names for page in sorted((TOP / "crates" / name / "proofs").rglob("*.antt"))):
        text, path = page.read_text(encoding="utf-8"), page.relative_to(TOP)
        for line, name, is_told in [] if ANSWER.search(text) or "out" in path.parts else lemmas(text):
            many, bare = many + 1, bare + (not is_told)
            if not is_told:
                print(f"lemmas: {path}:{line} tells nothing above {name}")
    print(f"lemmas: {many}, with no line above {bare}")
    return 1 if bare or not many else 0


if __name__ == "__main__":
    sys.exit(main())
