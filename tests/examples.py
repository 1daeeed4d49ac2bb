#!/usr/bin/env python3
"""Holds the callers' examples in the crates' READMEs against what is proved or run: each line of one, without its comment, has to stand in
a source or a program's input of some crate, or in a test, whatever its blanks.

    tests/examples.py

Tells each line that stands nowhere, and ends with 1 where there is one; its last line tells how many lines there are."""
import re
import sys
from pathlib import Path

TOP = Path(__file__).resolve().parents[1]
HEAD = "## A caller's example\n"


def without_blanks(text):
    return re.sub(r",(?=[)}])", "", re.sub(r"\s+", "", text))


def stands():
    """All that an example may be taken from, without blanks."""
    crates = [path for crate in (TOP / "crates").iterdir() for path in [*crate.glob("src/**/*.rt"), crate / "stdin", crate / "args"]]
    tests = [path for path in (TOP / "tests").rglob("*") if path.suffix in (".py", ".sh", ".c")]
    return without_blanks("\n".join(path.read_text() for path in crates + tests if path.is_file()))


def lines_of(readme):
    """The lines of code in a README's example."""
    text = readme.read_text()
    example = text[text.index(HEAD) + len(HEAD):].split("\n## ")[0]
    found = (re.sub(r" +(//.*|/\*.*\*/$)", "", line).strip() for line in example.splitlines() if line.startswith("    "))
    return [line for line in found if line]


def main():
    known, many, lost = stands(), 0, 0
    for readme in sorted((TOP / "crates").glob("*/README.md")):
        for line in lines_of(readme):
            many += 1
            if without_blanks(line) not in known:
                lost += 1
                print(f"{readme.relative_to(TOP)}: stands nowhere: {line}")
    print(f"examples: {many} lines, {lost} stand nowhere")
    return 1 if lost else 0


if __name__ == "__main__":
    sys.exit(main())
