#!/usr/bin/env python3
"""Holds docs/RULES.md against the definitions that it names: `[sw_query/Bounds: `is_left`]` has to be defined in crates/sw_query/specs/Bounds.antt.

    tests/rules.py

Tells each that stands nowhere, a line each; status 1 where there is one."""
import re
import sys
from pathlib import Path

TOP = Path(__file__).resolve().parents[1]
DEFINED = r"(?m)^\s*(?:(?:abbrev|unfoldable) )?pub (?:record |data )?{}(?!\S)"


def main():
    text = " ".join((TOP / "docs/RULES.md").read_text(encoding="utf-8").split())
    many, missing = 0, 0
    for crate, file, names in re.findall(r"(\w+)/(\w+): ((?:`[^`]+`(?:, )?)+)", text):
        page = TOP / "crates" / crate / "specs" / f"{file}.antt"
        words = page.read_text(encoding="utf-8") if page.exists() else ""
        for name in re.findall(r"`([^`]+)`", names):
            many += 1
            if not re.search(DEFINED.format(re.escape(name)), words):
                missing += 1
                print(f"rules: {crate}/{file} has no {name}")
    print(f"rules: {many} definitions, {missing} stand nowhere")
    return 1 if missing or not many else 0


if __name__ == "__main__":
    sys.exit(main())
