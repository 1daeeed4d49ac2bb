#!/usr/bin/env python3
"""Holds the pages against the tree: each path that one names exists, each section that it names stands in that page, and each numbered record
of docs/DECISIONS.md.

    tests/links.py

A path is written from the top, from the page's folder, or, as `specs/Scan`, in the page's crate or in one that the paragraph or the last one
names. A word in capitals (`X`, `NAME`) stands for any. Tells each that stands nowhere, and ends with 1 where there is one; its last line tells
how many there were."""
import re
import sys
from pathlib import Path

TOP = Path(__file__).resolve().parents[1]
FOLDERS = "bench bindings crates docs examples proofs specs src stores tests hostile embed must-fail uses run peers results".split()
PATH = re.compile(r"(?<![\w./~$<-])((?:%s)/[\w.+*/-]*\w)" % "|".join(FOLDERS))
PAGE = re.compile(r"(?<![\w/])((?:docs/)?[A-Z]+\.md)\b")
SECTION = re.compile(r"(?<![\w/])((?:docs/)?[A-Z]+\.md), '((?:[^']|'(?= ))+)'")
RECORD = re.compile(r"DECISIONS\.md, (\d+)((?:(?:,| and) \d+)*)")
MADE = re.compile(r"(^|/)out(/|$)|(^|/)[A-Z]+([./]|$)|__")


def pages():
    return [*TOP.glob("*.md"), *(TOP / "docs").glob("*.md"), *(TOP / "tests").glob("*.md"), TOP / "bench/README.md", *TOP.glob("crates/*/README.md"),
            *TOP.glob("bindings/**/*.md"), *TOP.glob("examples/**/*.md")]


def stands(path, page, words, crates):
    """Whether a path that a page names exists, beside these words."""
    places = [TOP, page.parent, *(TOP / folder for folder in ("docs", "tests", "bench", "examples"))]
    places += [TOP / "crates" / crate for crate in crates if re.search(rf"\b{crate}\b", words)]
    paths = [path, re.sub("^examples/", "examples/embed/", path)]  # as `./sideways library` puts them
    return any(any(place.glob(f"{path}{end}")) for path in paths for place in places for end in ("", ".antt", ".rt"))


def sections(page):
    """The names of a page's sections, and its words in bold at the front of a paragraph."""
    text = page.read_text(encoding="utf-8")
    return set(re.findall(r"(?m)^#+ (.+)$", text)) | {word.rstrip(".:") for word in re.findall(r"(?m)^(?:- |\d+\. )?\*\*([^*]+)\*\*", text)}


def main():
    crates = sorted(p.name for p in (TOP / "crates").iterdir())
    records = set(re.findall(r"(?m)^\*\*(\d+)\. ", (TOP / "docs/DECISIONS.md").read_text(encoding="utf-8")))
    many, lost = 0, 0
    for page in sorted(set(pages())):
        paragraphs = [" ".join(it.split()) for it in re.split(r"\n\s*\n", page.read_text(encoding="utf-8"))]
        for joined, last in zip(paragraphs, ["", *paragraphs]):
            found = [(path, MADE.search(path) or stands(path, page, last + joined, crates)) for path in PATH.findall(joined)]
            found += [(name, stands(name, page, joined, crates)) for name in PAGE.findall(joined)]
            for name, section in SECTION.findall(joined):
                there = [p for p in (TOP / name, TOP / "docs" / name, page.parent / name) if p.exists()]
                found.append((f"{name}, '{section}'", there and section in sections(there[0])))
            for first, rest in RECORD.findall(joined):
                found += [(f"DECISIONS.md, {number}", number in records) for number in [first, *re.findall(r"\d+", rest)]]
            many += len(found)
            for name, is_there in found:
                if not is_there:
                    lost += 1
                    print(f"links: {page.relative_to(TOP)} names {name}")
    print(f"links: {many} names, {lost} stand nowhere")
    return 1 if lost or not many else 0


if __name__ == "__main__":
    sys.exit(main())
