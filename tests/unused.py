#!/usr/bin/env python3
"""Names that a file of crates/ imports for its clauses, or a page of specs/ or proofs/ for its text, and does not use.

    tests/unused.py             tells each, a line each; status 1 where there is one
    tests/unused.py --remove    takes them out of their files"""
import re
import sys
from pathlib import Path

TOP = Path(__file__).resolve().parents[1]
IMPORT = re.compile(r"(?m)^([ ]*)((?:ghost )?use [\w.]+)\.\{([^}]*)\}(;?)\n")
TEXT = re.compile(r'"(?:[^"\\\n]|\\.)*"')
COMMENT = re.compile(r"(?<!\S)--.*")
CLAUSE = re.compile(r"\b(?:requires|ensures|invariant|decreases|keeps|ghost(?! use))\b")


def block_end(text, at):
    """Behind the brace that closes the one at this place."""
    depth = 0
    for i in range(at, len(text)):
        depth += {"{": 1, "}": -1}.get(text[i], 0)
        if depth == 0:
            return i + 1
    return len(text)


def clauses_of(text):
    """The clauses of a source file, without its code."""
    found = []
    for keyword in CLAUSE.finditer(text):
        at = text.find("{", keyword.end())
        while at >= 0:
            end = block_end(text, at)
            found.append(text[at:end])
            more = re.compile(r"\s*(?:=|by)\s*\{").match(text, end)
            at = more.end() - 1 if more else -1
    return "\n".join(found)


def body_of(page):
    """What of a page can use a name."""
    text = page.read_text(encoding="utf-8")
    if page.suffix == ".rt":
        return clauses_of(re.sub(r"//.*", "", TEXT.sub('""', text)))
    return IMPORT.sub("", COMMENT.sub("", TEXT.sub('""', text)) + "\n")


def is_used(name, body):
    name = name.split(" as ")[-1].strip()
    if name == "[]":
        return re.search(r"\[[^\]]*\]", body) is not None
    parts = [part for part in name.split("◌") if part]
    if "◌" in name:
        return all(part in body for part in parts)
    return re.search(rf"(?<![\w.]){re.escape(name)}(?![\w'])", body) is not None


def names_of(list_):
    return [name.strip() for name in list_.split(",") if name.strip()]


def unused(page):
    """The unused names of each import of a page, by the import's text."""
    text, body = page.read_text(encoding="utf-8"), body_of(page)
    found = {}
    for it in IMPORT.finditer(text):
        if page.suffix == ".rt" and not it.group(2).startswith("ghost"):
            continue
        names = [name for name in names_of(it.group(3)) if not is_used(name, body)]
        if names:
            found[it.group(0)] = names
    return found


def without(line, names):
    """An import without these names; nothing where none is left."""
    it = IMPORT.match(line)
    left = [name for name in names_of(it.group(3)) if name not in names]
    return f"{it.group(1)}{it.group(2)}.{{{', '.join(left)}}}{it.group(4)}\n" if left else ""


def remove(page, found):
    text = page.read_text(encoding="utf-8")
    for line, names in found.items():
        text = text.replace(line, without(line, names), 1)
    page.write_text(text, encoding="utf-8")


def main():
    many, pages = 0, 0
    for page in sorted(TOP.glob("crates/*/*/**/*")):
        if page.suffix not in (".rt", ".antt") or "out" in page.relative_to(TOP).parts:
            continue
        pages += 1
        found = unused(page)
        for line, names in found.items():
            many += len(names)
            print(f"unused: {page.relative_to(TOP)}: {', '.join(names)}")
        if "--remove" in sys.argv[1:]:
            remove(page, found)
    print(f"unused: {pages} pages, {many} names that are imported and not used")
    return 1 if many or not pages else 0


if __name__ == "__main__":
    sys.exit(main())
