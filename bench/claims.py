#!/usr/bin/env python3
"""Writes docs/CLAIMS.md: each theorem clause by clause, and each definition that it rests on, counted, by its file and line. Files stand in
the order in which one would read them. The words of a clause are the comment that stands above it in specs/; those of a function's clauses,
which have none, and of a theorem that is no record, stand below. The words of a definition are the comment above it in its file.

    bench/claims.py [--check]

With --check it writes nothing, and ends with 1 where the page is not what it would write."""
import re
import sys
import textwrap
from pathlib import Path

TOP = Path(__file__).resolve().parents[1]
PAGE = TOP / "docs/CLAIMS.md"
WORD = re.compile(r"[A-Za-z][\w'-]*|>>=")
USE = re.compile(r"use Rattle\.(\w+)\.specs\.([\w.]+)(?:\.\{([^}]*)\}| as (\w+))")
HEAD = re.compile(r"(?:abbrev |unfoldable |pub |record |data )*◌?([A-Za-z][\w'-]*|>>=)")

HEADING = [
    "# Claims",
    "",
    "What is proved, clause by clause, and every definition that has to be believed for it, as `NAME`:LINE; its words stand there. Made by"
    " bench/claims.py. Files stand in reading order, each definition once. Not listed are types and constants of the"
    " code (`sw_query.specs.declared.query.Call` is `Call` of crates/sw_query/src/query.rt), and std's own words"
    " (`length`, `All`, `IfOk`, `Result` ..), which are the toolchain's.",
]

# Each theorem that is a definition: its name on the page, the crate and file of specs/ where it stands, and its words, where it is no
# record whose fields have them.
THEOREMS = [
    ("The headline", "What `Engine::close` answers with `Ok`, its clause `headline`. A history may keep a reply as its lines, for which alone the"
     " definitions of sw_lang are; by `given` this one does not. What a ticket shows, clauses `mine` and `err` of `Session::call`"
     " say.", "sw_engine", "Headline", "IsHistoryOfOneThread", []),
    ("A run of the program", "What `sw_cli::run` answers, its clause is `RunsBy`.", "sw_cli", "Answers", "RunAnswers", []),
    ("The check of a history file", "What `check_file` writes and answers, its one clause.", "sw_histories", "FileChecks", "ChecksFile", [
        "`Ok status`: the bytes are a history, and its verdict was written: `legal` and the number of entries, status 0, where it is legal;"
        " else status 1 and the first entry that does not agree with the plain table",
        "`NoMemory`: nothing was written",
        "`Output`: the bytes are a history, the sink failed, and a beginning of its verdict was written",
        "another refusal: it is the first fault of the bytes, and nothing was written",
    ]),
]

# The words by which a clause says a theorem of the values of its function.
SAID = {"RunAnswers": ["RunsBy"]}

# Each theorem that is the clauses of a function: its name on the page, the crate and file of src/, the function, and the words of each clause.
CALLS = [
    ("The answer of an area", "sw_set", "prepare.rt", "answer", {
        "answered": "the reply is the plain scan of the rows that the area stands for",
        "same": "whatever came, the area stands for the same rows, of the same attribute and interval",
        "told": "a refusal that is told beside the reply is one that preparing may have; with none the area stands as preparing leaves it",
        "by_map": "the budget's refusal that is told is what a map told of a begin or growth that it was refused",
        "refused": "the only refusal is for want of memory",
        "left": "after it the tape is as it was, or longer by the range that was asked, after a restart where it was full",
    }),
    ("The answer of a head", "sw_chunks", "head.rt", "answer", {
        "answered": "the reply is the plain scan of the rows that are left of all that the head was opened with and received",
        "same": "the head stands for the same updates, attribute and cuts",
        "areas": "each area stands for the same rows, and has as many boxes",
        "kept": "areas that the query does not touch are as they were, but for what their boxes hold",
        "ranged": "where it tells that no area scanned, the query's bounds stand in ranges of each touched area's tape",
        "few": "it tells no more areas that scanned than the query touches",
        "refused": "the only refusal is for want of memory",
    }),
    ("The answer of a viewer", "sw_engine", "viewing.rt", "answer", {
        "answered": "the reply is the plain table's after the opening rows and the list of updates that it then has seen",
        "seen": "that list begins with the list that it had seen before, batch by batch",
        "told": "it begins with every list that it was told of",
        "same": "what it was told stands",
        "came": "where it is answered, the count of times that it could not come to the copies stands",
        "refused": "after a refusal it has seen and was told what it had; it is refused `TooMany` only where it could not come, and counts that",
    }),
]


class Specs:
    """A file of specs/: what it takes from other files, and its definitions."""

    def __init__(self, path):
        self.taken, self.under, self.found = {}, {}, {}
        comment, name = [], None
        for at, line in enumerate(path.read_text().splitlines(), 1):
            if match := USE.match(line):
                self.take(match)
            if line.startswith("--"):
                comment, name = comment + [line[2:].strip()], None
            elif not line or line.startswith(("use ", "mod ", "pub mod ", "infix")):
                comment, name = [], None
            elif line[0].isspace() or line[0] == "(":
                if name:
                    self.found[name].lines.append(line)
            elif match := HEAD.match(line):
                name = match.group(1)
                self.found.setdefault(name, Found(path, at, comment)).lines.append(line)
                comment = []

    def take(self, match):
        crate, place, names, other = match.groups()
        for name in (names or "").split(","):
            self.taken[name.strip("◌ ")] = (crate, place)
        if other:
            self.under[other] = (crate, place)


class Found:
    """A definition: where it stands, the words above it, its lines."""

    def __init__(self, path, at, comment):
        self.path, self.at, self.comment, self.lines = path.relative_to(TOP), at, comment, []

    def text(self):
        return "\n".join(re.sub(r"--.*", "", line) for line in self.lines)


FILES = {}


def specs(crate, place):
    path = TOP / "crates" / crate / "specs" / (place.replace(".", "/") + ".antt")
    if path not in FILES:
        FILES[path] = Specs(path) if path.is_file() else None
    return FILES[path]


def within(crate, place, text):
    """What a text of a file names: definitions of its own, then of others, and types of the code."""
    file = specs(crate, place)
    for word in dict.fromkeys(WORD.findall(text)):
        if word in file.found:
            yield crate, place, word
        elif word in file.taken:
            yield (*file.taken[word], word)
    for other, word in dict.fromkeys(re.findall(r"\b(\w+)\.(\w+)", text)):
        if other in file.under:
            yield (*file.under[other], word)


def closure(first):
    """All that these names rest on, each once, those that are named first before those that these name; and what they name of the
    toolchain's crates, by crate."""
    queue, seen, others = list(first), {}, {}
    while queue:
        key = queue.pop(0)
        crate, place, name = key
        file = specs(crate, place)
        if file and name in file.found and key not in seen:
            seen[key] = file.found[name]
            queue += (it for it in within(crate, place, file.found[name].text()) if it != key)
        elif not file and crate != "std" and not place.startswith("declared."):
            others.setdefault(crate, set()).add(name)
    return seen, others


def fields(found):
    """The clauses of a record: the names of fields that stand together, and the words above them."""
    comment, told = [], []
    for line in found.lines[1:]:
        text = line.strip()
        if text.startswith("--"):
            comment.append(text[2:].strip())
        elif match := re.match(r"pub (\w+) :", text):
            if comment or not told:
                told.append(([], " ".join(comment)))
            told[-1][0].append(match.group(1))
            comment = []
    return told


def rests_on(page, first, above):
    """What these names rest on, and of it what does not stand above, by files; that stands above from then on."""
    seen, others = closure(first)
    new = [key for key in seen if key not in above]
    rest = f", of which {len(seen) - len(new)} stand above" if above else ""
    lines = sum(len(it.lines) for it in seen.values())
    page += ["", f"It rests on {len(seen)} definitions, {lines} lines{rest}:", ""]
    for path in dict.fromkeys(seen[key].path for key in new):
        stand = sorted((seen[key].at, key[2]) for key in new if seen[key].path == path)
        page.append(f"- {path}: " + ", ".join(f"`{name}`:{at}" for at, name in stand))
    further = {crate: sorted(names - above.get(crate, set())) for crate, names in sorted(others.items())}
    words = [f"{crate} " + ", ".join(f"`{name}`" for name in names) for crate, names in further.items() if names]
    if words:
        page += ["", f"and, of the toolchain's crates, {'; '.join(words)}."]
    above.update(seen)
    for crate, names in others.items():
        above.setdefault(crate, set()).update(names)


def clauses(crate, file, name):
    """The clauses of a public function, with their text, and what its file takes from specs."""
    text = (TOP / "crates" / crate / "src" / file).read_text()
    body = text[text.index(f"pub fn {name}"):]
    found = re.findall(r"^ +ensures (\w+) \{(.*?)\}\n", body[: body.index("\n    {\n")] + "\n", re.M | re.S)
    taken = {}
    for match in re.finditer(r"ghost use Rattle\.(\w+)\.specs\.([\w.]+)\.\{([^}]*)\}", text):
        for it in match.group(3).split(","):
            taken[it.strip()] = (match.group(1), match.group(2))
    return found, taken


def wrapped(line):
    """A line in lines of the width of the other pages."""
    return textwrap.wrap(line, 150, subsequent_indent="  " if line.startswith("- ") else "", break_long_words=False, break_on_hyphens=False) or [line]


def write():
    page, above = list(HEADING), {}
    for title, told, crate, place, name, cases in THEOREMS:
        found = specs(crate, place).found[name]
        page += ["", f"## {title}", "", f"{told} `{name}` ({found.path}:{found.at}):", ""]
        page += [f"- {words}" for words in cases] or [f"- {', '.join(f'`{it}`' for it in names)}: {words}" for names, words in fields(found)]
        rests_on(page, [(crate, place, it) for it in (name, *SAID.get(name, []))], above)
    for title, crate, file, name, words in CALLS:
        found, taken = clauses(crate, file, name)
        page += ["", f"## {title}", "", f"Clauses of `{name}` (crates/{crate}/src/{file}):", ""]
        lacking = {clause for clause, _ in found} ^ set(words)
        if lacking:
            sys.exit(f"claims.py: {crate}/src/{file}: no words, or no clause, for {', '.join(sorted(lacking))}")
        page += [f"- `{clause}`: {words[clause]}" for clause, _ in found]
        rests_on(page, [(*taken[it], it) for _, text in found for it in dict.fromkeys(WORD.findall(text)) if it in taken], above)
    page = [part for line in page for part in wrapped(line)]
    return "\n".join(page) + "\n"


def main():
    page = write()
    if "--check" not in sys.argv[1:]:
        PAGE.write_text(page)
    elif not PAGE.is_file() or PAGE.read_text() != page:
        sys.exit("claims.py: docs/CLAIMS.md is not what the definitions say: run bench/claims.py")


if __name__ == "__main__":
    main()
