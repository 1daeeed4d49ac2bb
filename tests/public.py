#!/usr/bin/env python3
"""Lists the public items of the crates that no other crate names, nor a page for callers.

    tests/public.py [CRATE..]

An item is public where a crate's src/lib.rt hands it out. A line for each that only its own crate names, but laws and modules of laws,
which are there to be read, and types of which a public signature or field speaks. Status 0 always: what stands for callers outside may stay."""
import re
import sys
from pathlib import Path

TOP = Path(__file__).resolve().parents[1]
PAGES = ["README.md", "docs/EMBEDDING.md", "docs/CONTRIBUTING.md"]
ITEM = re.compile(r"^pub (?:const |unsafe )*(?:fn|struct|enum|trait|type|const|static|mod) (\w+)", re.M)
LAW = re.compile(r"^pub fn (\w+)[^{]*?\n(?:    (?:requires|ensures)\b[^\n]*\n(?: {8}[^\n]*\n)*)+\{\}", re.M)
FUNCTION = re.compile(r"^pub fn (\w+)", re.M)
SAID = re.compile(r"^ *pub (?:fn [^{;]*?[{;]|\w+: [^\n]*|(?:struct|enum|trait|type) [^\n]*)", re.M)
VARIANT = re.compile(r"^    [A-Z]\w*(?:\([^\n]*\)|\s*\{[^}]*\}),", re.M)
GHOST = re.compile(r"^use Rattle\.(\w+\.specs\.declared[^\n]*)", re.M)
USED = re.compile(r"^pub use ([^;]+);", re.M)


def words(text):
    return set(re.findall(r"\w+", re.sub(r"//[^\n]*", "", text)))


def handed_out(text):
    """The names that a src/lib.rt hands out."""
    names = set(ITEM.findall(text))
    for path in USED.findall(text):
        last = path[path.index("{") + 1 : path.rindex("}")] if "{" in path else path.split("::")[-1]
        names |= {it.split(" as ")[-1].strip() for it in last.split(",") if it.strip()}
    return names


def spoken_of(folder):
    """The names of laws and of modules of laws, and those of which public signatures and fields speak."""
    names = set()
    for page in folder.rglob("src/**/*.rt"):
        text = page.read_text(encoding="utf-8")
        laws = set(LAW.findall(text))
        names |= laws
        if laws and laws == set(FUNCTION.findall(text)):
            names.add(page.stem)
        for said in [*SAID.findall(text), *VARIANT.findall(text)]:
            head = re.split(r"\n +(?:requires|ensures)\b", said)[0]
            names |= set(re.findall(r"\w+", re.sub(r"^ *pub (?:fn|struct|enum|trait|type) \w+", "", head)))
    return names


def main():
    crates = {p.name: p for p in sorted((TOP / "crates").iterdir()) if (p / "src/lib.rt").exists() or (p / "src/main.rt").exists()}
    used = {}
    for name, folder in crates.items():
        used[name] = set()
        for page in [*folder.rglob("src/**/*.rt"), *folder.rglob("tests/**/*.rt"), *folder.rglob("uses/**/*.rt")]:
            used[name] |= words(page.read_text(encoding="utf-8"))
        for page in [*folder.rglob("specs/**/*.antt"), *folder.rglob("proofs/**/*.antt")]:
            for line in GHOST.findall(page.read_text(encoding="utf-8")):
                used[name] |= words(line)
    shown = set()
    for page in PAGES:
        if (TOP / page).exists():
            shown |= words((TOP / page).read_text(encoding="utf-8"))
    many = 0
    for name in sys.argv[1:] or crates:
        lib = crates[name] / "src/lib.rt"
        if not lib.exists():
            continue
        own = words((crates[name] / "README.md").read_text(encoding="utf-8"))
        for item in sorted(handed_out(lib.read_text(encoding="utf-8")) - spoken_of(crates[name])):
            if item not in shown | own and not any(item in used[other] for other in crates if other != name):
                many += 1
                print(f"public: {name}: {item}")
    print(f"public: {many} are named by their own crate alone")


if __name__ == "__main__":
    main()
