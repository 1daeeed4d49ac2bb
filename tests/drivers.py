#!/usr/bin/env python3
"""Holds the drivers below bench/ that have a program of their own against the crates: each crate of a driver's list stands behind all that it
stands on itself (`crates.txt`), each that the program names is in the list, each name that it takes of one is handed out there, and each that a
proof takes is defined there.

    tests/drivers.py

It reads texts alone; whether the types fit, bench/build.sh tells. Tells each that does not stand, and ends with 1 where there is one; its last
line tells how many names there were."""
import re
import sys
from pathlib import Path

TOP = Path(__file__).resolve().parents[1]
BUILD = re.compile(r'^ *build (?:program|library) \S+ "([^"]+)" (.*)$', re.M)
AREA = re.compile(r'^area \S+ "\$here/([^"]+)"$', re.M)
TAKEN = re.compile(r"^use (\w+)::(?:\{([^}]*)\}|(\w+))", re.M)
PROOF = re.compile(r"^use Rattle\.(sw_\w+)\.specs\.([\w.]+)\.\{([^}]*)\}", re.M)
DEFINED = r"(?m)^\s*(?:(?:abbrev|unfoldable) )?pub (?:record |data )?{0}(?!\S)|^pub use .*[{{ ]{0}[,}}]"


def crates_below():
    """Of each crate of this tree those that it stands on."""
    lines = (line.split(":") for line in (TOP / "crates.txt").read_text().splitlines() if ":" in line and not line.startswith("#"))
    return {head.split()[0]: words.split() for head, words in lines}


def drivers():
    """Of each driver its script, its program and its list."""
    shared = BUILD.search((TOP / "bench/proved.sh").read_text().replace("\\\n", " "))[2].split()
    for script in sorted((TOP / "bench").glob("*/*.sh")):
        text = script.read_text().replace("\\\n", " ")
        for source, crates in BUILD.findall(text):
            yield script, script.parent / source.split("/")[-1], crates.split()
        for source in AREA.findall(text):
            yield script, script.parent / source, shared


def handed_out(crate):
    """The names that stand in what a crate hands out."""
    text = (TOP / "crates" / crate / "src/lib.rt").read_text()
    return set(re.findall(r"\w+", " ".join(re.findall(r"pub (?:use|fn|struct|enum|trait|const|type|mod) [^;({]*(?:\{[^}]*\})?", text))))


def faults_of(source, crates, below):
    """What does not stand of a driver's program and its list, and how many names it has."""
    faults, many = [], 0
    for i, crate in enumerate(crates):
        faults += [f"{crate} stands on {low}, which is not before it" for low in below.get(crate, []) if low in below and low not in crates[:i]]
    for crate, names, name in TAKEN.findall(source.read_text()):
        if crate == "std":
            continue
        if crate not in crates:
            faults.append(f"{crate} is not in its list")
        for word in re.findall(r"\w+", names or name) if crate in below else []:
            many += 1
            if word not in handed_out(crate):
                faults.append(f"{crate} hands out no {word}")
    return faults, many


def faults_of_proof(path):
    faults, many = [], 0
    for crate, file, names in PROOF.findall(path.read_text()):
        if file.startswith("declared."):
            continue
        page = TOP / "crates" / crate / "specs" / (file.replace(".", "/") + ".antt")
        text = page.read_text() if page.exists() else ""
        for name in re.split(r",\s*", names):
            many += 1
            if not re.search(DEFINED.format(re.escape(name)), text):
                faults.append(f"{crate}/{file} has no {name}")
    return faults, many


def main():
    below, many, found = crates_below(), 0, []
    for script, source, crates in drivers():
        faults, names = faults_of(source, crates, below)
        found += [f"{script.relative_to(TOP)}: {fault}" for fault in faults]
        many += names
    for path in sorted((TOP / "bench").glob("**/*.antt.txt")):
        faults, names = faults_of_proof(path)
        found += [f"{path.relative_to(TOP)}: {fault}" for fault in faults]
        many += names
    print("\n".join([f"drivers: {fault}" for fault in found] + [f"drivers: {many} names, {len(found)} do not stand"]))
    return 1 if found or not many else 0


if __name__ == "__main__":
    sys.exit(main())
