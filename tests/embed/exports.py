#!/usr/bin/env python3
"""Holds the headers of the library against its files: each function that they declare is exported by the shared and the static library,
nothing else is by the shared one, and each code has words of its own.

    tests/embed/exports.py FOLDER          what `./sideways library` made

Ends with 1 at the first that is wrong."""

import ctypes
import os
import re
import subprocess
import sys

OUTSIDE = {"rattle_alloc", "rattle_realloc", "rattle_dealloc"}


def declared(folder):
    names = set()
    for header in ("sideways.h", "sideways_codes.h", "sideways_locked.h"):
        with open(os.path.join(folder, header), encoding="utf-8") as file:
            text = re.sub(r"/\*.*?\*/", "", file.read(), flags=re.DOTALL)
        names |= set(re.findall(r"\b(sideways_[a-z0-9_]+)\(", text))
    return names


def defined(words):
    out = subprocess.run(["nm", *words], check=True, capture_output=True, text=True).stdout
    return set(re.findall(r" T (\S+)", out))


def same(what, wanted, found):
    if wanted != found:
        sys.exit(f"exports: WRONG: {what}: lacking {sorted(wanted - found)}, beside them {sorted(found - wanted)}")


def main():
    folder = sys.argv[1]
    wanted = declared(folder)
    shared = os.path.join(folder, "libsideways.so")
    same("the shared library", wanted, defined(["-D", "--defined-only", shared]))
    static = {name for name in defined(["--defined-only", os.path.join(folder, "libsideways.a")]) if name.startswith("sideways_")}
    same("the static library", wanted, static)
    code_text = ctypes.CDLL(shared).sideways_code_text
    code_text.restype = ctypes.c_char_p
    with open(os.path.join(folder, "sideways.h"), encoding="utf-8") as file:
        codes = {int(code) for code in re.findall(r"SIDEWAYS_[A-Z_]+ = (\d+),? +/\*", file.read())} | set(range(15))
    words = {code: code_text(code) for code in codes}
    if len(codes) < 20 or len(set(words.values())) != len(codes) or code_text(max(codes) + 1) in words.values():
        sys.exit(f"exports: WRONG: codes with the same words, or with none: {words}")
    print(f"exports: all passed, {len(wanted)} functions, {len(codes)} codes")


if __name__ == "__main__":
    main()
