#!/usr/bin/env python3
"""A record of far too many fields is refused before it is held in memory field by field: a header and a row of commas, plain and
with quotes, and behind other rows, take at most twice the file. Ends with 1 at the first that takes more, or is told otherwise.

    python3 tests/long_records.py PROGRAM
"""
import os, subprocess, sys, tempfile
from pathlib import Path

SIZE = 64 * 2**20
MOST_TIMES = 2.0

PIECE = 2**20
COMMAS = (b"," * PIECE, SIZE // PIECE)
QUOTED = (b'"\n",' * (PIECE // 4), SIZE // PIECE)
ROWS = (b"1,2,3\n", 1000)
# A table by its pieces, each with how often it stands there, and the refusal. No table stands in this process's memory, since what that has
# counts for a child that it starts.
CASES = {
    "a header of commas": ([COMMAS], "refused 5 limit 8"),
    "a header of quoted fields": ([QUOTED], "refused 5 limit 8"),
    "a row of commas": ([(b"a,b,c\n", 1), COMMAS], "refused 2 record 1 field 4"),
    "a row of commas behind others": ([(b"a,b,c\n", 1), ROWS, COMMAS], "refused 2 record 1001 field 4"),
    "a row of quoted fields": ([(b"a,b,c\n", 1), ROWS, QUOTED], "refused 2 record 1001 field 4"),
    "a row of commas behind texts": ([(b'a:text,b,c\n"x, y",2,3\nz', 1), COMMAS], "refused 2 record 2 field 4"),
}


def written(path, pieces):
    with open(path, "wb") as file:
        for piece, times in pieces:
            for _ in range(times):
                file.write(piece)


def ran(program, folder):
    """The status of a run, its first line and the most memory that it had, in bytes."""
    words = [program, "run", "--table", "t.csv", "--script", "s.txt"]
    child = subprocess.Popen(words, cwd=folder, stdout=subprocess.DEVNULL, stderr=subprocess.PIPE)
    line = child.stderr.read().decode().split("\n")[0]
    _, status, used = os.wait4(child.pid, 0)
    return os.waitstatus_to_exitcode(status), line, used.ru_maxrss * 1024


def main():
    program = str(Path(sys.argv[1]).resolve())
    with tempfile.TemporaryDirectory() as home:
        folder = Path(home)
        (folder / "s.txt").write_bytes(b"count\n")
        for name, (pieces, refusal) in CASES.items():
            written(folder / "t.csv", pieces)
            status, line, used = ran(program, folder)
            times = used / (folder / "t.csv").stat().st_size
            print(f"{name}: {line}, {times:.2f} times the file")
            if (status, line) != (2, "sideways: " + refusal) or times > MOST_TIMES:
                sys.exit(1)


if __name__ == "__main__":
    main()
