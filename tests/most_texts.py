#!/usr/bin/env python3
"""As many texts as there may be, and one more: in a table, and in a script over a table that has nearly all of them. Ends with 1 at the
first case that is told otherwise.

    python3 tests/most_texts.py PROGRAM
"""
import subprocess, sys, tempfile
from pathlib import Path

MOST = 1048576
TOO_MANY = (2, "", "sideways: refused 5 limit 1048576")
# Distinct texts of the table, two a row; the script; the status, what goes out, and the first line of standard error.
CASES = {
    "all of them in a table": (MOST, "count where a = 't0'\ncount where b = 't1'\ncount\n", (0, "1\n1\n524288\n", "")),
    "one more in a table": (MOST + 1, "count\n", TOO_MANY),
    "the last one in a script": (MOST - 1, "count where a = 'new'\ncount where b = 'new'\n", (0, "0\n0\n", "")),
    "one more in a script": (MOST - 1, "count where a = 'new'\ncount where b = 'newer'\n", TOO_MANY),
    "one more in an insert": (MOST, "insert 't0', 'new'\n", TOO_MANY),
    "one more behind a call": (MOST, "count\n---\ncount where a = 't0' and b = 'new'\n", TOO_MANY),
}


def table(texts):
    """A table of two columns, the cells of which have so many distinct texts; where they are odd, the last two cells are the same."""
    cells = ["t%d" % number for number in range(texts)] + ["t%d" % (texts - 1)] * (texts % 2)
    return "a:text,b:text\n" + "".join("%s,%s\n" % pair for pair in zip(cells[::2], cells[1::2]))


def main():
    program = str(Path(sys.argv[1]).resolve())
    with tempfile.TemporaryDirectory() as home:
        folder, held = Path(home), None
        for name, (texts, script, wanted) in CASES.items():
            if texts != held:
                (folder / "t.csv").write_text(table(texts))
                held = texts
            (folder / "s.txt").write_text(script)
            words = [program, "run", "--table", "t.csv", "--script", "s.txt"]
            done = subprocess.run(words, cwd=folder, capture_output=True, text=True)
            told = (done.returncode, done.stdout, done.stderr.split("\n")[0])
            print(f"{name}: {told}")
            if told != wanted:
                sys.exit(f"wanted {wanted}")


if __name__ == "__main__":
    main()
