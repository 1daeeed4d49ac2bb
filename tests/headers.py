#!/usr/bin/env python3
"""`sideways run --header` beside Python's csv: over random values, with fields in quotes, line ends and doubled quotes in them, short and long
records, and over files that are given, a run under a header answers as it does over the table that Python makes of the columns that are kept.

    tests/headers.py [--program PATH] [FILE ..]

PATH is the built program, by default crates/sideways/out/sideways. A record with another number of fields than the header must be refused by its
number, and a cell that is none of its kind by its line in the file. Ends with 1 at the first difference."""
import argparse, csv, io, random, subprocess, sys, tempfile
from pathlib import Path

TOP = Path(__file__).resolve().parents[1]


class Files:
    def __init__(self, program, folder):
        self.program, self.folder = program, Path(folder)

    def run(self, data, words):
        (self.folder / "t.csv").write_bytes(data)
        done = subprocess.run([self.program, "run", "--table", "t.csv"] + words, cwd=self.folder, capture_output=True, timeout=60)
        return done.returncode, done.stdout, done.stderr.decode(errors="replace").splitlines()


def written(records):
    """Records as a text of comma-separated values, of which none is an empty line."""
    out = io.StringIO(newline="")
    writer = csv.writer(out, lineterminator="\n")
    for record in records:
        if record == [""]:
            out.write('""\n')
        else:
            writer.writerow(record)
    return out.getvalue().encode("latin-1")


def read(data):
    """The records of a text, and the line on which each ends. Python leaves a byte order mark in the first."""
    data = data[3:] if data.startswith(b"\xef\xbb\xbf") else data
    reader = csv.reader(io.StringIO(data.decode("latin-1"), newline=""))
    return [(record, reader.line_num) for record in reader if record]


def compare(files, data, header, told):
    """One file under one header. Answers whether it was taken."""
    words = header.split(",")
    kept = [place for place, word in enumerate(words) if word != "-"]
    names = [words[place].split(":")[0] for place in kept]
    calls = ["-e", "count", "-e", "select " + ", ".join(names)]
    got = files.run(data, ["--header", header] + calls)
    rows = [record for record, _ in read(data)[1:]]
    ragged = [number for number, row in enumerate(rows, 1) if len(row) != len(words)]
    upto = rows[: ragged[0] - 1] if ragged else rows
    table = written([[words[place] for place in kept]] + [[row[place] for place in kept] for row in upto])
    wanted = files.run(table, calls)
    if wanted[0] == 0 and ragged:
        if got[0] != 2 or got[1] or not got[2][0].startswith("sideways: refused 2 record %d field " % ragged[0]):
            sys.exit("%s: record %d has another number of fields: %r" % (told, ragged[0], got))
        return False
    if (got[0], got[1], got[2][:1]) != (wanted[0], wanted[1], wanted[2][:1]):
        sys.exit("%s: under %s\n%r\nand of the columns alone\n%r\n%r" % (told, header, got, wanted, data))
    if got[0] == 2 and " record 0 " not in got[2][0]:
        record = int(got[2][0].split()[4])
        lines = read(data)
        first, last = lines[record - 1][1] + 1, lines[record][1]
        line = int(got[2][1].split(",")[0].split(" line ")[1].split(":")[0])
        if not first <= line <= last:
            sys.exit("%s: record %d stands in lines %d to %d: %r" % (told, record, first, last, got[2]))
    return got[0] == 0


CELLS = [lambda r: str(r.randrange(-99, 99)), lambda r: "%d.%02d" % (r.randrange(99), r.randrange(100)),
         lambda r: r.choice(["x", "a,b", 'say "x"', "", "two words", "é", '""']), lambda r: r.choice(["a\nb", "a\r\nb", '"\n', "p"])]
KINDS = ["int", "fix2", "text", "text"]


def at_random(r):
    """Values, and a header for them that passes some columns by."""
    sorts = [r.randrange(4) for _ in range(r.randrange(1, 7))]
    words = ["-" if r.random() < (0.9 if sort == 3 else 0.3) else "c%d:%s" % (place, KINDS[sort]) for place, sort in enumerate(sorts)]
    if set(words) == {"-"}:
        words[0] = "c0:text"
    rows = []
    for _ in range(r.randrange(0, 9)):
        row = [CELLS[r.randrange(4) if r.random() < 0.01 else sort](r) for sort in sorts]
        if r.random() < 0.04:
            row = row[:-1] if r.random() < 0.5 and len(row) > 1 else row + ["more"]
        rows.append(row)
    out = io.StringIO(newline="")
    writer = csv.writer(out, lineterminator=r.choice(["\n", "\r\n"]), quoting=r.choice([csv.QUOTE_MINIMAL, csv.QUOTE_ALL]))
    for row in [[r.choice(["h", "two\nlines", ""]) for _ in sorts]] + rows:
        writer.writerow(row)
        if r.random() < 0.1:
            out.write("\n")
    data = out.getvalue().encode()
    return (b"\xef\xbb\xbf" if r.random() < 0.1 else b"") + (data[:-1] if r.random() < 0.2 else data), ",".join(words)


def main():
    given = argparse.ArgumentParser(description=__doc__, formatter_class=argparse.RawDescriptionHelpFormatter)
    given.add_argument("--program", default=str(TOP / "crates/sideways/out/sideways"))
    given.add_argument("--times", type=int, default=300)
    given.add_argument("file", nargs="*")
    given = given.parse_args()
    with tempfile.TemporaryDirectory() as folder:
        files = Files(str(Path(given.program).resolve()), folder)
        r = random.Random(11)
        taken = sum(compare(files, *at_random(r), "values %d" % turn) for turn in range(given.times))
        for path in given.file:
            data = Path(path).read_bytes()
            width = len(read(data)[0][0])
            header = ",".join("c%d:text" % place if place < 2 else "-" for place in range(width))
            print("%s: %s" % (path, "taken" if compare(files, data, header, path) else "refused by both"))
    print("%d headers at random over values: %d taken, the others refused by both" % (given.times, taken))


if __name__ == "__main__":
    main()
