#!/usr/bin/env python3
"""`sideways import` beside the same rule in Python, on files that are given and on values that are made at random.

    tests/imports.py PROGRAM [FILE ..]

Python's csv divides the values and its datetime knows the calendar; the rest is the rule of docs/FORMATS.md ('What `import`
makes'). Each table must be the one that Python makes, byte by byte, or both must refuse; then `sideways run` must count and sum as
Python does. Ends with 1 at the first difference."""
import csv
import datetime
import io
import random
import re
import subprocess
import sys
import tempfile

NUMBER = re.compile(rb"-?(0|[1-9][0-9]*)(\.[0-9]{1,6})?\Z")
TIME = re.compile(
    rb"(\d{4})-(\d\d)-(\d\d)"
    rb"(?:[T ](\d\d):(\d\d)(?::(\d\d)(?:\.\d+)?)?(Z|[+-]\d\d:\d\d|[+-]\d\d\d\d|[+-]\d\d)?)?\Z"
)
RESERVED = set("select count insert delete sum min max where and true false".split())


def number(cell, places):
    """The stored number of a plain number with at most so many decimals."""
    if not NUMBER.match(cell) or len(cell) > 64:
        return None
    whole, _, decimals = cell.decode().lstrip("-").partition(".")
    if len(decimals) > places:
        return None
    value = int(whole + decimals.ljust(places, "0")) * (-1 if cell.startswith(b"-") else 1)
    return value if -(2**63) <= value < 2**63 else None


def seconds(cell):
    """The whole seconds since 1970 began of a date or a time."""
    found = TIME.match(cell)
    if not found:
        return None
    year, month, day = (int(part) for part in found.group(1, 2, 3))
    try:
        # Python has no year 0, whose calendar is that of 400
        days = datetime.date(year or 400, month, day).toordinal() - datetime.date(1970, 1, 1).toordinal()
    except ValueError:
        return None
    if year == 0:
        days -= 146097
    hour, minute, second = (int(part or 0) for part in found.group(4, 5, 6))
    if hour > 23 or minute > 59 or second > 59:
        return None
    offset = 0
    zone = found.group(7)
    if zone and zone != b"Z":
        digits = zone[1:].replace(b":", b"").ljust(4, b"0")
        if int(digits[:2]) > 23 or int(digits[2:]) > 59:
            return None
        offset = (int(digits[:2]) * 60 + int(digits[2:])) * (-1 if zone[:1] == b"-" else 1)
    return days * 86400 + hour * 3600 + (minute - offset) * 60 + second


def is_text(cell):
    """Whether these bytes may be the text of a cell."""
    try:
        cell.decode()
    except UnicodeDecodeError:
        return False
    return len(cell) <= 64 and all(byte >= 32 and byte != 127 for byte in cell)


def kind_of(cells):
    """The kind of a column, from all its cells."""
    valued = [cell for cell in cells if cell]
    if not valued:
        return "text"
    for places in range(7):
        if all(number(cell, places) is not None for cell in valued):
            return f"fix{places}" if places else "int"
    if all(cell.lower() in (b"true", b"false") for cell in valued):
        return "flag"
    if all(seconds(cell) is not None for cell in valued):
        return "seconds"
    return "text"


def name_of(heading, taken):
    """The name that a heading gives."""
    name = re.sub(rb"[^A-Za-z0-9_]+", b"_", heading).decode() or "column"
    name = ("_" + name if heading[:1].isdigit() else name)
    tried = name[:32] if name[:32] not in RESERVED else name + "_"
    count = 1
    while tried in taken:
        count += 1
        tried = name[: 32 - len(f"_{count}")] + f"_{count}"
    return tried


def cell_of(kind, cell):
    """What is written of a cell."""
    if kind == "flag":
        return cell.lower()
    if kind == "seconds":
        return str(seconds(cell)).encode()
    return cell


def table_of(data, drop):
    """The table of values, of which rows with cells without a value are left out where that is chosen; None if refused."""
    text = data.decode("latin-1")
    records = [[cell.encode("latin-1") for cell in record] for record in csv.reader(io.StringIO(text, newline="")) if record]
    if not records:
        return None
    header, rows = records[0], records[1:]
    if any(len(row) != len(header) for row in rows):
        return None
    width = min(len(header), 8)
    kinds = [kind_of([row[place] for row in rows]) for place in range(width)]
    kept = []
    for row in rows:
        blank = [place for place in range(width) if kinds[place] != "text" and not row[place]]
        if blank and not drop:
            return None
        if any(kinds[place] == "text" and not is_text(row[place]) for place in range(width)):
            return None
        if not blank:
            kept.append([cell_of(kinds[place], row[place]) for place in range(width)])
    names = []
    for heading in header[:width]:
        names.append(name_of(heading, names))
    words = [f"{name}:{'int' if kind == 'seconds' else kind}".encode() for name, kind in zip(names, kinds)]
    return words, kept


def quoted(cell):
    """A field as it is written."""
    if any(byte in cell for byte in b',"\r\n'):
        return b'"' + cell.replace(b'"', b'""') + b'"'
    return cell


def bytes_of(table):
    """The bytes of a table."""
    lines = []
    for row in [table[0]] + table[1]:
        line = b",".join(quoted(cell) for cell in row)
        lines.append((line or b'""') + b"\n")
    return b"".join(lines)


def stored(word, cell):
    """The stored number of a cell of a kind."""
    kind = word.rsplit(b":", 1)[1].decode()
    if kind == "flag":
        return int(cell == b"true")
    return number(cell, 0 if kind == "int" else int(kind[3:]))


def printed(word, total):
    """A sum as it is printed."""
    kind = word.rsplit(b":", 1)[1].decode()
    places = int(kind[3:]) if kind.startswith("fix") else 0
    if not places:
        return str(total)
    whole, decimals = divmod(abs(total), 10**places)
    return f"{'-' if total < 0 else ''}{whole}.{decimals:0{places}}"


def compare(program, data, drop, told):
    """Ends where the program makes another table than Python, or answers otherwise over it."""
    words = [program, "import", "-"] + (["--empty", "drop"] if drop else [])
    ran = subprocess.run(words, input=data, capture_output=True)
    wanted = table_of(data, drop)
    if wanted is None:
        if ran.returncode != 2 or ran.stdout or not ran.stderr:
            sys.exit(f"{told}: Python refuses, the program ends with {ran.returncode}")
        return False
    if ran.returncode != 0 or ran.stdout != bytes_of(wanted):
        sys.exit(f"{told}: another table, status {ran.returncode}\n{ran.stderr.decode()}\n{ran.stdout[:400]}\n{bytes_of(wanted)[:400]}")
    with tempfile.NamedTemporaryFile() as table, tempfile.NamedTemporaryFile() as script:
        table.write(ran.stdout)
        table.flush()
        lines, replies = ["count"], [str(len(wanted[1]))]
        for place, word in enumerate(wanted[0]):
            if not word.endswith(b":text"):
                lines.append(f"sum {word.split(b':')[0].decode()}")
                replies.append(printed(word, sum(stored(word, row[place]) for row in wanted[1])))
        script.write("\n".join(lines).encode())
        script.flush()
        answered = subprocess.run([program, "run", "--table", table.name, "--script", script.name], capture_output=True)
        if answered.stdout.decode().split("\n")[:-1] != replies:
            sys.exit(f"{told}: {lines} give {answered.stdout} and not {replies}")
    return True


WORDS = [
    lambda r: str(r.randrange(-1000, 1000)),
    lambda r: f"{r.randrange(-99, 99)}.{r.randrange(10 ** r.randrange(1, 8))}",
    lambda r: r.choice(["true", "FALSE", "True"]),
    lambda r: f"{r.randrange(0, 10000):04}-{r.randrange(1, 13):02}-{r.randrange(1, 32):02}",
    lambda r: f"19{r.randrange(60, 80)}-0{r.randrange(1, 10)}-1{r.randrange(10)}T{r.randrange(25):02}:{r.randrange(61):02}"
    + r.choice(["", "Z", ":07", ":08.25", ":61", "+02:00", "-0130", "+24:00"]),
    lambda r: r.choice(["x", "a,b", 'say "x"', "", "007", "+5", " 5", "1e5", ".5", "5.", "NA", "é", "9" * 19, "-", "x" * 64]),
    lambda r: "",
]


def values(r):
    """Values at random: columns that are mostly of one sort."""
    width = r.randrange(1, 10)
    sorts = [r.choice(WORDS) for _ in range(width)]
    out = io.StringIO()
    writer = csv.writer(out, lineterminator=r.choice(["\n", "\r\n"]))
    writer.writerow([r.choice(["a", "b", "x y", "sum", "1st", "", "n" * 40, "ü"]) for _ in range(width)])
    for _ in range(r.randrange(0, 12)):
        writer.writerow([(r.choice(WORDS) if r.random() < 0.01 else sort)(r) for sort in sorts])
    return out.getvalue().encode()


def main():
    program, files = sys.argv[1], sys.argv[2:]
    for path in files:
        made = compare(program, open(path, "rb").read(), True, path)
        print(f"{path}: {'as Python makes it' if made else 'refused, by Python too'}")
    r = random.Random(7)
    made = 0
    rounds = 400
    for turn in range(rounds):
        made += compare(program, values(r), r.random() < 0.7, f"values {turn}")
    print(f"{rounds} tables at random: {made} as Python makes them, the others refused by both")


main()
