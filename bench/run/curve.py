#!/usr/bin/env python3
"""curve.py PROGRAM FOLDER ROUNDS SVG: what curve.sh draws, of the table and the script that stand in FOLDER beside the peer."""
import csv, math, sqlite3, statistics, subprocess, sys, time

WIDTH, HEIGHT, LEFT, RIGHT, TOP, BOTTOM = 960, 560, 80, 210, 50, 60
BINS = 12  # to a factor of ten


def told(words):
    """What a run writes, and the nanoseconds of each of its calls."""
    done = subprocess.run(words, capture_output=True, check=True)
    lines = [line.split() for line in done.stderr.decode().splitlines()]
    return done.stdout.decode().splitlines(), [int(words[1]) for words in lines if words[0].isdigit()]


def asked(folder, is_indexed, most):
    """The same of SQLite in memory, by Python's module."""
    store = sqlite3.connect(":memory:")
    with open(folder + "/t.csv") as file:
        records = csv.reader(file)
        names = [word.split(":")[0] for word in next(records)]
        store.execute("create table t (k integer primary key, " + ", ".join(name + " integer" for name in names) + ")")
        store.executemany("insert into t (" + ", ".join(names) + ") values (" + ", ".join("?" * len(names)) + ")", records)
    begun, texts, times = time.perf_counter_ns(), [], []
    if is_indexed:  # its making is a part of the first query's time
        store.execute("create index t_a on t (a)")
    for line in open(folder + "/s.txt").read().splitlines()[:most]:
        call, where = line.split(" where ")
        row = store.execute(f"select sum({call.split()[1]}) from t where {where}").fetchone()
        now = time.perf_counter_ns()
        texts.append(str(row[0] or 0))
        times.append(now - begun)
        begun = now
    return texts, times


def medians(run, rounds, expected):
    """The median of each call's times over some runs, whose replies are compared with those expected."""
    runs = []
    for _ in range(rounds):
        text, times = run()
        assert text == expected[:len(text)] and len(times) == len(text), "the replies differ"
        runs.append(times)
    return [statistics.median(times) for times in zip(*runs)]


def points(times):
    """One point for all calls of a bin: the middle one's number and their median time, in microseconds."""
    bins = {}
    for k, nanos in enumerate(times, 1):
        bins.setdefault(int(BINS * math.log10(k) + 1e-9), []).append((k, nanos / 1000))
    return [(math.sqrt(found[0][0] * found[-1][0]), statistics.median(micros for _, micros in found)) for found in bins.values()]


def shown(micros):
    return f"{micros:g} µs" if micros < 1000 else f"{micros / 1000:g} ms" if micros < 1e6 else f"{micros / 1e6:g} s"


def drawn(sides, calls, rows):
    """The picture: both axes logarithmic, a line for each side with its name at its end."""
    lines = [points(times) for _, _, times in sides]
    tens_x = math.ceil(math.log10(calls) - 1e-9)
    low = math.floor(math.log10(min(y for line in lines for _, y in line)))
    high = math.ceil(math.log10(max(y for line in lines for _, y in line)))
    x = lambda k: LEFT + (WIDTH - LEFT - RIGHT) * math.log10(k) / tens_x
    y = lambda micros: HEIGHT - BOTTOM - (HEIGHT - TOP - BOTTOM) * (math.log10(micros) - low) / (high - low)
    out = [f'<svg xmlns="http://www.w3.org/2000/svg" width="{WIDTH}" height="{HEIGHT}" font-family="sans-serif" font-size="13">',
           f'<rect width="{WIDTH}" height="{HEIGHT}" fill="white"/>',
           f'<text x="{LEFT}" y="28" font-size="16">Time of the k-th query: sums over random ranges, a thousandth of {rows:,} rows each</text>']
    for ten in range(tens_x + 1):
        at = x(10 ** ten)
        out.append(f'<line x1="{at:.1f}" y1="{TOP}" x2="{at:.1f}" y2="{HEIGHT - BOTTOM}" stroke="#ddd"/>')
        out.append(f'<text x="{at:.1f}" y="{HEIGHT - BOTTOM + 20}" text-anchor="middle">{10 ** ten:,}</text>')
    for ten in range(low, high + 1):
        at = y(10 ** ten)
        out.append(f'<line x1="{LEFT}" y1="{at:.1f}" x2="{WIDTH - RIGHT}" y2="{at:.1f}" stroke="#ddd"/>')
        out.append(f'<text x="{LEFT - 8}" y="{at + 4:.1f}" text-anchor="end">{shown(10 ** ten)}</text>')
    out.append(f'<text x="{(LEFT + WIDTH - RIGHT) / 2}" y="{HEIGHT - 14}" text-anchor="middle">query number k</text>')
    ends = sorted((y(line[-1][1]), i) for i, line in enumerate(lines))
    places = {}
    for at, i in ends:
        places[i] = max([at] + [before + 16 for before in places.values()])
    for i, ((name, colour, _), line) in enumerate(zip(sides, lines)):
        path = " ".join(f"{x(k):.1f},{y(micros):.1f}" for k, micros in line)
        out.append(f'<polyline points="{path}" fill="none" stroke="{colour}" stroke-width="{3 if i == 0 else 1.8}"/>')
        out.append(f'<text x="{max(x(line[-1][0]), WIDTH - RIGHT) + 8:.1f}" y="{places[i] + 4:.1f}" fill="{colour}">{name}</text>')
    return "\n".join(out) + "\n</svg>\n"


def main():
    program, folder, rounds, picture = sys.argv[1], sys.argv[2], int(sys.argv[3]), sys.argv[4]
    files = [folder + "/t.csv", folder + "/s.txt"]
    with open(files[0]) as file:
        rows = sum(1 for _ in file) - 1
    ours = [program, "run", "--table", files[0], "--script", files[1], "--times", "--quiet"]
    expected, _ = told(ours)
    by_peer = lambda mode: lambda: told([folder + "/peer", mode, *files, "times"])
    sides = [(name, colour, medians(run, rounds, expected)) for name, colour, run in (
        ("sideways", "#c00000", lambda: told(ours)),
        ("C++, cracking", "#1f77b4", by_peer("crack")),
        ("C++, sorted at once", "#2ca02c", by_peer("sort")),
        ("C++, scanning", "#7f7f7f", by_peer("scan")),
        ("SQLite, an index", "#9467bd", lambda: asked(folder, True, None)),
        ("SQLite, no index", "#ff7f0e", lambda: asked(folder, False, 200)))]
    with open(picture, "w") as file:
        file.write(drawn(sides, len(expected), rows))
    print("| Side | the 1st | 10th | 100th | 1,000th | 10,000th | all, s |\n|---|---|---|---|---|---|---|")
    for name, _, times in sides:
        near = lambda k: statistics.median(times[max(0, k - 1 - k // 20):k + k // 20]) / 1000
        cells = [f"{near(10 ** ten):,.1f} µs" if 10 ** ten <= len(times) else "" for ten in range(5)]
        print(f"| {name} | " + " | ".join(cells) + f" | {sum(times) / 1e9:.2f} |")


main()
