#!/usr/bin/env python3
"""What the library costs beside the program, numpy and pandas, over ROWS random rows of three attributes.

    bench/embed/measure.py [--rows 1000000] [--calls 1000] [--repeats 100000] [--rounds 5] [--python python3] [--library FOLDER]

Proves the program and makes the library, or takes the one that a FOLDER has and the program as it was built. By turns it makes CALLS sums over
random ranges, and REPEATS counts of one range, by typed calls from C and by a run of the program; opens three columns from C beside a copy of
them; and makes CALLS counts in Python beside masks of numpy and the query of pandas. Prints the medians."""
import argparse, glob, os, random, statistics, subprocess, sys, tempfile, zipfile
from pathlib import Path

TOP = Path(__file__).resolve().parents[2]


def write_inputs(folder, given):
    draw = random.Random(1)
    with open(folder / "t.csv", "w") as table:
        table.write("a,b,c\n")
        for _ in range(given.rows):
            table.write("%d,%d,%d\n" % (draw.randrange(given.rows), draw.randrange(given.rows), draw.randrange(given.rows)))
    lows = [draw.randrange(given.rows) for _ in range(given.calls)]
    width = given.rows // 100
    (folder / "sums.txt").write_text("".join("sum b where a >= %d and a <= %d\n" % (low, low + width) for low in lows))
    one = "count where a >= %d and a <= %d\n" % (lows[0], lows[0] + width)
    (folder / "counts.txt").write_text(one * given.repeats)


def by_program(folder, script, flag):
    """What a run tells of its calls: with --times the median nanoseconds of one, with --stats the milliseconds of all heads; and its memory."""
    words = [str(TOP / "crates/sideways/out/sideways"), "run", "--table", "t.csv", "--script", script, flag]
    with open(folder / "told", "w") as told, open(folder / "replies", "w") as out:
        child = subprocess.Popen(words, cwd=folder, stdout=out, stderr=told)
        _, status, usage = os.wait4(child.pid, 0)
    assert status == 0, status
    lines = [line.split() for line in (folder / "told").read_text().splitlines()]
    if flag == "--times":
        found = statistics.median(int(line[1]) for line in lines if len(line) == 2 and line[0].isdigit())
    else:
        found = sum(int(line[-1]) for line in lines[1:] if line)
    return found, usage.ru_maxrss, sum(map(int, (folder / "replies").read_text().split()))


def by_library(folder, script):
    """Nanoseconds of all calls, and the median of one, how many they were, their answers added, and the memory."""
    done = subprocess.run([folder / "figures", "t.csv", script], cwd=folder, capture_output=True, check=True, text=True)
    return [int(word) for word in done.stdout.split()]


def in_c(folder, given):
    sums, counts = ([], [], []), ([], [])
    for _ in range(given.rounds):
        ours, _one, _many, answers, memory = by_library(folder, "sums.txt")
        heads, run_memory, wanted = by_program(folder, "sums.txt", "--stats")
        assert answers == wanted, (answers, wanted)
        sums[0].append(ours / 1e6), sums[1].append(heads), sums[2].append(memory / run_memory)
        _all, typed, _many, answers, _memory = by_library(folder, "counts.txt")
        one, _memory, wanted = by_program(folder, "counts.txt", "--times")
        assert answers == wanted, (answers, wanted)
        counts[0].append(typed), counts[1].append(one)
    ours, heads, memory = map(statistics.median, sums)
    print("%d sums: %.1f ms by typed calls, %d ms by the program's heads, ratio %.2f" % (given.calls, ours, heads, ours / max(heads, 1)))
    print("greatest memory: %.2f of a run's" % memory)
    ours, run = map(statistics.median, counts)
    print("a count of a range that was asked before: %.0f ns by a typed call, %.0f ns in a run" % (ours, run))


def columns_in_c(folder, given):
    words = [folder / "columns", str(given.rows), "21"]
    copy, opened = map(int, subprocess.run(words, capture_output=True, check=True, text=True).stdout.split())
    print("sideways_open_columns: %.1f ms, %.2f of a copy of the columns" % (opened / 1e6, opened / copy))


def in_python(folder, given):
    took = {}
    for _ in range(given.rounds):
        words = [given.python, str(TOP / "bench/embed/figures.py"), str(given.rows), str(given.calls)]
        told = subprocess.run(words, env=dict(os.environ, PYTHONPATH=str(folder / "python")), capture_output=True, check=True, text=True).stdout
        for line in told.splitlines():
            name, seconds = line.split()
            took.setdefault(name, []).append(float(seconds))
    took = {name: statistics.median(all_of) for name, all_of in took.items()}
    print("from_columns: %.3f s, %.1f of a copy of the columns" % (took["from_columns"], took["from_columns"] / took["copy"]))
    print("%d counts: %.4f s in Python, numpy's masks %.1f times as many" % (given.calls, took["sideways"], took["numpy"] / took["sideways"]))
    if "pandas-tenth" in took:
        print("pandas' query %.1f times as many" % (10 * took["pandas-tenth"] / took["sideways"]))
    print("the same counts again: %.4f s" % took["again"])


def main():
    parser = argparse.ArgumentParser(description=__doc__, formatter_class=argparse.RawDescriptionHelpFormatter)
    for name, number in (("rows", 1000000), ("calls", 1000), ("repeats", 100000), ("rounds", 5)):
        parser.add_argument("--" + name, type=int, default=number)
    parser.add_argument("--python", default=sys.executable, help="a Python with numpy")
    parser.add_argument("--library", type=Path, help="the library as it was made; nothing is proved then")
    given = parser.parse_args()
    with tempfile.TemporaryDirectory() as home:
        folder = Path(home)
        library = given.library or folder / "lib"
        if given.library is None:
            subprocess.run([TOP / "sideways", "prove"], check=True)
            subprocess.run([TOP / "sideways", "library", library], check=True, stdout=subprocess.DEVNULL)
        for name in ("figures", "columns"):
            words = [os.environ.get("CC", "cc"), "-O2", TOP / "bench/embed" / (name + ".c"), "-I", library, library / "libsideways.a"]
            subprocess.run(words + ["-o", folder / name], check=True)
        with zipfile.ZipFile(glob.glob(str(library / "*.whl"))[0]) as wheel:
            wheel.extractall(folder / "python")
        write_inputs(folder, given)
        in_c(folder, given)
        columns_in_c(folder, given)
        in_python(folder, given)


if __name__ == "__main__":
    main()
