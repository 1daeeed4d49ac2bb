#!/usr/bin/env python3
"""How long a shell lets one wait: a table of ROWS rows, over which CALLS calls are entered one by one, through a pipe and at a terminal. Of each
it takes the time from the line written to the last byte of its reply read (at the terminal, of the prompt behind it), less what the engine took
for the call (`.times`), and compares the reply with that of a run. Prints of these differences the median, the 99th of 100 and the greatest, and
how many are above 5 ms; what a call takes by `run --times`, in a run of the same calls; and the time to the first prompt beside a whole run of
one count.

    python3 bench/run/shell.py [--program crates/sideways/out/sideways] [--rows 1000000] [--calls 2000] [--rounds 5]"""
import argparse, os, pty, random, select, statistics, subprocess, tempfile, time
from pathlib import Path

TOP = Path(__file__).resolve().parents[2]
PROMPT = b"sideways> "


def lines_of(rows, calls):
    """Calls at random: ranges of a thousandth of the rows, one text in ten thousand, and updates among them."""
    draw, lines = random.Random(45), []
    for _ in range(calls):
        low, key = draw.randrange(rows), draw.randrange(1, rows)
        lines.append(draw.choice([
            "count where a >= %d and a < %d" % (low, low + rows // 1000), "sum b where a >= %d and a < %d" % (low, low + rows // 1000),
            "select a, b, c where a >= %d and a < %d" % (low, low + rows // 1000), "max a where b = %d" % draw.randrange(1000),
            "select a where c = 'text %d'" % draw.randrange(10000), "insert %d, 7, 'text %d'" % (low, draw.randrange(12000)),
            "delete %d" % key, "delete where a = %d" % low]))
    return lines


def replies_of(lines, text):
    """The bytes of each call's reply among those of all."""
    rest, replies = text.splitlines(keepends=True), []
    rest.reverse()
    for line in lines:
        reply = rest.pop()
        if line.startswith("select"):
            while not reply.endswith(b" rows)\n"):
                reply += rest.pop()
        replies.append(reply)
    assert not rest, rest[:3]
    return replies


def until(source, done):
    """Reads until what was read is as wanted; it is what comes out."""
    got = b""
    while not done(got):
        assert select.select([source], [], [], 60)[0], got[-200:]
        more = os.read(source, 1 << 20)
        assert more, got[-200:]
        got += more
    return got


def own_times(path):
    """The nanoseconds of each call that the shell told."""
    return [int(line.split()[1]) for line in path.read_text().splitlines() if line[:1].isdigit()]


def piped(program, folder, lines, replies):
    """The nanoseconds from each line to its reply, through a pipe, and those of the engine."""
    took = []
    with open(folder / "told", "wb") as told:
        talk = subprocess.Popen([program, "shell", "t.csv"], cwd=folder, stdin=subprocess.PIPE, stdout=subprocess.PIPE, stderr=told)
        talk.stdin.write(b".times\n.names\n")
        talk.stdin.flush()
        until(talk.stdout.fileno(), lambda got: got.endswith(b"c:text\n"))
        for line, reply in zip(lines, replies):
            begun = time.perf_counter_ns()
            os.write(talk.stdin.fileno(), line.encode() + b"\n")
            got = until(talk.stdout.fileno(), lambda got: len(got) >= len(reply))
            took.append(time.perf_counter_ns() - begun)
            assert got == reply, (line, got, reply)
        talk.stdin.close()
        assert talk.wait(60) == 0
    return took, own_times(folder / "told")


def prompted(program, folder, lines, replies):
    """The same at a terminal, to the prompt behind a reply; and the nanoseconds to the first prompt."""
    took = []
    with open(folder / "told", "wb") as told:
        ours, its = pty.openpty()
        begun = time.perf_counter_ns()
        talk = subprocess.Popen([program, "shell", "t.csv"], cwd=folder, stdin=its, stdout=its, stderr=told, start_new_session=True)
        os.close(its)
        until(ours, lambda got: got.endswith(PROMPT))
        first = time.perf_counter_ns() - begun
        os.write(ours, b".times\n")
        until(ours, lambda got: got.endswith(PROMPT))
        for line, reply in zip(lines, replies):
            whole = line.encode() + b"\r\n" + reply.replace(b"\n", b"\r\n") + PROMPT
            begun = time.perf_counter_ns()
            os.write(ours, line.encode() + b"\n")
            got = until(ours, lambda got: len(got) >= len(whole))
            took.append(time.perf_counter_ns() - begun)
            assert got == whole, (line, got, whole)
        os.write(ours, b"\x04")
        assert talk.wait(60) == 0
        os.close(ours)
    return took, own_times(folder / "told"), first


def show(name, took, own):
    assert len(took) == len(own), (len(took), len(own))
    over = sorted((all_of - engine) / 1e6 for all_of, engine in zip(took, own))
    print("%-9s beside the engine's own time: median %.3f ms, 99th of 100 %.3f ms, greatest %.3f ms, %d of %d above 5 ms"
          % (name, statistics.median(over), over[len(over) * 99 // 100], over[-1], sum(ms > 5 for ms in over), len(over)), flush=True)


def main():
    parser = argparse.ArgumentParser(description=__doc__, formatter_class=argparse.RawDescriptionHelpFormatter)
    parser.add_argument("--program", default=TOP / "crates/sideways/out/sideways")
    for name, number in (("rows", 1000000), ("calls", 2000), ("rounds", 5)):
        parser.add_argument("--" + name, type=int, default=number)
    given = parser.parse_args()
    program = str(Path(given.program).resolve())
    with tempfile.TemporaryDirectory() as home:
        folder = Path(home)
        draw = random.Random(7)
        rows = ("%d,%d,text %d\n" % (draw.randrange(given.rows), draw.randrange(1000), draw.randrange(10000)) for _ in range(given.rows))
        (folder / "t.csv").write_text("a,b,c:text\n" + "".join(rows))
        lines = lines_of(given.rows, given.calls)
        (folder / "s.txt").write_text("".join(line + "\n" for line in lines))
        firsts, counts, runs, pipes, terminals = [], [], [], ([], []), ([], [])
        for _ in range(given.rounds):
            done = subprocess.run([program, "run", "--table", "t.csv", "--script", "s.txt", "--times"], cwd=folder, capture_output=True, check=True)
            runs += [int(line.split()[1]) for line in done.stderr.decode().splitlines() if line[:1].isdigit()]
            replies = replies_of(lines, done.stdout)
            for both, part in zip(pipes, piped(program, folder, lines, replies)):
                both += part
            *parts, first = prompted(program, folder, lines, replies)
            for both, part in zip(terminals, parts):
                both += part
            firsts.append(first)
            begun = time.perf_counter_ns()
            subprocess.run([program, "run", "--table", "t.csv", "-e", "count"], cwd=folder, stdout=subprocess.DEVNULL, check=True)
            counts.append(time.perf_counter_ns() - begun)
        show("a pipe:", *pipes)
        show("terminal:", *terminals)
        print("a call takes %.3f ms in a run, %.3f ms of the engine in a shell (medians)"
              % (statistics.median(runs) / 1e6, statistics.median(pipes[1] + terminals[1]) / 1e6))
        first, count = statistics.median(firsts) / 1e9, statistics.median(counts) / 1e9
        print("the first prompt after %.3f s, a whole run of one count %.3f s, ratio %.2f" % (first, count, first / count))


if __name__ == "__main__":
    main()
