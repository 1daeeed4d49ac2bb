#!/usr/bin/env python3
"""Random scripts over small random tables, under budgets, numbers of maps, cuts, limits and threads of every kind: the output
must be that of the plain model line by line, and the history its history byte by byte and legal. With threads the history
must be legal for the model, have each block's calls and replies in their order, and be what was written out. A history with
one reply changed must be found not legal at that entry. Ends with 1 and the first case that is wrong."""
import json, random
from histories import check
from making import chance, number_of, schema_for, script_for, separated, spelled, table_for
from model import Store, entry_of, run
from reading import load, parse_script
from running import Holder, ended, options, told, wrong


def cuts_for(rng, schema, spread):
    parts = []
    for name, kind in schema:
        if kind not in (b"flag", b"text") and chance(rng, 0.5):
            values = sorted({number_of(rng, kind, spread) for _ in range(rng.choice([1, 1, 2, 3, 15]))})
            parts += [name + b"=" + spelled(rng, kind, value) for value in values]
    return b";".join(parts).decode()


def settings_for(rng, schema, rows, spread):
    """The words of a run besides its files, and its limit of rows."""
    limit = rng.choice([None, None, max(1, rows), max(1, rows + rng.randrange(40))])
    budget = rng.choice([None, 0, 64, 128, 640, 6400, 1 << 40])
    maps = rng.choice([None, 0, 1, 2, 3, len(schema), 9, 17, 64])
    cuts = rng.choice([None, cuts_for(rng, schema, spread)])
    words = []
    for flag, value in (("--limit", limit), ("--budget", budget), ("--maps", maps), ("--cuts", cuts)):
        words += [flag, str(value)] if value not in (None, "") else []
    return words, limit or 1 << 20


def tampered(rng, data):
    """A history with the reply of one answered entry changed, and what is expected of its check."""
    outer = json.loads(data)
    entry = rng.randrange(len(outer["entries"]))
    lines = outer["entries"][entry]["reply"]
    at = rng.randrange(len(lines))
    line = lines[at]
    new = rng.choice([line + " ", line + "0", "9" + line, line[:-1], "", "none", "(0 rows)", "key 1", "removed", "full", "0", "(0 removed)", "(1 removed)"])
    if chance(rng, 0.2):
        lines[at:at + 1] = rng.choice([[], [line, line]])
    elif new != line:
        lines[at] = new
    else:
        lines.append("")
    outer["entries"][entry]["reply"] = lines
    text = json.dumps(outer, separators=(",", ":"), sort_keys=True).encode()
    return text, (1, "not legal: entry %d\n" % (entry + 1), "")


class Runs(Holder):
    """A case is a name, files, words, how to look at the output and the history, and what to change in it."""

    def one(self, number, name, files, words, look, rng):
        folder = self.fresh(number, files)
        words = ["run", "--table", "t.csv", "--script", "s.txt", "--history", "h.json"] + words
        got = told(self.program, words, folder)
        data = (folder / "h.json").read_bytes() if (folder / "h.json").exists() else b""
        fault = look(got, data)
        if fault:
            wrong(name, files, words, *fault)
        count = len(json.loads(data)["entries"])
        checks = [(data, (0, "legal: %d entries\n" % count, ""))] + [tampered(rng, data) for _ in range(4) if count]
        for text, expected in checks:
            (folder / "h.json").write_bytes(text)
            judged = told(self.program, ["check", "h.json"], folder)
            if judged != expected or (count < 2000 and check(text) != expected):
                wrong(name + ", its history", dict(files, **{"h.json": text}), ["check", "h.json"], expected, judged)
        self.clear(folder)
        return got[0]


def difference(expected, got):
    """The first line that differs, of two outputs."""
    for number, (one, other) in enumerate(zip(expected.split("\n") + [None], got.split("\n") + [None]), 1):
        if one != other:
            return "line %d: %r" % (number, one), "line %d: %r" % (number, other)


def as_the_model(table, script, limit):
    """Looks whether a run without threads is the model's."""
    status, out, fault, history = run(table, script, b"", limit)

    def look(got, data):
        if (got[0], got[2]) != (status, fault):
            return (status, fault), (got[0], got[2])
        if got[1] != out:
            return difference(out, got[1])
        return None if data == history else (history[:400], data[:400])
    return look


def as_some_order(table, script, limit):
    """Looks whether a run with threads is one that the model makes in the order of the history."""
    schema, rows = load(table)
    blocks = parse_script(schema, script)

    def look(got, data):
        if (got[0], got[2]) != (0, ""):
            return (0, ""), (got[0], got[2])
        entries, store = json.loads(data)["entries"], Store(schema, rows, limit)
        of_session = {session: iter(calls) for session, calls in enumerate(blocks, 1)}
        lines = {session: [] for session in of_session}
        for number, entry in enumerate(entries, 1):
            session = entry["session"]
            call = next(of_session[session], None)
            expected = call and entry_of(schema, call, store.answer(call), session)
            if entry != expected:
                return "entry %d: %r" % (number, expected), entry
            lines[session] += entry["reply"]
        for session, calls in of_session.items():
            if next(calls, None) is not None:
                return "all calls of block %d" % session, "fewer"
        out = "---\n".join("".join(line + "\n" for line in lines[session]) for session in lines)
        return None if got[1] == out else difference(out, got[1])
    return look


def random_runs(rng, count, calls, most_rows, spreads, with_threads=False):
    for number in range(count):
        schema, spread = schema_for(rng), rng.choice(spreads)
        rows = rng.choice([0, 1, most_rows, rng.randrange(most_rows + 1)])
        table = separated(rng, table_for(rng, schema, rows, spread))
        updates = rng.choice([0, 0.1, 0.3, 0.6])
        divided, many = 0.02 if with_threads else rng.choice([0, 0.01]), rng.choice([0, 0, 0.05, 0.3])
        script = script_for(rng, schema, calls, spread, rows + calls // 10, updates, divided, many)
        words, limit = settings_for(rng, schema, rows, spread)
        look = (as_some_order if with_threads else as_the_model)(table, script, limit)
        kind = "with threads" if with_threads else "in turn"
        yield ("run %d of %d calls %s" % (number, calls, kind), {"t.csv": table, "s.txt": script}, words + ["--threads"] * with_threads,
               look, random.Random(rng.random()))


def main():
    given = options(__doc__)
    runs, rng, times = Runs(given.program), random.Random(given.seed), given.times
    runs.hold("runs of 60 calls", random_runs(rng, 300 * times, 60, 12, [3, 10]))
    runs.hold("runs of 1,000 calls", random_runs(rng, 80 * times, 1000, 150, [10, 60, 1000]))
    runs.hold("runs of 10,000 calls", random_runs(rng, 4 * times, 10000, 60, [100000]))
    runs.hold("runs of 1,000 calls with threads", random_runs(rng, 60 * times, 1000, 100, [10, 1000], True))
    runs.end()


if __name__ == "__main__":
    ended(main)
