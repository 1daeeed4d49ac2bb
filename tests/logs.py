#!/usr/bin/env python3
"""Logs that runs write of their own calls (`run --log`). Blocks run in threads; `order` finds an order of the log's calls that keeps its times,
without looking at the history, and the history that the engine kept is in accordance with these times: so as far as these runs show, each call took
effect at one time between its start and its end.

    tests/logs.py [--program PATH] [--seeds N] [--calls N]

PATH is the built program, by default crates/sideways/out/sideways; a run has 8 blocks of N calls. Ends with 1 at the first case that is wrong, which
it shows; its last line tells how many cases there were."""
import argparse, csv, json, os, random, subprocess, sys, tempfile
from pathlib import Path

TOP = Path(__file__).resolve().parents[1]
NAMES = ["a", "b", "c"]
TABLE = b"a:int,b:int,c:int\n12,7,1\n3,8,0\n12,5,1\n20,2,0\n"
CALLS = ["count", "insert 1, 9, 0", "select b where a < 10", "delete where a = 12", "delete 77", "insert 2, 2, 2"]
REPLIES = ["4", "key 5", "2: 8\n5: 9\n(2 rows)", "(2 removed)", "no such key", "key 6"]
HEADER = ["session", "start", "end", "call", "reply"]
SESSIONS, ROWS, MOST = 8, 2000, 2000
MET = b"allocation refused\n"
MOST_GROWTHS = 10_000


class Wrong(Exception):
    pass


def line(rng):
    """A call, as a script has it."""
    kind = rng.choices(["rows", "count", "sum", "least", "insert", "delete", "sweep"], [15, 20, 10, 5, 25, 20, 5])[0]
    if kind == "insert":
        return "insert " + ", ".join(str(rng.randrange(MOST)) for _ in NAMES)
    if kind == "delete":
        return "delete %d" % rng.randint(1, ROWS + ROWS // 4)
    low = rng.randrange(MOST)
    where = " where %s >= %d and %s < %d" % (rng.choice(NAMES), low, rng.choice(NAMES), low + rng.randint(1, MOST // 10))
    if kind == "sweep":
        return "delete where %s >= %d and %s <= %d" % (NAMES[0], low, NAMES[0], low + rng.randint(0, 4))
    what = {"rows": "select a, b", "count": "count", "sum": "sum " + rng.choice(NAMES), "least": "min " + rng.choice(NAMES)}[kind]
    return what + where


def accords(calls):
    """Whether no call stands behind one that began after it had ended; each is its start and its end."""
    latest = 0
    for start, end in calls:
        if end < latest:
            return False
        latest = max(latest, start)
    return True


def overlaps(records):
    """How many calls began before one of another session that began earlier had ended."""
    latest, found = {}, 0
    for record in sorted(records, key=lambda record: int(record["start"])):
        found += any(end > int(record["start"]) for session, end in latest.items() if session != record["session"])
        latest[record["session"]] = int(record["end"])
    return found


class Logs:
    def __init__(self, program, folder, each):
        self.program, self.folder, self.each, self.cases, self.overlapping = str(program), Path(folder), each, 0, 0

    def call(self, words, **more):
        more.setdefault("stdout", subprocess.PIPE)
        return subprocess.run([self.program] + words, cwd=self.folder, stderr=subprocess.PIPE, stdin=subprocess.DEVNULL, timeout=300, **more)

    def held(self, name, wanted, found):
        self.cases += 1
        if wanted != found:
            raise Wrong("WRONG: %s\n  wanted %r\n  got    %r" % (name, wanted, found))

    def records(self, name):
        with open(self.folder / name, newline="") as file:
            reader = csv.DictReader(file)
            records = list(reader)
        self.held("the header of %s" % name, HEADER, reader.fieldnames)
        return records

    def write(self, name, records):
        with open(self.folder / name, "w", newline="") as file:
            out = csv.DictWriter(file, HEADER, lineterminator="\n")
            out.writeheader()
            out.writerows(records)

    # Blocks in threads

    def script(self, seed):
        """A table and a script of blocks; answers the calls of each block."""
        rng = random.Random(seed)
        with open(self.folder / "t.csv", "w", newline="") as file:
            out = csv.writer(file, lineterminator="\n")
            out.writerow(NAMES)
            out.writerows([[rng.randrange(MOST) for _ in NAMES] for _ in range(ROWS)])
        blocks = [[line(rng) for _ in range(self.each)] for _ in range(SESSIONS)]
        (self.folder / "s.txt").write_text("\n---\n".join("\n".join(block) for block in blocks) + "\n")
        return blocks

    def ordered(self, seed, log):
        """The history of an order of a log that keeps its times."""
        done = self.call(["order", "--table", "t.csv", log])
        self.held("seed %d: an order" % seed, (0, b""), (done.returncode, done.stderr))
        (self.folder / "o.json").write_bytes(done.stdout)
        self.held("seed %d: its check" % seed, b"legal: %d entries\n" % (SESSIONS * self.each), self.call(["check", "o.json"]).stdout)

    def threads(self, seed):
        self.script(seed)
        done = self.call(["run", "--table", "t.csv", "--script", "s.txt", "--threads", "--log", "l.csv", "--history", "h.json"])
        self.held("seed %d: a run" % seed, (0, b""), (done.returncode, done.stderr))
        records = self.records("l.csv")
        entries = json.loads((self.folder / "h.json").read_text())["entries"]
        self.overlapping += overlaps(records)
        told = ["\n".join(record["reply"] for record in records if int(record["session"]) == block + 1) + "\n" for block in range(SESSIONS)]
        self.held("seed %d: the replies that went out are the log's" % seed, "---\n".join(told), done.stdout.decode())
        self.held("seed %d: the calls of the log are the history's" % seed,
                  [(entry["session"], entry["call"], "\n".join(entry["reply"])) for entry in sorted(entries, key=lambda entry: entry["session"])],
                  [(int(record["session"]), record["call"], record["reply"]) for record in records])
        own = {}
        for record in records:
            own.setdefault(int(record["session"]), []).append((int(record["start"]), int(record["end"])))
        for session, calls in own.items():
            self.held("seed %d: session %d makes one call after another" % (seed, session), True,
                      all(start <= end for start, end in calls) and all(first[1] <= second[0] for first, second in zip(calls, calls[1:])))
        queues = {session: iter(calls) for session, calls in own.items()}
        times = [next(queues[entry["session"]]) for entry in entries]
        self.held("seed %d: the engine's own order keeps the times" % seed, True, accords(times))
        self.held("seed %d: and would not with the first call as the last" % seed, False, accords(times[1:] + times[:1]))
        self.ordered(seed, "l.csv")
        self.too_early(seed, records)

    def too_early(self, seed, records):
        """The session that was given the greatest key, said to have made its calls before all others: there is no order."""
        last = max((int(record["reply"][4:]), record["session"]) for record in records if record["reply"].startswith("key "))[1]
        shift = max(int(record["end"]) for record in records if record["session"] == last) + 1
        moved = [dict(record, start=int(record["start"]) + shift, end=int(record["end"]) + shift) if record["session"] != last else record
                 for record in records]
        self.write("m.csv", moved)
        done = self.call(["order", "--table", "t.csv", "m.csv"])
        self.held("seed %d: no order of times that are wrong" % seed, (1, b""), (done.returncode, done.stdout))

    # One block

    def block(self):
        (self.folder / "t.csv").write_bytes(TABLE)
        words = ["run", "--table", "t.csv"] + [word for call in CALLS for word in ("-e", call)]
        done = self.call(words + ["--log", "l.csv"])
        self.held("a run of one block", (0, b""), (done.returncode, done.stderr))
        records = self.records("l.csv")
        printed = CALLS[:3] + ["delete where a >= 12 and a <= 12"] + CALLS[4:]
        self.held("its log", [("1", call, reply) for call, reply in zip(printed, REPLIES)],
                  [(record["session"], record["call"], record["reply"]) for record in records])
        self.held("a log beside records", 0, self.call(words + ["--log", "l.csv", "--output", "json", "--history", "h.json"]).returncode)
        self.held("an order of it is the history", (self.folder / "h.json").read_bytes(), self.call(["order", "--table", "t.csv", "l.csv"]).stdout)
        self.held("a log of no call", (0, b"session,start,end,call,reply\n"),
                  (self.call(["run", "--table", "t.csv", "-e", "# none", "--log", "l.csv"]).returncode, (self.folder / "l.csv").read_bytes()))
        self.held("a log on a full device", (3, b"sideways: refused 13\n/dev/full: it cannot be written\n"), (lambda done: (done.returncode, done.stderr))(
            self.call(words + ["--log", "/dev/full"])))

    def clashes(self):
        """A log that is another file of its run, by whatever name."""
        (self.folder / "t.csv").write_bytes(TABLE)
        (self.folder / "s.txt").write_text("count\n")
        (self.folder / "old.json").write_text("old")
        for files in ("new.json", "none.csv"):
            (self.folder / files).unlink(missing_ok=True)
        words = ["run", "--table", "t.csv", "--script", "s.txt"]
        for more, over in ((["--log", "t.csv"], "the table"), (["--log", "./s.txt"], "the script"),
                           (["--log", "old.json", "--history", "./old.json"], "the history"),
                           (["--log", "new.json", "--history", "./new.json"], "the history"),
                           (["--log", str(self.folder / "new.json"), "--history", "new.json"], "the history")):
            done = self.call(words + more)
            self.held("the log over %s" % over, (2, b"", True),
                      (done.returncode, done.stdout, done.stderr.startswith(b"error: the log would be written over " + over.encode())))
        with open(self.folder / "replies", "wb") as out:
            done = self.call(words + ["--log", "replies"], stdout=out)
        self.held("the log over the replies", True, done.stderr.startswith(b"error: the log would be written over the replies"))
        self.held("what stood there stands", (TABLE, "count\n", "old", False), (
            (self.folder / "t.csv").read_bytes(), (self.folder / "s.txt").read_text(), (self.folder / "old.json").read_text(),
            (self.folder / "new.json").exists()))
        self.held("a log beside a history", 0, self.call(words + ["--log", "none.csv", "--history", "new.json"]).returncode)
        self.held("both on one device", 0, self.call(words + ["--log", "/dev/null", "--history", "/dev/null"]).returncode)

    # Calls that are refused

    def refused(self):
        """Runs of which one allocation is refused: the log has the calls that were answered, and there is an order of them."""
        library = self.folder / "refusing.so"
        made = subprocess.run([os.environ.get("CC", "cc"), "-O1", "-shared", "-fPIC", "-o", library, TOP / "tests/refusing.c", "-ldl"],
                              stderr=subprocess.DEVNULL)
        if made.returncode != 0:
            print("  no call was refused: there is no compiler of C")
            return
        (self.folder / "t.csv").write_bytes(TABLE)
        (self.folder / "s.txt").write_text("\n".join(CALLS * 2) + "\n")
        words, found, number, done = ["run", "--table", "t.csv", "--script", "s.txt", "--log", "l.csv"], 0, 0, None
        while number < MOST_GROWTHS and (done is None or done.stderr.startswith(MET)):
            number += 1
            (self.folder / "l.csv").write_bytes(b"old")
            done = self.call(words, env=dict(os.environ, REFUSED=str(number), TOLD="1", LD_PRELOAD=str(library)))
            found += self.without(number, done)
        self.held("calls are refused in some runs", True, found > 0)
        print("  %d runs of %d had a call that was refused" % (found, number))

    def without(self, number, done):
        """A run of which one allocation was refused; answers whether a call was."""
        lines = done.stdout.decode().splitlines()
        refusals = sum(text.startswith("refused ") for text in lines)
        if done.stderr not in (b"", MET):
            self.held("the log of a run that was refused at allocation %d" % number, b"old", (self.folder / "l.csv").read_bytes())
            return False
        self.held("the status without allocation %d" % number, 3 if refusals else 0, done.returncode)
        records = self.records("l.csv")
        self.held("calls without allocation %d" % number, 2 * len(CALLS) - refusals, len(records))
        self.held("their replies", [text for text in lines if not text.startswith("refused ")],
                  [text for record in records for text in record["reply"].split("\n")])
        if refusals:
            self.held("their order", 0, self.call(["order", "--table", "t.csv", "l.csv"], stdout=subprocess.DEVNULL).returncode)
        return refusals > 0


def main():
    words = argparse.ArgumentParser(description=__doc__, formatter_class=argparse.RawDescriptionHelpFormatter)
    words.add_argument("--program", default=TOP / "crates/sideways/out/sideways")
    words.add_argument("--seeds", type=int, default=5)
    words.add_argument("--calls", type=int, default=400)
    given = words.parse_args()
    with tempfile.TemporaryDirectory() as folder:
        logs = Logs(Path(given.program).resolve(), folder, given.calls)
        try:
            logs.block()
            logs.clashes()
            logs.refused()
            for seed in range(1, given.seeds + 1):
                logs.threads(seed)
            logs.held("calls of different sessions overlap", True, logs.overlapping > 0)
        except Wrong as wrong:
            print(wrong)
            return 1
    print("  %d of %d calls began while one of another session was under way" % (logs.overlapping, given.seeds * SESSIONS * given.calls))
    print("%d cases of logs passed" % logs.cases)
    return 0


if __name__ == "__main__":
    sys.exit(main())
