#!/usr/bin/env python3
"""Memory that runs out: runs and checks under limits of address space of many sizes, and with allocations refused at random, or
all from one on. Each ends with its answer or with `refused 1` and status 3, never by a signal; each answered line is the
model's, given which calls were refused; and each history that was written is legal and that of the output. Of each kind a stated
number of runs at least must be answered whole, and a stated number refused. Ends with 1 and the first case that is wrong, or where
there were too few."""
import json, os, random, resource, subprocess
from pathlib import Path
from histories import check
from making import schema_for, script_for, separated, table_for
from model import Store, run, show_call
from reading import load, parse_script
from running import TOP, Holder, Wrong, ended, options, told, wrong

REFUSED, FAULT = "refused 1", "sideways: refused 1\n"
# What a refused run tells, and what follows it in words where it was the history that found no memory.
FAULTS = (FAULT, FAULT + "h.json: there is no memory for it\n")


def told_story(table, script, out):
    """The first line of an output that is not the model's, given which calls were refused; None where all are."""
    schema, rows = load(table)
    blocks, store, lines, at = parse_script(schema, script), Store(schema, rows), out.split("\n"), 0
    for number, calls in enumerate(blocks):
        for call in [None] * (number > 0) + calls:
            if call is not None and lines[at] == REFUSED:
                at += 1
                continue
            reply = ["---"] if call is None else store.answer(call)
            if lines[at:at + len(reply)] != reply:
                return "line %d: %s" % (at + 1, (reply + ["(for %s)" % (call,)])[:3]), lines[at:at + len(reply)][:3]
            at += len(reply)
    return None if lines[at:] == [""] else ("an end at line %d" % at, lines[at:][:3])


def of_sessions(table, script, entries, out):
    """What of an output is not in the entries of its history, block by block; None where all is."""
    schema = load(table)[0]
    lines, at = out.split("\n"), 0
    for session, calls in enumerate(parse_script(schema, script), 1):
        own = [entry for entry in entries if entry["session"] == session]
        if session > 1:
            at += 1
        for call in calls:
            text = show_call(schema, call)
            entry = own[0] if own else {"call": None, "reply": None}
            if lines[at] == REFUSED:
                at += 1
                if entry["call"] == text and entry["reply"] == "void":
                    own.pop(0)
            elif entry["call"] != text or lines[at:at + len(entry["reply"])] != entry["reply"]:
                return "block %d, %s" % (session, text), (lines[at:at + 3], entry)
            else:
                at += len(own.pop(0)["reply"])
        if own:
            return "no more entries of block %d" % session, own[0]
    return None if lines[at:] == [""] else ("an end at line %d" % at, lines[at:][:3])


class Runs(Holder):
    """A case is a name, a table, a script, further words, and what the run is given besides."""

    def one(self, number, name, table, script, words, more):
        files = {"t.csv": table, "s.txt": script}
        folder = self.fresh(number, files)
        words = ["run", "--table", "t.csv", "--script", "s.txt"] + words
        status, out, fault = told(self.program, words, folder, **more)
        if (status, fault) not in ((0, ""), (3, ""), *((3, it) for it in FAULTS)):
            wrong(name, files, words, "status 0, or 3 and the line of refusal 1", (status, fault, out[:200]))
        is_refused = bool(fault) or REFUSED in out.split("\n")
        if (status == 3) != is_refused or not (out or fault):
            wrong(name, files, words, "status 3 just where something was refused, else replies", (status, fault, is_refused))
        if out and "--threads" not in words:
            difference = told_story(table, script, out)
            if difference:
                wrong(name, files, words, *difference)
        kept = folder / "h.json"
        if out and not fault and "--history" in words:
            data = kept.read_bytes()
            judged = check(data)
            difference = of_sessions(table, script, json.loads(data)["entries"], out)
            if judged[0] != 0 or difference:
                wrong(name, dict(files, **{"h.json": data}), words, *(difference or ("a legal history", judged)))
        self.clear(folder)
        return status


class Checks(Holder):
    """A case is a name, a history, what its check is where nothing is refused, and what the check is given besides."""

    def one(self, number, name, data, expected, more):
        folder = self.fresh(number, {"h.json": data})
        got = told(self.program, ["check", "h.json"], folder, **more)
        if got not in (expected, (3, "", FAULT)):
            wrong(name, {"h.json": data}, ["check", "h.json"], expected, got)
        self.clear(folder)
        return got[0]


def limited(kib):
    return {"preexec_fn": lambda: resource.setrlimit(resource.RLIMIT_AS, (kib << 10, kib << 10))}


def least(program, folder):
    """The KiB at which a small run ends with status 0."""
    (folder / "t.csv").write_bytes(b"a\n1\n")
    words = ["run", "--table", "t.csv", "--script", "/dev/null", "--history", "h.json"]
    for kib in range(1024, 16384, 4):
        if told(program, words, folder, **limited(kib))[0] == 0:
            return kib
    raise Wrong("WRONG: a run of one row does not end with 0 within 16 MiB")


def inputs(rng, rows, calls, blocks):
    schema = schema_for(rng, 4)
    table = separated(rng, table_for(rng, schema, rows, rows))
    return table, script_for(rng, schema, calls, rows, rows, 0.3, blocks)


SETTINGS = [[], ["--threads"], ["--history", "h.json"], ["--history", "h.json", "--threads"], ["--maps", "0"], ["--budget", "640", "--stats"],
            ["--cuts", "a=3", "--history", "h.json"]]


def under_limits(rng, begin, table, script, step, count):
    """A run under each of so many limits, which rise."""
    for number in range(count):
        for words in rng.sample(SETTINGS, 2):
            if b"a:" in table[:2] or b"a," in table[:2] or "--cuts" not in words:
                told_words = [word for word in words if word != "--stats"]
                yield "%d KiB" % (begin + number * step), table, script, told_words, limited(begin + number * step)


def preload(work, name="refusing"):
    """The library that refuses allocations, or one of another name."""
    library = os.path.join(work, name + ".so")
    source = str(TOP / "tests" / (name + ".c"))
    subprocess.run(["cc", "-O1", "-shared", "-fPIC", "-o", library, source, "-ldl"], check=True)
    return library


def refusing(library, **how):
    return {"env": dict(os.environ, LD_PRELOAD=library, **{name: str(value) for name, value in how.items()})}


def refused_at_random(rng, library, count):
    for number in range(count):
        table, script = inputs(rng, rng.choice([5, 50]), 40, rng.choice([0, 0.1]))
        words = [word for word in rng.choice(SETTINGS[:6]) if word != "--stats"]
        share = rng.choice([2, 5, 20, 100, 400])
        yield "one of %d refused" % share, table, script, words, refusing(library, SHARE=share, SEED=rng.randrange(1 << 30), AFTER=rng.choice([0, 100, 200, 300]))


def refused_from(library, table, script, count):
    for number in range(1, count):
        for words in ([], ["--history", "h.json", "--threads"]):
            yield "all from %d on refused" % number, table, script, words, refusing(library, SHARE=1, AFTER=number)


def checks_under(ways, data):
    expected = check(data)
    for more in ways:
        yield "a check", data, expected, more


def main():
    given = options(__doc__)
    runs, rng, times = Runs(given.program), random.Random(given.seed), given.times
    begin = least(given.program, Path(runs.folder.name))
    print("the least address space in which a small run ends with 0: %d KiB" % begin, flush=True)
    small = inputs(rng, 30, 60, 0.05)
    large = inputs(rng, 4000, 60, 0.05)
    runs.hold("small runs under limits", under_limits(rng, begin, *small, 16, 150 * times), answered=200 * times, refused=1)
    runs.hold("large runs under limits", under_limits(rng, begin, *large, 768, 40 * times), answered=40 * times, refused=1)
    library = preload(runs.folder.name)
    runs.hold("runs with allocations refused at random", refused_at_random(rng, library, 300 * times), answered=20 * times, refused=100 * times)
    runs.hold("runs with all refused from one on", refused_from(library, *small, 300 * times), refused=500)
    history = run(*small)[3]
    checks = Checks(given.program)
    checks.hold("checks under limits", checks_under([limited(begin + 8 * number) for number in range(200 * times)], history), answered=150 * times)
    ways = [refusing(library, SHARE=1, AFTER=number) for number in range(1, 300 * times)]
    checks.hold("checks with allocations refused", checks_under(ways, history), refused=200)
    runs.end()


if __name__ == "__main__":
    ended(main)
