#!/usr/bin/env python3
"""Each growth refused in turn: small runs over one table with their first allocation refused, their second, and so on, until a run
makes fewer. Each call is made twice, so that a refused one is made again with memory; each answered line is the model's, given which
call was refused. Where just one allocation is refused, one call is refused or the whole run is, with nothing but refusal 1; its history
is legal, and has at most one void entry. With ample maps all allocations from one on are refused too: no run may pass for one that was
answered. Last comes a table that is read in parts, each by a thread of its own: its runs are answered, or refused as a whole or in one
call.
Ends with 1 and the first run that is wrong."""
import json
from collections import Counter
from histories import check
from memory import FAULT, FAULTS, REFUSED, of_sessions, preload, refusing, told_story
from model import run
from running import Holder, ended, options, told, wrong

TABLE = b"a:int,b:int,c:int\n12,7,1\n3,8,0\n12,5,1\n20,2,0\n"

# What the library tells of the refused allocation.
MET = "allocation refused\n"

RANGE = "select b where a >= 10 and a <= 15"

SCRIPTS = {
    "a range": [RANGE],
    "a second tail": [RANGE, "select b, c where a >= 10 and a <= 15"],
    "a row that comes": [RANGE, "insert 1, 9, 0", "count where a < 10"],
    "a row that goes": [RANGE, "delete 2", "select a where a >= 10"],
    "rows that go by conditions": [RANGE, "delete where a >= 12 and b < 6", "select a where a >= 10", "delete where c = 0", "count where a < 20"],
    "keys that are not there": ["delete 2", "delete 2", "delete 0"],
    "no rows": ["select b where a >= 15 and a <= 10"],
    "ranges below and from a cut": ["select b where a < 12", "select b where a >= 12", "select b where a < 12", "select b where a <= 12"],
    "a second condition": ["select a where a >= 10 and b < 6", "sum b where a < 20 and c = 1", "min b", "max c where b > 2"],
    "other heads": ["count where b >= 6", "insert 1, 9, 0", "select a, c where b > 6", "delete 1", "count where c = 1", "select c where b < 9"],
    "blocks": ["count", "---", "insert 1, 9, 0", "count"],
}

WAYS = {
    "ample maps": [],
    "no maps": ["--maps", "0"],
    "no cells": ["--budget", "0"],
    "cells for one map": ["--maps", "9", "--budget", "64"],
    "a cut": ["--cuts", "a=12"],
    "a cut, and cells for two maps": ["--cuts", "a=12", "--maps", "12", "--budget", "128"],
}


# Calls of one session whose head may be shared: as soon as it stands ready, they are answered together.
IN_A_ROW = {name: SCRIPTS[name] for name in ("a second tail", "a row that comes", "other heads")}
IN_A_ROW["counts in a row"] = ["count where a >= 10 and a <= 15"] * 40


def doubled(lines):
    """A script in which each call is made twice."""
    return "".join(line + "\n" if line == "---" else 2 * (line + "\n") for line in lines).encode()


class Growths(Holder):
    """A case is a name, a script, and further words."""

    def __init__(self, program):
        super().__init__(program)
        self.library, self.tallies = preload(self.folder.name), []

    def one(self, number, name, script, more):
        files, tally = {"t.csv": TABLE, "s.txt": script}, Counter()
        folder = self.fresh(number, files)
        words = ["run", "--table", "t.csv", "--script", "s.txt", "--history", "h.json"] + more
        plain, at, fault = run(TABLE, script)[1], 0, MET
        while MET in fault:
            at += 1
            status, out, fault = told(self.program, words, folder, **refusing(self.library, REFUSED=at, TOLD=1))
            if MET in fault:
                tally.update(self.judged("%s, allocation %d" % (name, at), files, words, folder, (status, out, fault.replace(MET, "")), plain))
        if (status, out, fault) != (0, plain, ""):
            wrong(name, files, words, (0, plain, ""), (status, out, fault))
        for after in range(0 if more else at - 1):
            status, out, fault = told(self.program, words, folder, **refusing(self.library, SHARE=1, AFTER=after))
            if status != 3 or (fault not in FAULTS and REFUSED not in out.split("\n")):
                wrong("%s, all from %d on" % (name, after + 1), files, words, "status 3 and refusal 1", (status, out, fault))
            tally["all"] += 1
        self.tallies.append(tally)
        self.clear(folder)
        return 0

    def judged(self, name, files, words, folder, ended, plain):
        """Judges a run of which one allocation was refused, and says what was refused then."""
        status, out, fault = ended
        refused = out.split("\n").count(REFUSED)
        if (status, fault) not in ((0, ""), (3, ""), *((3, it) for it in FAULTS)) or refused > 1 or (status == 0) == bool(refused or fault):
            wrong(name, files, words, "status 0, or 3 and one refusal", ended)
        if status == 0 and out != plain:
            wrong(name, files, words, plain, out)
        if not out:
            return ["run"]
        difference = told_story(files["t.csv"], files["s.txt"], out)
        if difference:
            wrong(name, files, words, *difference)
        if fault:
            return ["history"]
        voids = self.voids(name, files, words, (folder / "h.json").read_bytes(), out)
        return ["call" if refused else "nothing"] + ["void"] * voids

    def voids(self, name, files, words, data, out):
        """Judges the history of such a run, and counts its void entries."""
        judged, entries = check(data), json.loads(data)["entries"]
        void = len([entry for entry in entries if entry["reply"] == "void"])
        difference = of_sessions(files["t.csv"], files["s.txt"], entries, out)
        if judged[0] != 0 or void > 1 or difference:
            wrong(name, dict(files, **{"h.json": data}), words, *(difference or ("a legal history, one void entry at most", (judged, void))))
        return void


class Parts(Growths):
    """A case is a name, a table, a script and what that is answered."""

    def one(self, number, name, table, script, plain):
        files, tally = {"t.csv": table, "s.txt": script}, Counter()
        folder, words = self.fresh(number, files), ["run", "--table", "t.csv", "--script", "s.txt"]
        ways = {(0, plain, ""): "nothing", (3, "", FAULT): "run"}
        lines = plain.split("\n")
        for place in range(len(lines) - 1):
            ways[3, "\n".join(lines[:place] + [REFUSED] + lines[place + 1:]), ""] = "call"
        at, fault = 0, MET
        while MET in fault:
            at += 1
            status, out, fault = told(self.program, words, folder, **refusing(self.library, REFUSED=at, TOLD=1))
            way = ways.get((status, out, fault.replace(MET, "")))
            if way is None or (MET not in fault and way != "nothing"):
                wrong("%s, allocation %d" % (name, at), files, words, list(ways), (status, out, fault))
            tally[way] += MET in fault
        self.tallies.append(tally)
        self.clear(folder)
        return 0


def long_tables():
    """Tables that are halved once and twice, with scripts and what those are answered."""
    for rows, script, plain in ((75000, b"count\n", "75000\n"), (180000, b"", "")):
        table = b"a:int,b:int\n" + b"".join(b"%d,%010d\n" % (row * 7919 % 1009, row % 1013) for row in range(rows))
        yield "%d rows in parts" % rows, table, script, plain


def main():
    given = options(__doc__)
    growths = Growths(given.program)
    for way in WAYS:
        growths.hold(way, [("%s, %s" % (script, way), doubled(SCRIPTS[script]), WAYS[way]) for script in SCRIPTS])
    growths.hold("threads", [("%s, threads" % script, doubled(lines), ["--threads"]) for script, lines in IN_A_ROW.items()])
    counts = sum(growths.tallies, Counter())
    print("one allocation refused: all of the run %(run)d, one call %(call)d, with %(void)d void entries, the history %(history)d, "
          "none of these %(nothing)d; all from one on refused: %(all)d" % counts)
    growths.end()
    parts = Parts(given.program)
    parts.hold("tables in parts", long_tables())
    print("one allocation refused: all of the run %(run)d, one call %(call)d, none of these %(nothing)d" % sum(parts.tallies, Counter()))
    parts.end()


if __name__ == "__main__":
    ended(main)
