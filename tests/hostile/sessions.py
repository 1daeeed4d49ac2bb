#!/usr/bin/env python3
"""Calls of an engine, made one by one by the program test_sessions, with each allocation refused in turn, until a run meets
no refusal: a refused call says `refused 1` and nothing else, of a viewer perhaps `refused 5 limit 16`, and is then answered as in the
run without a refusal; the record is legal, and has at most one entry more, which is void. Where publishing a change was refused the change
is answered, each viewer answers as before, and the next insert or delete publishes both, also one that finds no such key. And worked
examples over maps that refuse: the replies are the known ones, and of each kind of map it is told how many calls were made, and how many
calls of maps were refused, which must be some.
Ends with 1 and the first run that is wrong. The program is that of crates/test_sessions (`--program`)."""
import tempfile, time
from collections import Counter
from calls import AMPLE, MET, TROUBLED_BOXES, TROUBLES, TURNED, WORKED, Kind, groups, tell_kinds, wrong
from memory import preload, refusing
from running import ended, options, told

# What is called of a session and of viewers beside it. Each script ends with a change that publishes, and what viewers answer then.
VIEWED = {
    "one viewer, and one that is opened later": [
        "viewer", "view count", "insert 1, 9, 0", "learn", "view count where a < 10", "viewer", "view count",
        "insert 2, 9, 0", "learn", "view count", "insert 3, 9, 0", "learn", "view count"],
    "two viewers": ["viewer", "viewer", "view count", "insert 1, 9, 0", "view count", "insert 2, 9, 0", "learn", "view count"],
    "two viewers, and rows that go": [
        "viewer", "viewer", "insert 1, 9, 0", "learn", "view count where a < 10", "delete 2", "learn", "view count where a < 10",
        "delete 2", "view count", "delete 5", "learn", "view count", "insert 1, 9, 0", "learn", "view count"],
    "a viewer, and rows that go by conditions": [
        "viewer", "delete where a = 12", "learn", "view count", "view sum a", "insert 12, 9, 0", "delete where a >= 12 and b < 6", "learn",
        "view count", "delete where a = 12", "view sum a", "insert 1, 9, 0", "learn", "view count"],
    "changes before the first viewer": [
        "insert 1, 9, 0", "delete 2", "viewer", "view count where a < 10", "insert 2, 9, 0", "learn", "view count", "insert 3, 9, 0", "view count"],
    "selects beside viewers": [
        "viewer", "select b where a >= 10 and a <= 15", "insert 1, 9, 0", "learn", "view select b where a < 10", "count where a < 10",
        "viewer", "insert 2, 9, 0", "learn", "view select b where a < 10", "view sum a", "select b where a >= 10 and a <= 15"],
}

# The cells of the four rows by their keys.
ROWS = {1: (12, 7, 1), 2: (3, 8, 0), 3: (12, 5, 1), 4: (20, 2, 0)}

# What is asked of them, as a function of rows.
ASKED = {
    "count": lambda rows: str(len(rows)),
    "count where a < 10": lambda rows: str(len([cells for cells in rows.values() if cells[0] < 10])),
    "sum a": lambda rows: str(sum(cells[0] for cells in rows.values())),
    "select b where a < 10": lambda rows: listed(rows, lambda a: a < 10),
    "select b where a >= 10 and a <= 15": lambda rows: listed(rows, lambda a: 10 <= a <= 15),
}

# Which rows go by conditions, by their cells.
GO = {
    "where a = 12": lambda a, b, c: a == 12,
    "where a >= 12 and b < 6": lambda a, b, c: a >= 12 and b < 6,
}

# Boxes, cells and cuts.
GROWN = [("4", AMPLE, "whole"), ("0", AMPLE, "whole"), ("4", 64, "whole"), ("8", AMPLE, "a=12"), ("4", 128, "a=12")]

BEFORE = ("open", "table", "boxes", "supply")


def listed(rows, has):
    found = ["%d: %d" % (key, cells[1]) for key, cells in sorted(rows.items()) if has(cells[0])]
    return "\n".join(found + ["(%d rows)" % len(found)])


def replies(lines, late=None):
    """What is called and answered where publishing the change of that place was refused, so that the next one publishes both."""
    rows, seen, key, viewers, made = dict(ROWS), None, 4, 0, []
    for place, line in enumerate(lines):
        word, _, rest = line.partition(" ")
        if word == "view":
            made += [(line, ASKED[rest](seen))] * viewers
            continue
        reply = "done"
        if word == "viewer":
            viewers, seen = viewers + 1, dict(rows) if seen is None else seen
        elif word == "insert":
            key += 1
            rows[key], reply = tuple(int(cell) for cell in rest.split(", ")), "key %d" % key
        elif rest in GO:
            gone = [key for key, cells in rows.items() if GO[rest](*cells)]
            rows = {key: cells for key, cells in rows.items() if key not in gone}
            reply = "(%d removed)" % len(gone)
        elif word == "delete":
            reply = "removed" if rows.pop(int(rest), None) else "no such key"
        elif word != "learn":
            reply = ASKED[line](rows)
        if seen is not None and word in ("insert", "delete") and place != late:
            seen = dict(rows)
        made.append((line, reply))
    return made


class Sessions:
    def __init__(self, program):
        self.program, self.folder = program, tempfile.TemporaryDirectory()
        self.library, self.tally, self.kinds = preload(self.folder.name), Counter(), Counter()

    def ran(self, words, **how):
        status, out, fault = told(self.program, words, self.folder.name, **how)
        return status, [(name, answer) for name, answer, _ in groups(out)], fault

    def plain(self, words, lines):
        """What is told before the calls, and at the end, of a run without a refusal, whose calls are answered so; and what of its maps."""
        status, made, fault = self.ran(words)
        maps = made.pop()[1] if made and made[-1][0] == "maps" else "none"
        calls = [it for it in lines if it[0] not in ("viewer", "learn", "clear") and not it[0].startswith("view ")]
        end = [("close", "%d entries" % len(calls)), ("void", "0"), ("check", "legal")]
        many = len(made) - len(lines) - len(end)
        if (status, fault) != (0, "") or made[many:] != lines + end or set(made[:many]) - {(name, "done") for name in BEFORE}:
            wrong(words, "no refusal", lines + end, (status, made, fault))
        return made[:many], end, maps

    def judged(self, words, at, ways, made):
        """Judges a run of which one allocation was refused, and says what was refused: a call, the publishing, or nothing. Its ways
        are what may be told: the calls without a refusal, and then those with one change each whose publishing was refused."""
        refused = [it for it in made if it[1].startswith("refused")]
        for name, answer in refused:
            if answer != "refused 1" and (name, answer) != ("viewer", "refused 5 limit 16"):
                wrong(words, "allocation %d" % at, "refused 1", (name, answer))
            self.kinds[name.split()[0]] += 1
        names = {name for name, _ in ways[0]} | {"table", "boxes"}
        if len(refused) > 1 or any(name not in names and not name.startswith("read ") for name, _ in refused):
            wrong(words, "allocation %d" % at, "one refused call", refused)
        rest = [it for it in made if it not in refused]
        void = int(dict(made)["void"])
        if void > len(refused):
            wrong(words, "allocation %d" % at, "no void entry but of a refused call", made)
        if rest == self.voided(ways[0], void):
            self.tally["void entries"] += void
            return "a call" if refused else "answered all the same"
        if refused or rest not in ways[1:]:
            wrong(words, "allocation %d" % at, self.voided(ways[0], void), made)
        return "publishing"

    def voided(self, way, void):
        """The same calls, of a record that has so many void entries more."""
        told_so = {"close": lambda many: "%d entries" % (int(many.split()[0]) + void), "void": lambda many: str(void)}
        return [(name, told_so[name](answer) if name in told_so else answer) for name, answer in way]

    def each(self, words, lines, *late):
        """Refuses each allocation in turn; `late` are the replies where publishing a change was refused."""
        before, end, _ = self.plain(words, lines)
        ways, at, fault = [before + calls + end for calls in (lines,) + late], 0, MET
        while MET in fault:
            at += 1
            status, made, fault = self.ran(words, **refusing(self.library, REFUSED=at, TOLD=1))
            if status != 0 and made:
                wrong(words, "allocation %d" % at, "status 0", (status, made, fault))
            if MET in fault:
                self.tally["before any call" if status else self.judged(words, at, ways, made)] += 1
        if (status, made) != (0, ways[0]):
            wrong(words, "no refusal any more", ways[0], (status, made))
        return at - 1

    def viewed(self, lines):
        """Refuses each allocation of a script with viewers in turn: each change of it is once that whose publishing was refused."""
        late = [replies(lines, place) for place, line in enumerate(lines) if line.split()[0] in ("insert", "delete")]
        before = self.tally["publishing"]
        many = self.each(["0", "4", str(AMPLE), "whole"] + lines, replies(lines), *late)
        if self.tally["publishing"] == before:
            wrong(lines, "viewers", "a publishing that is refused", "none")
        return many


def main():
    sessions, began = Sessions(options(__doc__).program), time.time()
    for boxes, cells, cuts in GROWN:
        many = sum(sessions.each(["0", boxes, str(cells), cuts] + [line for line, _ in lines], lines) for lines in WORKED.values())
        print("%s boxes, %d cells, %s: %d allocations, each refused" % (boxes, cells, cuts, many), flush=True)
    for name, lines in VIEWED.items():
        print("%s: %d allocations, each refused" % (name, sessions.viewed(lines)), flush=True)
    print("refused calls: " + ", ".join("%s %d" % it for it in sorted(sessions.kinds.items())))
    print("refused: " + ", ".join("%s %d" % it for it in sessions.tally.items()) + " in %.0f s" % (time.time() - began), flush=True)
    began, kinds = time.time(), []
    known = [([line for line, _ in lines], lines) for lines in list(WORKED.values()) + list(TURNED.values())]
    known += [(lines, replies(lines)) for lines in VIEWED.values()]
    for name, every, cells in TROUBLES:
        kinds.append(Kind(name))
        for cuts in ("whole", "a=12"):
            for boxes in TROUBLED_BOXES:
                for lines, answers in known:
                    words = [every, boxes, str(cells), cuts] + lines
                    kinds[-1].add(words, len(answers), sessions.plain(words, answers)[2])
    tell_kinds(kinds, began)


if __name__ == "__main__":
    ended(main)
