#!/usr/bin/env python3
"""Calls of tapes, maps, areas and heads, made one by one by the program test_calls. Each run is made again with its first
allocation refused, its second, and so on, until a run meets no refusal: a refused call says `refused 1` and nothing else, leaves what it
was made on as its contract says, and is then answered as in the run without a refusal. And worked examples over maps that refuse each
n-th step, find the budget contended at each second begin, or find no cells at all: the replies are the known ones, and of each kind
of map it is told how many calls were made, and how many calls of maps were refused, which must be some.
Ends with 1 and the first run that is wrong. The program is that of crates/test_calls (`--program`)."""
import re, tempfile, time
from collections import Counter
from memory import preload, refusing
from running import Wrong, ended, options, told

MET = "allocation refused\n"
AMPLE = 1 << 20

RANGE = ("select b where a >= 10 and a <= 15", "1: 7\n3: 5\n(2 rows)")
FROM_TEN = ("select a where a >= 10", "1: 12\n3: 12\n4: 20\n(3 rows)")
BELOW = ("select b where a < 12", "2: 8\n(1 rows)")
ABOVE = ("select b where a >= 12", "1: 7\n3: 5\n4: 2\n(3 rows)")

# Lines over the four rows, and what each is answered.
WORKED = {
    "a range": [RANGE],
    "the same again": [RANGE, RANGE],
    "a second tail": [RANGE, ("select b, c where a >= 10 and a <= 15", "1: 7, 1\n3: 5, 1\n(2 rows)")],
    "a row that comes": [RANGE, ("insert 1, 9, 0", "key 5"), ("count where a < 10", "2")],
    "a row that goes": [RANGE, ("delete 2", "removed"), FROM_TEN],
    "keys that are not there": [("delete 2", "removed"), ("delete 2", "no such key"), ("delete 0", "no such key")],
    "a row that goes without its map": [RANGE, ("clear", "done"), ("delete 2", "removed"), FROM_TEN],
    "both sides of a cut": [BELOW, ("select b where a <= 12", "1: 7\n2: 8\n3: 5\n(3 rows)")],
    "from area to area": [BELOW, ABOVE, BELOW],
    "rows come and go beside a cut": [BELOW, ("insert 1, 9, 0", "key 5"), ("delete 4", "removed"), ("count where a < 12", "2"), ("count", "4")],
}

# More of them, over maps that refuse: so that a map begins again in its box, by another tail or since it was cleared; and so that it makes
# five steps and more.
OTHER = ("select c where a >= 10 and a <= 15", "1: 1\n3: 1\n(2 rows)")
TURNED = {
    "tails by turns": [RANGE, OTHER, RANGE, OTHER, RANGE],
    "maps that are cleared": [RANGE, ("clear", "done"), RANGE, ("clear", "done"), RANGE],
    "one range after the other": [("count where a >= 10", "3"), ("count where a >= 13", "1"), ("count where a < 5", "1"),
                                  ("count where a >= 20", "1"), ("count where a < 12", "1"), RANGE],
}

# Sides whose calls are given a refusal, with boxes and cells.
GROWN = [(side, boxes, cells) for side in ("area", "head", "cuts") for boxes, cells in ((6, AMPLE), (4, 128), (2, 64), (0, AMPLE), (4, 0))]

# Maps that refuse: how they do, the word for it, and the cells: each step of a number, each second begin, and each one for want of cells.
# And how many boxes there are: enough, and so few that maps take turns in them.
TROUBLES = [("step %d and each further one of that number" % every, "%d" % every, AMPLE) for every in range(1, 6)]
TROUBLES += [("each second begin, by 8", "contended", AMPLE), ("each begin, by 7", "none", 0)]
TROUBLED_BOXES = "6", "2"

BLANK = "0 used, 0 cells, cursor 0:"

LOADED = "3 attributes\n1: 12, 7, 1\n2: 3, 8, 0\n3: 12, 5, 1\n4: 20, 2, 0"


def tape_seen(names):
    """What is seen of a tape of four rows after each call: its entries, its pieces, and the most pairs that it had."""
    for name in names:
        if name in ("new tape", "restart", "restart with live rows"):
            pairs = peak = {"new tape": 4, "restart": 2, "restart with live rows": 3}[name]
            entries, pieces = 1, 1
        else:
            entries, pieces = entries + 1, pieces + 2 * (name == "push of a range")
            pairs += {"push of a row": 1, "push of a removal": -1}.get(name, 0)
            peak = max(peak, pairs)
        yield "%d entries, %d pieces, peak %d" % (entries, pieces, peak)


def map_wrong(made):
    """The first call of a map after which something else is seen than what it has to hold: these pairs, cut at these bounds."""
    cells = cursor = 0
    pairs, bounds, before, of = [], [], [], None
    for name, answer, seen in made:
        words = name.split()
        told, _, shown = seen.partition(":")
        shown = [tuple(int(number) for number in pair.split(":")) for pair in shown.split()]
        if words[0] in ("begin", "clear"):
            cells, cursor, pairs, bounds, of = int(words[2]) if words[0] == "begin" else 0, 0, [], [], words[1:2]
        elif words[0] == "grow":
            cells = int(words[1])
        else:
            cursor += 1
            row = [(1, 12, 7), (2, 3, 8), (3, 12, 5), (4, 20, 2)] if words[1] == "load" else [(int(words[2]), 13, 9)] if words[1] == "row" else []
            pairs += [(a, key if of == ["keys"] else b) for key, a, b in row]
            if words[1] == "removal":
                pairs.remove(before[int(words[2])])
            if words[1] == "range":
                bounds += [(int(words[2]), True), (int(words[3]), False)]
        sides = [[a < value or (a == value and not is_before) for a, _ in shown] for value, is_before in bounds]
        held = sorted(shown) == sorted(pairs) and all(side == sorted(side, reverse=True) for side in sides)
        if answer != "done" or told != "%d used, %d cells, cursor %d" % (cells, cells, cursor) or not held:
            return name, answer, seen
        before = shown
    return None


def groups(text):
    """What was called, what came of it and what was seen then, call by call."""
    made = []
    for part in text.split("> ")[1:]:
        name, _, rest = part.partition("\n")
        answer, mark, seen = ("\n" + rest).rpartition("\n= ")
        made.append((name, answer.strip("\n"), seen.strip("\n")) if mark else (name, seen.strip("\n"), ""))
    return made


def keys(seen):
    return seen.split(";")[0]


def left_so(name, before, seen):
    """Whether a refused call may have left this."""
    if name.split()[0] in ("begin", "grow"):
        return seen == BLANK
    if name == "merge" or name.split()[0] in ("prepare", "scan", "select", "count"):
        return keys(seen) == keys(before)
    return seen == before or seen == "none"


class Kind:
    """What was called over maps of a kind, and how often these began, stepped and refused to."""

    def __init__(self, name):
        self.name, self.runs, self.calls, self.began, self.stepped, self.denied = name, 0, 0, 0, 0, 0

    def add(self, words, calls, maps):
        many = re.fullmatch("([0-9]+) began, ([0-9]+) stepped, ([0-9]+) denied", maps)
        if not many:
            wrong(words, "maps that refuse", "how often", maps)
        began, stepped, denied = (int(number) for number in many.groups())
        self.runs, self.calls = self.runs + 1, self.calls + calls
        self.began, self.stepped, self.denied = self.began + began, self.stepped + stepped, self.denied + denied

    def tell(self):
        """Tells it; wrong where no call of these maps was refused."""
        print("maps that refuse %s: %d runs, %d calls, all replies as known; the maps began %d times, made %d steps and refused %d calls"
              % (self.name, self.runs, self.calls, self.began, self.stepped, self.denied), flush=True)
        if self.denied == 0:
            raise Wrong("WRONG: no call of a map was refused")


def tell_kinds(kinds, began):
    """Tells each kind, and all of them together."""
    for kind in kinds:
        kind.tell()
    sums = tuple(sum(getattr(kind, name) for kind in kinds) for name in ("runs", "calls", "denied"))
    print("over maps that refuse: %d runs, %d calls, all replies as known; %d calls of maps refused, in %.0f s" % (*sums, time.time() - began))


def asked(side, boxes, lines):
    """Lines and what they are answered, with each other call round them: room before an insert, and before a select its preparation,
    where that can be made, and its answer from the rows."""
    made = []
    for line, answer in lines:
        if line.startswith("insert") and side == "area":
            made.append(("room", "done"))
        if line.split()[0] in ("select", "count"):
            made += [("scan " + line, answer)] + [("prepare " + line, "done")] * (side == "area" and boxes == 6)
        made.append((line, answer))
    return made


def wrong(words, what, expected, got):
    raise Wrong("WRONG: %s: %s\n  expected %r\n  got      %r" % (" ".join(words), what, expected, got))


class Calls:
    def __init__(self, program):
        self.program, self.folder = program, tempfile.TemporaryDirectory()
        self.library, self.tally, self.kinds = preload(self.folder.name), Counter(), Counter()

    def ran(self, words, **how):
        return told(self.program, words, self.folder.name, **how)

    def plain(self, words, replies):
        """The calls of a run without a refusal, whose replies to lines are these."""
        status, out, fault = self.ran(words)
        made = groups(out)
        lines = [(name, answer) for name, answer, _ in made if name in dict(replies)]
        if (status, fault, lines) != (0, "", replies) or "refused" in out:
            wrong(words, "no refusal", replies, (status, fault, out))
        if words[0] in ("area", "head", "cuts") and made[-1] != ("end", "0 used", "none"):
            wrong(words, "the end", "0 used", made[-1])
        if words[0] == "tape" and [seen for _, _, seen in made] != list(tape_seen(name for name, _, _ in made)):
            wrong(words, "a tape", list(tape_seen(name for name, _, _ in made)), made)
        if words[0] == "map" and map_wrong(made[1:]):
            wrong(words, "a map", "its pairs, cut at its bounds", map_wrong(made[1:]))
        if words[0] == "load" and made != [("load", LOADED, "none")]:
            wrong(words, "a table", LOADED, made)
        return made

    def judged(self, words, at, plain, out):
        """Judges a run of which one allocation was refused, and counts the calls that it refused."""
        place, refused, before = 0, 0, "none"
        for name, answer, seen in groups(out):
            if name == "from the first":
                place = [it[0].split()[0] for it in plain].index("begin")
            elif answer.startswith("refused"):
                refused += 1
                known = name == "boxes" or name.startswith("read ") or name == plain[place][0]
                if answer != "refused 1" or not known or not left_so(name, before, seen):
                    wrong(words, "allocation %d" % at, ("refused 1", before), (name, answer, seen))
                self.kinds[words[0] + " " + (name if words[0] == "tape" else " ".join(name.split()[:1 + (words[0] == "map")]))] += 1
                # a head drops a box that it refuses, and is given the next one
                place += words[0] in ("head", "cuts") and name == "supply"
            else:
                same = (name, answer) == plain[place][:2]
                if not same or (seen if words[0] in ("tape", "map") else keys(seen)) not in (plain[place][2], keys(plain[place][2])):
                    wrong(words, "allocation %d" % at, plain[place], (name, answer, seen))
                place += 1
            before = before if seen == "none" else seen
        if place != len(plain) or refused > 1:
            wrong(words, "allocation %d" % at, "all calls, one refused", (place, refused))
        return refused

    def each(self, words, replies):
        """Refuses each allocation in turn."""
        plain, at, fault = self.plain(words, replies), 0, MET
        while MET in fault:
            at += 1
            status, out, fault = self.ran(words, **refusing(self.library, REFUSED=at, TOLD=1))
            if status != 0 and out:
                wrong(words, "allocation %d" % at, "status 0", (status, out, fault))
            if MET in fault:
                kind = "before any call" if status else "a call" if self.judged(words, at, plain, out) else "answered all the same"
                self.tally[kind] += 1
        if (status, groups(out)) != (0, plain):
            wrong(words, "no refusal any more", plain, (status, out))
        return at - 1


def main():
    calls, began = Calls(options(__doc__).program), time.time()
    for side in ("tape", "map", "load"):
        print("%s: %d allocations, each refused" % (side, calls.each([side, "0", "0", "0"], [])), flush=True)
    for side, boxes, cells in GROWN:
        many = 0
        for lines in WORKED.values():
            for said in (lines, asked(side, boxes, lines)):
                many += calls.each([side, "0", str(boxes), str(cells)] + [line for line, _ in said], said)
        print("%s, %d boxes, %d cells: %d allocations, each refused" % (side, boxes, cells, many), flush=True)
    print("refused calls: " + ", ".join("%s %d" % it for it in sorted(calls.kinds.items())))
    print("refused: " + ", ".join("%s %d" % it for it in calls.tally.items()) + " in %.0f s" % (time.time() - began), flush=True)
    began, kinds = time.time(), []
    for name, every, cells in TROUBLES:
        kinds.append(Kind(name))
        for side in ("area", "head", "cuts"):
            for boxes in TROUBLED_BOXES:
                for lines in list(WORKED.values()) + list(TURNED.values()):
                    for said in (lines, asked(side, 0, lines)):
                        words = [side, every, boxes, str(cells)] + [line for line, _ in said]
                        made = calls.plain(words, said)
                        kinds[-1].add(words, len(said), dict(it[:2] for it in made).get("maps", "none"))
    tell_kinds(kinds, began)


if __name__ == "__main__":
    ended(main)
