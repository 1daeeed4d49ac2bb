"""Logs of a store that runs calls side by side and is right, and the same with one thing wrong.

Each session makes one call after another. A call takes effect at one time between its start and its end, and the calls are made on a plain
table in the order of these times; so there is an order, and nothing in the logs but replies and times tells it. Each log is the same for the
same seed."""
import bisect, csv, heapq, random

NAMES = ["a", "b", "c"]


class Table:
    """The rows ever inserted, by their keys from 1, and which of them live."""

    def __init__(self, rows):
        self.rows = [list(row) for row in rows]
        self.live = [True] * len(rows)
        self.orders = [sorted((row[attr], place) for place, row in enumerate(rows)) for attr in range(len(NAMES))]

    def meets(self, conds):
        """The live rows that meet the conditions, one at least, in ascending order."""
        attr, low, high = conds[0]
        order = self.orders[attr]
        found = order[bisect.bisect_left(order, (low, -1)) : bisect.bisect_left(order, (high + 1, -1))]
        rows = sorted(row for _, row in found if self.live[row])
        return [row for row in rows if all(low <= self.rows[row][attr] <= high for attr, low, high in conds)]

    def insert(self, cells):
        for attr, cell in enumerate(cells):
            bisect.insort(self.orders[attr], (cell, len(self.rows)))
        self.rows.append(cells)
        self.live.append(True)
        return len(self.rows)

    def reply(self, call):
        """Makes a call, and answers the lines of its reply."""
        kind, what, conds = call
        if kind == "insert":
            return "key %d" % self.insert(what)
        if kind == "delete":
            if not (what <= len(self.rows) and self.live[what - 1]):
                return "no such key"
            self.live[what - 1] = False
            return "removed"
        rows = self.meets(conds)
        if kind == "sweep":
            for row in rows:
                self.live[row] = False
            return "(%d removed)" % len(rows)
        if kind == "count":
            return "%d" % len(rows)
        if kind == "sum":
            return "%d" % sum(self.rows[row][what] for row in rows)
        lines = ["%d: %s" % (row + 1, ", ".join(map(str, self.rows[row]))) for row in rows]
        return "\n".join(lines + ["(%d rows)" % len(rows)])


def text_of(call):
    kind, what, conds = call
    where = " and ".join("%s >= %d and %s <= %d" % (NAMES[attr], low, NAMES[attr], high) for attr, low, high in conds)
    return {
        "insert": lambda: "insert %s" % ", ".join(map(str, what)),
        "delete": lambda: "delete %d" % what,
        "sweep": lambda: "delete where " + where,
        "count": lambda: "count where " + where,
        "sum": lambda: "sum %s where %s" % (NAMES[what], where),
        "rows": lambda: "select a, b, c where " + where,
    }[kind]()


class Maker:
    """What the sessions call: cells from 0 to `most`, ranges of `width` of them."""

    def __init__(self, rng, most, width):
        self.rng, self.most, self.width = rng, most, width

    def call(self, count):
        rng = self.rng
        kind = rng.choices(["rows", "count", "sum", "insert", "delete", "sweep"], [30, 15, 15, 20, 18, 2])[0]
        if kind == "insert":
            return kind, [rng.randint(0, self.most) for _ in NAMES], []
        if kind == "delete":
            return kind, rng.randint(1, count), []
        low = rng.randint(0, self.most)
        width = self.width // 4 if kind == "sweep" else self.width
        return kind, rng.randrange(len(NAMES)), [(rng.randrange(len(NAMES)), low, low + rng.randint(0, width))]


def times(rng, sessions, calls, share):
    """For each call its session, start, effect and end; `share` of a session's time is spent in calls."""
    made, queue = [], [(rng.randint(0, 1000), session) for session in range(1, sessions + 1)]
    left = dict((session, calls) for session in range(1, sessions + 1))
    heapq.heapify(queue)
    while queue:
        start, session = heapq.heappop(queue)
        long = rng.randint(100, 1900)
        effect = start + rng.randint(1, long - 1)
        made.append((effect, session, start, start + long))
        left[session] -= 1
        if left[session]:
            heapq.heappush(queue, (start + long + 1 + int(long * (1 - share) / share * rng.uniform(0.5, 1.5)), session))
    return sorted(made)


def logs(seed, sessions, calls, rows, share, width, most=1_000_000):
    """The table's rows, and the calls in the order in which they took effect: session, start, end, call, reply."""
    rng = random.Random(seed)
    opening = [[rng.randint(0, most) for _ in NAMES] for _ in range(rows)]
    table, maker, done = Table(opening), Maker(rng, most, width), []
    for _, session, start, end in times(rng, sessions, calls, share):
        call = maker.call(len(table.rows))
        done.append([session, start, end, call, table.reply(call)])
    return opening, done


def replayed(opening, calls, at, wrong):
    """The replies again, with one call made wrongly: `wrong` has the table and the call, and answers the reply."""
    table = Table(opening)
    replies = []
    for place, (_, _, _, call, _) in enumerate(calls):
        replies.append(wrong(table, call) if place == at else table.reply(call))
    return replies


def lost_insert(table, call):
    reply = table.reply(call)
    table.live[-1] = False
    return reply


def doubled_insert(table, call):
    reply = table.reply(call)
    table.insert(call[1])
    return reply


def lost_delete(table, call):
    reply = table.reply(call)
    table.live[call[1] - 1] = True
    return reply


def count_too_high(table, call):
    return str(int(table.reply(call)) + 1)


def stale_read(opening, calls, at):
    """The reply that a read would have been given before the last changes that had ended when it began."""
    session, start, _, call, reply = calls[at]
    table, before = Table(opening), []
    for other in calls[:at]:
        before.append(table.reply(call))
        table.reply(other[3])
    for place in range(at - 1, -1, -1):
        if calls[place][2] < start and before[place] != reply:
            return before[place]
    return None


def write(folder, opening, calls, replies=None):
    """The table, and a log of each session; answers their paths, and the file and record of each call."""
    with open(folder / "t.csv", "w", newline="") as file:
        out = csv.writer(file, lineterminator="\n")
        out.writerow(NAMES)
        out.writerows(opening)
    own = {}
    for place, (session, start, end, call, reply) in enumerate(calls):
        given = reply if replies is None else replies[place]
        own.setdefault(session, []).append((place, [session, start, end, text_of(call), given]))
    paths, origins = [], {}
    for session in sorted(own):
        path = folder / ("%d.csv" % session)
        with open(path, "w", newline="") as file:
            out = csv.writer(file, lineterminator="\n")
            out.writerow(["session", "start", "end", "call", "reply"])
            for record, (place, fields) in enumerate(own[session]):
                out.writerow(fields)
                origins[place] = (path.name, record + 1)
        paths.append(path)
    return paths, origins
