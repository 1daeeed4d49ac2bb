"""A plain model of runs: the store is a dictionary of rows, and each call is made on it in its turn."""
import json
from reading import Coded, Fault, MOST_ROWS, decimals, load, parse_cuts, parse_script


def show(kind, number, is_sum=False):
    """A cell's text, or a sum's."""
    if kind == b"text":
        return "'" + number.text.replace("'", "''") + "'"
    if kind == b"flag" and not is_sum:
        return "true" if number else "false"
    places = decimals(kind)
    digits = str(abs(number)).rjust(places + 1, "0")
    whole = digits[:-places] + "." + digits[-places:] if places else digits
    return ("-" if number < 0 else "") + whole


def show_call(schema, call):
    """The printed text of a call."""
    verb = call[0]
    if verb == "delete":
        return "delete %d" % call[1]
    if verb == "insert":
        return "insert " + ", ".join(show(kind, number) for (_, kind), number in zip(schema, call[1]))
    terms = []
    for attr, bounds in call[2].items():
        name, kind = schema[attr][0].decode(), schema[attr][1]
        if kind == b"text":
            held = [bounds[0][0]] + [bounds[1][0]] * (bounds[0][0] != bounds[1][0])
            terms += ["%s = %s" % (name, show(kind, code)) for code in held]
            continue
        for bound, signs in zip(bounds, ((">=", ">"), ("<", "<="))):
            if bound is not None:
                terms.append("%s %s %s" % (name, signs[bound[1]], show(kind, bound[0])))
    head = " ".join([verb.split()[0]] + [", ".join(schema[attr][0].decode() for attr in call[1])]).strip()
    return head + (" where " + " and ".join(terms) if terms else "")


class Store:
    """The rows that there are, and how many were ever inserted."""

    def __init__(self, schema, rows, limit=MOST_ROWS):
        if len(rows) > limit:
            raise Fault("5 limit %d" % limit)
        self.schema, self.limit, self.ever = schema, limit, len(rows)
        self.rows = dict(enumerate(map(list, rows), 1))

    def chosen(self, conds):
        rows = self.rows.items()
        for attr, (below, above) in conds.items():
            rows = [(key, row) for key, row in rows if (below is None or below <= (row[attr], 0.5)) and
                    (above is None or (row[attr], 0.5) < above)]
        return rows

    def answer(self, call):
        """The lines of the reply to a call, which is made."""
        verb, schema = call[0], self.schema
        if verb == "insert":
            if self.ever == self.limit:
                return ["full"]
            self.ever += 1
            self.rows[self.ever] = call[1]
            return ["key %d" % self.ever]
        if verb == "delete":
            return ["no such key" if self.rows.pop(call[1], None) is None else "removed"]
        rows = self.chosen(call[2])
        if verb == "delete where":
            for key, _ in rows:
                del self.rows[key]
            return ["(%d removed)" % len(rows)]
        if verb == "count":
            return [str(len(rows))]
        kinds = [schema[attr][1] for attr in call[1]]
        if verb == "select":
            return ["%d: %s" % (key, ", ".join(show(k, row[a]) for k, a in zip(kinds, call[1]))) for key, row in rows] + \
                ["(%d rows)" % len(rows)]
        values = [row[call[1][0]] for _, row in rows]
        if verb == "sum":
            return [show(kinds[0], sum(values), True)]
        return [show(kinds[0], min(values) if verb == "min" else max(values)) if values else "none"]


def entry_of(schema, call, lines, session):
    return {"call": show_call(schema, call), "reply": lines, "session": session}


def history_text(schema, rows, limit, entries):
    """The bytes of a history file."""
    is_text = any(kind == b"text" for _, kind in schema)
    is_where = any(entry["call"].startswith("delete where ") for entry in entries)
    shown = [[cell.text if isinstance(cell, Coded) else cell for cell in row] for row in rows]
    outer = {"attributes": [(name + b":" + kind).decode() for name, kind in schema], "entries": entries,
             "format": 3 if is_where else 2 if is_text else 1, "limit": limit, "rows": shown}
    return json.dumps(outer, separators=(",", ":"), sort_keys=True, ensure_ascii=False).encode()


def run(table, script, cuts=b"", limit=MOST_ROWS):
    """The status, the output and the fault of a run, and its history where it has one."""
    try:
        schema, rows = load(table)
        blocks = parse_script(schema, script)
        parse_cuts(schema, cuts)
        store = Store(schema, rows, limit)
    except Fault as fault:
        return 2, "", "sideways: refused %s\n" % fault, None
    lines, entries = [], []
    for session, calls in enumerate(blocks, 1):
        lines += ["---"] if session > 1 else []
        for call in calls:
            reply = store.answer(call)
            lines += reply
            entries.append(entry_of(schema, call, reply, session))
    return 0, "".join(line + "\n" for line in lines), "", history_text(schema, rows, limit, entries)
