"""A plain reader and judge of history files, written from docs/HISTORIES.md and the standard of JSON. Python's own reader of
JSON takes more than the standard, so only its unescaping of a text that is known to be well formed is used."""
import json, re
from reading import Fault, MOST_ROWS, bad_line, parse_line, schema_of, text_of
from model import Store

TEXT = re.compile(r'"(?:[^"\\\x00-\x1f]|\\(?:["\\/bfnrt]|u[0-9a-fA-F]{4}))*"')
NUMBER = re.compile(r"(-?(?:0|[1-9][0-9]*))((?:\.[0-9]+)?(?:[eE][+-]?[0-9]+)?)")
WORDS = {"true": True, "false": False, "null": None}


class NoJson(Exception):
    pass


class Json:
    """A text of JSON, and how far it was read."""

    def __init__(self, text):
        self.text, self.at = text, 0

    def next(self):
        self.at = re.compile(r"[ \t\n\r]*").match(self.text, self.at).end()
        return self.text[self.at:self.at + 1]

    def takes(self, sign):
        if self.next() != sign:
            return False
        self.at += 1
        return True

    def wanted(self, sign):
        if not self.takes(sign):
            raise NoJson

    def found(self, pattern):
        self.next()
        found = pattern.match(self.text, self.at)
        if found is None:
            raise NoJson
        self.at = found.end()
        return found

    def string(self):
        text = json.loads(self.found(TEXT)[0])
        if re.search("[\ud800-\udfff]", text):
            raise NoJson
        return text

    def number(self):
        found = self.found(NUMBER)
        if not found[2] and found[1] != "-0" and len(found[1]) <= 20 and -2**63 <= int(found[1]) < 2**64:
            return int(found[1])
        number = float(found[0])
        if number in (float("inf"), -float("inf")):
            raise NoJson
        return number

    def listed(self, end, item):
        """What stands between commas up to an end."""
        found = []
        if self.takes(end):
            return found
        while True:
            found.append(item())
            if self.takes(end):
                return found
            self.wanted(",")

    def member(self, depth):
        self.next()
        name = self.string()
        self.wanted(":")
        return name, self.value(depth)

    def value(self, depth=127):
        """A value, in which arrays and objects nest so deep; where a name stands twice its last value is kept."""
        sign = self.next()
        if sign and sign in "[{":
            self.at += 1
            if depth == 0:
                raise NoJson
            if sign == "[":
                return self.listed("]", lambda: self.value(depth - 1))
            return dict(self.listed("}", lambda: self.member(depth - 1)))
        if sign == '"':
            return self.string()
        for word, meant in WORDS.items():
            if self.text.startswith(word, self.at):
                self.at += len(word)
                return meant
        return self.number()


def parse_json(data):
    try:
        reader = Json(data.decode())
        value = reader.value()
    except UnicodeDecodeError:
        raise NoJson from None
    if reader.next():
        raise NoJson
    return value


def whole(value, least, most):
    return type(value) is int and least <= value <= most


def texts(value):
    return type(value) is list and all(type(item) is str for item in value)


def is_cell(kind, value):
    if kind == b"text":
        return type(value) is str and text_of(value.encode()) is not None
    return whole(value, 0 if kind == b"flag" else -2**63, 1 if kind == b"flag" else 2**63 - 1)


def is_row(schema, row):
    return type(row) is list and len(row) == len(schema) and all(is_cell(kind, value) for (_, kind), value in zip(schema, row))


def outside(outer):
    """The schema, and whether all outside the entries is a history's."""
    if type(outer) is not dict or set(outer) != {"attributes", "entries", "format", "limit", "rows"}:
        raise NoJson
    if not texts(outer["attributes"]) or not outer["attributes"] or type(outer["entries"]) is not list:
        raise NoJson
    schema, rows, limit = schema_of([name.encode() for name in outer["attributes"]]), outer["rows"], outer["limit"]
    if not whole(outer["format"], 2 if any(kind == b"text" for _, kind in schema) else 1, 3) or not whole(limit, 1, MOST_ROWS) or type(rows) is not list:
        raise NoJson
    if len(rows) > limit or not all(is_row(schema, row) for row in rows):
        raise NoJson
    outer["rows"] = [[schema.code(value) if kind == b"text" else value for (_, kind), value in zip(schema, row)] for row in rows]
    return schema


def read_entry(schema, of_format, line, entry):
    """The call of an entry and its reply."""
    fault = bad_line(line, "History")
    if type(entry) is not dict or set(entry) != {"call", "reply", "session"} or type(entry["call"]) is not str:
        raise fault
    call, reply = parse_line(schema, line, entry["call"].encode()), entry["reply"]
    is_select = call is not None and call[0] not in ("insert", "delete", "delete where")
    if call is None or (call[0] == "delete where" and of_format < 3) or not whole(entry["session"], 1, 1024):
        raise fault
    if not (is_select and type(reply) is str and reply in ("void", "open")) and not texts(reply):
        raise fault
    return call, reply


def check(data):
    """The status, the output and the fault of a check."""
    try:
        try:
            outer = parse_json(data)
            schema = outside(outer)
        except (NoJson, Fault):
            raise bad_line(0, "History") from None
        if len(outer["entries"]) > 1048576:
            raise Fault("5 limit 1048576")
        entries = [read_entry(schema, outer["format"], line, entry) for line, entry in enumerate(outer["entries"], 1)]
    except Fault as fault:
        return 2, "", "sideways: refused %s\n" % fault
    store = Store(schema, outer["rows"], outer["limit"])
    for number, (call, reply) in enumerate(entries, 1):
        if type(reply) is list and store.answer(call) != reply:
            return 1, "not legal: entry %d\n" % number, ""
    return 0, "legal: %d entries\n" % len(entries), ""
