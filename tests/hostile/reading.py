"""A plain reader of tables, scripts, lines and the text of cuts, written from docs/FORMATS.md alone: what each text means, or
the fault at which it is refused. It shares nothing with the program."""
import re

RESERVED = b"select count sum min max where and insert delete true false".split()
MOST_BYTES, MOST_ROWS, MOST_CALLS, MOST_BLOCKS, MOST_LINE, MOST_TEXTS = 1 << 28, 1 << 20, 1 << 20, 1024, 4096, 1 << 20
TOKEN = re.compile(rb"[ \t]*([A-Za-z0-9_.+-]+|<=|>=|'(?:[^']|'')*'(?!')|'.*|[^ \t])", re.DOTALL)
SIGNS = (b"<", b"<=", b"=", b">=", b">")


class Fault(Exception):
    """A refusal, by the text after `sideways: refused `."""


def bad_line(line, why):
    return Fault("3 line %d why %s" % (line, why))


class Coded(int):
    """The cell of a text: its code, and the text."""


class Schema(list):
    """The names and kinds of attributes, and the texts that are known, in the order first seen."""

    def __init__(self, attributes):
        super().__init__(attributes)
        self.codes = {}

    def code(self, text):
        if text not in self.codes and len(self.codes) == MOST_TEXTS:
            raise Fault("5 limit %d" % MOST_TEXTS)
        found = Coded(self.codes.setdefault(text, len(self.codes) + 1))
        found.text = text
        return found


def text_of(data):
    """The text of bytes, or None where they are none."""
    if len(data) > 64 or min(data, default=32) < 32 or 127 in data:
        return None
    try:
        return data.decode()
    except UnicodeDecodeError:
        return None


# Tables

def field_at(data, at):
    """The field that begins at a place, and where it ends."""
    text = b""
    if data[at:at + 1] == b'"':
        at += 1
        while True:
            close = data.find(b'"', at)
            if close < 0:
                return text + data[at:], len(data)
            text += data[at:close]
            at = close + 1
            if data[at:at + 1] != b'"':
                break
            text += b'"'
            at += 1
    end = re.compile(rb"[^,\r\n]*").match(data, at).end()
    return text + data[at:end], end


def records(data):
    """The records of a text of comma-separated values."""
    at = 0
    while True:
        at = re.compile(rb"[\r\n]*").match(data, at).end()
        if at == len(data):
            return
        record = []
        while True:
            field, at = field_at(data, at)
            record.append(field)
            if data[at:at + 1] != b",":
                break
            at += 1
        yield record


def is_name(text):
    return re.fullmatch(rb"[A-Za-z_][A-Za-z0-9_]{0,31}", text) is not None and text not in RESERVED


def decimals(kind):
    return int(kind[3:]) if kind.startswith(b"fix") else 0


def schema_of(fields):
    """The names and kinds of a header's fields; a fault names the first field that is none."""
    if len(fields) > 8:
        raise Fault("5 limit 8")
    schema = []
    for number, field in enumerate(fields, 1):
        name, colon, kind = field.partition(b":")
        kind = kind if colon else b"int"
        if not is_name(name) or not re.fullmatch(rb"int|flag|text|fix[1-6]", kind) or name in dict(schema):
            raise Fault("2 record 0 field %d" % number)
        schema.append((name, kind))
    return Schema(schema)


def cell(kind, text):
    """The stored number of a text, or None. No word is the cell of a text."""
    if kind == b"text":
        return None
    if kind == b"flag":
        return {b"true": 1, b"false": 0}.get(text)
    found = re.fullmatch(rb"([+-]?)([0-9]+)(?:\.([0-9]+))?", text) if len(text) <= 64 else None
    if not found:
        return None
    places, given = decimals(kind), found[3]
    if given is not None and len(given) > places:
        return None
    number = int(found[2] + (given or b"").ljust(places, b"0")) * (-1 if found[1] == b"-" else 1)
    return number if -2**63 <= number < 2**63 else None


def load(data):
    """The schema and the rows' cells."""
    if len(data) > MOST_BYTES:
        raise Fault("5 limit %d" % MOST_BYTES)
    all_records = records(data)
    header = next(all_records, None)
    if header is None:
        raise Fault("2 record 0 field 0")
    schema, rows = schema_of(header), []
    for number, record in enumerate(all_records, 1):
        if number > MOST_ROWS:
            raise Fault("5 limit %d" % MOST_ROWS)
        if len(record) != len(schema):
            raise Fault("2 record %d field %d" % (number, min(len(record), len(schema)) + 1))
        row = []
        for (_, kind), text in zip(schema, record):
            found = text_of(text) if kind == b"text" else cell(kind, text)
            if found is None:
                raise Fault("2 record %d field %d" % (number, len(row) + 1))
            row.append(schema.code(found) if kind == b"text" else found)
        rows.append(row)
    return schema, rows


# Calls: ("select", names, conditions), ("count", [], conditions), ("sum", [name], conditions) and so on, ("insert", cells),
# ("delete", key) and ("delete where", [], conditions); names are numbers of attributes, and conditions a dictionary of attributes
# to their bounds.

class Line:
    """The tokens of a line, from the left."""

    def __init__(self, schema, number, text):
        self.schema, self.number, self.tokens = schema, number, TOKEN.findall(text)

    def fault(self, why):
        return bad_line(self.number, why)

    def take(self):
        if not self.tokens:
            raise self.fault("End")
        return self.tokens.pop(0)

    def word(self):
        token = self.take()
        if not re.fullmatch(rb"[A-Za-z0-9_.+-]+", token):
            raise self.fault("Word")
        return token

    def wanted(self, *tokens):
        token = self.take()
        if token not in tokens:
            raise self.fault("Word")
        return token

    def name(self):
        word = self.word()
        if not is_name(word):
            raise self.fault("Word")
        names = [name for name, _ in self.schema]
        if word not in names:
            raise Fault("4 name " + word.decode())
        return names.index(word)

    def word_or_text(self):
        """A word, or the bytes of a quoted text, and whether it is one."""
        if len(self.tokens[0]) > 1 and self.tokens[0][:1] == b"'" if self.tokens else False:
            token = self.take()
            if token[-1:] != b"'" or len(re.match(rb"'(?:[^']|'')*'", token)[0]) < len(token):
                raise self.fault("Word")
            return token[1:-1].replace(b"''", b"'"), True
        return self.word(), False

    def value(self, attr):
        kind = self.schema[attr][1]
        data, is_quoted = self.word_or_text()
        if is_quoted:
            text = text_of(data) if kind == b"text" else None
            found = None if text is None else self.schema.code(text)
        else:
            found = cell(kind, data)
        if found is None:
            raise self.fault("Value")
        return found

    def number_name(self):
        """The name of an attribute that is not of texts."""
        attr = self.name()
        if self.schema[attr][1] == b"text":
            raise self.fault("Word")
        return attr

    def conditions(self):
        conds = {}
        if not self.tokens:
            return conds
        self.wanted(b"where")
        while True:
            attr = self.name()
            sign = self.wanted(*[sign for sign in SIGNS if sign == b"=" or self.schema[attr][1] != b"text"])
            value = self.value(attr)
            below, above = conds.get(attr, (None, None))
            if sign in (b">", b">=", b"="):
                bound = (value, int(sign == b">"))
                below = bound if below is None else max(below, bound)
            if sign in (b"<", b"<=", b"="):
                bound = (value, int(sign != b"<"))
                above = bound if above is None else min(above, bound)
            conds[attr] = (below, above)
            if not self.tokens:
                return conds
            self.wanted(b"and")

    def names(self):
        names = [self.name()]
        while self.tokens and self.tokens[0] != b"where":
            self.wanted(b",")
            if len(names) == 8:
                raise self.fault("Word")
            names.append(self.name())
        return names

    def call(self):
        verb = self.wanted(b"select", b"count", b"sum", b"min", b"max", b"insert", b"delete").decode()
        if verb == "insert":
            cells = [self.value(0)]
            for attr in range(1, len(self.schema)):
                self.wanted(b",")
                cells.append(self.value(attr))
            made = (verb, cells)
        elif verb == "delete" and self.tokens[:1] == [b"where"]:
            return "delete where", [], self.conditions()
        elif verb == "delete":
            word, is_quoted = self.word_or_text()
            if is_quoted or not re.fullmatch(rb"[0-9]{1,20}", word) or int(word) >= 2**64:
                raise self.fault("Value")
            made = (verb, int(word))
        else:
            names = {"select": self.names, "count": list}.get(verb, lambda: [self.number_name()])()
            return verb, names, self.conditions()
        if self.tokens:
            raise self.fault("Word")
        return made


def parse_line(schema, number, text):
    """The call of a line, or None where it is empty or a comment."""
    if len(text) > MOST_LINE:
        raise bad_line(number, "Length")
    try:
        text.decode()
    except UnicodeDecodeError:
        raise bad_line(number, "Encoding") from None
    begin = text.lstrip(b" \t")
    return None if not begin or begin[:1] == b"#" else Line(schema, number, text).call()


def parse_script(schema, data):
    """The blocks of a script, each a list of calls."""
    if len(data) > MOST_BYTES:
        raise Fault("5 limit %d" % MOST_BYTES)
    blocks, calls = [[]], 0
    lines = data.split(b"\n")
    ended = [line[:-1] if line.endswith(b"\r") else line for line in lines[:-1]]
    for number, line in enumerate(ended + [last for last in lines[-1:] if last], 1):
        if len(line) <= MOST_LINE and re.fullmatch(rb"---[ \t]*", line):
            if len(blocks) == MOST_BLOCKS:
                raise Fault("5 limit %d" % MOST_BLOCKS)
            blocks.append([])
            continue
        call = parse_line(schema, number, line)
        if call is not None:
            calls += 1
            if calls > MOST_CALLS:
                raise Fault("5 limit %d" % MOST_CALLS)
            blocks[-1].append(call)
    return blocks


def parse_cuts(schema, text):
    """The cuts of each attribute."""
    cuts, names = {}, [name for name, _ in schema]
    for part in text.split(b";") if text else []:
        name, equals, value = part.partition(b"=")
        if is_name(name) and name not in names:
            raise Fault("4 name " + name.decode())
        if len(cuts.get(name, [])) == 15:
            raise Fault("5 limit 15")
        found = cell(dict(schema)[name], value) if name in names and equals else None
        if found is None or (name in cuts and found <= cuts[name][-1]):
            raise bad_line(0, "Cuts")
        cuts.setdefault(name, []).append(found)
    return cuts
