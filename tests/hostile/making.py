"""Makes random tables, lines, scripts and histories from a generator, well formed ones and ones with a few faults put in."""
import re
from model import show

NAMES = [b"a", b"b", b"c", b"d", b"_x", b"A9", b"price", b"ok", b"sums", b"n" * 32]
KINDS = [b"int", b"int", b"int", b"fix1", b"fix2", b"fix6", b"flag", b"text", b"text"]
TEXTS = ["", "Oslo", "oslo", "Bergen, N", "it's", "''", "'", "a \"b\"", "7", "-1", "true", "where", " x ", "#", "caf\u00e9", "\U0001f3d4" * 16, "k" * 64,
         "a\\b", "x,y,'z'", ";"]
ODD_CELLS = [b"", b" ", b" 1", b"1 ", b"+", b"-", b"5.", b".5", b"1.2345678", b"--1", b"1e0", b"0x1", b"tru", b"True", b"\xff", b"\xc3\xa9",
             b"9" * 64, b"9" * 65, b"0" * 65, b"-" + b"0" * 64, b"9223372036854775808", b"-9223372036854775809", b"\0", b"1_0"]
ODD_FIELDS = [b"", b"1a", b"select", b"a:", b"a:int:int", b"a:fix0", b"a:fix7", b"a:INT", b"n" * 33, b"\xff", b"a b", b":int", b"true"]
ODD_BYTES = [b'"', b'""', b",", b"\n", b"\r", b"\r\n", b"\xff", b"\0", b":", b" ", b"\t", b"-", b"+", b".", b"0", b"7", b"a", b"\xc3\xa9"]
ODD_TOKENS = ODD_BYTES + [b"where", b"and", b"select", b"count", b"<", b"<=", b"=", b"=<", b">", b"!=", b"---", b"#", b";", b"'", b"true", b"zz",
                          b"n" * 33, b"9" * 65, b"18446744073709551616", b" " * 4096]
ODD_JSON = [b'"', b"{", b"}", b"[", b"]", b",", b":", b" ", b"\n", b"\\", b"\\u0061", b"\\ud800", b"\\ud83d\\ude00", b"\xff", b"\xc3\xa9", b"\0",
            b"null", b"true", b"1e0", b"-0", b"0", b"1.0", b"1e999", b"18446744073709551616", b'"x":1,', b'"session":2,', b'"void"', b'"open"']


def chance(rng, share):
    return rng.random() < share


def number_of(rng, kind, spread):
    """A stored number of a kind: mostly small, and sometimes at the ends."""
    if kind == b"text":
        return rng.randrange(len(TEXTS))
    if kind == b"flag":
        return rng.randrange(2)
    return rng.choice([-2**63, -2**63 + 1, 2**63 - 1, 2**63 - 2, 0]) if chance(rng, 0.05) else rng.randint(-spread, spread)


def quoted(rng, kind, number):
    """A spelling of a cell in a line."""
    return b"'" + spelled(rng, kind, number).replace(b"'", b"''") + b"'" if kind == b"text" else spelled(rng, kind, number)


def spelled(rng, kind, number):
    """A spelling of a cell: signs, zeros before it, and decimals left out."""
    if kind == b"text":
        return TEXTS[number].encode()
    text = show(kind, number).encode()
    if kind == b"flag":
        return text
    if b"." in text and chance(rng, 0.3):
        text = text.rstrip(b"0")
        text = text[:-1] if text.endswith(b".") else text
    sign, digits = (b"-", text[1:]) if text[:1] == b"-" else (rng.choice([b"", b"", b"+"]), text)
    if number == 0 and chance(rng, 0.2):
        sign = b"-"
    if chance(rng, 0.1):
        digits = digits.rjust(rng.choice([20, 64 - len(sign)]), b"0")
    return sign + digits


def schema_for(rng, most=8):
    return [(name, rng.choice(KINDS)) for name in rng.sample(NAMES, rng.randint(1, most))]


def header_for(rng, schema):
    return [name if kind == b"int" and chance(rng, 0.5) else name + b":" + kind for name, kind in schema]


def table_for(rng, schema, rows, spread):
    """The records of a table of so many rows."""
    cells = [[spelled(rng, kind, number_of(rng, kind, spread)) for _, kind in schema] for _ in range(rows)]
    return [header_for(rng, schema)] + cells


def separated(rng, records):
    """The bytes of records: fields in quotes or without, the ends of lines of every kind, and empty lines."""
    def field(text):
        if not re.search(rb'[,\r\n"]', text) and chance(rng, 0.9):
            return text
        return b'"' + text.replace(b'"', b'""') + b'"'
    end = rng.choice([b"\n", b"\r", b"\r\n", b""])
    data = b""
    for record in records:
        data += b",".join(field(text) for text in record) + (end or rng.choice([b"\n", b"\r", b"\r\n"]))
        data += rng.choice([b"\n", b"\r\n\r\n"]) if chance(rng, 0.03) else b""
    return data if chance(rng, 0.7) else data.rstrip(b"\r\n")


def edited(rng, data, pieces, edits):
    """Bytes with so many small edits: a piece put in, bytes taken out, changed or doubled."""
    for _ in range(edits):
        at, upto = sorted((rng.randrange(len(data) + 1), rng.randrange(len(data) + 1)))
        upto = min(upto, at + rng.choice([1, 1, 2, 8]))
        new = rng.choice([b"", rng.choice(pieces), rng.choice(pieces), data[at:upto] * 2, bytes([rng.randrange(256)])])
        data = data[:at] + new + (data[at:] if chance(rng, 0.4) else data[upto:])
    return data


def spaced(rng, tokens):
    """Tokens on a line: blanks between words, and perhaps others."""
    line = rng.choice([b"", b"", b" ", b"\t"])
    for before, token in zip([b","] + tokens, tokens):
        needed = before[-1:] + token[:1] == b"''" or before[-1:].isalnum() and token[:1] not in b",<=>" or before[-1:] == b"_"
        line += (rng.choice([b" ", b" ", b"\t", b" \t "]) if needed else rng.choice([b"", b" ", b" "])) + token
    return line + rng.choice([b"", b"", b" ", b"\t"])


def conditions(rng, schema, spread, most, least=0):
    tokens = []
    for number in range(rng.choice([least, 1, 1, 1, 2, 2, 3, most])):
        name, kind = rng.choice(schema)
        sign = rng.choice([b"<", b"<=", b"=", b">=", b">"]) if kind != b"text" else b"="
        tokens += [b"where" if number == 0 else b"and", name, sign, quoted(rng, kind, number_of(rng, kind, spread))]
    return tokens


def call_for(rng, schema, spread, keys, updates=0.3, most=6, many=0.2):
    """The tokens of a random call: so great a share of updates, and of deletes so great a share by conditions; keys up to a number."""
    if chance(rng, updates):
        if chance(rng, 0.5):
            values = [quoted(rng, kind, number_of(rng, kind, spread)) for _, kind in schema]
            return [b"insert", values[0]] + [token for value in values[1:] for token in (b",", value)]
        if chance(rng, many):
            return [b"delete"] + conditions(rng, schema, spread, most, 1)
        return [b"delete", b"%d" % rng.choice([rng.randint(0, keys), rng.randint(1, keys), rng.choice([0, keys + 9, 2**64 - 1])])]
    numbers = [one for one in schema if one[1] != b"text"]
    verb = rng.choice([b"select", b"select", b"count"] + [b"sum", b"min", b"max"] * bool(numbers))
    names = [rng.choice(schema if verb == b"select" else numbers)[0]
             for _ in range(rng.randint(1, 8) if verb == b"select" else verb != b"count")]
    listed = names[:1] + [token for name in names[1:] for token in (b",", name)]
    return [verb] + listed + conditions(rng, schema, spread, most)


def script_for(rng, schema, calls, spread=20, keys=20, updates=0.3, divided=0.02, many=0.2):
    """The lines of a script of so many calls, with comments, empty lines and dividers among them."""
    lines = []
    for _ in range(calls):
        if chance(rng, 0.04):
            lines.append(rng.choice([b"", b"  \t", b"# a comment", b" \t#", "# caf\u00e9".encode()]))
        if chance(rng, divided):
            lines.append(b"---" + rng.choice([b"", b" ", b"\t "]))
        lines.append(spaced(rng, call_for(rng, schema, spread, keys, updates, many=many)))
    return b"".join(line + rng.choice([b"\n", b"\n", b"\n", b"\r\n"]) for line in lines)
