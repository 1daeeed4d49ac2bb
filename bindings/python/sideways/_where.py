"""Conditions: what is asked of the cells of attributes, from `where` and from ranges, as the border takes them."""

import re

from ._border import AFTER, BEFORE, NONE, TEXT
from ._errors import refusal
from ._kinds import NAMES, bound_of, spelled

_TOKEN = re.compile(r"[ \t]*(?:(?P<word>[A-Za-z0-9_.+\-]+)|(?P<comparison><=|>=|<|=|>)|(?P<text>'(?:[^']|'')*')|(?P<stray>.))", re.DOTALL)
RESERVED = {"select", "count", "sum", "min", "max", "where", "and", "insert", "delete", "true", "false"}
_NAME = re.compile(r"[A-Za-z_][A-Za-z0-9_]{0,31}")


class Conds:
    """Conditions on attributes, in the order in which these first appear. `none` says that no row can meet them."""

    def __init__(self, attributes, code_of):
        self._attributes = attributes
        self._code_of = code_of
        self.bounds = {}
        self.none = False

    def place(self, name: str):
        """The number and the kind of an attribute."""
        found = self._attributes.get(name)
        if found is None:
            raise refusal(4, f"{name!r} is none of {', '.join(self._attributes)}")
        return found

    def _hold(self, attribute: int, lower, upper) -> None:
        held = self.bounds.get(attribute)
        if held is not None:
            lower = max((bound for bound in (held[0], lower) if bound is not None), default=None)
            upper = min((bound for bound in (held[1], upper) if bound is not None), default=None)
        self.bounds[attribute] = (lower, upper)

    def _hold_text(self, attribute: int, text: str) -> None:
        code = self._code_of(text)
        lower, upper = (code, BEFORE), (code, AFTER)
        if code == 0 or self.bounds.get(attribute, (lower, upper)) != (lower, upper):
            self.none = True
        self.bounds[attribute] = (lower, upper)

    def add(self, name: str, comparison: str, value) -> None:
        """One more comparison, `name comparison value`."""
        attribute, kind = self.place(name)
        if kind == TEXT:
            if comparison != "=" or not isinstance(value, str):
                raise TypeError(f"{name!r} is of texts, which are compared with one text alone, not with {value!r}")
            self._hold_text(attribute, value)
            return
        lower = bound_of(kind, value, comparison != ">") if comparison in (">", ">=", "=") else None
        upper = bound_of(kind, value, comparison == "<") if comparison in ("<", "<=", "=") else None
        self._hold(attribute, lower, upper)

    def add_range(self, name: str, wanted) -> None:
        """The condition that a keyword spells: a value, or a pair of the least and the greatest, either of them None."""
        if not isinstance(wanted, (tuple, list)):
            self.add(name, "=", wanted)
            return
        if len(wanted) != 2:
            raise ValueError(f"the range of {name!r} is no pair (least, greatest): {wanted!r}")
        attribute, kind = self.place(name)
        least, greatest = wanted
        if kind == TEXT:
            raise TypeError(f"{name!r} is of texts, which are compared with one text alone, not with {wanted!r}")
        lower = None if least is None else bound_of(kind, least, True)
        upper = None if greatest is None else bound_of(kind, greatest, False)
        if lower is not None or upper is not None:
            self._hold(attribute, lower, upper)

    def add_line(self, text: str) -> None:
        """The comparisons of a text, divided by `and`, as they stand behind `where` in a line."""
        tokens = _Tokens(text)
        while True:
            name = tokens.take("word", "the name of an attribute")
            if name in RESERVED or not _NAME.fullmatch(name):
                tokens.refuse("the name of an attribute")
            _attribute, kind = self.place(name)
            comparison = tokens.take("comparison", "a comparison")
            if kind == TEXT and comparison != "=":
                tokens.refuse("=, since texts are compared by it alone")
            if kind == TEXT:
                value = tokens.take("text", "a text in single quotes")[1:-1].replace("''", "'")
            else:
                value = spelled(kind, tokens.take("word", f"a value of {NAMES[kind]}"))
                if value is None:
                    tokens.refuse(f"a value of {NAMES[kind]}")
            self.add(name, comparison, value)
            if tokens.at_end():
                return
            if tokens.take("word", "and") != "and":
                tokens.refuse("and")

    def fill(self, room) -> int:
        """Writes the conditions as the border has them, and answers how many."""
        for cond, (attribute, (lower, upper)) in zip(room, self.bounds.items()):
            cond.attribute = attribute
            cond.lower, cond.lower_kind = lower or (0, NONE)
            cond.upper, cond.upper_kind = upper or (0, NONE)
        return len(self.bounds)


class _Tokens:
    """The tokens of a line, from the left."""

    def __init__(self, text: str):
        if not isinstance(text, str):
            raise TypeError(f"where is a text as 'a >= 10 and b = 2', not {text!r}")
        self._text = text
        self._start = self._end = 0

    def at_end(self) -> bool:
        return not self._text[self._end :].strip(" \t")

    def take(self, sort: str, wanted: str) -> str:
        if self.at_end():
            self._start = self._end = len(self._text)
            self.refuse(wanted)
        found = _TOKEN.match(self._text, self._end)
        self._start, self._end = found.start(found.lastgroup), found.end()
        if found.lastgroup != sort:
            self.refuse(wanted)
        return found.group(sort)

    def refuse(self, wanted: str) -> None:
        token = self._text[self._start : self._end]
        what = f"{token!r} cannot stand there" if token else "the conditions end there"
        raise refusal(3, f"{what}, wanted {wanted}\n  {self._text}\n  {' ' * self._start}^\n")
