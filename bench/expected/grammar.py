"""Tokens of a line of a script, and the line that they make."""
import re

from expected import forms

MOST_NUMBER = 9_223_372_036_854_775_807
MOST_TOKENS = 512
MOST_NAME = 32
RESERVED = set(
    "table from where view join on take agg by do merge sort head tail print publish and or not null long text count sum min max first last".split()
)
TOKEN = re.compile(r'(?P<name>[A-Za-z][A-Za-z0-9_]*)|(?P<number>[0-9]+)|"(?P<text>[^"]*)"|(?P<symbol>!=|<=|>=|[()\[\]+*,:=<>-])')
BLANKS = re.compile("[ \t]*")
COMPARISONS = ("=", "!=", "<", "<=", ">", ">=")
FUNCTIONS = ("sum", "min", "max", "first", "last")


class Refused(Exception):
    """A line is refused, as a kind."""


def token_of(match):
    """A token: its kind, which is that of a symbol or of a reserved word where it is one, and its text or number."""
    kind, text = match.lastgroup, match[match.lastgroup]
    if kind == "number":
        digits = text.lstrip("0")
        if len(digits) > 19 or int(digits or "0") > MOST_NUMBER:
            raise Refused("number-range")
        return kind, int(digits or "0")
    if kind == "name" and len(text) > MOST_NAME:
        raise Refused("bad-line")
    if kind == "text" and not text:
        return "null", None
    return (text, None) if kind == "symbol" or kind == "name" and text in RESERVED else (kind, text)


def tokens_of(line):
    """The tokens of a line."""
    tokens, place = [], BLANKS.match(line).end()
    while place < len(line):
        match = TOKEN.match(line, place)
        if not match:
            raise Refused("bad-line")
        tokens.append(token_of(match))
        place = BLANKS.match(line, match.end()).end()
    if len(tokens) > MOST_TOKENS:
        raise Refused("bad-line")
    return tokens


class Reader:
    """Reads a line from left to right."""

    def __init__(self, tokens):
        self.tokens, self.place = tokens, 0

    def kind(self, ahead=0):
        """The kind of a token that is to come, or `None` behind the last."""
        place = self.place + ahead
        return self.tokens[place][0] if place < len(self.tokens) else None

    def take(self, *kinds):
        """Takes a token of one of some kinds, and returns its text or number, or its kind where that is all that it has."""
        if self.kind() not in kinds:
            raise Refused("bad-line")
        kind, value = self.tokens[self.place]
        self.place += 1
        return kind if value is None else value

    def skip(self, *kinds):
        """Takes a token where it is of one of some kinds, and returns its kind, else `None`."""
        return self.take(*kinds) if self.kind() in kinds else None

    def place_word(self, word):
        """Takes a name that is read by its place alone."""
        if self.take("name") != word:
            raise Refused("bad-line")

    def several(self, member):
        """A list, with commas between its members."""
        members = [member()]
        while self.skip(","):
            members.append(member())
        return members

    def pair(self):
        """A column, and the column behind `=`, or the same one again."""
        first = self.take("name")
        return (first, self.take("name")) if self.skip("=") else (first, first)

    # Formulas and tests

    def formula(self):
        left = self.term()
        while sign := self.skip("+", "-"):
            left = (sign, left, self.term())
        return left

    def term(self):
        left = self.factor()
        while self.skip("*"):
            left = ("*", left, self.factor())
        return left

    def factor(self):
        kind = self.kind()
        if kind == "-":
            self.take("-")
            return ("negated", self.factor())
        if kind == "(":
            self.take("(")
            inner = self.formula()
            self.take(")")
            return inner
        if kind == "null":
            self.take("null")
            return ("null",)
        return (kind, self.take("number", "text", "name"))

    def test(self):
        left = self.conjunction()
        while self.skip("or"):
            left = ("or", left, self.conjunction())
        return left

    def conjunction(self):
        left = self.fact()
        while self.skip("and"):
            left = ("and", left, self.fact())
        return left

    def fact(self):
        if self.skip("not"):
            return ("not", self.fact())
        if self.skip("["):
            inner = self.test()
            self.take("]")
            return inner
        left = self.formula()
        return (self.take(*COMPARISONS), left, self.formula())

    # Lines

    def line(self):
        """The whole line."""
        form = self.first_form()
        if self.kind() is not None:
            raise Refused("bad-line")
        return form

    def first_form(self):
        word = self.skip("table", "print", "publish")
        if word == "table":
            return self.source()
        if word == "print":
            return forms.Print(self.take("name"))
        if word == "publish":
            return forms.Publish(self.take("name"), self.take("number"))
        name = self.take("name")
        self.take("=")
        if self.kind() == "name":
            self.place_word("asof")
            return self.as_of(name)
        word = self.take("where", "view", "join", "agg", "merge", "sort", "head", "tail")
        return getattr(self, "read_" + word)(name)

    def source(self):
        name, columns = self.take("name"), []
        while not columns or self.kind() == "name":
            column = self.take("name")
            self.take(":")
            columns.append((column, self.take("long", "text")))
        return forms.Source(name, columns, self.take("text") if self.skip("from") else None)

    def read_where(self, name):
        return forms.Where(name, self.take("name"), self.test())

    def read_view(self, name):
        def column():
            new = self.take("name")
            self.take("=")
            return new, self.formula()

        return forms.View(name, self.take("name"), self.several(column))

    def read_join(self, name):
        left, right = self.take("name"), self.take("name")
        self.take("on")
        on = self.several(self.pair)
        self.take("take")
        return forms.Join(name, left, right, on, self.several(self.pair), self.skip("first", "last"))

    def as_of(self, name):
        left, right = self.take("name"), self.take("name")
        on = self.several(self.pair) if self.skip("on") else []
        self.place_word("at")
        at = self.pair()
        self.take("take")
        return forms.AsOf(name, left, right, on, at, self.several(self.pair))

    def read_agg(self, name):
        def column():
            new = self.take("name")
            self.take("=")
            function = self.take("count", *FUNCTIONS)
            return new, function, None if function == "count" else self.take("name")

        source = self.take("name")
        by = self.several(lambda: self.take("name")) if self.skip("by") else []
        self.take("do")
        return forms.Agg(name, source, by, self.several(column))

    def read_merge(self, name):
        inputs = []
        while len(inputs) < 2 or self.kind() == "name":
            inputs.append(self.take("name"))
        if len(inputs) > 16:
            raise Refused("bad-line")
        return forms.Merge(name, inputs)

    def read_sort(self, name):
        def column():
            descends = self.skip("-") is not None
            return self.take("name"), descends

        return forms.Sort(name, self.take("name"), self.several(column))

    def read_head(self, name):
        return forms.Window(name, self.take("number"), self.take("name"), False)

    def read_tail(self, name):
        return forms.Window(name, self.take("number"), self.take("name"), True)
