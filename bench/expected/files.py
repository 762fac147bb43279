"""Table files and feeds: their records in order, and the first that is refused."""
import dataclasses
import re

from expected.records import is_utf8, records

MOST_BYTES = 67_108_864
MOST_ROWS = 4_194_304
MOST_STEPS = 100_000
KEY_BOUND = 2**40
MOST_CELL = 2**63 - 1
TAGS = (b"t", b"r", b"s", b"a", b"m", b".")


class TextFault(Exception):
    """The first refused record, and a kind."""


class Refused(Exception):
    """A record is refused, as a kind."""


@dataclasses.dataclass
class Change:
    """A record of a block: its number, and its numbers, or its key with its cells."""

    record: int
    values: tuple


@dataclasses.dataclass
class Block:
    """A block of a source: the number of its first record, and its records by their tags."""

    source: str
    record: int
    r: list = dataclasses.field(default_factory=list)
    s: list = dataclasses.field(default_factory=list)
    a: list = dataclasses.field(default_factory=list)
    m: list = dataclasses.field(default_factory=list)


def number(field, is_signed=False):
    """The number of 1 to 19 digits that a field is, with an optional `-` where it may be signed."""
    if not re.fullmatch(rb"-?[0-9]{1,19}" if is_signed else rb"[0-9]{1,19}", field):
        raise Refused("bad-number")
    return int(field)


def key(field):
    """A key."""
    if number(field) >= KEY_BOUND:
        raise Refused("bad-number")
    return int(field)


def cell(field, kind):
    """A cell of a kind."""
    if not field:
        return None
    if kind == "text":
        return field
    if abs(number(field, is_signed=True)) > MOST_CELL:
        raise Refused("bad-number")
    return int(field)


def row(fields, columns):
    """A row of cells."""
    return tuple(cell(field, kind) for field, (_, kind) in zip(fields, columns))


def check_utf8(fields):
    if not all(map(is_utf8, fields)):
        raise Refused("not-utf8")


# Table files


def table_row(number, fields, columns):
    """The row of a record of a table file, or `None` for the first record."""
    check_utf8(fields)
    if number == 1:
        if fields != [name.encode() for name, _ in columns]:
            raise Refused("header")
        return None
    if len(fields) != len(columns):
        raise Refused("field-count")
    cells = row(fields, columns)
    if number - 1 > MOST_ROWS:
        raise Refused("too-long")
    return cells


def read_table(data, columns):
    """The rows of a table file."""
    if len(data) > MOST_BYTES:
        raise TextFault(0, "too-long")
    rows, number = {}, 0
    try:
        for number, fields in enumerate(records(data), 1):
            cells = table_row(number, fields, columns)
            if cells is not None:
                rows[number - 2] = cells
    except Refused as refused:
        raise TextFault(number, *refused.args) from None
    if not number:
        raise TextFault(1, "header")
    return rows


# Feeds


class Feed:
    """The whole steps of a feed, each a list of blocks, and the step that is being read."""

    def __init__(self, sources):
        self.sources, self.steps, self.step, self.block, self.last = sources, [], [], None, b"."

    def columns(self):
        return self.sources[self.block.source]

    def check_place(self, tag):
        """Refuses a record of a block that stands outside a block, or after a record of a later tag."""
        if tag not in (b"t", b".") and (self.block is None or TAGS.index(self.last) > TAGS.index(tag)):
            raise Refused("out-of-order")

    def count(self, tag):
        """The number of fields of a record."""
        counts = {b"t": 2, b"r": 3, b"s": 4, b".": 1}
        return counts[tag] if tag in counts else 2 + len(self.columns())

    def values(self, tag, fields):
        """The values behind the tag of a record of a block."""
        if tag in (b"a", b"m"):
            return (key(fields[0]), row(fields[1:], self.columns()))
        first, last = key(fields[0]), key(fields[1])
        if first > last:
            raise Refused("bad-number")
        if tag == b"r":
            return first, last
        delta = number(fields[2], is_signed=True)
        if not delta or abs(delta) >= KEY_BOUND:
            raise Refused("bad-number")
        return first, last, delta

    def begin(self, record, name):
        """Begins a block."""
        if name.decode() not in self.sources:
            raise Refused("unknown-table")
        self.block = Block(name.decode(), record)
        self.step.append(self.block)

    def change(self, record, tag, values):
        """Takes a record into the block."""
        part = getattr(self.block, tag.decode())
        if part and values[0] <= part[-1].values[1 if tag in (b"r", b"s") else 0]:
            raise Refused("out-of-order")
        part.append(Change(record, values))

    def end(self):
        """Ends the step."""
        if len(self.steps) == MOST_STEPS:
            raise Refused("too-long")
        self.steps.append(self.step)
        self.step, self.block = [], None

    def take(self, record, fields):
        """Takes a record."""
        check_utf8(fields)
        tag, *rest = fields
        if tag not in TAGS:
            raise Refused("bad-tag")
        self.check_place(tag)
        if len(fields) != self.count(tag):
            raise Refused("field-count")
        if tag == b"t":
            self.begin(record, rest[0])
        elif tag == b".":
            self.end()
        else:
            self.change(record, tag, self.values(tag, rest))
        self.last = tag


def read_feed(data, sources):
    """The steps of a feed over sources, which are columns by name."""
    if len(data) > MOST_BYTES:
        raise TextFault(0, "too-long")
    feed, number = Feed(sources), 0
    try:
        for number, fields in enumerate(records(data), 1):
            feed.take(number, fields)
    except Refused as refused:
        raise TextFault(number, *refused.args) from None
    if feed.last != b".":
        raise TextFault(number, "unfinished")
    return feed.steps
