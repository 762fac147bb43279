"""The forms of a line: what each asks for, the table that it makes of other tables, and the rows that this keeps.

A table is a dictionary from rising keys to rows, a row a tuple of cells, and a cell a number, the bytes of a text, or `None`. A tick is a table before a
step, the one after it, and the kept pairs of keys.
"""
import dataclasses
import operator

MOST_ROWS = 4_194_304
REGION = 65_536
SOURCE_BOUND = 2**40
TESTS = {"=": operator.eq, "!=": operator.ne, "<": operator.lt, "<=": operator.le, ">": operator.gt, ">=": operator.ge}
SUMS = {"+": operator.add, "-": operator.sub, "*": operator.mul}


class WrongKind(Exception):
    """A text stands where a number must, or two kinds differ."""


class NodeFault(Exception):
    """A node has no table: a word and numbers."""


@dataclasses.dataclass
class Tick:
    """A table before a step and after it, with its kept pairs."""

    old: dict
    new: dict
    kept: list


def wrapped(number):
    """The cell of a whole number."""
    number = (number + 2**63) % 2**64 - 2**63
    return None if number == -(2**63) else number


def rank(cell):
    """What a cell is compared by. Null is the least."""
    return (False, 0) if cell is None else (True, cell)


# Formulas


def columns_of(formula):
    """The columns that a formula or a test uses."""
    kind, *parts = formula
    if kind == "name":
        return parts
    return [column for part in parts if isinstance(part, tuple) for column in columns_of(part)]


def kind_of(formula, kinds):
    """The kind of a formula over columns of some kinds."""
    kind, *parts = formula
    if kind == "name":
        return kinds[parts[0]]
    if kind == "text":
        return "text"
    if [part for part in parts if isinstance(part, tuple) and kind_of(part, kinds) == "text"]:
        raise WrongKind
    return "long"


def check_test(test, kinds):
    """Refuses a test whose sides have no kind or differ in kind."""
    kind, *parts = test
    if kind in TESTS:
        left, right = (kind_of(part, kinds) for part in parts)
        if left != right and ("null",) not in parts:
            raise WrongKind
    else:
        for part in parts:
            check_test(part, kinds)


def value(formula, row):
    """The value of a formula in a row, which is a dictionary from columns to cells."""
    kind, *parts = formula
    if kind == "name":
        return row[parts[0]]
    if kind == "number":
        return parts[0]
    if kind == "text":
        return parts[0].encode()
    if kind == "null":
        return None
    values = [value(part, row) for part in parts]
    if None in values:
        return None
    return wrapped(-values[0] if kind == "negated" else SUMS[kind](*values))


def passes(test, row):
    """Whether a test is true in a row."""
    kind, *parts = test
    if kind in TESTS:
        return TESTS[kind](*(rank(value(part, row)) for part in parts))
    truths = [passes(part, row) for part in parts]
    return not truths[0] if kind == "not" else all(truths) if kind == "and" else any(truths)


# Lines


class Form:
    """A line that defines a node. `inputs` are names of tables; the other calls take the columns of the inputs, which are pairs of a name and a kind."""

    inputs = ()

    def number(self):
        """The number of rows that it asks for."""
        return 0

    def used(self):
        """For each input the columns that are used of it."""
        return [[] for _ in self.inputs]

    def kinds_fit(self, *inputs):
        """Refuses what does not fit in kind."""

    def columns(self, *inputs):
        """The columns of the result."""
        return inputs[0]

    def bound(self, bounds):
        """The bound of the keys."""
        return bounds[0]

    def bind(self, *inputs):
        """Takes the columns of the inputs, before any table is made."""
        self.names = [[name for name, _ in columns] for columns in inputs]

    def cells(self, row, columns, place=0):
        """The cells of some columns in a row of an input."""
        return tuple(row[self.names[place].index(column)] for column in columns)

    def by_name(self, row):
        """A row of the first input as a dictionary."""
        return dict(zip(self.names[0], row))

    def kept(self, ticks, old, new):
        """The kept pairs, where `old` and `new` are the tables of this node."""
        return [pair for pair in ticks[0].kept if pair[0] in old and pair[1] in new]


@dataclasses.dataclass
class Source(Form):
    name: str
    own: list
    file: str

    def columns(self):
        return self.own

    def bound(self, bounds):
        return SOURCE_BOUND


class OfOne(Form):
    """A form with one input."""

    @property
    def inputs(self):
        return (self.input,)


@dataclasses.dataclass
class Where(OfOne):
    name: str
    input: str
    test: tuple

    def used(self):
        return [columns_of(self.test)]

    def kinds_fit(self, columns):
        check_test(self.test, dict(columns))

    def table(self, rows):
        return {key: row for key, row in rows.items() if passes(self.test, self.by_name(row))}


@dataclasses.dataclass
class View(OfOne):
    name: str
    input: str
    made: list

    def used(self):
        return [[column for _, formula in self.made for column in columns_of(formula)]]

    def kinds_fit(self, columns):
        self.columns(columns)

    def columns(self, columns):
        return columns + [(name, kind_of(formula, dict(columns))) for name, formula in self.made]

    def table(self, rows):
        return {key: row + tuple(value(formula, self.by_name(row)) for _, formula in self.made) for key, row in rows.items()}


class OfTwo(Form):
    """A form with a left and a right input: each left row with taken cells of a right row."""

    @property
    def inputs(self):
        return (self.left, self.right)

    def pairs(self):
        """The pairs of columns that are compared."""
        return self.on

    def used(self):
        return [[left for left, _ in self.pairs()], [right for _, right in self.pairs()] + [old for _, old in self.take]]

    def kinds_fit(self, left, right):
        if [pair for pair in self.pairs() if dict(left)[pair[0]] != dict(right)[pair[1]]]:
            raise WrongKind

    def columns(self, left, right):
        return left + [(new, dict(right)[old]) for new, old in self.take]

    def sides(self, place):
        return [pair[place] for pair in self.on]

    def table(self, left, right):
        groups = {}
        for key, row in right.items():
            groups.setdefault(self.cells(row, self.sides(1), 1), []).append(key)
        made = {}
        for key, row in left.items():
            match = self.match(key, row, groups.get(self.cells(row, self.sides(0)), []), right)
            made[key] = row + (self.cells(right[match], [old for _, old in self.take], 1) if match is not None else (None,) * len(self.take))
        return made


@dataclasses.dataclass
class Join(OfTwo):
    name: str
    left: str
    right: str
    on: list
    take: list
    choice: str

    def match(self, key, row, group, right):
        if not group:
            return None
        if len(group) > 1 and not self.choice:
            raise NodeFault("duplicate-right", key, group[0], group[1])
        return group[-1 if self.choice == "last" else 0]


@dataclasses.dataclass
class AsOf(OfTwo):
    name: str
    left: str
    right: str
    on: list
    at: tuple
    take: list

    def pairs(self):
        return self.on + [self.at]

    def kinds_fit(self, left, right):
        super().kinds_fit(left, right)
        if dict(left)[self.at[0]] != "long":
            raise WrongKind

    def match(self, key, row, group, right):
        times = [(rank(self.cells(right[it], self.at[1:], 1)[0]), it) for it in group]
        return max((pair for pair in times if pair[0] <= rank(self.cells(row, self.at[:1])[0])), default=(None, None))[1]


@dataclasses.dataclass
class Agg(OfOne):
    name: str
    input: str
    by: list
    made: list

    def used(self):
        return [self.by + [column for _, _, column in self.made if column]]

    def kinds_fit(self, columns):
        if [column for _, function, column in self.made if function == "sum" and dict(columns)[column] == "text"]:
            raise WrongKind

    def columns(self, columns):
        kinds = dict(columns)
        return [(column, kinds[column]) for column in self.by] + [(new, kinds[column] if column else "long") for new, _, column in self.made]

    def result(self, function, column, rows):
        if function == "count":
            return len(rows)
        cells = [self.cells(row, [column])[0] for row in rows]
        if function in ("first", "last"):
            return cells[0 if function == "first" else -1]
        cells = [cell for cell in cells if cell is not None]
        return (wrapped(sum(cells)) if function == "sum" else min(cells) if function == "min" else max(cells)) if cells else None

    def table(self, rows):
        groups = {}
        for key, row in rows.items():
            groups.setdefault(self.cells(row, self.by), []).append(key)
        return {
            keys[0]: cells + tuple(self.result(function, column, [rows[key] for key in keys]) for _, function, column in self.made)
            for cells, keys in groups.items()
        }

    def kept(self, ticks, old, new):
        return [(before, now) for before, now in super().kept(ticks, old, new) if old[before][: len(self.by)] == new[now][: len(self.by)]]


@dataclasses.dataclass
class Merge(Form):
    name: str
    inputs: list

    def kinds_fit(self, *inputs):
        if [columns for columns in inputs if columns != inputs[0]]:
            raise WrongKind

    def bound(self, bounds):
        return sum(bounds)

    def offsets(self, tables):
        offsets = [0]
        for table in tables:
            offsets.append(offsets[-1] + REGION * (max(table, default=0) // REGION + 1))
        return offsets

    def table(self, *tables):
        if (rows := sum(map(len, tables))) > MOST_ROWS:
            raise NodeFault("too-many-rows", rows)
        return {key + offset: row for table, offset in zip(tables, self.offsets(tables)) for key, row in table.items()}

    def kept(self, ticks, old, new):
        before, now = self.offsets([tick.old for tick in ticks]), self.offsets([tick.new for tick in ticks])
        return [(first + before[place], second + now[place]) for place, tick in enumerate(ticks) for first, second in tick.kept]


@dataclasses.dataclass
class Sort(OfOne):
    name: str
    input: str
    by: list

    def used(self):
        return [[column for column, _ in self.by]]

    def order(self, rows):
        """The keys in their order."""
        keys = list(rows)
        for column, descends in reversed(self.by):
            keys.sort(key=lambda key: rank(self.cells(rows[key], [column])[0]), reverse=descends)
        return keys

    def bound(self, bounds):
        return MOST_ROWS

    def table(self, rows):
        return {place: rows[key] for place, key in enumerate(self.order(rows))}

    def kept(self, ticks, old, new):
        before = {key: place for place, key in enumerate(self.order(ticks[0].old))}
        now = {key: place for place, key in enumerate(self.order(ticks[0].new))}
        columns = [column for column, _ in self.by]
        pairs = [(before[first], now[second]) for first, second in ticks[0].kept]
        return sorted(pair for pair in pairs if self.cells(old[pair[0]], columns) == self.cells(new[pair[1]], columns))


@dataclasses.dataclass
class Window(OfOne):
    """A head or a tail."""

    name: str
    rows: int
    input: str
    is_tail: bool

    def number(self):
        return self.rows

    def table(self, rows):
        keys = list(rows)
        keys = keys[max(len(keys) - self.rows, 0) :] if self.is_tail else keys[: self.rows]
        return {key: rows[key] for key in keys}


@dataclasses.dataclass
class Print:
    node: str


@dataclasses.dataclass
class Publish:
    node: str
    limit: int
