"""Random scripts over random feeds, most of them without a fault, and random words. The same number gives the same run."""
import random

from expected.files import Block, Change
from expected.runs import Spoiled, applied
from trials.running import Trial

RUNS, RUNS_OF_WORDS = 3_000, 2_000
COLUMNS = "abcde"
TEXTS = ["", "IBM", "XOM", 'A,"B"', "é", "a", "ab", "B"]
NUMBERS = [0, 1, 2, 3, -1, -7, 2**63 - 1, -(2**63) + 1, 2**62, 10**12]
FAR = [65_535, 65_536, 131_072, 2**40 - 1, 2**39]


class Maker(random.Random):
    """Makes the parts of a run."""

    def __init__(self, seed):
        super().__init__(seed)
        self.tables, self.sources, self.lines, self.rows = {}, {}, [], {}

    def some(self, members, most=3):
        """One member or more, in any order."""
        members = list(members)
        return self.sample(members, self.randint(1, min(len(members), most)))

    def of_kind(self, name, kind):
        return [column for column, its in self.tables[name] if its == kind]

    # Scripts

    def source(self, name):
        columns = [(column, self.choice(("long", "text", "long"))) for column in self.sample(COLUMNS, self.randint(1, 4))]
        self.tables[name] = self.sources[name] = columns
        self.rows[name] = {}
        file = f' from "{name}.csv"' if self.random() < 0.4 else ""
        self.lines.append(f"table {name} {' '.join(f'{column}:{kind}' for column, kind in columns)}{file}")

    def number(self):
        """A number in a formula."""
        number = self.choice(NUMBERS)
        return str(number) if number >= 0 else f"(-{-number})"

    def formula(self, name, depth=0):
        """A formula of kind long."""
        kinds = ["number", "null"] + ["column"] * 4 * bool(self.of_kind(name, "long")) + (["sum"] * 3 + ["negated"] if depth < 3 else [])
        kind = self.choice(kinds)
        if kind == "column":
            return self.choice(self.of_kind(name, "long"))
        if kind == "sum":
            return f"({self.formula(name, depth + 1)} {self.choice('+-*')} {self.formula(name, depth + 1)})"
        return f"-{self.formula(name, depth + 1)}" if kind == "negated" else "null" if kind == "null" else self.number()

    def text(self, name):
        """A formula of kind text."""
        return self.choice(self.of_kind(name, "text") + [f'"{text}"' for text in ("IBM", "zz", "a", "")])

    def test(self, name, depth=0):
        """A test."""
        kind = self.choice(["compared"] * 4 + ["not", "and", "or"] * (depth < 2))
        if kind == "not":
            return f"not {self.test(name, depth + 1)}"
        if kind in ("and", "or"):
            return f"[{self.test(name, depth + 1)} {kind} {self.test(name, depth + 1)}]"
        side = self.text if self.random() < 0.4 and self.of_kind(name, "text") else self.formula
        return f"{side(name)} {self.choice(['=', '!=', '<', '<=', '>', '>='])} {side(name)}"

    def pairs(self, left, right):
        """Pairs of columns of one kind, of a left and a right table."""
        return [(one, two) for one, kind in self.tables[left] for two, its in self.tables[right] if kind == its]

    def taken(self, left, right):
        """What a join takes: columns of the right table under new names."""
        names = [name for name, _ in self.tables[left]]
        return [(f"{column}{len(names)}{place}", column) for place, column in enumerate(self.some([name for name, _ in self.tables[right]], 2))]

    def one_of_two(self, name, left, right):
        """A join or an as-of join, where there is something to join by."""
        on, at = self.pairs(left, right), [pair for pair in self.pairs(left, right) if pair[0] in self.of_kind(left, "long")]
        take = self.taken(left, right)
        told = ", ".join(f"{new} = {old}" for new, old in take)
        columns = self.tables[left] + [(new, dict(self.tables[right])[old]) for new, old in take]
        if at and self.random() < 0.5:
            by = f" on {', '.join(f'{one} = {two}' for one, two in self.some(on, 1))}" if self.random() < 0.5 else ""
            one, two = self.choice(at)
            return f"{name} = asof {left} {right}{by} at {one} = {two} take {told}", columns
        if not on:
            return None
        choice = self.choice([" first", " last", " first", " last", ""])
        return f"{name} = join {left} {right} on {', '.join(f'{one} = {two}' for one, two in self.some(on, 2))} take {told}{choice}", columns

    def groups(self, name, source):
        """An aggregate."""
        by = self.some([column for column, _ in self.tables[source]], 2) if self.random() < 0.8 else []
        kinds, made, told = dict(self.tables[source]), [], []
        for place in range(self.randint(1, 4)):
            function = self.choice(["count", "sum", "min", "max", "first", "last"])
            allowed = self.of_kind(source, "long") if function == "sum" else list(kinds)
            if function != "count" and not allowed:
                continue
            column = self.choice(allowed) if function != "count" else ""
            made.append((f"{name}f{place}", kinds.get(column, "long")))
            told.append(f"{name}f{place} = {function} {column}")
        if not made:
            return None
        return f"{name} = agg {source} {'by ' + ', '.join(by) if by else ''} do {', '.join(told)}", [(column, kinds[column]) for column in by] + made

    def node(self, name):
        """A line of any form, and its columns, or `None`."""
        form, source = self.choice(["where", "view", "join", "join", "agg", "agg", "merge", "sort", "head", "tail"]), self.choice(list(self.tables))
        columns = self.tables[source]
        if form == "where":
            return f"{name} = where {source} {self.test(source)}", columns
        if form == "view":
            made = [(f"v{len(columns)}", "long"), (f"w{len(columns)}", "text")]
            return f"{name} = view {source} v{len(columns)} = {self.formula(source)}, w{len(columns)} = {self.text(source).replace(chr(34) * 2, chr(34) + 'q' + chr(34))}", columns + made
        if form == "join":
            return self.one_of_two(name, source, self.choice(list(self.tables)))
        if form == "agg":
            return self.groups(name, source)
        if form == "merge":
            same = [it for it in self.tables if self.tables[it] == columns]
            return f"{name} = merge {' '.join(self.choices(same, k=self.randint(2, 4)))}", columns
        if form == "sort":
            by = ", ".join(self.choice(("", "-")) + column for column in self.some([it for it, _ in columns]))
            return f"{name} = sort {source} {by}", columns
        return f"{name} = {form} {self.randint(0, 4)} {source}", columns

    def script(self):
        for place in range(self.randint(1, 3)):
            self.source(f"t{place}")
        for place in range(self.randint(1, 9)):
            made = self.node(f"n{place}")
            if made and len(made[1]) <= 12:
                self.lines.append(made[0])
                self.tables[f"n{place}"] = made[1]
        names = list(self.tables)
        self.lines += [f"print {name}" for name in self.some(names, 8)]
        self.lines += [f"publish {name} {self.choice((1000, 1000, 1000, 9))}" for name in self.some(names, 3)] if self.random() < 0.4 else []
        return "".join(line + "\n" for line in self.lines)

    # Table files and feeds

    def cell(self, kind):
        return (self.choice(TEXTS).encode() or None) if kind == "text" else self.choice(NUMBERS[:6] + NUMBERS + [None])

    def row(self, name):
        return tuple(self.cell(kind) for _, kind in self.sources[name])

    def key(self):
        return self.choice(FAR) if self.random() < 0.08 else self.randint(0, 14)

    def ranges(self, most):
        """Ranges that rise, at small keys."""
        ends = sorted(self.sample(range(16), 2 * self.randint(0, most)))
        return list(zip(ends[::2], ends[1::2]))

    def removed(self, name):
        """Ranges of keys that are there, most often."""
        keys = [key for key in self.rows[name] if self.random() < 0.25]
        return [(key, key) for key in keys] if self.random() < 0.97 else self.ranges(1)

    def block(self, name, record):
        """A block that may be lawful."""
        block = Block(name, record)
        block.r = [Change(0, it) for it in self.removed(name)]
        block.s = [Change(0, it + (self.choice((1, 2, -1, -2, 3, 20)),)) for it in self.ranges(2)] if self.random() < 0.5 else []
        block.a = [Change(0, (key, self.row(name))) for key in sorted({self.key() for _ in range(self.randint(0, 4))})]
        block.m = [Change(0, (key, self.row(name))) for key in sorted({self.choice(list(self.rows[name])) for _ in range(self.randint(0, 2))} if self.rows[name] else ())]
        return block

    def lawful_block(self, name):
        """A block, and the rows after it. It is lawful, but for one of many."""
        while True:
            block = self.block(name, 0)
            try:
                return block, applied(block, self.rows[name])[0]
            except Spoiled:
                if self.random() < 0.004:
                    return block, self.rows[name]

    def feed(self):
        told = []
        for _ in range(self.randint(0, 6)):
            for _ in range(self.choice((0, 1, 1, 2, 3))):
                name = self.choice(list(self.sources))
                block, self.rows[name] = self.lawful_block(name)
                told.append(("t", name))
                for tag in "rsam":
                    told += [(tag, *change.values) if tag in "rs" else (tag, change.values[0], *change.values[1]) for change in getattr(block, tag)]
            told.append((".",))
        return b"".join(b",".join(map(field, fields)) + b"\n" for fields in told)

    def table_file(self, name):
        rows = [self.row(name) for _ in range(self.randint(0, 9))]
        self.rows[name] = dict(enumerate(rows))
        head = ",".join(column for column, _ in self.sources[name]).encode()
        return b"\n".join([head] + [b",".join(map(field, row)) if row != (None,) else b'""' for row in rows]) + b"\n"

    def words(self):
        beside = ["--workers", str(self.choice((1, 2, 4))), "--callers", str(self.choice((0, 0, 1, 3))), "--snaps", str(self.randint(0, 3)), "--attempts", str(self.choice((0, 2)))]
        window = [self.choice(list(self.tables)), str(self.randint(0, 3)), str(self.randint(1, 5)), "--every", str(self.choice((1, 1, 2, 3)))]
        return ["watch", "s", "f", *window] if self.random() < 0.3 else ["run", "s", "f", *beside]


def field(value):
    """A field as a file has it."""
    data = b"" if value is None else value if isinstance(value, bytes) else str(value).encode()
    return b'"' + data.replace(b'"', b'""') + b'"' if b'"' in data or b"," in data else data


def made(seed):
    """The run of a number."""
    maker = Maker(seed)
    content = {b"s": maker.script().encode()}
    for name in maker.sources:
        if f'"{name}.csv"'.encode() in content[b"s"]:
            content[f"{name}.csv".encode()] = maker.table_file(name)
    content[b"f"] = maker.feed()
    return Trial(f"random {seed}", [word.encode() for word in maker.words()], content)


# Words of a command, in any order and number.

VALUES = ["0", "1", "2", "3", "64", "65", "000000001", "0000000001", "-1", "+1", "", "x", "1=1", "-", "--"]
WORDS = ["s", "f", "t", "1", "2", "0", "-", "--", "-x", "", "--=", "---", "run", "watch", "demo", "none"]
SCRIPT = b"table t x:long\nprint t\npublish t 5\n"
FEED = b"t,t\na,0,1\na,1,2\n.\nt,t\nm,1,7\n.\n"


def some_words(draw):
    """A command with its words, then some that are dropped, doubled or put in at any place."""
    words = draw.choice((["run", "s", "f"], ["run", "s", "f"], ["demo", "2"], ["watch", "s", "f", "t", "0", "2"]))[:]
    for _ in range(draw.randint(0, 3)):
        option = "--" + draw.choice(("workers", "callers", "snaps", "attempts", "every", "worker", "Snaps"))
        value = draw.choice(VALUES[:3] * 4 + VALUES)
        place = draw.randint(1, len(words))
        words[place:place] = draw.choice(([option, value], [f"{option}={value}"], [f"{option}={value}"], [option]))
    for _ in range(draw.choice((0, 0, 0, 1, 2))):
        place = draw.randint(0, len(words))
        words[place : place + draw.randint(0, 1)] = draw.choice(([], [draw.choice(WORDS)], ["--"]))
    return words


def trial_of_words(seed):
    words = some_words(random.Random(f"words {seed}"))
    return Trial(f"random words {seed}", [word.encode() for word in words], {b"s": SCRIPT, b"f": FEED})


def trials():
    yield from map(made, range(RUNS))
    yield from map(trial_of_words, range(RUNS_OF_WORDS))
