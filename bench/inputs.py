"""Scripts with table files and feeds of any size, for `bench/steps`. The same numbers give the same files."""
import pathlib
import random

SYMBOLS = 1_000
SECTORS = 20
SOURCES = """\
table orders sym:text qty:long px:long ts:long from "orders.csv"
table ref id:text sector:text from "ref.csv"
table quotes sym:text ts:long bid:long from "quotes.csv"
"""

# What is made of the sources, under the name by which it is asked for.
SCRIPTS = {
    "filter": """\
val = view orders notional = qty * px
big = where val qty >= 90
print big
""",
    "join": """\
named = join orders ref on sym = id take sector
print named
""",
    "as of": """\
priced = asof orders quotes on sym at ts take bid
print priced
""",
    "groups": """\
bysym = agg orders by sym do n = count, total = sum qty, most = max px
print bysym
""",
    "sort": """\
ranked = sort orders -qty, px
best = head 10 ranked
print best
""",
    "merge": """\
both = merge orders orders
newest = tail 10 both
print newest
""",
    "day": """\
val = view orders notional = qty * px
named = join val ref on sym = id take sector
bysec = agg named by sector do n = count, total = sum notional, dearest = max px
ranked = sort named -notional
best = head 10 ranked
print bysec
print best
""",
    "wide": "".join(
        f"""\
w{i} = where orders qty >= {5 * i}
n{i} = join w{i} ref on sym = id take sector
g{i} = agg n{i} by sector do total = sum qty, most = max px
s{i} = sort n{i} -px, qty
h{i} = head 10 s{i}
print g{i}
print h{i}
"""
        for i in range(8)
    ),
}


def symbol(number):
    return f"S{number:04}"


def order(draw, time):
    """The cells of an order at a time."""
    return f"{symbol(draw.randrange(SYMBOLS))},{draw.randint(1, 100)},{draw.randint(1, 10_000)},{time}"


def modified(draw, rows, touched, step):
    """A step in which so many rows somewhere in the table get other cells."""
    keys = sorted(draw.sample(range(rows), touched))
    return ["t,orders", *(f"m,{key},{order(draw, rows + step)}" for key in keys), "."]


def queued(draw, rows, touched, step):
    """A step in which the first rows go, all others move into their place, and as many come behind the last."""
    added = range(rows - touched, rows)
    moves = [f"s,{touched},{rows - 1},-{touched}"] if touched < rows else []
    return ["t,orders", f"r,0,{touched - 1}", *moves, *(f"a,{key},{order(draw, rows + step)}" for key in added), "."]


# How a step changes the table of orders, which always has its rows under the keys 0, 1, 2 and so on.
CHANGES = {"modify": modified, "queue": queued}


def write_tables(folder, rows):
    """Writes the table files: so many orders, and a tenth as many quotes as there are orders, but one for each symbol at least."""
    draw = random.Random(rows)
    quotes = max(rows // 10, SYMBOLS)
    files = {
        "orders.csv": ["sym,qty,px,ts", *(order(draw, time) for time in range(rows))],
        "ref.csv": ["id,sector", *(f"{symbol(i)},sector{i % SECTORS}" for i in range(SYMBOLS))],
        "quotes.csv": ["sym,ts,bid", *(f"{symbol(i % SYMBOLS)},{i * rows // quotes},{draw.randint(1, 10_000)}" for i in range(quotes))],
    }
    for name, lines in files.items():
        pathlib.Path(folder, name).write_text("\n".join(lines) + "\n")


def write_feed(folder, name, change, rows, touched, steps):
    """Writes a feed of so many steps, each of which touches so many rows."""
    draw = random.Random(touched)
    with open(pathlib.Path(folder, name), "w") as feed:
        for step in range(steps):
            feed.write("\n".join(CHANGES[change](draw, rows, touched, step)) + "\n")


def write_script(folder, name):
    """Writes a script over the three sources."""
    pathlib.Path(folder, "script").write_text(SOURCES + SCRIPTS[name])
