"""Inputs at each limit of docs/LIMITS.md and one past it, and the biggest inputs of some kinds within them, with what must be written."""
import dataclasses

from expected import made

MOST_SCRIPT = 1_048_576
MOST_FILE = 67_108_864
MOST_ROWS = 4_194_304
MOST_KEY = 2**40 - 1
AT_ONCE = 65_536
RUN = ["run", "s", "f"]
MANY = ["--callers", "16", "--snaps", "64"]
SIXTEEN = "{0} {0} {0} {0} {0} {0} {0} {0} {0} {0} {0} {0} {0} {0} {0} {0}"
T = "table t x:long\n"
SHOWN = T + "print t\n"
OF_FILE = 'table t x:long from "t.csv"\n'
OF_TEXTS = 'table t x:text from "t.csv"\n'


@dataclasses.dataclass
class Limit:
    """An input, and its answer: a status, and what is written, or `None` for both where the rules of the pages say it."""

    what: str
    given: str
    files: dict
    status: int
    wrote: object
    words: list


def ran(what, given, wrote, script=T, feed="", table=None, words=RUN):
    """An input that is run to its end."""
    files = {"s": script, "f": feed} | ({"t.csv": table} if table is not None else {})
    return Limit(what, given, files, None if wrote is None else 0, wrote, words)


def past(what, given, fault, script=T, feed="", table=None, words=RUN):
    """An input that is refused, by a record of these fields behind `fault`."""
    refused = ran(what, given, f"fault,{fault}\n", script, feed, table, words)
    return dataclasses.replace(refused, status=int(fault.split(",")[0]))


# Files and what is written are bytes, texts, calls that give pieces of texts, and lists of all these.


def pieces(data):
    """The pieces of a file."""
    if isinstance(data, bytes):
        yield data
    elif isinstance(data, str):
        yield data.encode()
    elif callable(data):
        yield from map(str.encode, data())
    else:
        for part in data:
            yield from pieces(part)


def each(count, line):
    """A call that gives a line for each number below a count."""
    return lambda: ("".join(map(line, range(at, min(at + AT_ONCE, count)))) for at in range(0, count, AT_ONCE))


def filled(byte, count):
    """So many of a byte, or of some bytes."""
    return [byte * AT_ONCE] * (count // AT_ONCE) + [byte * (count % AT_ONCE)]


def columns(count):
    """So many columns of a source."""
    return " ".join(f"c{i}:long" for i in range(count))


def numbers(count):
    """A table file of one column, with so many numbers."""
    return ["x\n", each(count, lambda i: f"{i}\n")]


# Scripts


def of_script_bytes():
    what = "bytes of a script"
    yield ran(what, "at the limit", "done,0\n", [T, "#", filled(b"x", MOST_SCRIPT - len(T) - 1)])
    yield past(what, "one past it", "4,script,0,too-long", [T, "#", filled(b"x", MOST_SCRIPT - len(T))])
    yield ran(what, "line ends alone", "done,0\n", filled(b"\n", MOST_SCRIPT))
    name = filled(b"n", MOST_SCRIPT - 22)
    yield Limit(what, "a file name of all of them", {"s": ['table t x:long from "', name, '"'], "f": ""}, 3, ["fault,3,read,", name, "\n"], RUN)
    yield ran(what, "one number, zeros first", "done,0\n", [T, "h = head ", filled(b"0", MOST_SCRIPT - 30), "7 t"])
    yield past(what, "one number of nines", "4,script,2,number-range", [T, "h = head ", filled(b"9", MOST_SCRIPT - 30), " t"])
    yield past(what, "one text that is not closed", "4,script,2,bad-line", [T, '"', filled(b"x", MOST_SCRIPT - 30)])
    yield past(what, "one line of names", "4,script,2,bad-line", [T, filled(b"x ", (MOST_SCRIPT - 30) // 2)])
    texts = "".join(f"w{i} = where t " + " or ".join(f'x = "{place:04}{i:04}"' for place in range(126)) + "\n" for i in range(255))
    yield ran(what, "255 filters of 126 texts each", "step,1,w7\na,0,00050007\ndone,1\n", f"table t x:text\n{texts}print w7\n", "t,t\na,0,00050007\na,1,00050008\n.\n")


def of_tokens():
    what, feed, wrote = "tokens of a line", "t,t\na,0,5\n.\n", "step,1,w\na,0,5\ndone,1\n"
    tests = " or ".join(["not x = 1"] + ["x = 1"] * 126)
    for given, test in (
        ("at the limit", tests),
        ("252 square brackets", f"{'[' * 252}not x = 1{']' * 252}"),
        ("251 round brackets", f"not 5 != -{'(' * 251}-x{')' * 251}"),
        ("504 signs", f"not {'-' * 504} x != 5"),
        ("250 products", f"1{' * 1' * 249} * x = x"),
    ):
        yield ran(what, given, wrote, f"{T}w = where t {test}\nprint w\n", feed)
    yield past(what, "one past it", "4,script,2,bad-line", f"{T}w = where t not {tests}\nprint w\n", feed)
    yield ran("a name", "at the limit", "done,0\n", f"table {'n' * 32} {'c' * 32}:long\n")
    yield past("a name", "one past it", "4,script,1,bad-line", f"table {'n' * 33} x:long\n")
    yield past("a name", "of a column, one past it", "4,script,1,bad-line", f"table t {'c' * 33}:long\n")
    yield ran("a number in a script", "at the limit", "done,0\n", f"{T}w = where t x = 9223372036854775807\n")
    yield past("a number in a script", "one past it", "4,script,2,number-range", f"{T}w = where t x = 9223372036854775808\n")


def of_nodes():
    tables = "".join(f"table t{i} x:long\n" for i in range(256))
    yield ran("tables of a script", "at the limit", "done,0\n", tables)
    yield past("tables of a script", "one past it", "4,script,257,too-many-nodes", f"{tables}table u x:long\n")
    yield from of_many_nodes()
    what = "columns of a table"
    yield ran(what, "at the limit", "done,0\n", f"table t {columns(32)}\n")
    yield past(what, "one past it", "4,script,1,too-many-columns", f"table t {columns(33)}\n")
    yield ran(what, "of a view, at the limit", "done,0\n", f"table t {columns(31)}\nv = view t a = 1\n")
    yield past(what, "of a view, one past it", "4,script,2,too-many-columns", f"table t {columns(32)}\nv = view t a = 1\n")
    what = "inputs of a merge"
    for count in (2, 16):
        yield ran(what, f"{count}", "done,0\n", f"{T}m = merge{' t' * count}\n")
    for count in (1, 17):
        yield past(what, f"{count}", "4,script,2,bad-line", f"{T}m = merge{' t' * count}\n")
    for word in ("head", "tail"):
        yield ran(f"rows of a {word}", "at the limit", "done,0\n", f"{T}h = {word} 4194304 t\n")
        yield past(f"rows of a {word}", "one past it", "4,script,2,number-range", f"{T}h = {word} 4194305 t\n")


def of_many_nodes():
    """All tables that a script may have, at work."""
    what, feed = "tables of a script", each(1_000, lambda i: f"t,t\na,{i},1\n.\n")
    wrote = [each(1_000, lambda i: f"step,{i + 1},w254\na,{i},1\n"), "done,1000\n"]
    chain = T + "".join(f"w{i} = where {f'w{i - 1}' if i else 't'} x > {-i}\n" for i in range(255))
    beside = T + "".join(f"w{i} = where t x > {-i}\n" for i in range(255))
    for workers in ("1", "2", "64"):
        yield ran(what, f"255 filters in a chain, 1,000 steps, workers: {workers}", wrote, f"{chain}print w254\n", feed, words=RUN + ["--workers", workers])
    yield ran(what, "255 filters beside each other, 1,000 steps, workers: 64", wrote, f"{beside}print w254\n", feed, words=RUN + ["--workers", "64"])
    published = beside + "".join(f"publish w{i} 1\n" for i in range(255))
    yield ran(what, "255 published filters, 16 callers with 64 snapshots each", None, published, "t,t\na,0,1\n.\n", words=RUN + MANY)
    sources = "".join(f'table t{i} x:long from "t.csv"\n' for i in range(256))
    yield ran(what, "256 sources of one file of 16,384 rows", "done,0\n", sources, table=numbers(16_384))


def of_keys():
    what = "keys of a table"
    merges = "".join(f"m{i} = merge {SIXTEEN.format(f'm{i - 1}' if i > 1 else 't')}\n" for i in range(1, 6))
    yield ran(what, "2^60 * 3 and less", "done,0\n", f"{T}{merges}m6 = merge m5 m5 m5\n")
    yield past(what, "2^62", "4,script,7,key-space", f"{T}{merges}m6 = merge m5 m5 m5 m5\n")
    counted = "g = agg m5 do n = count\nprint g\n"
    yield ran(what, "4 rows, five times merged by 16", "step,0,g\na,0,4194304\ndone,0\n", f"{OF_FILE}{merges}{counted}", table=numbers(4))


def of_publications():
    what, feed = "rows of a published table", "t,t\na,0,1\na,1,1\n.\n"
    yield past(what, "4,194,305 by its line", "4,script,2,number-range", f"{T}publish t 4194305\n")
    yield ran(what, "2 of 2", "done,1\n", f"{T}publish t 2\n", feed)
    yield past(what, "2 of 1", "9,publish,1,t,2,1", f"{T}publish t 1\n", feed)
    what = "words of all published tables"
    yield ran(what, "at the limit", "done,0\n", f"{T}publish t 262143\n")
    yield past(what, "past it", "4,script,2,too-wide", f"{T}publish t 262144\n")
    for steps in (100, 1_000):
        changes = each(steps, lambda i: f"t,t\nm,{i},-1\n.\n")
        yield ran(what, f"all of them in use, {steps:,} steps that modify one row each", f"done,{steps}\n", f"{OF_FILE}publish t 262143\n", changes, numbers(262_143))


# Table files


def of_table_bytes():
    what = "bytes of a table file"
    rows = MOST_ROWS - 1
    sixteen = ["x\n", each(rows, lambda i: f"{i:015}\n"), "7777777777777\n"]
    last = f"a,{rows},7777777777777\ndone,0\n"
    yield ran(what, "at the limit, with the most rows", "done,0\n", OF_FILE, table=sixteen)
    yield past(what, "one past it", "5,table,t,0,too-long", OF_FILE, table=sixteen + ["\n"])
    yield ran(what, "the most rows, printed", ["step,0,t\n", each(rows, lambda i: f"a,{i},{i}\n"), last], f"{OF_FILE}print t\n", table=sixteen)
    yield ran(what, "the most rows of distinct texts, printed", ["step,0,t\n", each(rows, lambda i: f"a,{i},{i:015}\n"), last], f"{OF_TEXTS}print t\n", table=sixteen)
    text, quotes = filled(b"x", MOST_FILE - 2), filled(b'""', (MOST_FILE - 4) // 2)
    yield ran(what, "one text, printed", ["step,0,t\na,0,", text, "\ndone,0\n"], f"{OF_TEXTS}print t\n", table=["x\n", text])
    yield ran(what, "one text of quotes, printed", ['step,0,t\na,0,"', quotes, '"\ndone,0\n'], f"{OF_TEXTS}print t\n", table=['x\n"', quotes, '"'])
    head, row = ",".join(f"c{i}" for i in range(32)) + "\n", "1," * 31 + "1\n"
    rows = (MOST_FILE - len(head)) // len(row)
    wide = ["step,0,t\n", each(rows, lambda i: f"a,{i},{row}"), "done,0\n"]
    yield ran(what, f"{rows:,} rows of 32 columns, printed", wide, f'table t {columns(32)} from "t.csv"\nprint t\n', table=[head, each(rows, lambda i: row)])
    for given, fault, table in (
        ("line ends alone", "1,header", filled(b"\n", MOST_FILE)),
        ("commas alone", "1,header", filled(b",", MOST_FILE)),
        ("commas behind the header", "2,field-count", ["x\n", filled(b",", MOST_FILE - 2)]),
        ("quotes alone", "1,header", filled(b'"', MOST_FILE)),
        ("a quote that is not closed", "1,header", ['"', filled(b"\n", MOST_FILE - 1)]),
        ("bytes of zero", "1,header", filled(b"\0", MOST_FILE)),
        ("digits behind the header", "2,bad-number", ["x\n", filled(b"1", MOST_FILE - 2)]),
    ):
        yield past(what, given, f"5,table,t,{fault}", OF_FILE, table=table)
    yield ran("rows of a table file", "at the limit", "done,0\n", OF_FILE, table=numbers(MOST_ROWS))
    yield past("rows of a table file", "one past it", f"5,table,t,{MOST_ROWS + 2},too-long", OF_FILE, table=numbers(MOST_ROWS + 1))


# Feeds


def sixteen_bytes(i):
    """A record of 16 bytes that adds a row, but for the first, which is shorter by the six bytes that begin and end the step."""
    return f"a,{i:011},1\n" if i else "a,00000,1\n"


def of_feed_bytes():
    what, most = "bytes of a feed", ["t,t\n", each(MOST_ROWS, sixteen_bytes), ".\n"]
    yield ran(what, "at the limit, with the most rows, printed", ["step,1,t\n", each(MOST_ROWS, lambda i: f"a,{i},1\n"), "done,1\n"], SHOWN, most)
    yield past(what, "one past it", "6,feed,0,too-long", SHOWN, most + ["\n"])
    blocks = (MOST_FILE - 2) // 4
    yield ran(what, "line ends alone", "done,0\n", T, filled(b"\n", MOST_FILE))
    for given, fault, feed in (
        ("commas alone", "1,bad-tag", filled(b",", MOST_FILE)),
        ("one field", "1,bad-tag", filled(b"x", MOST_FILE)),
        ("one record of commas", "1,field-count", ["t,", filled(b",", MOST_FILE - 2)]),
        ("one number", "2,bad-number", ["t,t\na,", filled(b"0", MOST_FILE - 9), ",1\n"]),
        ("blocks alone, without an end", f"{blocks},unfinished", filled(b"t,t\n", blocks)),
    ):
        yield past(what, given, f"6,feed,{fault}", T, feed)
    yield ran(what, f"a step of {blocks:,} empty blocks", "done,1\n", T, [filled(b"t,t\n", blocks), ".\n"])
    pairs = each(1_700_000, lambda i: f"t,t\na,{i},1\nt,t\nr,{i},{i}\n")
    yield ran(what, "a step of 3,400,000 blocks, which add a row and remove it again", "done,1\n", SHOWN, [pairs, ".\n"])
    for blocks in (40_000, 400_000, 3_800_000):
        given, wrote = f"a step of {blocks:,} blocks, which add a row each, with gaps between", ["step,1,t\n", each(blocks, lambda i: f"a,{2 * i},1\n"), "done,1\n"]
        yield ran(what, f"{given}, from the first on", wrote, SHOWN, [each(blocks, lambda i: f"t,t\na,{2 * i},1\n"), ".\n"])
        yield ran(what, f"{given}, from the last on", wrote, SHOWN, [each(blocks, lambda i, last=blocks - 1: f"t,t\na,{2 * (last - i)},1\n"), ".\n"])
    yield from of_blocks_over_rows(what)


def of_blocks_over_rows(what):
    """Many blocks in one step, each of a row of a table whose keys have no gaps at first."""
    rows, blocks = 2_000_000, 1_000_000
    feed = ["t,t\n", each(rows, lambda i: f"a,{i},1\n"), ".\n"]
    wrote = ["step,1,t\n", each(rows, lambda i: f"a,{i},1\n"), "step,2,t\n"]
    given = f"{rows:,} rows, then a step of {blocks:,} blocks, which each"
    for order, place in ("from the first on", lambda i: 2 * i), ("from the last on", lambda i: 2 * (blocks - 1 - i)):
        removed = each(blocks, lambda i, place=place: f"t,t\nr,{place(i)},{place(i)}\n")
        yield ran(what, f"{given} remove a row, {order}", wrote + [each(blocks, lambda i: f"r,{2 * i},{2 * i}\n"), "done,2\n"], SHOWN, feed + [removed, ".\n"])
        modified = each(blocks, lambda i, place=place: f"t,t\nm,{place(i)},2\n")
        yield ran(what, f"{given} modify a row, {order}", wrote + ["c,x\n", each(blocks, lambda i: f"m,{2 * i},2\n"), "done,2\n"], SHOWN, feed + [modified, ".\n"])
    turns = each(blocks // 2, lambda i: f"t,t\nr,{2 * i},{2 * i}\nt,t\na,{2 * i},2\n")
    turned = [each(blocks // 2, lambda i: f"r,{2 * i},{2 * i}\n"), each(blocks // 2, lambda i: f"a,{2 * i},2\n"), "done,2\n"]
    yield ran(what, f"{given} remove a row or put it back", wrote + turned, SHOWN, feed + [turns, ".\n"])
    for moved in (5_000, 10_000):
        feed = ["t,t\n", each(moved, lambda i: f"a,{2 * i},1\n"), ".\n", each(moved, lambda i: f"t,t\ns,{2 * i},{2 * i},1\n"), ".\n"]
        wrote = ["step,1,t\n", each(moved, lambda i: f"a,{2 * i},1\n"), f"step,2,t\ns,0,{2 * moved - 2},1\ndone,2\n"]
        yield ran(what, f"{moved:,} rows with gaps between, then a step of {moved:,} blocks, which move a row each", wrote, SHOWN, feed)


def of_steps():
    what, steps = "steps of a feed", each(100_000, lambda i: f"t,t\na,{i},1\n.\n")
    yield ran(what, "at the limit", "done,100000\n", T, filled(b".\n", 100_000))
    yield past(what, "one past it", "6,feed,100001,too-long", T, filled(b".\n", 100_001))
    wrote = [each(100_000, lambda i: f"step,{i + 1},t\na,{i},1\n"), "done,100000\n"]
    yield ran(what, "each adds a row, printed", wrote, SHOWN, steps)
    yield ran(what, "each adds a row, watched", wrote, SHOWN, steps, words=["watch", "s", "f", "t", "0", "4194304"])
    best = "".join(f"step,{i + 1},h\na,{i},1\n" for i in range(3)) + "done,100000\n"
    yield ran(what, "each adds a row behind a sort and a head, workers: 64", best, f"{T}s = sort t -x\nh = head 3 s\nprint h\n", steps, words=RUN + ["--workers", "64"])
    modified = ["step,1,t\na,0,1\n", each(99_999, lambda i: f"step,{i + 2},t\nc,x\nm,0,{i % 2 + 2}\n"), "done,100000\n"]
    yield ran(what, "each modifies one row, printed", modified, SHOWN, ["t,t\na,0,1\n.\n", each(99_999, lambda i: f"t,t\nm,0,{i % 2 + 2}\n.\n")])


def of_feed_keys():
    what = "keys in a feed"
    yield ran(what, "at the limit", f"step,1,t\na,{MOST_KEY},1\ndone,1\n", SHOWN, f"t,t\na,{MOST_KEY},1\n.\n")
    yield past(what, "one past it", "6,feed,2,bad-number", SHOWN, f"t,t\na,{MOST_KEY + 1},1\n.\n")
    yield past(what, "moved one past it", f"7,step,2,5,shift-breaks,{MOST_KEY},{MOST_KEY}", T, f"t,t\na,{MOST_KEY},1\n.\nt,t\ns,0,{MOST_KEY},1\n.\n")
    yield past(what, "a removal of all that there may be", "7,step,2,5,removed-absent,1", T, f"t,t\na,0,1\n.\nt,t\nr,0,{MOST_KEY}\n.\n")
    what = "rows of a source at a step"
    yield ran(what, "at the limit", "done,1\n", OF_FILE, "t,t\na,4194303,1\n.\n", numbers(MOST_ROWS - 1))
    yield past(what, "one past it", f"7,step,1,1,too-many-rows,{MOST_ROWS + 1}", OF_FILE, "t,t\na,4194304,1\n.\n", numbers(MOST_ROWS))
    what, merged = "rows of a merge at a step", f"{OF_FILE}m = merge {SIXTEEN.format('t')}\n"
    yield ran(what, "at the limit", "done,0\n", merged, table=numbers(262_144))
    yield past(what, "16 past it", "8,node,0,m,too-many-rows,4194320", merged, table=numbers(262_145))


def of_scattered_keys():
    """Keys and changes with gaps between."""
    what, rows = "keys in a feed", 2_000_000
    given = f"{rows:,} rows with gaps between"
    feed = ["t,t\n", each(rows, lambda i: f"a,{2 * i},1\n"), ".\n"]
    wrote = ["step,1,t\n", each(rows, lambda i: f"a,{2 * i},1\n")]
    moved = ["t,t\n", each(rows, lambda i: f"s,{2 * i},{2 * i},1\n"), ".\n"]
    yield ran(what, f"{given}, each moved by one in a range of its own", wrote + [f"step,2,t\ns,0,{2 * rows - 2},1\ndone,2\n"], SHOWN, feed + moved)
    removed = each(rows // 2, lambda i: f"r,{4 * i},{4 * i}\n")
    yield ran(what, f"{given}, each second removed in a range of its own", wrote + ["step,2,t\n", removed, "done,2\n"], SHOWN, feed + ["t,t\n", removed, ".\n"])

    def turn(i):
        return f"r,{2 * i},{2 * i}\na,{2 * (rows + i)},1\n"

    steps, told = each(1_000, lambda i: f"t,t\n{turn(i)}.\n"), each(1_000, lambda i: f"step,{i + 2},t\n{turn(i)}")
    yield ran(what, f"{given}, 1,000 steps, each takes the first and adds one behind the last", wrote + [told, "done,1001\n"], SHOWN, feed + [steps])
    steps = each(1_000, lambda i: f"t,t\ns,0,{MOST_KEY},{(1, -1)[i % 2]}\n.\n")
    told = each(1_000, lambda i: f"step,{i + 2},t\ns,{i % 2},{2 * rows - 2 + i % 2},{(1, -1)[i % 2]}\n")
    yield ran(what, f"{given}, 1,000 steps, each moves all", wrote + [told, "done,1001\n"], SHOWN, feed + [steps])


# Operators, cells and words


def of_operators():
    """Each form over the most rows, of which a step then modifies ten, adds one and takes one away."""
    what, rows = "rows of a table", MOST_ROWS
    table = ["k,g,x\n", each(rows, lambda i: f"{i},{i % 8},{i % 97}\n")]
    step = "t,t\nr,7,7\na,4194310,-1,3,5\n" + "".join(f"m,{i},{i},1,1000\n" for i in range(1000, 1010)) + ".\n"
    before = sum(i % 97 for i in range(rows))
    after = before - 7 - sum(i % 97 for i in range(1000, 1010)) + 10_000 + 5
    wrote = f"step,0,c\na,0,{rows},{before}\nstep,1,c\nc,s\nm,0,{rows},{after}\ndone,1\n"
    source, count = 'table t k:long g:long x:long from "t.csv"\n', "c = agg o do n = count, s = sum x\nprint c\n"
    for given, script in (
        ("where", f"o = where t x >= 0\n{count}"),
        ("view", f"o = view t y = x * x - g, z = -x\n{count}"),
        ("join", f"o = join t t on k take other = x\n{count}"),
        ("join, one of half a million matches each", f"o = join t t on g take other = k last\n{count}"),
        ("asof", f"o = asof t t on g at k take other = x\n{count}"),
        ("head", f"o = head 4194304 t\n{count}"),
        ("tail", f"o = tail 4194304 t\n{count}"),
        ("agg, a group for each row", "o = agg t by k do n = count, s = sum x, lo = min x, hi = max x, a = first g\nc = agg o do n = sum n, s = sum s\nprint c\n"),
        ("agg, one group", "c = agg t do n = count, s = sum x\nhi = agg t do hi = max x, lo = min k\nprint c\n"),
    ):
        yield ran(what, given, wrote, source + script, step, table)
    yield ran(what, "sort", wrote.replace("c,s\nm,0", "r,0,0\na,0"), f"{source}o = sort t -x, g\n{count}", step, table)
    yield ran(what, "sort, printed", ["step,0,s\n", each(rows, lambda i: f"a,{i},{rows - 1 - i}\n"), "done,0\n"], f"{OF_FILE}s = sort t -x\nprint s\n", table=numbers(rows))
    yield ran(what, "watched", ["step,0,t\n", each(rows, lambda i: f"a,{i},{i}\n"), "done,0\n"], OF_FILE, table=numbers(rows), words=["watch", "s", "f", "t", "0", "4194304"])
    yield ran(what, "the last row watched", "step,0,t\na,4194303,4194303\ndone,0\n", OF_FILE, table=numbers(rows), words=["watch", "s", "f", "t", "4194303", "4194304"])


def of_cells():
    for sign in ("", "-"):
        yield ran("cells", f"{sign}9223372036854775807", f"step,1,t\na,0,{sign}9223372036854775807\ndone,1\n", SHOWN, f"t,t\na,0,{sign}9223372036854775807\n.\n")
        yield past("cells", f"{sign}9223372036854775808", "6,feed,2,bad-number", SHOWN, f"t,t\na,0,{sign}9223372036854775808\n.\n")
    script = T + "v = view t up = x + 1, down = -x - 1, low = -x - 2, square = x * x\ng = agg t do s = sum x\nprint v\nprint g\n"
    rows = "".join(f"a,{i},9223372036854775807,,,9223372036854775807,1\n" for i in (0, 1))
    yield ran("cells", "sums that wrap, and to null", f"step,1,v\n{rows}step,1,g\na,0,-2\ndone,1\n", script, "t,t\na,0,9223372036854775807\na,1,9223372036854775807\n.\n")


def of_options():
    feed, wrote = "t,t\na,0,1\n.\n", "step,1,t\na,0,1\ndone,1\n"
    for option, least, most in (("workers", 1, 64), ("callers", 0, 16), ("snaps", 0, 64), ("attempts", 0, 16)):
        for number in (least, most):
            yield ran(option, f"{number}", wrote, SHOWN, feed, words=RUN + [f"--{option}", str(number)])
        yield past(option, f"{most + 1}", "2,usage", SHOWN, feed, words=RUN + [f"--{option}", str(most + 1)])
    yield past("workers", "0", "2,usage", SHOWN, feed, words=RUN + ["--workers", "0"])
    what = "a watched window"
    for given, told, words in (("4,194,304 rows", wrote, "0 4194304"), ("1 row", wrote, "0 1"), ("from the row 4,194,303", "done,1\n", "4194303 1"), ("100,000 steps between", wrote, "0 1 --every 100000")):
        yield ran(what, given, told, SHOWN, feed, words=["watch", "s", "f", "t", *words.split()])
    for given, words in (("4,194,305 rows", "0 4194305"), ("no row", "0 0"), ("from the row 4,194,304", "4194304 1"), ("100,001 steps between", "0 1 --every 100001")):
        yield past(what, given, "2,usage", SHOWN, feed, words=["watch", "s", "f", "t", *words.split()])


def of_callers():
    what, all_kept = "words that callers keep", RUN + ["--callers", "16", "--snaps", "63"]
    script, rows = "table t x:long y:long\npublish t 5461\n", ["t,t\n", each(5_461, lambda i: f"a,{i},{i},{-i}\n"), ".\n"]
    yield ran(what, "16,777,216", None, script, rows, words=all_kept)
    yield past(what, "16,780,288", "2,kept,16780288", script.replace("5461", "5462"), rows, words=all_kept)
    yield ran(what, "16,777,216, beside 100 steps", None, script, rows + [each(100, lambda i: f"t,t\nm,{i},{-i},{i}\n.\n")], words=all_kept + ["--workers", "2"])


def of_made_runs():
    what, crowd = "steps of a made run", ["--workers", "64"] + MANY
    yield past(what, "10,001", "2,usage", words=["demo", "10001"])
    for given, words in (("", []), (", workers: 64, callers: 16, snapshots of each: 64", crowd)):
        yield ran(what, f"200{given}", None, words=["demo", "200"] + words)
        yield ran(what, f"10,000{given}", MadeRun(10_000), words=["demo", "10000"] + words)


class MadeRun:
    """What is written by a made run of so many steps, but for the number of the records of its updates."""

    def __init__(self, steps):
        self.steps = steps

    def trades(self):
        """The cells of the trades in the end."""
        rows, draws = [], made.Draws()
        for step in range(1, self.steps + 1):
            rows = rows[10:] if step % 5 == 0 else rows
            kept = len(rows)
            rows += [draws.cells() for _ in range(20)]
            if step % 2 == 0:
                place = draws.below(kept)
                rows[place] = draws.cells()
        return rows

    def fits(self, wrote):
        rows = self.trades()
        big = sum(int(row.split(",")[2]) >= 50 for row in rows)
        sizes = {"trades": len(rows), "ref": 8, "big": big, "val": big, "j": big, "bysec": 2, "srt": big, "top10": 10, "both": len(rows) + big}
        first, *others = wrote.decode().splitlines()
        return first.startswith(f"demo,{self.steps},") and others == [f"size,{name},{count}" for name, count in sizes.items()] + [f"done,{self.steps}"]


PARTS = (
    of_script_bytes, of_tokens, of_nodes, of_keys, of_publications, of_table_bytes, of_feed_bytes, of_steps, of_feed_keys, of_scattered_keys,
    of_operators, of_cells, of_options, of_callers, of_made_runs,
)  # fmt: skip


def limits():
    for part in PARTS:
        yield from part()
