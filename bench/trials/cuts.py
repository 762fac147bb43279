"""A feed that uses all records, a script of all forms and a table file, each cut at every byte and changed at every byte.

What each of these runs must answer is what the rules give, as `expected` reads them.
"""
from trials.running import Trial

# All records, several blocks of a table in a step, a step without blocks, quoted fields, texts that are quoted when printed, nulls, and all line ends.
FEED = b"""\
t,orders
a,0,IBM,5,100
a,1,"A,""B""\xc3\xa9",20,-7
a,7,,,
.
"t",ref
"a",10,IBM,tech,100
a,13,"A,""B""\xc3\xa9","o
n",0010
.
.
t,orders\r
r,0,0\r
s,1,6,-1\r
s,7,7,1099511627768\r
a,2,XOM,40,9223372036854775807\r
a,5,IBM,-9223372036854775807,1\r
m,0,"",25,0\r
t,ref
m,13,XOM,oil,7
t,orders
r,2,2
s,0,5,3
m,8,IBM,1,1
.
t,quotes\ra,10,IBM,10,100\ra,11,IBM,20,101\r.\r
t,ref
r,10,10
s,11,13,-3
.
t,quotes
a,19,XOM,-5,7
t,orders
s,3,8,-3
m,5,XOM,3,15
."""
SMALL = b"""\
table orders sym:text qty:long px:long
table ref id:text sector:text lot:long
table quotes sym:text ts:long bid:long
print orders
print quotes
n = join orders ref on sym = id take sector, unit = lot first
print n
"""
SCRIPT = b"""\
# All forms.\r
table orders sym:text qty:long px:long
\ttable ref id:text sector:text lot : long from "ref.csv"
table quotes sym:text ts:long bid:long from "quotes.csv"

big=where orders [qty>10 and not px=null]or sym!="IBM"
val = view big sum1 = qty * px + 1, neg = -(qty - 2) * - 3, tag = "", mark = "x,y", same = sym
j = join val ref on sym = id take sector, unit = lot first
l = join orders ref on sym = id, qty = lot take sector last
p = asof orders quotes on sym at px = ts take bid
q = asof orders quotes at qty = ts take bid, who = sym
g = agg j by sector do n = count, s = sum qty, lo = min px, hi = max sym, a = first qty, z = last sym
a = agg orders do n = count, t = sum px
m = merge orders big orders
s = sort m -sym, px
h = head 2 s
t = tail 3 orders
print m
print h
print g
print a
print j
print l
print p
print q
print t
publish h 2
publish g 100
"""
TABLES = {b"ref.csv": b'id,sector,lot\r\nXOM,oil,40\n"A,""B""\xc3\xa9",,007\r"",\xe2\x82\xac,\n', b"quotes.csv": b"\xef\xbb\xbfsym,ts,bid\nIBM,-1,5\nXOM,,6\n,100,7"}
OF_TABLES = b'table ref id:text sector:text lot:long from "ref.csv"\ntable quotes sym:text ts:long bid:long from "quotes.csv"\nprint ref\nprint quotes\n'
RUN = [b"run", b"s", b"f"]
OTHERS = {
    "callers": RUN + [b"--callers", b"2", b"--snaps", b"1", b"--workers", b"2"],
    "watch": [b"watch", b"s", b"f", b"big", b"1", b"4", b"--every", b"2"],
    "attempts": RUN + [b"--callers=1", b"--attempts", b"0", b"--snaps", b"3"],
}
# What a byte is changed to, and what is put before it, in turn.
BYTES = [b'"', b",", b"\n", b"\r", b"\xff", b"\0", b"-", b"9", b"=", b"x", b" "]


def script_trial(name, script, words=RUN):
    return Trial(name, words, {b"s": script, b"f": FEED} | TABLES)


def feed_trial(name, feed):
    return Trial(name, RUN, {b"s": SMALL, b"f": feed})


def table_trial(name, file, data):
    return Trial(name, RUN, {b"s": OF_TABLES, b"f": b""} | TABLES | {file: data})


def cut(data):
    """Some bytes, cut at every byte."""
    return [data[:place] for place in range(len(data) + 1)]


def changed(data):
    """Some bytes, with each byte in turn doubled, dropped, changed to two others, and with another before it."""
    for place in range(len(data)):
        one, two, three = (BYTES[(place * step + step) % len(BYTES)] for step in (1, 3, 7))
        yield data[:place] + data[place : place + 1] + data[place:]
        yield data[:place] + data[place + 1 :]
        yield data[:place] + one + data[place + 1 :]
        yield data[:place] + two + data[place + 1 :]
        yield data[:place] + three + data[place:]


def files_by(edit):
    """A trial for each edit of the feed, the script and the table files."""
    for feed in edit(FEED):
        yield feed_trial("feed", feed)
    for script in edit(SCRIPT):
        yield script_trial("script", script)
    for file, data in TABLES.items():
        for table in edit(data):
            yield table_trial("table file", file, table)


def cut_trials():
    """Each file cut at every byte, and the whole script over the feed cut at every byte, with callers and watched."""
    yield from files_by(cut)
    for name, words in OTHERS.items():
        for feed in cut(FEED):
            yield Trial(f"feed, {name}", words, {b"s": SCRIPT, b"f": feed} | TABLES)
        for script in cut(SCRIPT):
            yield script_trial(f"script, {name}", script, words)


def changed_trials():
    """Each file changed at every byte."""
    yield from files_by(changed)
