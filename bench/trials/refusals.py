"""Each row of the tables of refusals: of the words, the script, table files, the feed, its steps, nodes, publications and what callers keep.

The answers are written out here. That the rules as `expected` reads them give the same is checked beside.
"""
from trials.running import trial

SA = "table t sym:text qty:long / big = where t qty > 10 / print big"
SB = "table t x:long / print t"
SE = "table l sym:text / table r sym:text px:long / j = join l r on sym take px / print r / print j"
OF_FILE = 'table t x:long s:text from "t.csv" / print t'
TWO_FILES = 'table t x:long from "t.csv" / table u x:long from "u.csv"'
ROW = "t,t / a,0,1 / a,1,2 / ."
ROW_WROTE = "step,1,t / a,0,1 / a,1,2"
SIXTEEN = "t t t t t t t t t t t t t t t t"
USAGE = "fault,2,usage"


def columns(count, kind="long"):
    """So many columns of a source."""
    return " ".join(f"c{i}:{kind}" for i in range(count))


# Words

NO_COMMAND = [
    "", "run", "run s", "run s f g", "demo", "demo 1 1", "watch", "watch s f t 0", "watch s f t 0 1 2", "tick run s f", "Run s f", "RUN s f", "ru s f",
    "help", "--help", "-h", "--version", "-V", "run --help", "run s f --help", "run s f -h", "run s f --version", "run s f -V", "run help", "-- run s f",
    "--workers 2 run s f", "run s f --workers", "run s f --workers=", "run s f --workers 0", "run s f --workers 65", "run s f --workers=65",
    "run s f --workers -", "run s f --workers --", "run s f --workers -1", "run s f --workers=-1", "run s f --workers +1", "run s f --workers=+1",
    "run s f --workers 1.0", "run s f --workers 0x1", "run s f --workers 1e0", "run s f --workers two", "run s f --workers 0000000001",
    "run s f --workers 1000000000", "run s f --workers 99999999999999999999", "run s f --workers 4294967297", "run s f --workers 18446744073709551617",
    "run s f --workers ١", "run s f --workers ２", "run s f --worker 1", "run s f --work=1", "run s f --Workers 1", "run s f --workers 1 --workers 1",
    "run s f --workers=1 --workers 2", "run s f -w 1", "run s f -workers 1", "run s f --callers 17", "run s f --snaps 65", "run s f --attempts 17",
    "run s f --callers 1 --callers 1", "run s f --snaps=", "run s f --attempts", "run s f --every 1", "run s f --=1", "run s f --= 1", "run s f ---",
    "run s f -", "run - - -", "run -s f", "run s -f", "run -- s f --workers 1", "run s f -- --", "run -- -- s f", "run s f --no-workers", "run s f --steps 1",
    "demo 10001", "demo -1", "demo +1", "demo 1.5", "demo x", "demo 1000000000", "demo 0000000000", "demo 1 --every 1", "demo -- -1", "demo 1 --callers 17",
    "watch s f t 0 0", "watch s f t 0 4194305", "watch s f t 4194304 1", "watch s f t -1 1", "watch s f t x 1", "watch s f t 0 x", "watch s f t 0 1 --callers 1",
    "watch s f t 0 1 --snaps 1", "watch s f t 0 1 --attempts 1", "watch s f t 0 1 --every 0", "watch s f t 0 1 --every 100001", "watch s f t 0 1 --every",
    "watch s f t 0 1 --workers 0",
]
# Words that hold a blank or an empty word, or bytes that are no UTF-8.
ODD_WORDS = [
    ["run", "s", "f", "--workers", ""],
    ["run", "s", "f", "--workers", " 1"],
    ["run", "s", "f", "--workers", "1 "],
    ["run", "s", "f", "--workers=1 "],
    ["run", "s", "f", ""],
    ["demo", ""],
    ["demo", " 1"],
    ["demo", "1\n"],
    ["", "s", "f"],
    [" run", "s", "f"],
    ["run", "s", "f", "--workers", "1\t"],
    [b"run", b"s\xff", b"f"],
    [b"run", b"s", b"\x80"],
    [b"\xff"],
    [b"run", b"s", b"f", b"\xc3\x28"],
    [b"run", b"s", b"f", b"--workers", b"\xff"],
    [b"run", b"s", b"f", b"--\xff", b"1"],
    [b"run", b"s", b"f", b"--workers=\xed\xa0\x80"],
    [b"run", b"s", b"\xf4\x90\x80\x80"],
]
A_RUN = "step,1,t / a,0,1 / a,1,2 / done,1"
SNAPS = "snap,0,0,1,t / w,0,1 / w,1,2"
COMMANDS = [
    ("run s f", A_RUN),
    ("run -- s f", A_RUN),
    ("run s -- f", A_RUN),
    ("run s f --", A_RUN),
    ("run --workers 64 s f", A_RUN),
    ("run --workers=1 s f", A_RUN),
    ("run s --workers 000000064 f", A_RUN),
    ("run s f --callers 0 --snaps 64 --attempts 16", A_RUN),
    ("run --attempts=0 s --snaps=0 f --callers=16 --workers 3", A_RUN),
    ("run --callers 16 --snaps 64 --attempts 16 --workers 64 -- s f", A_RUN),
    ("watch s f t 0 1", "step,1,t / a,0,1 / done,1"),
    ("watch -- s f t 0 1", "step,1,t / a,0,1 / done,1"),
    ("watch s f t 000000001 4194304 --every 100000 --workers 64", "step,1,t / a,1,2 / done,1"),
    ("watch s f t 4194303 1", "done,1"),
    ("watch s f t 2 1", "done,1"),
    ("watch --every=1 s f --workers=2 t 0 2", A_RUN),
]


def of_words():
    for words in [it.split(" ") if it else [] for it in NO_COMMAND] + ODD_WORDS:
        yield trial("words", SB, ROW, words=words, status=2, wrote=USAGE)
    for words, wrote in COMMANDS:
        yield trial("words", SB, ROW, words=words.split(" "), status=0, wrote=wrote)
    yield trial("words", "table t x:long / publish t 2", ROW, words=["run", "s", "f", "--callers", "1"], status=0, wrote=f"{SNAPS} / done,1")
    for words in (["demo", "--", "2"], ["demo", "3", "--workers", "4"], ["demo", "--callers=2", "0"], ["demo", "000000007", "--snaps=1", "--callers", "16"]):
        yield trial("words", None, None, words=words)
    for words, name in ((["run", "-", "f"], "-"), (["run", "s", "-"], "-"), (["run", "", "f"], ""), (["run", "s", ""], ""), (["run", "--", "--s", "f"], "--s")):
        yield trial("words", SB, ROW, words=words, status=3, wrote=f"fault,3,read,{name}")
    for name, told in (("a,b", '"a,b"'), ('"', '""""'), ("a\rb", '"a\rb"'), ("é", "é"), ("a b", "a b"), ("..", ".."), ("x" * 5000, "x" * 5000)):
        yield trial("words", SB, ROW, words=["run", "s", name], status=3, wrote=f"fault,3,read,{told}")
        yield trial("words", SB, ROW, words=["run", name, "f"], status=3, wrote=f"fault,3,read,{told}")


# Scripts: the line and the kind, and the script.

T = "table t x:long"
TEXTS = "table t x:text y:long"
BAD_SCRIPTS = [
    ("1,unknown-name", "print t"),
    ("1,unknown-name", "publish t 1"),
    ("1,unknown-name", "w = where t x > 1"),
    ("2,unknown-name", f"{T} / m = merge t u"),
    ("2,unknown-name", f"{T} / j = join t u on x take x"),
    ("2,unknown-name", f"{T} / a = asof u t at x take x"),
    ("2,unknown-name", f"{T} / t2 = head 1 t2"),
    ("2,unknown-name", f"{T} / print T"),
    ("3,unknown-name", f"{T} / # u / print u / table u x:long"),
    ("2,unknown-name", f"{T} / t = where u z > 1"),
    ("1,taken-column", "table t x:long x:long"),
    ("1,taken-column", "table t x:long x:text"),
    ("2,taken-column", f"{T} / v = view t x = 1"),
    ("2,taken-column", f"{T} / v = view t a = 1, a = 2"),
    ("3,taken-column", f"{T} / table u x:long y:long / j = join t u on x take x"),
    ("3,taken-column", f"{T} / table u x:long y:long / j = join t u on x take y, y"),
    ("3,taken-column", f"{T} / table u x:long y:long / j = join t u on x take a = y, a = y"),
    ("3,taken-column", f"{T} / table u x:long y:long / j = asof t u at x take x = y"),
    ("2,taken-column", f"{T} / a = agg t by x do x = count"),
    ("2,taken-column", f"{T} / a = agg t by x, x do n = count"),
    ("2,taken-column", f"{T} / a = agg t do n = count, n = sum x"),
    ("2,bad-line", f"{T} / b = where t x >"),
    ("1,bad-line", "table"),
    ("1,bad-line", "table t"),
    ("1,bad-line", "table t x"),
    ("1,bad-line", "table t x:"),
    ("1,bad-line", "table t x:number"),
    ("1,bad-line", "table t x:Long"),
    ("1,bad-line", "table t x:long from"),
    ("1,bad-line", "table t x:long from t"),
    ("1,bad-line", 'table t x:long from ""'),
    ("1,bad-line", 'table t x:long from "a" "b"'),
    ("1,bad-line", 'table t x:long from "a'),
    ("1,bad-line", "table t x:long,y:long"),
    ("1,bad-line", "table by x:long"),
    ("1,bad-line", "table t min:long"),
    ("1,bad-line", "table 1t x:long"),
    ("1,bad-line", "table _t x:long"),
    ("1,bad-line", "Table t x:long"),
    ("1,bad-line", "table t x:long # note"),
    ("1,bad-line", "table t x:long;"),
    ("1,bad-line", "table té x:long"),
    ("1,bad-line", "table t\u00a0x:long"),
    ("1,bad-line", "table t\u000bx:long"),
    ("1,bad-line", "\ufefftable t x:long"),
    ("1,bad-line", "table t x:long\0"),
    ("1,bad-line", f"table {'n' * 33} x:long"),
    ("1,bad-line", f"table t {'n' * 33}:long"),
    ("2,bad-line", f"{T} / w = where t"),
    ("2,bad-line", f"{T} / w = where x > 1"),
    ("2,bad-line", f"{T} / w = where t x"),
    ("2,bad-line", f"{T} / w = where t x > 1 and"),
    ("2,bad-line", f"{T} / w = where t (x > 1)"),
    ("2,bad-line", f"{T} / w = where t [x > 1"),
    ("2,bad-line", f"{T} / w = where t [x] > 1"),
    ("2,bad-line", f"{T} / w = where t x > 1 > 0"),
    ("2,bad-line", f"{T} / w = where t x => 1"),
    ("2,bad-line", f"{T} / w = where t x == 1"),
    ("2,bad-line", f"{T} / w = where t x ! = 1"),
    ("2,bad-line", f"{T} / w = where t x < = 1"),
    ("2,bad-line", f"{T} / w = where t x <> 1"),
    ("2,bad-line", f"{T} / w = where t ! x = 1"),
    ("2,bad-line", f"{T} / w = where t not"),
    ("2,bad-line", f"{T} / w = where t x = 'a'"),
    ("2,bad-line", f"{T} / w = where t x = 1.5"),
    ("2,bad-line", f"{T} / w where t x = 1"),
    ("2,bad-line", f"{T} / where = where t x = 1"),
    ("2,bad-line", f"{T} / w = Where t x = 1"),
    ("2,bad-line", f"{T} / v = view t"),
    ("2,bad-line", f"{T} / v = view t y"),
    ("2,bad-line", f"{T} / v = view t y = 1,"),
    ("2,bad-line", f"{T} / v = view t y = 1 z = 2"),
    ("2,bad-line", f"{T} / v = view t y = x > 1"),
    ("2,bad-line", f"{T} / v = view t y = (1"),
    ("2,bad-line", f"{T} / v = view t y = ()"),
    ("2,bad-line", f"{T} / v = view t y = 1 +"),
    ("2,bad-line", f"{T} / v = view t y = + 1"),
    ("2,bad-line", f"{T} / v = view t y = 1/2"),
    ("2,bad-line", f"{T} / j = join t t on x"),
    ("2,bad-line", f"{T} / j = join t on x take x"),
    ("2,bad-line", f"{T} / j = join t t take x"),
    ("2,bad-line", f"{T} / j = join t t on take x"),
    ("2,bad-line", f"{T} / j = join t t on x = take x"),
    ("2,bad-line", f"{T} / j = join t t on x take"),
    ("2,bad-line", f"{T} / j = join t t on x take y = x any"),
    ("2,bad-line", f"{T} / j = join t t on x take y = x first last"),
    ("2,bad-line", f"{T} / j = join t t on x take first"),
    ("2,bad-line", f"{T} / a = asof t t on x take y = x"),
    ("2,bad-line", f"{T} / a = asof t t on x at take y = x"),
    ("2,bad-line", f"{T} / a = asof t t at x, x take y = x"),
    ("2,bad-line", f"{T} / a = asof t t at x take y = x first"),
    ("2,bad-line", f"{T} / a = asof t t on at x take y = x"),
    ("2,bad-line", f"{T} / a = As t t at x take y = x"),
    ("2,bad-line", f"{T} / g = agg t"),
    ("2,bad-line", f"{T} / g = agg t by x"),
    ("2,bad-line", f"{T} / g = agg t by do n = count"),
    ("2,bad-line", f"{T} / g = agg t do"),
    ("2,bad-line", f"{T} / g = agg t do n = count x"),
    ("2,bad-line", f"{T} / g = agg t do n = sum"),
    ("2,bad-line", f"{T} / g = agg t do n = avg x"),
    ("2,bad-line", f"{T} / g = agg t do sum x"),
    ("2,bad-line", f"{T} / m = merge t"),
    ("2,bad-line", f"{T} / m = merge t, t"),
    ("2,bad-line", f"{T} / m = merge {SIXTEEN} t"),
    ("2,bad-line", f"{T} / m = merge"),
    ("2,bad-line", f"{T} / s = sort t"),
    ("2,bad-line", f"{T} / s = sort t x x"),
    ("2,bad-line", f"{T} / s = sort t --x"),
    ("2,bad-line", f"{T} / s = sort t +x"),
    ("2,bad-line", f"{T} / s = sort t x,"),
    ("2,bad-line", f"{T} / h = head t"),
    ("2,bad-line", f"{T} / h = head -1 t"),
    ("2,bad-line", f"{T} / h = head 1"),
    ("2,bad-line", f"{T} / h = tail x t"),
    ("2,bad-line", f"{T} / h = head 1 t t"),
    ("2,bad-line", f"{T} / print"),
    ("2,bad-line", f"{T} / print t t"),
    ("2,bad-line", f"{T} / print t, t"),
    ("2,bad-line", f"{T} / publish t"),
    ("2,bad-line", f"{T} / publish 5 t"),
    ("2,bad-line", f"{T} / publish t -1"),
    ("2,bad-line", f"{T} / t"),
    ("2,bad-line", f"{T} / ="),
    ("2,bad-line", f'{T} / "'),
    ("2,bad-line", f"{T} / where t x > 1"),
    ("1,bad-line", '? 9223372036854775808'),
    ("1,bad-line", '"open 9223372036854775808'),
    ("1,bad-line", f"{'n' * 33} 9223372036854775808"),
    ("2,number-range", f"{T} / b = where t x > 9223372036854775808"),
    ("1,number-range", "9223372036854775808"),
    ("1,number-range", "9223372036854775808 ?"),
    ("1,number-range", f"{'9' * 400}"),
    ("1,number-range", f"table t x:long {'1' * 20}"),
    ("2,number-range", f"{T} / h = head 9223372036854775808 u"),
    ("2,number-range", f"{T} / h = head 4194305 t"),
    ("2,number-range", f"{T} / h = tail 4194305 t"),
    ("2,number-range", f"{T} / h = head 9223372036854775807 t"),
    ("2,number-range", f"{T} / publish t 0"),
    ("2,number-range", f"{T} / publish t 4194305"),
    ("2,number-range", f"{T} / publish t 000"),
    ("2,number-range", f"{T} / w = where t x = 1 {'and x = 1 ' * 200}and x = 9223372036854775808"),
    ("2,wrong-kind", "table t x:text / b = where t x > 1"),
    ("2,wrong-kind", f'{T} / b = where t x = "a"'),
    ("2,wrong-kind", f"{TEXTS} / w = where t x = y"),
    ("2,wrong-kind", f"{TEXTS} / w = where t y = 1 or x = 1"),
    ("2,wrong-kind", f"{TEXTS} / w = where t not [ y = 1 and x = -null ]"),
    ("2,wrong-kind", f"{TEXTS} / w = where t x = null + null"),
    ("2,wrong-kind", f"{TEXTS} / v = view t a = x + 1"),
    ("2,wrong-kind", f"{TEXTS} / v = view t a = -x"),
    ("2,wrong-kind", f'{TEXTS} / v = view t a = "a" * 2'),
    ("2,wrong-kind", f"{TEXTS} / v = view t a = y - x"),
    ("2,wrong-kind", f"{TEXTS} / v = view t a = null + x"),
    ("2,wrong-kind", f"{TEXTS} / g = agg t do s = sum x"),
    ("2,wrong-kind", f"{TEXTS} / j = join t t on x = y take z = y"),
    ("2,wrong-kind", f"{TEXTS} / j = join t t on y, y = x take z = y"),
    ("2,wrong-kind", f"{TEXTS} / a = asof t t at x take z = y"),
    ("2,wrong-kind", f"{TEXTS} / a = asof t t at y = x take z = y"),
    ("2,wrong-kind", f"{TEXTS} / a = asof t t at x = y take z = y"),
    ("2,wrong-kind", f"{TEXTS} / a = asof t t on x = y at y take z = y"),
    ("3,wrong-kind", "table t x:long / table u x:text / m = merge t u"),
    ("3,wrong-kind", "table t x:long / table u y:long / m = merge t u"),
    ("3,wrong-kind", "table t x:long / table u x:long y:long / m = merge t u"),
    ("3,wrong-kind", "table t x:long y:long / table u y:long x:long / m = merge t u"),
    ("2,unknown-column", f"{T} / b = where t y > 1"),
    ("2,unknown-column", f"{T} / b = where t x > 1 and [ x = 2 or not y = 1 ]"),
    ("2,unknown-column", f"{T} / v = view t a = x, b = a"),
    ("2,unknown-column", f"{T} / v = view t a = -(x * y)"),
    ("2,unknown-column", f"{T} / s = sort t y"),
    ("2,unknown-column", f"{T} / s = sort t x, -y"),
    ("2,unknown-column", f"{T} / g = agg t by y do n = count"),
    ("2,unknown-column", f"{T} / g = agg t do n = max y"),
    ("3,unknown-column", f"{T} / table u y:long / j = join t u on x take y"),
    ("3,unknown-column", f"{T} / table u y:long / j = join t u on y take y"),
    ("3,unknown-column", f"{T} / table u y:long / j = join t u on x = y take x"),
    ("3,unknown-column", f"{T} / table u y:long / j = asof t u at y = x take y"),
    ("3,unknown-column", f"{T} / table u y:long / j = asof t u at x take y"),
    ("3,taken-name", f"{T} / print t / print t"),
    ("3,taken-name", f"{T} / publish t 1 / publish t 2"),
    ("2,taken-name", f"{T} / {T}"),
    ("2,taken-name", f"{T} / t = head 1 t"),
    ("3,taken-name", f"{T} / publish t 1 / publish t 0"),
    ("2,taken-name", f"{T} / t = view t x = 1"),
    ("2,taken-name", f"{T} / table t x:long x:long"),
    ("1,too-many-columns", f"table t {columns(33)}"),
    ("1,taken-column", f"table t {columns(33)} c0:long"),
    ("2,too-many-columns", f"table t {columns(32)} / v = view t a = 1"),
    ("2,too-many-columns", f"table t {columns(17)} / j = join t t on c0 take {', '.join(f'd{i} = c{i}' for i in range(16))}"),
    ("2,too-many-columns", f"table t {columns(32)} / j = asof t t at c0 take d = c0"),
    ("2,too-many-columns", f"table t {columns(1)} / g = agg t do {', '.join(f'd{i} = count' for i in range(33))}"),
    ("257,too-many-nodes", " / ".join(f"table t{i} x:long" for i in range(257))),
    ("258,too-many-nodes", " / ".join([f"table t{i} x:long" for i in range(256)] + ["print t0", "h = head 1 t0"])),
    ("257,too-many-columns", " / ".join([f"table t{i} x:long" for i in range(256)] + [f"table u {columns(33)}"])),
    ("7,key-space", " / ".join([T] + [f"m{i} = merge {SIXTEEN.replace('t', 't' if i == 1 else f'm{i - 1}')}" for i in range(1, 6)] + ["m6 = merge m5 m5 m5 m5"])),
    ("2,too-wide", f"{T} / publish t 262144"),
    ("2,too-wide", f"{T} / publish t 4194304"),
    ("4,too-wide", f"{T} / table u x:long / publish t 262142 / publish u 1"),
    ("4,too-wide", f"table t {columns(32)} / {T.replace('t x', 'u x')} / publish u 131072 / publish t 7944"),
]
BAD_BYTES = [
    ("1,not-utf8", b"\xff"),
    ("1,not-utf8", b"# \x80"),
    ("2,not-utf8", b"table t x:long\n  # note \xc3\n"),
    ("1,not-utf8", b'table t x:long from "\xff"'),
    ("1,not-utf8", b"\xed\xa0\x80"),
    ("1,not-utf8", b"9223372036854775808 \xff"),
    ("1,bad-line", b"table t x:long\r"),
    ("1,bad-line", b"table t x:long\r\r\n"),
    ("1,bad-line", b"\r"),
    ("1,bad-line", b"table t\rx:long\n"),
    ("3,bad-line", b"\n\r\n\x0c\n"),
    ("1,bad-line", b"\0"),
]
GOOD_SCRIPTS = [
    "",
    "#",
    "   # note",
    "table t x:long /  / print t",
    " \ttable\tt\tx\t:\tlong ",
    'table t x:long / # 9223372036854775808 "',
    "table asof x:long / table at at:long / a = asof at at at at take y = at",
    "table t at:long asof:long / a = asof t t on asof at at take z = at",
    "table t x:long / w=where t x>1and x<2or not[x=3]",
    "table t x:long / h = head 0 t / l = tail 0004194304 t",
    'table t x:text / w = where t x = null and null = x and (null) = x and "" = null and x = ""',
    "table t x:long / v = view t y = null, z = -null, w = ((x))",
    "table t x:long / v=view t y=2*x",
    f"table {'n' * 32} {'c' * 32}:long / print {'n' * 32}",
    'table t x:long / v = view t a = "", b = "é, é" / print v',
    "table t x:long / m = merge t t / publish t 1 / publish m 1 / print m / print t",
]


def of_scripts():
    for told, script in BAD_SCRIPTS + BAD_BYTES:
        yield trial("script", script, status=4, wrote=f"fault,4,script,{told}")
    for script in GOOD_SCRIPTS:
        yield trial("script", script, status=0, wrote="done,0")
    yield trial("script", b"table t x:long\r\nprint t\r\n", ROW, status=0, wrote=A_RUN)
    yield trial("script", b"table t x:long\nprint t", ROW, status=0, wrote=A_RUN)


# Table files: the record and the kind, and the file.

BAD_TABLES = [
    ("1,header", ""),
    ("1,header", b"\n\r\n\r"),
    ("1,header", "y,s"),
    ("1,header", "x"),
    ("1,header", "x,s,"),
    ("1,header", "s,x"),
    ("1,header", "X,s"),
    ("1,header", " x,s"),
    ("1,header", "1,a"),
    ("1,header", b"\xef\xbb\xbf\xef\xbb\xbfx,s\n"),
    ("1,header", b"\xc2\xa0x,s\n"),
    ("2,field-count", "x,s / 1"),
    ("2,field-count", "x,s / 1,a,"),
    ("3,field-count", "x,s / 1,a / ,,"),
    ("2,field-count", 'x,s / ""'),
    ("2,field-count", 'x,s / "1,a"'),
    ("3,bad-number", "x,s / 1,a / a,1"),
    ("2,bad-number", "x,s / +1,a"),
    ("2,bad-number", "x,s / 1 ,a"),
    ("2,bad-number", "x,s /  1,a"),
    ("2,bad-number", "x,s / 1.0,a"),
    ("2,bad-number", "x,s / -,a"),
    ("2,bad-number", "x,s / --1,a"),
    ("2,bad-number", "x,s / 9223372036854775808,a"),
    ("2,bad-number", "x,s / -9223372036854775808,a"),
    ("2,bad-number", "x,s / 00000000000000000001,a"),
    ("2,bad-number", "x,s / 0x1,a"),
    ("2,bad-number", "x,s / ١,a"),
    ("2,bad-number", "x,s / null,a"),
    ("2,bad-number", 'x,s / "1""",a'),
    ("2,bad-number", "x,s / 1'000,a"),
    ("2,field-count", "x,s / 1,a,b / 2"),
    ("1,not-utf8", b"x,\xff\n"),
    ("2,not-utf8", b"x,s\n1,\xff\n"),
    ("2,not-utf8", b"x,s\n\xff,a\n"),
    ("2,not-utf8", b"x,s\n1,2,\xff\n"),
    ("2,not-utf8", b"x,s\nz,\xed\xbf\xbf\n"),
    ("1,not-utf8", b"\xef\xbbx,s\n"),
    ("1,not-utf8", b"\xfe\xffx,s\n"),
]
GOOD_TABLES = [
    ("x,s", "done,0"),
    ("x,s / 1,a", "step,0,t / a,0,1,a / done,0"),
    (b"x,s", "done,0"),
    (b"\xef\xbb\xbfx,s\r\n1,a\r\n", "step,0,t / a,0,1,a / done,0"),
    (b"x,s\r1,a\r", "step,0,t / a,0,1,a / done,0"),
    (b"\n\nx,s\n\n\n1,a\n\n", "step,0,t / a,0,1,a / done,0"),
    ("x,s / ,", "step,0,t / a,0,, / done,0"),
    ('"x","s" / "1","a"', "step,0,t / a,0,1,a / done,0"),
    ('x,s / "",""', "step,0,t / a,0,, / done,0"),
    ("x,s / -0,0 / 007,007", "step,0,t / a,0,0,0 / a,1,7,007 / done,0"),
    ("x,s / 9223372036854775807,a / -9223372036854775807,b", "step,0,t / a,0,9223372036854775807,a / a,1,-9223372036854775807,b / done,0"),
    ("x,s / 0000000000000000001,a", "step,0,t / a,0,1,a / done,0"),
    (b'x,s\n1,"a,b"\n2,"a""b"\n3,"a\nb"\n4,"a\rb"\n', 'step,0,t / a,0,1,"a,b" / a,1,2,"a""b" / a,2,3,"a\nb" / a,3,4,"a\rb" / done,0'),
    (b'x,s\n1,"ab"c\n2,a"b\n3,"a" \n4,"open', 'step,0,t / a,0,1,abc / a,1,2,"a""b" / a,2,3,a  / a,3,4,open / done,0'),
    (b'x,s\n1,"a"b"c\n', 'step,0,t / a,0,1,"ab""c" / done,0'),
    (b"x,s\n1, a \n2,\0\n", "step,0,t / a,0,1, a  / a,1,2,\0 / done,0"),
    (b"x,s\n1,\xf4\x8f\xbf\xbf\n", "step,0,t / a,0,1,\U0010ffff / done,0"),
    (b"x,s\n1,", "step,0,t / a,0,1, / done,0"),
]


def of_tables():
    for told, table in BAD_TABLES:
        yield trial("table file", OF_FILE, t=table, status=5, wrote=f"fault,5,table,t,{told}")
    for table, wrote in GOOD_TABLES:
        yield trial("table file", OF_FILE, t=table, status=0, wrote=wrote)
    yield trial("table file", 'table t x:long from "t.csv" / print t', t='x / 1 / "" / 3', status=0, wrote="step,0,t / a,0,1 / a,1, / a,2,3 / done,0")
    yield trial("table file", OF_FILE, status=3, wrote="fault,3,read,t.csv")


# Feeds: the record and the kind, and the feed.

BAD_FEEDS = [
    ("1,bad-tag", "x,1"),
    ("1,bad-tag", "T,t"),
    ("1,bad-tag", '""'),
    ("1,bad-tag", ",t"),
    ("1,bad-tag", " t,t"),
    ("1,bad-tag", ".."),
    ("1,bad-tag", "tt,t"),
    ("2,bad-tag", "t,t / A,0,1"),
    ("1,bad-tag", b"\0\n"),
    ("1,bad-tag", b"\xef\xbb\xbf\xef\xbb\xbf.\n"),
    ("1,out-of-order", "a,0,1"),
    ("1,out-of-order", "r,0,0"),
    ("1,out-of-order", "s,0,0,1"),
    ("1,out-of-order", "m,0,1"),
    ("1,out-of-order", "a"),
    ("3,out-of-order", "t,t / . / a,0,1"),
    ("3,out-of-order", "t,t / a,0,1 / r,0,0"),
    ("3,out-of-order", "t,t / a,0,1 / s,0,0,1"),
    ("3,out-of-order", "t,t / m,0,1 / a,0,1"),
    ("3,out-of-order", "t,t / s,0,0,1 / r,0,0"),
    ("3,out-of-order", "t,t / m,0,1 / r,x"),
    ("1,field-count", "t"),
    ("1,field-count", "t,t,"),
    ("1,field-count", ".,"),
    ("1,field-count", ".,1"),
    ("2,field-count", "t,t / r,0"),
    ("2,field-count", "t,t / r,0,0,0"),
    ("2,field-count", "t,t / s,0,0"),
    ("2,field-count", "t,t / s,0,0,1,"),
    ("2,field-count", "t,t / a,0"),
    ("2,field-count", "t,t / a"),
    ("2,field-count", "t,t / a,0,1,2"),
    ("2,field-count", "t,t / m,0"),
    ("2,field-count", "t,t / m,x,1,2"),
    ("2,field-count", "t,t / r,y"),
    ("2,bad-number", "t,t / r,2,1"),
    ("2,bad-number", "t,t / r,,1"),
    ("2,bad-number", "t,t / r,0,1099511627776"),
    ("2,bad-number", "t,t / r,-0,1"),
    ("2,bad-number", "t,t / s,1,0,1"),
    ("2,bad-number", "t,t / s,0,0,0"),
    ("2,bad-number", "t,t / s,0,0,-0"),
    ("2,bad-number", "t,t / s,0,0,"),
    ("2,bad-number", "t,t / s,0,0,1099511627776"),
    ("2,bad-number", "t,t / s,0,0,-1099511627776"),
    ("2,bad-number", "t,t / s,0,0,+1"),
    ("2,bad-number", "t,t / s,0,1099511627776,1"),
    ("2,bad-number", "t,t / s,0,0,9223372036854775808"),
    ("2,bad-number", "t,t / a,-1,1"),
    ("2,bad-number", "t,t / a,+1,1"),
    ("2,bad-number", "t,t / a,,1"),
    ("2,bad-number", "t,t / a,1099511627776,1"),
    ("2,bad-number", "t,t / a,00000000000000000001,1"),
    ("2,bad-number", "t,t / a,0, 1"),
    ("2,bad-number", "t,t / a,0,-9223372036854775808"),
    ("2,bad-number", "t,t / a,0,9223372036854775808"),
    ("2,bad-number", "t,t / m,0,1x"),
    ("2,bad-number", "t,t / m,1e3,1"),
    ("2,bad-number", "t,t / a,18446744073709551616,1"),
    ("2,bad-number", "t,t / a,9999999999999999999,1"),
    ("1,unknown-table", "t,u"),
    ("1,unknown-table", "t,"),
    ("1,unknown-table", "t,T"),
    ("1,unknown-table", "t, t"),
    ("3,unknown-table", "t,t / a,0,1 / t,u"),
    ("3,out-of-order", "t,t / a,1,1 / a,1,2"),
    ("3,out-of-order", "t,t / a,1,1 / a,0,2"),
    ("3,out-of-order", "t,t / m,1,1 / m,1,2"),
    ("3,out-of-order", "t,t / r,0,1 / r,1,2"),
    ("3,out-of-order", "t,t / r,5,6 / r,0,1"),
    ("3,out-of-order", "t,t / s,0,1,1 / s,1,2,1"),
    ("3,out-of-order", "t,t / s,1,1,1 / s,0,0,1"),
    ("1,unfinished", "t,t"),
    ("2,unfinished", "t,t / a,0,1"),
    ("3,unfinished", "t,t / . / t,t"),
    ("2,unfinished", "t,t / r,0,0"),
    ("1,not-utf8", b"\xff"),
    ("1,not-utf8", b".,\xff\n"),
    ("2,not-utf8", b"t,t\nz,\xff\n"),
    ("1,not-utf8", b"\xef\xbb.\n"),
    ("2,not-utf8", b"t,t\na,0,\xc0\x80\n"),
    ("1,not-utf8", b"t,\xed\xa0\x80\n"),
]
GOOD_FEEDS = [
    ("", "done,0"),
    (b"\xef\xbb\xbf", "done,0"),
    (b"\n\r\n\n", "done,0"),
    (".", "done,1"),
    (b".", "done,1"),
    (b'"."', "done,1"),
    (". / . / .", "done,3"),
    ("t,t / .", "done,1"),
    ("t,t / t,t / .", "done,1"),
    (b"\xef\xbb\xbft,t\r\na,0,1\r\n.\r\n", "step,1,t / a,0,1 / done,1"),
    (b't,t\ra,0,1\r.', "step,1,t / a,0,1 / done,1"),
    ('"t","t" / "a","00","-01" / "."', "step,1,t / a,0,-1 / done,1"),
    (b"\n\nt,t\n\na,0,1\n\n.\n\n", "step,1,t / a,0,1 / done,1"),
    ('t,t / a,0,"" / .', "step,1,t / a,0, / done,1"),
    ("t,t / a,0, / .", "step,1,t / a,0, / done,1"),
    ("t,t / a,1099511627775,1 / .", "step,1,t / a,1099511627775,1 / done,1"),
    ("t,t / a,0,1 / . / t,t / s,0,0,1099511627775 / . / t,t / s,1099511627775,1099511627775,-1099511627775 / .", "step,1,t / a,0,1 / step,2,t / s,0,0,1099511627775 / step,3,t / s,1099511627775,1099511627775,-1099511627775 / done,3"),
    ("t,t / a,0000000000000000007,0000000000000000007 / .", "step,1,t / a,7,7 / done,1"),
    ("t,t / a,5,1 / t,t / r,5,5 / .", "done,1"),
    ("t,t / a,0,1 / . / t,t / r,0,0 / a,0,1 / .", "step,1,t / a,0,1 / step,2,t / r,0,0 / a,0,1 / done,2"),
    ("t,t / a,0,1 / . / t,t / m,0,2 / t,t / m,0,1 / .", "step,1,t / a,0,1 / done,2"),
    ("t,t / a,0,1 / a,1,2 / . / t,t / r,0,0 / s,1,1,4 / a,0,7 / t,t / s,5,5,-2 / a,9,3 / m,0,8 / .", "step,1,t / a,0,1 / a,1,2 / step,2,t / r,0,0 / s,1,1,2 / a,0,8 / a,9,3 / done,2"),
]


def of_feeds():
    for told, feed in BAD_FEEDS:
        yield trial("feed", SB, feed, status=6, wrote=f"fault,6,feed,{told}")
    for feed, wrote in GOOD_FEEDS:
        yield trial("feed", SB, feed, status=0, wrote=wrote)
    yield trial("feed", "table t x:long / b = head 1 t", "t,b / .", status=6, wrote="fault,6,feed,1,unknown-table")
    yield trial("feed", SB, None, status=3, wrote="fault,3,read,f")


# Steps that break a rule, behind the step that adds two rows: the step, the record and the rule with its numbers, and the records that follow.

BROKEN_STEPS = [
    ("2,6,removed-absent,2", "t,t / r,2,2 / ."),
    ("2,6,removed-absent,2", "t,t / r,0,1099511627775 / ."),
    ("2,7,removed-absent,5", "t,t / r,0,0 / r,5,6 / ."),
    ("2,6,shift-breaks,0,1", "t,t / s,0,0,1 / ."),
    ("2,6,shift-breaks,0,1", "t,t / s,0,0,5 / ."),
    ("2,6,shift-breaks,0,1", "t,t / s,1,1,-1 / ."),
    ("2,6,shift-breaks,0,0", "t,t / s,0,0,-1 / ."),
    ("2,6,shift-breaks,1,1", "t,t / s,1,1,-2 / ."),
    ("2,6,shift-breaks,1,1", "t,t / s,0,1,1099511627775 / ."),
    ("2,7,shift-breaks,0,1", "t,t / s,0,0,2 / s,1,1,1 / ."),
    ("2,7,shift-breaks,1,1", "t,t / r,0,0 / s,1,1,-2 / ."),
    ("2,6,added-taken,1", "t,t / a,1,9 / ."),
    ("2,7,added-taken,2", "t,t / s,1,1,1 / a,2,9 / ."),
    ("2,7,added-taken,1", "t,t / r,0,0 / a,1,9 / ."),
    ("2,6,modified-absent,2", "t,t / m,2,9 / ."),
    ("2,7,modified-absent,0", "t,t / r,0,0 / m,0,9 / ."),
    ("2,7,modified-absent,1", "t,t / s,1,1,1 / m,1,9 / ."),
    ("2,7,modified-added,2", "t,t / a,2,9 / m,2,9 / ."),
    ("2,7,added-taken,0", "t,t / t,t / a,0,1 / ."),
    ("2,6,removed-absent,7", "t,t / r,7,7 / s,0,0,1 / a,0,1 / m,5,5 / ."),
    ("2,8,shift-breaks,0,1", "t,t / m,0,9 / t,t / s,0,0,1 / ."),
    ("2,8,removed-absent,0", "t,t / r,0,0 / t,t / r,0,0 / ."),
    ("2,8,added-taken,2", "t,t / a,2,1 / t,t / a,2,2 / ."),
    ("3,7,removed-absent,2", ". / t,t / r,2,2 / ."),
    ("2,6,added-taken,0", "t,t / a,0,1 / m,5,5 / ."),
    ("2,7,modified-absent,5", "t,t / a,3,1 / m,5,5 / ."),
]


def of_steps():
    for told, records in BROKEN_STEPS:
        yield trial("step", SB, f"{ROW} / {records}", status=7, wrote=f"{ROW_WROTE} / fault,7,step,{told}")
    for told, feed in (("1,2,removed-absent,0", "t,t / r,0,0 / ."), ("1,2,modified-absent,0", "t,t / m,0,1 / ."), ("1,3,modified-added,0", "t,t / a,0,1 / m,0,2 / ."), ("1,4,added-taken,0", "t,t / a,0,1 / t,t / a,0,2 / .")):
        yield trial("step", SB, feed, status=7, wrote=f"fault,7,step,{told}")
    yield trial("step", "table t x:long / publish t 2", f"{ROW} / t,t / r,9,9 / .", words=["run", "s", "f", "--callers", "1"], status=7, wrote=f"{SNAPS} / fault,7,step,2,6,removed-absent,9")


# Nodes, publications and what callers keep.

DOUBLE = "t,r / a,1,A,1 / a,2,A,2 / ."
DOUBLE_WROTE = "step,1,r / a,1,A,1 / a,2,A,2"


def of_nodes():
    fault = f"{DOUBLE_WROTE} / fault,8,node,2,j,duplicate-right"
    yield trial("node", SE, f"{DOUBLE} / t,l / a,0,A / .", status=8, wrote=f"{fault},0,1,2")
    yield trial("node", SE, f"{DOUBLE} / t,l / a,3,B / a,4,A / a,5,A / t,r / a,9,A,1 / .", status=8, wrote=f"{fault},4,1,2")
    yield trial("node", SE, f"{DOUBLE} / t,l / a,0, / t,r / a,5,,1 / a,7,,1 / .", status=8, wrote=f"{fault},0,5,7")
    yield trial("node", f"{SE} / k = join l r on sym take px / print k", f"{DOUBLE} / t,l / a,0,A / .", status=8, wrote=f"{fault},0,1,2")
    yield trial("node", SE.replace("print j", "print j / publish j 1").replace("print r", "print r / publish r 1"), "t,l / a,0,A / a,1,A / .", status=9, wrote="fault,9,publish,1,j,2,1")
    yield trial("node", SE.replace("print j", "publish r 1"), f"{DOUBLE}".replace("t,r", "t,l / a,0,A / t,r"), status=8, wrote="fault,8,node,1,j,duplicate-right,0,1,2")
    yield trial("node", SE, f"{DOUBLE} / t,l / a,0,A / . / t,l / r,9,9 / .", status=8, wrote=f"{fault},0,1,2")
    yield trial("node", SE, f"{DOUBLE} / t,l / a,0,A / t,r / r,9,9 / .", status=7, wrote=f"{DOUBLE_WROTE} / fault,7,step,2,8,removed-absent,9")
    yield trial("node", SE.replace(" take px", " take px first"), f"{DOUBLE} / t,l / a,0,A / . / t,r / r,1,1 / .", status=0, wrote=f"{DOUBLE_WROTE} / step,2,j / a,0,A,1 / step,3,r / r,1,1 / step,3,j / c,px / m,0,A,2 / done,3")
    yield trial("node", SE.replace(" take px", " take px last"), f"{DOUBLE} / t,l / a,0,A / .", status=0, wrote=f"{DOUBLE_WROTE} / step,2,j / a,0,A,2 / done,2")
    yield trial("node", 'table l x:long from "l.csv" / table r x:long y:long from "r.csv" / j = join l r on x take y / print l', l="x / 1", r="x,y / 1,1 / 1,2", status=8, wrote="fault,8,node,0,j,duplicate-right,0,0,1")


def of_publications():
    limited = f"{T} / publish t 2 / print t"
    yield trial("publication", limited, "t,t / a,0,1 / a,1,2 / a,2,3 / .", status=9, wrote="fault,9,publish,1,t,3,2")
    yield trial("publication", limited, f"{ROW} / t,t / a,2,3 / .", status=9, wrote=f"{ROW_WROTE} / fault,9,publish,2,t,3,2")
    yield trial("publication", limited, f"{ROW} / t,t / a,2,3 / .", words=["run", "s", "f", "--callers", "1"], status=9, wrote=f"{ROW_WROTE} / {SNAPS} / fault,9,publish,2,t,3,2")
    yield trial("publication", limited, f"{ROW} / t,t / a,2,3 / .", words=["watch", "s", "f", "t", "0", "9"], status=9, wrote=f"{ROW_WROTE} / fault,9,publish,2,t,3,2")
    yield trial("publication", f"{T} / table u x:long / publish u 1 / publish t 1", "t,t / a,0,1 / a,1,2 / t,u / a,0,1 / a,1,2 / .", status=9, wrote="fault,9,publish,1,u,2,1")
    yield trial("publication", 'table t x:long from "t.csv" / publish t 1 / print t', t="x / 1 / 2", words=["run", "s", "f", "--callers", "1"], status=9, wrote="fault,9,publish,0,t,2,1")
    yield trial("publication", limited, f"{ROW} / t,t / r,0,0 / a,2,3 / .", status=0, wrote=f"{ROW_WROTE} / step,2,t / r,0,0 / a,2,3 / done,2")


def of_kept():
    widest, many = f"{T} / publish t 262143", ["run", "s", "f", "--callers", "16", "--snaps"]
    yield trial("kept", widest, words=many + ["1"], status=0, wrote=" / ".join(f"snap,{caller},{call},0,t" for caller in range(16) for call in range(2)) + " / done,0")
    yield trial("kept", widest, words=many + ["2"], status=2, wrote="fault,2,kept,25165776")
    yield trial("kept", widest, "x", words=many + ["2"], status=6, wrote="fault,6,feed,1,bad-tag")
    yield trial("kept", widest, "t,t / r,0,0 / .", words=many + ["2"], status=2, wrote="fault,2,kept,25165776")
    yield trial("kept", f"{T} / table u x:long y:long / publish t 100 / publish u 5462", words=many + ["63"], status=2, wrote="fault,2,kept,16780288")


def of_order():
    """Which of two refusals counts."""
    yield trial("order", TWO_FILES, "x", t="y", u="y", status=5, wrote="fault,5,table,t,1,header")
    yield trial("order", TWO_FILES, "x", u="y", status=3, wrote="fault,3,read,t.csv")
    yield trial("order", TWO_FILES, "x", t="x / 1 / z", status=5, wrote="fault,5,table,t,3,bad-number")
    yield trial("order", TWO_FILES, "x", t="x", status=3, wrote="fault,3,read,u.csv")
    yield trial("order", TWO_FILES, "x", t="x", u="z", status=5, wrote="fault,5,table,u,1,header")
    yield trial("order", TWO_FILES, "x", t="x", u="x", status=6, wrote="fault,6,feed,1,bad-tag")
    yield trial("order", TWO_FILES, None, t="x", u="x", status=3, wrote="fault,3,read,f")
    yield trial("order", f"{TWO_FILES} / print v", None, status=4, wrote="fault,4,script,3,unknown-name")
    yield trial("order", None, None, status=3, wrote="fault,3,read,s")
    yield trial("order", f"{TWO_FILES} / print v", None, words=["run", "s", "f", "--workers", "0"], status=2, wrote=USAGE)
    yield trial("order", 'table t x:long from "f"', "x / 1", status=6, wrote="fault,6,feed,1,bad-tag")
    yield trial("order", "print v / print w", status=4, wrote="fault,4,script,1,unknown-name")
    yield trial("order", TWO_FILES, None, words=["watch", "s", "f", "v", "0", "1"], status=12, wrote="fault,12,watch,v")
    yield trial("order", f"{TWO_FILES} / print v", None, words=["watch", "s", "f", "v", "0", "1"], status=4, wrote="fault,4,script,3,unknown-name")
    yield trial("order", TWO_FILES, None, words=["watch", "s", "f", "a,b", "0", "1"], status=12, wrote='fault,12,watch,"a,b"')
    yield trial("order", TWO_FILES, None, words=["watch", "s", "f", "", "0", "1"], status=12, wrote="fault,12,watch,")
    yield trial("order", TWO_FILES, None, words=["watch", "s", "f", "u", "0", "1"], status=3, wrote="fault,3,read,t.csv")
    yield trial("order", 'table t x:long from "a,b"', status=3, wrote='fault,3,read,"a,b"')


PARTS = (of_words, of_scripts, of_tables, of_feeds, of_steps, of_nodes, of_publications, of_kept, of_order)


def trials():
    for part in PARTS:
        yield from part()
