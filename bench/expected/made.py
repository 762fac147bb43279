"""The made run of the command `demo`."""

SCRIPT = b"""\
table trades sym:text side:long qty:long px:long
table ref id:text sector:text lot:long
big = where trades qty >= 50
val = view big notional = qty * px
j = join val ref on sym = id take sector
bysec = agg j by sector do n = count, total = sum notional, top = max px
srt = sort j -notional
top10 = head 10 srt
both = merge trades big
print bysec
print top10
publish bysec 64
publish top10 10
"""
REF = {i: (b"S%d" % i, b"odd" if i % 2 else b"even", 100) for i in range(8)}


class Draws:
    """Numbers from one sequence."""

    def __init__(self):
        self.state = 1

    def below(self, most):
        self.state = (self.state * 6364136223846793005 + 1442695040888963407) % 2**64
        return self.state // 2**33 % most

    def cells(self):
        """The cells of a trade."""
        return f"S{self.below(8)},{self.below(2)},{1 + self.below(100)},{1 + self.below(1000)}"


def feed(steps):
    """The feed of a made run."""
    draws, rows, records = Draws(), 0, []
    for step in range(1, steps + 1):
        records.append("t,trades")
        if step % 5 == 0:
            records += ["r,0,9", f"s,10,{rows - 1},-10"]
            rows -= 10
        records += [f"a,{rows + i},{draws.cells()}" for i in range(20)]
        if step % 2 == 0:
            records.append(f"m,{draws.below(rows)},{draws.cells()}")
        records.append(".")
        rows += 20
    return "".join(record + "\n" for record in records).encode()
