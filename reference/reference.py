#!/usr/bin/env python3
"""Independent reference of `pave`, written from the rules alone, without a look at the proved code.

Reads a readings file (bytes) from standard input, writes the listing, or the
one fault line, to standard output.  Clarity before speed: runs are found by
scanning for the first and the last live column, row or point.

    plane piece: (x0, y0, x1, y1), both ends included
    dial piece:  (s, n), the points (s + i) mod 3600 for i below n
    nothing:     None
"""
import re
import sys

DIAL = 3600


def first_last(lo, hi, live):
    """First and last i of lo..hi (both included) with live(i); None if there is none."""
    first = lo
    while first <= hi and not live(first):
        first += 1
    if first > hi:
        return None
    last = hi
    while not live(last):
        last -= 1
    return first, last


# ---------------------------------------------------------------- domains

class Plane:
    @staticmethod
    def is_piece(p):
        x0, y0, x1, y1 = p
        return all(0 <= c <= 4095 for c in p) and x0 <= x1 and y0 <= y1

    @staticmethod
    def count(p):
        x0, y0, x1, y1 = p
        return (x1 - x0 + 1) * (y1 - y0 + 1)

    @staticmethod
    def size(p):
        x0, y0, x1, y1 = p
        return max(x1 - x0 + 1, y1 - y0 + 1)

    @staticmethod
    def halves(p):
        x0, y0, x1, y1 = p
        w, h = x1 - x0 + 1, y1 - y0 + 1
        if w >= h:                                  # x on a tie
            m = w // 2                              # columns of the low half
            return (x0, y0, x0 + m - 1, y1), (x0 + m, y0, x1, y1)
        m = h // 2
        return (x0, y0, x1, y0 + m - 1), (x0, y0 + m, x1, y1)

    @staticmethod
    def strips(p, q):
        x0, y0, x1, y1 = p
        a0, b0, a1, b1 = q
        out = []
        if x0 < a0:
            out.append((x0, y0, a0 - 1, y1))        # columns left
        if a1 < x1:
            out.append((a1 + 1, y0, x1, y1))        # columns right
        if y0 < b0:
            out.append((a0, y0, a1, b0 - 1))        # rows of smaller y
        if b1 < y1:
            out.append((a0, b1 + 1, a1, y1))        # rows of larger y
        return out

    @staticmethod
    def gather(x, pieces, k):
        cols = first_last(x[0], x[2], lambda c: sum(p[0] <= c <= p[2] for p in pieces) >= k)
        rows = first_last(x[1], x[3], lambda r: sum(p[1] <= r <= p[3] for p in pieces) >= k)
        if cols is None or rows is None:
            return None
        return cols[0], rows[0], cols[1], rows[1]


class Dial:
    @staticmethod
    def is_piece(p):
        s, n = p
        return 0 <= s <= DIAL - 1 and 1 <= n <= DIAL

    @staticmethod
    def count(p):
        return p[1]

    @staticmethod
    def size(p):
        return p[1]

    @staticmethod
    def halves(p):
        s, n = p
        m = n // 2
        return (s, m), ((s + m) % DIAL, n - m)

    @staticmethod
    def strips(p, q):
        before = (q[0] - p[0]) % DIAL
        after = p[1] - before - q[1]
        out = []
        if before > 0:
            out.append((p[0], before))
        if after > 0:
            out.append(((q[0] + q[1]) % DIAL, after))
        return out

    @staticmethod
    def run(x, live):
        """From the first to the last point of X, in X's order, with live(point)."""
        fl = first_last(0, x[1] - 1, lambda i: live((x[0] + i) % DIAL))
        if fl is None:
            return None
        return (x[0] + fl[0]) % DIAL, fl[1] - fl[0] + 1

    @staticmethod
    def gather(x, pieces, k):
        return Dial.run(x, lambda t: sum((t - s) % DIAL < n for s, n in pieces) >= k)


# ---------------------------------------------------------------- leaves

def box_run(x, live_col, live_row):
    """Columns by the rows of X, then rows by the columns just found."""
    x0, y0, x1, y1 = x
    cols = first_last(x0, x1, lambda c: live_col(c, y0, y1))
    if cols is None:
        return None
    rows = first_last(y0, y1, lambda r: live_row(r, cols[0], cols[1]))
    if rows is None:
        return None
    return cols[0], rows[0], cols[1], rows[1]


class Ring:
    def __init__(self, bx, by, a, b):
        self.bx, self.by, self.a2, self.b2 = bx, by, a * a, b * b

    @staticmethod
    def least_greatest(lo, hi):
        """Least and greatest |d| for d from lo to hi."""
        greatest = max(abs(lo), abs(hi))
        least = 0 if lo <= 0 <= hi else min(abs(lo), abs(hi))
        return least, greatest

    def keep_line(self, d, lo, hi):
        m, M = self.least_greatest(lo, hi)
        return d * d + m * m <= self.b2 and d * d + M * M >= self.a2

    def shed_line(self, d, lo, hi):
        m, M = self.least_greatest(lo, hi)
        return d * d + m * m < self.a2 or d * d + M * M > self.b2

    def apply(self, x, line):
        bx, by = self.bx, self.by
        return box_run(x,
                       lambda c, y0, y1: line(c - bx, y0 - by, y1 - by),
                       lambda r, x0, x1: line(r - by, x0 - bx, x1 - bx))

    def keep(self, x):
        return self.apply(x, self.keep_line)

    def shed(self, x):
        return self.apply(x, self.shed_line)


class Cone:
    def __init__(self, bx, by, ux, uy, vx, vy):
        self.bx, self.by = bx, by
        self.u, self.v = (ux, uy), (vx, vy)

    def sums(self, x, y):
        dx, dy = x - self.bx, y - self.by
        (ux, uy), (vx, vy) = self.u, self.v
        return ux * dy - uy * dx, vy * dx - vx * dy

    def keep_ends(self, p, q):
        """The product sums are linear along a line, so extremes lie at its ends p and q."""
        f0, g0 = self.sums(*p)
        f1, g1 = self.sums(*q)
        return max(f0, f1) >= 0 and max(g0, g1) >= 0

    def shed_ends(self, p, q):
        f0, g0 = self.sums(*p)
        f1, g1 = self.sums(*q)
        return min(f0, f1) < 0 or min(g0, g1) < 0

    def apply(self, x, ends):
        return box_run(x,
                       lambda c, y0, y1: ends((c, y0), (c, y1)),
                       lambda r, x0, x1: ends((x0, r), (x1, r)))

    def keep(self, x):
        return self.apply(x, self.keep_ends)

    def shed(self, x):
        return self.apply(x, self.shed_ends)


class Arc:
    def __init__(self, s, n):
        self.s, self.n = s, n

    def keep(self, x):
        return Dial.run(x, lambda t: (t - self.s) % DIAL < self.n)

    def shed(self, x):
        return Dial.run(x, lambda t: not (t - self.s) % DIAL < self.n)


# ---------------------------------------------------------------- layers

class Relaxed:
    def __init__(self, domain, members, q):
        self.domain, self.members, self.q = domain, members, q

    def keep(self, x):
        found = [p for p in (m.keep(x) for m in self.members) if p is not None]
        return self.domain.gather(x, found, len(self.members) - self.q)

    def shed(self, x):
        found = [p for p in (m.shed(x) for m in self.members) if p is not None]
        return self.domain.gather(x, found, self.q + 1)


class Fixed:
    def __init__(self, inner):
        self.inner = inner

    @staticmethod
    def settle(f, x):
        while True:
            y = f(x)
            if y is None or y == x:
                return y
            x = y

    def keep(self, x):
        return self.settle(self.inner.keep, x)

    def shed(self, x):
        return self.settle(self.inner.shed, x)


# ---------------------------------------------------------------- the sheet

def pave(domain, contractor, start, grain):
    """Records (class, piece) in label order, and the count of steps."""
    records, steps, pile = [], 0, [start]
    while pile:
        steps += 1
        x = pile.pop()
        p = contractor.keep(x)
        if p is None:
            records.append(("out", x))
            continue
        records += [("out", s) for s in domain.strips(x, p)]
        r = contractor.shed(p)
        if r is None:
            records.append(("in", p))
            continue
        records += [("in", s) for s in domain.strips(p, r)]
        if domain.count(r) == 1:
            pile.append(r)
        elif domain.size(r) <= grain:
            records.append(("und", r))
        else:
            low, high = domain.halves(r)
            pile.append(high)
            pile.append(low)
    return records, steps


def listing(domain, contractor, start, grain):
    records, steps = pave(domain, contractor, start, grain)
    total = {"in": 0, "out": 0, "und": 0}
    lines = []
    for label, (cls, piece) in enumerate(records):
        total[cls] += domain.count(piece)
        lines.append("%s=%s\n" % (cls, ",".join(str(v) for v in (label,) + piece)))
    lines.append("sum=%d,%d,%d,%d\n" % (total["in"], total["out"], total["und"], steps))
    return "".join(lines)


# ---------------------------------------------------------------- the file

class Fault(Exception):
    def __init__(self, number, line):
        self.number, self.line = number, line


DECIMAL = re.compile(rb"0|-?[1-9][0-9]*")
READINGS = {b"plane": {b"ring": 4, b"cone": 6}, b"dial": {b"arc": 2}}


def numbers(value, count):
    """The numbers of a value, or None if it is malformed."""
    words = value.split(b",")
    if len(words) != count or not all(DECIMAL.fullmatch(w) for w in words):
        return None
    out = tuple(int(w) for w in words)
    if not all(-2**31 <= v <= 2**31 - 1 for v in out):
        return None
    return out


def reading_causes(key, v):
    """The causes that hold of a reading whose value has the form."""
    causes = []
    if key == b"arc":
        if not Dial.is_piece(v):
            causes.append(1)
        return causes
    if not all(-16384 <= c <= 16383 for c in v[:2]):
        causes.append(3)
    if key == b"ring":
        a, b = v[2:]
        if not 0 <= a <= b <= 32767:
            causes.append(4)
    else:
        ux, uy, vx, vy = v[2:]
        if not all(-2048 <= c <= 2047 for c in v[2:]):
            causes.append(3)
        if not ux * vy - uy * vx > 0:
            causes.append(5)
    return causes


def split_lines(data):
    """(bytes, whether ended by byte 10) for each line."""
    parts = data.split(b"\n")
    lines = [(p, True) for p in parts[:-1]]
    if parts[-1] != b"":
        lines.append((parts[-1], False))
    return lines


def read_file(data):
    """(sheet, q, grain, start, readings as (key, numbers)), or a Fault."""
    if len(data) > 4096:
        raise Fault(18, 0)
    lines = split_lines(data)
    at = 0                                     # lines read so far

    def next_line(due):
        """Key and value of the next line (value None when unended); 15 unless its key is due."""
        nonlocal at
        at += 1
        if at > len(lines):
            raise Fault(15, at)
        text, ended = lines[at - 1]
        key, mark, value = text.partition(b"=")
        if not mark or key not in due:
            raise Fault(15, at)
        return key, (value if ended else None)

    def form(value, count):
        got = None if value is None else numbers(value, count)
        if got is None:
            raise Fault(16, at)
        return got

    _, sheet = next_line([b"sheet"])
    if sheet not in (b"plane", b"dial"):
        raise Fault(16, at)
    domain = Plane if sheet == b"plane" else Dial
    fitting = READINGS[sheet]

    (q,) = form(next_line([b"liars"])[1], 1)
    if not 0 <= q <= 65535:
        raise Fault(16, at)

    (grain,) = form(next_line([b"grain"])[1], 1)
    if not 1 <= grain <= 64:
        raise Fault(2, at)

    start = form(next_line([b"start"])[1], 4 if sheet == b"plane" else 2)
    if not domain.is_piece(start):
        raise Fault(1, at)

    readings = []
    while True:
        due = list(fitting) + ([b"end"] if readings else [])
        key, value = next_line(due)
        if key == b"end":
            break
        causes = [6] if len(readings) == 16 else []
        v = None if value is None else numbers(value, fitting[key])
        if v is None:
            causes.append(16)
        else:
            causes += reading_causes(key, v)
        if causes:
            raise Fault(min(causes), at)
        readings.append((key, v))

    (told,) = form(value, 1)
    if told != len(readings):
        raise Fault(17, at)
    if at < len(lines):
        raise Fault(15, at + 1)
    if q >= len(readings):
        raise Fault(8, 2)
    return sheet, q, grain, start, readings


MAKE = {b"ring": Ring, b"cone": Cone, b"arc": Arc}


def run(data):
    """The whole program: bytes in, text out."""
    try:
        sheet, q, grain, start, readings = read_file(data)
    except Fault as f:
        return "fault=%d,%d\n" % (f.number, f.line)
    domain = Plane if sheet == b"plane" else Dial
    members = [MAKE[key](*v) for key, v in readings]
    return listing(domain, Fixed(Relaxed(domain, members, q)), start, grain)


if __name__ == "__main__":
    sys.stdout.write(run(sys.stdin.buffer.read()))
