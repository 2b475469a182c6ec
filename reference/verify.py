#!/usr/bin/env python3
"""Brute-force checks of reference.py.  Nothing here uses its leaves, layers or
reader except to call them; sets are evaluated point by point from the definitions."""
import random
import sys
from collections import Counter
import reference as R

rnd = random.Random(20240611)


def held(key, v, pt):
    if key == "arc":
        s, n = v
        return any((s + i) % 3600 == pt for i in range(n))
    x, y = pt
    dx, dy = x - v[0], y - v[1]
    if key == "ring":
        return v[2] ** 2 <= dx * dx + dy * dy <= v[3] ** 2
    ux, uy, vx, vy = v[2:]
    return ux * dy - uy * dx >= 0 and vy * dx - vx * dy >= 0


def points(sheet, p):
    if sheet == "dial":
        return [(p[0] + i) % 3600 for i in range(p[1])]
    return [(x, y) for y in range(p[1], p[3] + 1) for x in range(p[0], p[2] + 1)]


def is_sub(sheet, q, p):
    if sheet == "dial":
        return (q[0] - p[0]) % 3600 + q[1] <= p[1]
    return p[0] <= q[0] <= q[2] <= p[2] and p[1] <= q[1] <= q[3] <= p[3]


def text(sheet, q, grain, start, readings):
    js = lambda v: ",".join(map(str, v))
    return ("sheet=%s\nliars=%d\ngrain=%d\nstart=%s\n" % (sheet, q, grain, js(start))
            + "".join("%s=%s\n" % (k, js(v)) for k, v in readings)
            + "end=%d\n" % len(readings)).encode()


def random_reading(sheet, start):
    if sheet == "dial":
        n = rnd.choice([rnd.randint(1, 10), rnd.randint(1, 120), rnd.randint(1, 3600), 3600])
        s = rnd.choice([rnd.randint(0, 3599), (start[0] + rnd.randint(-60, start[1])) % 3600])
        return "arc", (s, n)
    if rnd.random() < 0.6:
        bx, by = start[0] + rnd.randint(-30, 60), start[1] + rnd.randint(-30, 60)
        if rnd.random() < 0.15:
            bx, by = rnd.randint(-16384, 16383), rnd.randint(-16384, 16383)
            cx, cy = start[0], start[1]
            d = int(((bx - cx) ** 2 + (by - cy) ** 2) ** 0.5)
            a = max(0, d + rnd.randint(-10, 30))
            return "ring", (bx, by, min(a, 32767), min(32767, a + rnd.randint(0, 15)))
        a = rnd.randint(0, 40)
        return "ring", (bx, by, a, a + rnd.choice([0, rnd.randint(0, 8), rnd.randint(0, 40)]))
    while True:
        lim = rnd.choice([1, 3, 20, 2047])
        u = [rnd.randint(-lim - (lim == 2047), lim) for _ in range(4)]
        if u[0] * u[3] - u[1] * u[2] > 0:
            return "cone", tuple([start[0] + rnd.randint(-20, 40), start[1] + rnd.randint(-20, 40)] + u)


def good_reading(sheet, start):
    """A reading that holds a point of the start and has its edge near it."""
    if sheet == "dial":
        pt = (start[0] + rnd.randrange(start[1])) % 3600
        n = rnd.randint(1, max(2, min(3600, start[1] // 2)))
        return "arc", ((pt - rnd.randrange(n)) % 3600, n)
    pt = rnd.randint(start[0], start[2]), rnd.randint(start[1], start[3])
    while True:
        key, v = random_reading(sheet, start)
        if key == "ring":
            d = int(((pt[0] - v[0]) ** 2 + (pt[1] - v[1]) ** 2) ** 0.5)
            v = v[:2] + (max(0, d - rnd.randint(0, 12)), d + rnd.randint(1, 12))
            if v[3] <= 32767:
                return key, v
        elif held(key, v, pt):
            return key, v


def random_start(sheet, small=False):
    if sheet == "dial":
        n = rnd.choice([rnd.randint(1, 5), rnd.randint(1, 60), rnd.randint(1, 400), 3600])
        if small:
            n = rnd.randint(1, 30)
        return rnd.choice([rnd.randint(0, 3599), 3599, 0, 3580]), n
    m = 8 if small else 40
    x0, y0 = rnd.choice([0, 5, 1000, 4050]), rnd.choice([0, 7, 2000, 4050])
    return x0, y0, x0 + rnd.randint(0, m), y0 + rnd.randint(0, m)


def parse(out):
    rows = out.split("\n")
    assert rows[-1] == ""
    recs = []
    for i, r in enumerate(rows[:-2]):
        cls, vals = r.split("=")
        vals = tuple(map(int, vals.split(",")))
        assert cls in ("in", "out", "und") and vals[0] == i
        recs.append((cls, vals[1:]))
    key, vals = rows[-2].split("=")
    assert key == "sum"
    return recs, tuple(map(int, vals.split(",")))


def check_listing(sheet, q, grain, start, readings, out):
    recs, total = parse(out)
    where = {}
    count = {"in": 0, "out": 0, "und": 0}
    for cls, p in recs:
        assert is_sub(sheet, p, start), (p, start)
        for pt in points(sheet, p):
            assert pt not in where, "twice"
            where[pt] = cls
            count[cls] += 1
        if cls == "und":
            size = p[1] if sheet == "dial" else max(p[2] - p[0], p[3] - p[1]) + 1
            assert 1 < size <= grain
    pts = points(sheet, start)
    assert len(where) == len(pts) and all(pt in where for pt in pts)
    if grain == 1:
        assert count["und"] == 0
    sets = None
    if sheet == "dial":       # one pass per reading
        sets = [set((v[0] + i) % 3600 for i in range(v[1])) for _, v in readings]
    need = len(readings) - q
    for pt in pts:
        got = (sum(pt in s for s in sets) if sets is not None
               else sum(held(k, v, pt) for k, v in readings))
        if where[pt] == "in":
            assert got >= need
        elif where[pt] == "out":
            assert got < need
    assert total[:3] == (count["in"], count["out"], count["und"]) and total[3] >= 1


def check_leaves(trials):
    """Laws 1-3 and the wording of each leaf with extremes found by enumeration."""
    seen = Counter()
    for _ in range(trials):
        sheet = rnd.choice(["plane", "plane", "dial"])
        x = random_start(sheet, small=True)
        if rnd.random() < 0.15:
            x = (x[0], x[1], x[0], x[1]) if sheet == "plane" else (x[0], 1)
        key, v = rnd.choice([random_reading, good_reading])(sheet, x)
        leaf = {"ring": R.Ring, "cone": R.Cone, "arc": R.Arc}[key](*v)
        ins = [p for p in points(sheet, x) if held(key, v, p)]
        outs = [p for p in points(sheet, x) if not held(key, v, p)]
        for name, got, must in (("keep", leaf.keep(x), ins), ("shed", leaf.shed(x), outs)):
            if got is not None:
                assert is_sub(sheet, got, x)
            have = set(points(sheet, got)) if got is not None else set()
            assert set(must) <= have
            if len(ins) + len(outs) == 1 and not must:
                assert got is None
            # the wording, by enumeration
            if key == "arc":
                pts = points(sheet, x)
                idx = [i for i, p in enumerate(pts) if p in must]
                want = None if not idx else (pts[idx[0]], idx[-1] - idx[0] + 1)
            else:
                def line_live(cells):
                    if key == "ring":
                        d2 = [(p[0] - v[0]) ** 2 + (p[1] - v[1]) ** 2 for p in cells]
                        # along one line dx is fixed: dx^2+m^2 and dx^2+M^2 are least and greatest
                        if name == "keep":
                            return min(d2) <= v[3] ** 2 and max(d2) >= v[2] ** 2
                        return min(d2) < v[2] ** 2 or max(d2) > v[3] ** 2
                    f = [v[2] * (p[1] - v[1]) - v[3] * (p[0] - v[0]) for p in cells]
                    g = [v[5] * (p[0] - v[0]) - v[4] * (p[1] - v[1]) for p in cells]
                    if name == "keep":
                        return max(f) >= 0 and max(g) >= 0
                    return min(f) < 0 or min(g) < 0
                x0, y0, x1, y1 = x
                cols = [c for c in range(x0, x1 + 1) if line_live([(c, r) for r in range(y0, y1 + 1)])]
                want = None
                if cols:
                    rows = [r for r in range(y0, y1 + 1)
                            if line_live([(c, r) for c in range(cols[0], cols[-1] + 1)])]
                    if rows:
                        want = (cols[0], rows[0], cols[-1], rows[-1])
            assert got == want, (key, v, x, name, got, want)
            seen[key, name, "nothing" if got is None else "whole" if got == x else "part"] += 1
    return seen


def check_domains(trials):
    for _ in range(trials):
        sheet = rnd.choice(["plane", "dial"])
        dom = R.Plane if sheet == "plane" else R.Dial
        p = random_start(sheet, small=True)
        pts = points(sheet, p)
        assert dom.count(p) == len(pts)
        assert (dom.size(p) == 1) == (len(pts) == 1)
        if len(pts) > 1:
            lo, hi = dom.halves(p)
            assert is_sub(sheet, lo, p) and is_sub(sheet, hi, p)
            assert Counter(points(sheet, lo) + points(sheet, hi)) == Counter(pts)

        def sub():
            if sheet == "dial":
                i = rnd.randrange(p[1])
                return (p[0] + i) % 3600, rnd.randint(1, p[1] - i)
            a = sorted(rnd.randint(p[0], p[2]) for _ in range(2))
            b = sorted(rnd.randint(p[1], p[3]) for _ in range(2))
            return a[0], b[0], a[1], b[1]
        q = sub()
        st = dom.strips(p, q)
        assert len(st) <= 4 and all(is_sub(sheet, s, p) for s in st)
        assert Counter(sum((points(sheet, s) for s in st), points(sheet, q))) == Counter(pts)
        lst = [sub() for _ in range(rnd.randint(0, 6))]
        k = rnd.randint(1, 4)
        g = dom.gather(p, lst, k)
        deep = [pt for pt in pts if sum(pt in points(sheet, s) for s in lst) >= k]
        have = points(sheet, g) if g else []
        assert set(deep) <= set(have) and (g is None or is_sub(sheet, g, p))
        if len(lst) < k:
            assert g is None
        rnd.shuffle(lst)
        assert dom.gather(p, lst, k) == g


def check_fixes():
    """Values and listings worked out by hand."""
    assert R.Ring(0, 0, 0, 3).keep((0, 0, 3, 3)) == (0, 0, 3, 3)
    assert R.Ring(0, 0, 0, 3).shed((0, 0, 3, 3)) == (1, 1, 3, 3)
    assert R.Ring(0, 0, 5, 5).keep((3, 4, 3, 4)) == (3, 4, 3, 4)
    assert R.Ring(0, 0, 5, 5).keep((3, 3, 3, 3)) is None
    assert R.Cone(0, 0, 1, 0, 1, 1).keep((0, 0, 3, 3)) == (0, 0, 3, 3)
    assert R.Cone(0, 0, 1, 0, 1, 1).shed((0, 0, 3, 3)) == (0, 1, 2, 3)
    assert R.Arc(3598, 4).keep((0, 3600)) == (0, 3600)
    assert R.Arc(3598, 4).shed((0, 3600)) == (2, 3596)
    assert R.Arc(3598, 4).keep((3590, 20)) == (3598, 4)
    assert R.Plane.gather((0, 0, 9, 9), [(0, 0, 1, 1), (0, 8, 1, 9), (8, 0, 9, 1)], 2) == (0, 0, 1, 1)
    three = b"sheet=dial\nliars=1\ngrain=1\nstart=0,3600\narc=10,5\narc=12,5\narc=100,5\nend=3\n"
    assert R.run(three) == "out=0,0,12\nout=1,15,3585\nin=2,12,3\nsum=3,3597,0,1\n"
    sample = b"sheet=plane\nliars=0\ngrain=1\nstart=0,0,3,3\nring=0,0,0,3\nend=1\n"
    assert R.run(sample) == ("in=0,0,0,0,3\nin=1,1,0,3,0\nout=2,1,3,1,3\nin=3,1,1,1,2\n"
                             "out=4,3,1,3,3\nout=5,2,3,2,3\nin=6,2,1,2,2\nsum=11,5,0,3\n")


def check_runs(trials):
    seen = Counter()
    for t in range(trials):
        sheet = rnd.choice(["plane", "dial"])
        start = random_start(sheet)
        n = rnd.choice([1, 2, 3, 4, 5, 8, 16])
        q = rnd.randrange(n) if rnd.random() < 0.7 else 0
        grain = rnd.choice([1, 1, 2, 3, 4, 5, 8, 16, 64])
        near = rnd.random() < 0.75
        readings = [(good_reading if near else random_reading)(sheet, start) for _ in range(n)]
        if sheet == "dial" and rnd.random() < 0.5:      # many scattered arcs, few needed
            n = rnd.randint(6, 16)
            start = rnd.randint(0, 3599), rnd.choice([rnd.randint(100, 3600), 3600])
            wide = rnd.choice([8, 60, 400])
            readings = [("arc", ((start[0] + rnd.randint(-20, start[1])) % 3600, rnd.randint(1, wide)))
                        for _ in range(n)]
            q = n - rnd.choice([1, 1, 2, 2, 3, 4])
            grain = rnd.choice([1, 4, 16, 64, 64])
        out = R.run(text(sheet, q, grain, start, readings))
        assert not out.startswith("fault"), out
        check_listing(sheet, q, grain, start, readings, out)
        for _ in range(2):
            rnd.shuffle(readings)
            assert R.run(text(sheet, q, grain, start, readings)) == out
        recs, _ = parse(out)
        seen[sheet, "runs"] += 1
        seen[sheet, "with in"] += any(c == "in" for c, _ in recs)
        seen[sheet, "with out"] += any(c == "out" for c, _ in recs)
        seen[sheet, "with und"] += any(c == "und" for c, _ in recs)
        seen[sheet, "over 10 records"] += len(recs) > 10
    return seen


if __name__ == "__main__":
    k = int(sys.argv[1]) if len(sys.argv) > 1 else 600
    check_fixes()
    check_domains(3000)
    for key, c in sorted(check_leaves(4000).items()):
        print(key, c)
    for key, c in sorted(check_runs(k).items()):
        print(key, c)
    print("all checks passed")
