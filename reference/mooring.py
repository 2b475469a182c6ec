#!/usr/bin/env python3
"""Makes ../samples/mooring.txt and ../samples/mooring.out.

A mooring at TRUE is located from beacons ashore and afloat by ranges (rings,
width from the noise) and bearings (cones, two directions either side of the
measured one).  Two of the twelve readings are wrong."""
import math
import reference
import verify

TRUE = (1312, 1733)
START = (1000, 1400, 1599, 1999)
GRAIN = 4


def ring(bx, by, error, width):
    d = math.hypot(TRUE[0] - bx, TRUE[1] - by) + error
    return "ring", (bx, by, round(d - width), round(d + width))


def cone(bx, by, error_deg, half_deg):
    t = math.atan2(TRUE[1] - by, TRUE[0] - bx) + math.radians(error_deg)
    h = math.radians(half_deg)
    u = (round(2000 * math.cos(t - h)), round(2000 * math.sin(t - h)))
    v = (round(2000 * math.cos(t + h)), round(2000 * math.sin(t + h)))
    return "cone", (bx, by) + u + v


READINGS = [
    ring(812, 1290, +6, 25),
    cone(812, 1290, +0.6, 2.5),
    ring(1905, 1188, -9, 28),
    cone(1905, 1188, -0.9, 2.5),
    ring(1480, 2610, +4, 30),
    cone(1480, 2610, +0.4, 2.0),
    ring(-350, 2204, -90, 30),      # wrong: a multipath range
    ring(655, 2480, -7, 26),
    cone(655, 2480, -0.5, 2.0),
    cone(2750, 1905, +9.0, 1.5),    # wrong: a bearing to another mooring
    ring(2750, 1905, +11, 32),
    ring(1290, 520, +5, 24),
]


def text(q):
    return verify.text("plane", q, GRAIN, START, READINGS)


if __name__ == "__main__":
    assert len(READINGS) == 12
    wrong = [i for i, (k, v) in enumerate(READINGS) if not verify.held(k, v, TRUE)]
    assert wrong == [6, 9], wrong
    out = reference.run(text(2))
    verify.check_listing("plane", 2, GRAIN, START, READINGS, out)
    recs, total = verify.parse(out)
    at = [(c, p) for c, p in recs if p[0] <= TRUE[0] <= p[2] and p[1] <= TRUE[1] <= p[3]]
    for q in (0, 1):
        r, t = verify.parse(reference.run(text(q)))
        print("liars=%d: inside, outside, undecided, steps" % q, t)
        if q == 0:
            assert t[0] == 0 and not any(c == "in" for c, _ in r)
    print("liars=2:", total, len(recs) + 1, "lines; true position in", at)
    assert len(at) == 1 and at[0][0] == "in" and 60 <= len(recs) + 1 <= 200 and 300 <= total[0] <= 5000
    inside = [(x, y) for x in range(START[0], START[2] + 1) for y in range(START[1], START[3] + 1)
              if sum(verify.held(k, v, (x, y)) for k, v in READINGS) >= 10]
    print("cells held by at least 10:", len(inside), "x", min(p[0] for p in inside), max(p[0] for p in inside),
          "y", min(p[1] for p in inside), max(p[1] for p in inside))
    open("../samples/mooring.txt", "wb").write(text(2))
    open("../samples/mooring.out", "w").write(out)
