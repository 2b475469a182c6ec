#!/usr/bin/env python3
"""Runs reference.py over cases.py: checks the outcomes put down by hand, checks good listings against the sets
point by point, and writes the table ../crates/cases/data/cases.txt.

The table has three lines for a case: `# name`, `< file`, `> output`. In the last two a byte 10 is written `\\n`, a
backslash twice, and any other byte that is not printable ASCII as `\\xNN`."""
import pathlib
import re
from collections import Counter
import reference
import verify
from cases import CASES, MORE

TABLE = pathlib.Path(__file__).resolve().parent.parent / "crates" / "cases" / "data" / "cases.txt"
SAME = [("two_rings_and_cone_grain_2", "rearranged_1_3_2", "rearranged_2_1_3", "rearranged_3_2_1"),
        ("two_rings_and_cone_liars_1_grain_6", "rearranged_liars_1_3_1_2", "rearranged_liars_1_2_3_1"),
        ("dial_wrap_liars_2", "dial_rearranged_liars_2"), ("dial_wrap_liars_4", "dial_rearranged_liars_4")]


def escaped(data):
    out = []
    for b in data:
        if b == 10:
            out.append("\\n")
        elif b == 92:
            out.append("\\\\")
        elif 32 <= b < 127:
            out.append(chr(b))
        else:
            out.append("\\x%02x" % b)
    return "".join(out)


rows, outs, inputs, trouble = [], {}, {}, []
by_fault = Counter()
hand = 0
for name, data, expected, kind in CASES:
    assert re.fullmatch(r"[a-z][a-z0-9_]*", name) and name not in outs, name
    if data in inputs:
        trouble.append(("same input", name, inputs[data]))
    inputs[data] = name
    got = outs[name] = reference.run(data)
    if expected is not None:
        hand += 1
        want = "fault=%s\n" % expected if re.fullmatch(r"\d+,\d+", expected) else expected
        if got != want:
            trouble.append((name, want, got[:200]))
    elif got.startswith("fault"):
        trouble.append((name, "a listing", got))
    m = re.match(r"fault=(\d+),", got)
    if not m:
        s, q, grain, start, readings = reference.read_file(data)
        points = start[1] if s == b"dial" else (start[2] - start[0] + 1) * (start[3] - start[1] + 1)
        if points <= 1000000:
            verify.check_listing(s.decode(), q, grain, start, [(k.decode(), v) for k, v in readings], got)
        if kind == "text" and got.count("\n") > 40:
            trouble.append((name, got.count("\n"), "lines"))
    if name not in MORE:
        by_fault[int(m.group(1)) if m else "good"] += 1
        rows.append("# %s\n< %s\n> %s\n" % (name, escaped(data), escaped(got.encode())))
for group in SAME:
    if len({outs[n] for n in group}) != 1:
        trouble.append(("not the same output", group))
for n in MORE - set(outs):
    trouble.append(("no such case", n))
TABLE.write_text("".join(rows))
print(len(rows), "cases;", dict(sorted(by_fault.items(), key=lambda t: (isinstance(t[0], str), t[0]))))
print(hand, "outcomes put down by hand agree;" if not trouble else "TROUBLE:", trouble or "no trouble")
