#!/usr/bin/env python3
"""Checks bugs.txt: each `old` stands exactly once in its file, no bug is an edit of must-fail/, names are unique."""
import collections
import pathlib
import sys

here = pathlib.Path(__file__).resolve().parent
repo = pathlib.Path(sys.argv[1] if len(sys.argv) > 1 else here.parent)
crates = repo / "crates"
edits = collections.defaultdict(set)
names = collections.defaultdict(set)
for path in crates.glob("*/must-fail/*.edit"):
    fields = {}
    for line in path.read_text().splitlines():
        key, _, value = line.partition(": ")
        fields[key] = value
    crate = path.parts[-3]
    edits[crate].add((fields["file"], fields["old"].strip(), fields["new"].strip()))
    names[crate].add(path.stem)

wrong = 0
seen = set()
results = {}
by_crate, by_kind = collections.Counter(), collections.Counter()


def tell(number, text):
    global wrong
    wrong += 1
    print(f"line {number}: {text}")


for number, line in enumerate((here / "bugs.txt").read_text().splitlines(), 1):
    if not line or line.startswith("#"):
        continue
    fields = line.split("\t")
    if len(fields) != 6 or not all(fields):
        tell(number, f"{len(fields)} fields, or an empty one")
        continue
    crate, name, kind, file, old, new = fields
    if not name.replace("_", "a").isalnum() or name != name.lower():
        tell(number, f"{name} is not snake_case")
    if (crate, name) in seen:
        tell(number, f"{crate}/{name} twice")
    if name in names[crate]:
        tell(number, f"{crate}/{name} is the name of an edit in must-fail")
    seen.add((crate, name))
    by_crate[crate] += 1
    by_kind[kind] += 1
    path = crates / crate / file
    if not path.is_file():
        tell(number, f"no file {path}")
        continue
    text = path.read_text()
    times = text.count(old)
    if times != 1:
        tell(number, f"{crate}/{name}: `old` stands {times} times in {file}: {old}")
        continue
    if old == new:
        tell(number, f"{crate}/{name}: nothing changes")
    at = text.index(old)
    start, end = text.rindex("\n", 0, at) + 1, text.index("\n", at)
    if any(mark in text[start:end] for mark in ("ensures", "requires", "ghost ")) or text[start:end].lstrip().startswith("//"):
        tell(number, f"{crate}/{name}: edits a clause or a comment")
    if (file, old.strip(), new.strip()) in edits[crate]:
        tell(number, f"{crate}/{name} is an edit in must-fail")
    whole = text.replace(old, new)
    for other in [(f, o, n) for f, o, n in edits[crate] if f == file]:
        if text.count(other[1]) == 1 and " ".join(text.replace(other[1], other[2]).split()) == " ".join(whole.split()):
            tell(number, f"{crate}/{name} gives the same text as an edit in must-fail")
    key = (crate, file, " ".join(whole.split()))
    if key in results:
        tell(number, f"{crate}/{name} gives the same text as {results[key]}")
    results[key] = name
    if new.count("{") - new.count("}") != old.count("{") - old.count("}"):
        print(f"note, line {number}: {crate}/{name}: braces do not balance")

print("by crate:", ", ".join(f"{k} {v}" for k, v in sorted(by_crate.items())))
print("by kind:", ", ".join(f"{k} {v}" for k, v in by_kind.most_common()))
print(f"{sum(by_crate.values())} bugs, {wrong} wrong")
sys.exit(wrong > 0)
