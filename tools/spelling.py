#!/usr/bin/env python3
"""Spells this repository's own definitions, fields and lemmas in snake case, once, after the port's script.

usage: spelling.py            at the top of the repository

A dash between the words of a name that the texts of specs/ or proofs/ declare becomes an underscore, and a
capital inside such a name a new word. Names that the checker makes (goals, steps of a proof) and names of a
library stay. A name that would meet another is said and left.
"""
import pathlib
import re
import sys

NAME = r"[^\s(){}\[\]|.;,@«»:]+"
DECLARED = re.compile(rf"(?m)^ *(?:(?:abbrev|unfoldable|pub|pattern|record|data|ruleset) +)*({NAME})(?: \{{[^{{}}\n]*\}})* :(?! goal\.)")
BRANCH = re.compile(rf"(?m)^ *\| ({NAME}) :")
LIBRARY = re.compile(r"\buse (?:Rattle\.(?:std|core)|native|borrow|denote|mathlib|lib)[\w.'·-]*\.\{([^}]*)\}")
MADE = re.compile(r"\buse [^\s;{]*\.(?:Goals|Given)\.\{([^}]*)\}")
OF_A_FUNCTION = re.compile(r"(Answers|Invariants|Choices|Proof)\.antt$")
SPECIAL = {"getD-mapped": "get_or_mapped", "listOf-length": "option_to_list_length"}


def spelled(name):
    if name in SPECIAL:
        return SPECIAL[name]
    words = re.sub(r"(?<=[a-z0-9])[A-Z]", lambda m: "_" + m[0].lower(), name)
    return words.replace("-", "_")


def texts():
    for path in sorted(pathlib.Path("crates").rglob("*")):
        if path.suffix in (".antt", ".rt") and "out" not in path.parts:
            yield path, path.read_text()


def code_and_comment(path, line):
    mark = "--" if path.suffix == ".antt" else "//"
    at = re.search(rf"(^|\s){mark}", line)
    return (line, "") if not at else (line[: at.start()], line[at.start():])


def main():
    files = list(texts())
    own, all_names = {}, set()
    for path, text in files:
        if path.suffix != ".antt":
            continue
        for name in DECLARED.findall(text) + BRANCH.findall(text):
            all_names.add(name)
            if "-" in name or re.search(r"[a-z0-9][A-Z]", name) and name[0].islower():
                own.setdefault(name, set()).add(path)
    met = {n for n in own if spelled(n) in all_names or [o for o in own if o != n and spelled(o) == spelled(n)]}
    for name in sorted(met):
        print("left:", name, "would meet", spelled(name))
    turned = {n: spelled(n) for n in own if n not in met}
    changed = 0
    for path, text in files:
        made = set(re.split(r",\s*", ", ".join(MADE.findall(text)))) if path.suffix == ".antt" else set()
        lent = set(re.split(r",\s*", ", ".join(LIBRARY.findall(text))))
        for name in sorted(lent & set(turned)):
            print(f"look: {path}: {name} is a library's there")
        for name in sorted(lent & set(turned.values())):
            print(f"look: {path}: a library's {name} stands there")
        function = OF_A_FUNCTION.search(path.name)
        lines = []
        for line in text.split("\n"):
            code, comment = code_and_comment(path, line)

            def turn(m):
                name, before = m[0], code[: m.start()]
                if name not in turned or name in lent or name in made or re.search(r"goal\.$", before):
                    return name
                if function and before.endswith(".") and not before.endswith("d.") and not re.search(r"(maps|meaning|\)|laws|lawful|sound)\.$", before):
                    print(f"look: {path}: {before[-30:]}{name}")
                return turned[name]

            if path.suffix == ".rt" and '"' in code:
                lines.append(line)
            else:
                lines.append(re.sub(NAME, turn, code) + comment)
        new = "\n".join(lines)
        if new != text:
            path.write_text(new)
            changed += 1
    print(f"{len(turned)} names, {changed} files")


if __name__ == "__main__":
    sys.exit(main())
