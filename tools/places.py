#!/usr/bin/env python3
"""Lists the places in crates/*/src that the design pass looks at, one group for each of its points.

    tools/places.py            the counts
    tools/places.py POINT      the places of one point (1a, 1b, .., 7)

The patterns are of text: a line is a place to look at, not a verdict. docs/DESIGN-PASS.md says what became of each.
"""
import re
import sys
from collections import defaultdict
from pathlib import Path

TOP = Path(__file__).resolve().parent.parent


def sources():
    for path in sorted((TOP / 'crates').glob('*/src/**/*.rt')):
        yield path.relative_to(TOP), path.read_text()


def bare(text):
    """The text without comments and strings, of the same length in lines."""
    text = re.sub(r'//[^\n]*', '', text)
    return re.sub(r'"[^"\n]*"', '""', text)


def lines_of(pattern):
    for path, text in sources():
        clean = bare(text)
        for found in re.finditer(pattern, clean):
            at = clean.count('\n', 0, found.start()) + 1
            yield f'{path}:{at}: {" ".join(found.group(0).split())}'


def functions():
    """Each function: its path, line, name, signature with clauses, body."""
    for path, text in sources():
        clean = bare(text)
        for found in re.finditer(r'\bfn (\w+)', clean):
            at = found.end()
            depth, body = 0, None
            while at < len(clean):
                c = clean[at]
                if c in '([{':
                    if c == '{' and depth == 0:
                        ahead = clean[:at].rstrip()
                        if not re.search(r'(requires|ensures)\*?( \w+)?$', ahead):
                            body = at
                            break
                    depth += 1
                elif c in ')]}':
                    depth -= 1
                elif c == ';' and depth == 0:
                    break
                at += 1
            head = clean[found.start():at]
            if body is None:
                yield path, clean.count('\n', 0, found.start()) + 1, found.group(1), head, ''
                continue
            depth, end = 0, body
            while end < len(clean):
                depth += {'{': 1, '}': -1}.get(clean[end], 0)
                end += 1
                if depth == 0:
                    break
            yield path, clean.count('\n', 0, found.start()) + 1, found.group(1), head, clean[body:end]


def shape(body):
    """A body with its names numbered in order of first use, and its numbers and strings as one."""
    names, out = {}, []
    keep = {'let', 'mut', 'if', 'else', 'match', 'for', 'in', 'while', 'loop', 'return', 'Some', 'None', 'Ok', 'Err', 'self', 'Self', 'true', 'false'}
    for token in re.findall(r'\w+|""|\S', body):
        if token in keep or not re.match(r'\w', token):
            out.append(token)
        elif token[0].isdigit():
            out.append('0')
        else:
            out.append('n%d' % names.setdefault(token, len(names)))
    return ' '.join(out)


def twins():
    groups = defaultdict(list)
    for path, line, name, head, body in functions():
        form = shape(body)
        if len(form.split()) >= 14:
            groups[form].append(f'{path}:{line} {name}')
    for places in groups.values():
        if len(places) > 1:
            yield ' ~ '.join(places)


def facts():
    """Clauses, split at ×, that three or more functions have word for word; at least nine letters long."""
    where = defaultdict(list)
    for path, line, name, head, body in functions():
        seen = set()
        for clause in re.findall(r'(?:requires|ensures)\*?(?: \w+)? \{ (.*) \}\n', head + '\n'):
            for part in re.split(r' × | → ', clause):
                part = part.strip('() ')
                if len(part) >= 9 and part not in seen:
                    seen.add(part)
                    where[part].append(f'{path}:{line} {name}')
            for part in re.findall(r'means (?:\w+\.Contractor\.\w+ ?){3}', clause):
                if part not in seen:
                    seen.add(part)
                    where[re.sub(r'\b[A-Z]\b', 'C', part).strip()].append(f'{path}:{line} {name}')
    for part, places in sorted(where.items()):
        if len(places) >= 3:
            yield f'{len(places)} functions: {part}'


def travelling():
    """Two or more parameters, by name and type, that three or more functions have together."""
    where = defaultdict(set)
    for path, line, name, head, body in functions():
        found = re.search(r'\(([^()]*(?:\([^()]*\)[^()]*)*)\)', head)
        if not found:
            continue
        given = [' '.join(p.split()) for p in re.findall(r'\w+: [^,]+', found.group(1))]
        given = [p for p in given if not p.startswith('rt:')]
        for i in range(len(given)):
            for j in range(i + 1, len(given)):
                where[(given[i], given[j])].add(f'{path}:{line} {name}')
    groups = defaultdict(set)
    for pair, places in where.items():
        if len(places) >= 3:
            groups[frozenset(places)] |= set(pair)
    for places, names in groups.items():
        yield f'{len(places)} functions: {", ".join(sorted(names))}: {"; ".join(sorted(places))}'


POINTS = {
    '1a own enums of the shape of Option or Result, a flag in a result': lambda: lines_of(r'-> \(.*\bbool\)|enum \w+(<\w+>)? \{'),
    '1b a flag beside a value': lambda: lines_of(r'\b\w+: bool,'),
    '1c numbers for kinds or refusals': lambda: lines_of(r'\w+\.code\(\) *(?:==|<|>)|match number \{|=> \d+,'),
    '1d an absence or an error handed on by hand': lambda: lines_of(
        r'else \{\s*return (?:None|Err\([^;]*\)|Ok\(None\)|Ok\(other\)|other|one|Ok\(one\));\s*\}|Err\(\w+\) => (?:return )?Err\(|Err\(_\) => None|None => Err\('),
    '2 functions of one shape': twins,
    '3 loops that count an index': lambda: lines_of(r'for \w+ in [^{\n]*\.\.[^{\n]*\{|while \w+ [<>] [^{\n]*\{'),
    '4 equality, conversion and printing by hand': lambda: lines_of(
        r'impl (?:<[^>]*> )?(?:PartialEq|Eq|Ord|PartialOrd|Clone|Copy) for \w+|fn (?:same|is_text)\w*|-> &\'static str|fn (?:\w+_)?(?:code|name|numbers|number_of|code_of|fault_text|digit|natural)\(|Ok\(\w+\) => (?:Some|Ok)\('),
    '5a facts in the contracts of three or more functions': facts,
    '5b parameters that travel together': travelling,
    '6 fixed buffers, and a length beside': lambda: lines_of(r'\b\w+: \[[^\]\n]+; \d+\]|\blen: usize,|\[\w+; \d+\]|: Option<P>,\n'),
    '7 a step or a function picked by a type or a number': lambda: lines_of(r'match turn \{|impl(?:<[^{\n]*>)? (?:Live|Side) for \w+|elif'),
}


def main():
    if len(sys.argv) > 1:
        for title, find in POINTS.items():
            if title.split()[0].startswith(sys.argv[1]):
                print(title)
                for place in find():
                    print('   ', place)
        return
    for title, find in POINTS.items():
        print(f'{len(list(find())):4}  {title}')


if __name__ == '__main__':
    main()
