#!/usr/bin/env python3
"""Where the sources have an older form, by the points of docs/DESIGN-PASS.md: scripts/forms.py [-v] [TREE]

It goes by text, over crates/*/src of the tree. With -v it prints each place. The page says what each count stands for.
"""
import collections, pathlib, re, sys


def sources(tree):
    return {p: p.read_text() for p in sorted(pathlib.Path(tree).glob('crates/*/src/**/*.rt')) if '/out/' not in str(p)}


def functions(text):
    """(line, comment, signature and clauses, body) of each function"""
    for m in re.finditer(r'^( *)(?:pub(?:\([a-z]+\))? )?(?:extern "C" )?fn (\w+)', text, re.M):
        open_brace = re.compile(r'^%s\{ *$|\{ *$' % m.group(1), re.M)
        start = text.find('\n' + m.group(1) + '{\n', m.start())
        one = re.compile(r'[^\n]*\{\n').match(text, m.start())
        if one and (start < 0 or one.end() < start):
            start = one.end() - 3
        if start < 0:
            continue
        end = text.find('\n' + m.group(1) + '}', start + 1)
        above = text[:m.start()].rstrip('\n').split('\n')
        comment = []
        while above and above[-1].lstrip().startswith(('//', '#[')):
            comment.insert(0, above.pop())
        yield text[:m.start()].count('\n') + 1, ' '.join(comment), m.group(2), text[m.start():start], text[start:end]


def enums(files):
    """own enums of the shape of Option or Result: two variants, one of which brings a value"""
    for p, t in files.items():
        for m in re.finditer(r'^(?:pub )?enum (\w+)[^{]*\{\n(.*?)^\}', t, re.M | re.S):
            variants = re.findall(r'^    (\w+)(\(?)', m.group(2), re.M)
            if len(variants) == 2 and any(v[1] for v in variants):
                yield p, t[:m.start()].count('\n') + 1, m.group(1)


NONE = re.compile(r', or (?:the number of|their number|how many|n\b)|or n where|where there is none|where none (?:is|has)|where the tile can be|where all n can|or the number of', re.I)


def bounds_for_none(files):
    """functions that answer a number where there is none: their comment says so and the result is a plain number"""
    for p, t in files.items():
        for line, comment, name, head, body in functions(t):
            if re.search(r'-> (?:usize|u32|u16|Look)\b', head) and NONE.search(comment):
                yield p, line, name


def kinds(files):
    """constants that number kinds"""
    for p, t in files.items():
        for m in re.finditer(r'^(?:pub )?const (LENT|ZERO|ONE|FLIP_FLOP|COPY|LOOKUP|MAJORITY|FIELD|GROUP|CELL|PASSIVE): u(?:16|32) = \d', t, re.M):
            yield p, t[:m.start()].count('\n') + 1, m.group(1)


def loops(files):
    """while and loop"""
    for p, t in files.items():
        for m in re.finditer(r"^ +(?:'\w+: )?(?:while\b|loop \{)[^\n]*", t, re.M):
            yield p, t[:m.start()].count('\n') + 1, m.group(0).strip()


def tests(files):
    """chains of two or more `if .. { return false; }`"""
    for p, t in files.items():
        for line, comment, name, head, body in functions(t):
            if len(re.findall(r'\{\s*return false;\s*\}', body)) >= 2 and '-> bool' in head and not re.search(r'\b(?:for|while)\b', body):
                yield p, line, name


def conversions(files):
    """functions that only convert a number, and conversions by `as` that `from` can do"""
    for p, t in files.items():
        for line, comment, name, head, body in functions(t):
            if re.search(r'\(\w+: (?:u\d+|bool)\) -> (?:usize|u\d+)', head) and re.fullmatch(r'\s*\{\s*(?:\w+ as \w+|if \w+ \{ 1 \} else \{ 0 \})\s*', body):
                yield p, line, name
        for m in re.finditer(r'\b\w+(?:\(\w+\)|\.\w+)? as (?:usize|u64|u32|u16)\b', t):
            yield p, t[:m.start()].count('\n') + 1, m.group(0)


def calls_of_own(files):
    """calls of this repository's own clearing, copying and widening"""
    for p, t in files.items():
        for m in re.finditer(r'\blists::(?:clear|copy)\w*\(|\bwide\(', t):
            yield p, t[:m.start()].count('\n') + 1, m.group(0)


def twins(files):
    """functions whose bodies are the same once names of types, constants, constructors and numbers are left out"""
    seen = collections.defaultdict(list)
    for p, t in files.items():
        if '/capi_c/' in str(p):
            continue
        for line, comment, name, head, body in functions(t):
            body = re.sub(r'//[^\n]*', '', body)
            shape = re.sub(r'\b[A-Z]\w*\b', 'C', body)
            shape = re.sub(r'\b\d+\b', 'N', shape)
            shape = re.sub(r'\bu\d+|usize\b', 'T', shape)
            names = {}
            shape = re.sub(r'\b[a-z_]\w*\b', lambda m: m.group(0) if m.group(0) in ('while', 'if', 'return', 'let', 'mut', 'for', 'in', 'else', 'match', 'loop', 'as', 'len', 'fill') else names.setdefault(m.group(0), 'x%d' % len(names)), shape)
            shape = ' '.join(shape.split())
            if len(shape) > 60:
                seen[shape].append((p, line, name))
    for places in seen.values():
        if len(places) > 1:
            for place in places:
                yield place


def facts(files):
    """facts that stand in the requires of three functions or more"""
    seen = collections.defaultdict(set)
    for p, t in files.items():
        if '/capi' in str(p):
            continue
        for line, comment, name, head, body in functions(t):
            for clause in re.findall(r'requires(?: \w+)? \{(.*?)\}\n', head + '\n', re.S):
                for part in clause.split('×'):
                    part = ' '.join(part.split()).strip()
                    while part.startswith('(') and part.endswith(')') and part.count('(') == part.count(')') and '(' not in part[1:-1].split(')')[0][:0]:
                        part = part[1:-1].strip()
                        break
                    part = re.sub(r'\b(\w+)\.(?:now|old)\b', r'\1', part)
                    if part:
                        seen[part].add((p, line, name))
    for part, places in sorted(seen.items(), key=lambda x: -len(x[1])):
        if len(places) >= 3:
            yield sorted(places)[0][0], len(places), part


def positions(files):
    """a slice with a position beside it: `out` and `at` as parameters"""
    for p, t in files.items():
        for line, comment, name, head, body in functions(t):
            if re.search(r'\b(?:out|list|card): &mut \[u\d+\],\s*(?:at|from): usize', head) or re.search(r'(?:list: &\[u16\],\s*count: usize)', head):
                yield p, line, name


def flags(files):
    """a flag or a number that says which step to run"""
    for p, t in files.items():
        for line, comment, name, head, body in functions(t):
            if re.search(r'\b(?:asked|which|kind): (?:bool|u\d+)', head):
                yield p, line, name


POINTS = [('1 enums', enums), ('1 a number for none', bounds_for_none), ('1 kinds', kinds), ('2 twins', twins), ('3 loops', loops),
          ('4 chains of tests', tests), ('4 conversions', conversions), ('4 own methods', calls_of_own), ('5 facts', facts), ('6 positions', positions), ('7 flags', flags)]


def main():
    args = sys.argv[1:]
    loud = '-v' in args
    rest = [a for a in args if a != '-v']
    tree = rest[0] if rest else '.'
    files = sources(tree)
    for name, find in POINTS:
        places = list(find(files))
        print('%-22s %d' % (name, len(places)))
        if loud:
            for p, line, what in places:
                print('    %s:%s %s' % (p.relative_to(tree), line, what))


main()
