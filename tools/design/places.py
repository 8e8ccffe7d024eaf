#!/usr/bin/env python3
"""Counts the places of docs/DESIGN-PASS.md in the sources. Run at the top: python3 tools/design/places.py [--list] [POINT..]
Each point has one rule below, read from the text of crates/*/src and, for the last, crates/*/proofs."""
import collections
import glob
import re
import sys

SOURCES = sorted(f for f in glob.glob('crates/*/src/**/*.rt', recursive=True))
TEXT = {f: open(f, encoding='utf-8').read() for f in SOURCES}
BARE = {f: re.sub(r'//[^\n]*', '', t) for f, t in TEXT.items()}
FN = re.compile(r'(?m)^[ \t]*(?:pub(?:\([a-z]+\))? )?(?:unsafe )?(?:extern "C" )?fn (\w+)')


def braces(text, at):
    depth = 0
    for i in range(at, len(text)):
        depth += {'{': 1, '}': -1}.get(text[i], 0)
        if depth == 0 and text[i] == '}':
            return i + 1
    return len(text)


def functions():
    """file, line, name, parameters, clauses, body"""
    for f, t in BARE.items():
        for m in FN.finditer(t):
            left = t.index('(', m.end())
            depth, i = 0, left
            while True:
                depth += {'(': 1, ')': -1}.get(t[i], 0)
                i += 1
                if depth == 0:
                    break
            params = t[left + 1:i - 1]
            end = i
            clauses = []
            while True:  # clauses are `requires { .. }` and `ensures name { .. }`; the body is the block with neither word before it
                b = t.find('{', end)
                if b < 0:
                    break
                head = t[end:b]
                close = braces(t, b)
                if re.search(r'\b(requires|ensures)\b', head):
                    clauses.append((re.search(r'\b(requires|ensures)\b', head).group(1), t[b + 1:close - 1].strip()))
                    end = close
                else:
                    yield f, t.count('\n', 0, m.start() + 1) + 1, m.group(1), params, clauses, t[b:close]
                    break


FUNCTIONS = list(functions())


def enums():
    for f, t in BARE.items():
        for m in re.finditer(r'(?m)^[ \t]*(?:pub(?:\([a-z]+\))? )?enum (\w+)[^{]*\{', t):
            body = t[m.end():braces(t, m.end() - 1) - 1]
            variants = [v.strip() for v in re.split(r',\s*(?![^(]*\))', body) if v.strip()]
            yield f, t.count('\n', 0, m.start()) + 1, m.group(1), variants


def point1():
    "enums of the shape of Option or Result: two cases of which one has a value, or one with a value and all others without"
    for f, n, name, variants in enums():
        full = [v for v in variants if '(' in v]
        if full and (len(variants) == 2 or len(full) == 1 or all(re.search(r'\((usize)\)', v) for v in full[1:]) and len(full) == len(variants)):
            yield f, n, 'enum %s: %s' % (name, ', '.join(v.split('(')[0] for v in variants))
    # flags with a value beside: a struct with a truth value and a field that counts only with it; numbers for none
    for f, t in TEXT.items():
        lines = t.split('\n')
        for i, line in enumerate(lines):
            if re.search(r'^\s*//.*(?:, or (?:n|i|16|128|255)\b(?! )|or (?:16|128|255)[.,]| 255 where|16 where| 0 where the \w+ is (?:refused|forbidden)|, or 0 where)', line):
                yield f, i + 1, line.strip()
        for m in re.finditer(r'struct (\w+)[^{;]*\{([^}]*)\}', BARE[f]):
            if re.search(r'\b(?:drives|valid|received): bool', m.group(2)):
                yield f, BARE[f].count('\n', 0, m.start()) + 1, 'struct %s: a flag with a value beside it' % m.group(1)
    for f, n, name, params, clauses, body in FUNCTIONS:
        if re.search(r'\b(kind|protocol|code): u(8|32)\b', params):
            yield f, n, 'fn %s: a number for a kind' % name
        if re.search(r'\brefused\(\d+|\bsaid\(\d+', body):
            yield f, n, 'fn %s: a number for a refusal' % name


def shape_of_body(body):
    b = re.sub(r'b?"[^"]*"', 'S', body)
    b = re.sub(r"b'[^']*'", 'N', b)
    b = re.sub(r'\b(u8|u16|u32|u64|usize)\b', 'T', b)
    b = re.sub(r'\b(0x[0-9A-Fa-f_]+|\d[\d_]*)(T|u8|u16|u64|usize)?\b', 'N', b)
    b = re.sub(r'\b[A-Z]\w*(::\w+)*', 'C', b)
    b = re.sub(r'\s+', ' ', b)
    return b


def point2():
    "twins: functions of at least three lines whose bodies are equal but for types, numbers, texts, cases and one called name"
    groups = collections.defaultdict(list)
    for f, n, name, params, clauses, body in FUNCTIONS:
        if body.count('\n') < 3:
            continue
        words = re.sub(r'\b[a-z_]\w*\(', 'f(', shape_of_body(body))
        words = re.sub(r'\.\s*[a-z_]\w*\b', '.m', words)
        groups[words].append((f, n, name))
    for members in groups.values():
        if len(members) > 1:
            for f, n, name in members:
                yield f, n, 'fn %s, as %s' % (name, ', '.join(x[2] for x in members if x != (f, n, name)))


def point3():
    "loops that count an index by hand"
    for f, t in TEXT.items():
        for i, line in enumerate(t.split('\n')):
            if re.match(r'\s*while\b', line):
                yield f, i + 1, line.strip()


def point4():
    "equality, order, copying, conversion by hand: arms that only say true or false, fields copied one by one, functions that only convert"
    for f, n, name, params, clauses, body in FUNCTIONS:
        arms = re.findall(r'=> (?:true|false),', body)
        if len(arms) > 1:
            yield f, n, 'fn %s: %d arms of true and false' % (name, len(arms))
        copied = re.findall(r'\b(\w+): (?:self|[a-z]\w*)\.\1,', body)
        if len(copied) > 1:
            yield f, n, 'fn %s: copies %d fields' % (name, len(copied))
        if re.fullmatch(r'is_same|is_below|same|identifier|addresses|as_number|udid_in|pool_in|told_\w+|\w*_number|wide|from_wire', name):
            yield f, n, 'fn %s: compares or converts by hand' % name


def point5():
    "facts in the contracts of three or more functions, and pairs of parameters, by name and type, of eight or more: one place each"
    facts = collections.defaultdict(list)
    pairs = collections.defaultdict(list)
    for f, n, name, params, clauses, body in FUNCTIONS:
        for kind, text in clauses:
            if kind == 'requires':
                for part in re.split(r'\) × \(|(?<=\)) × | × (?=\()', text):
                    facts[part.strip('() ')].append((f, n, name))
        ps = [p.strip() for p in re.split(r',(?![^<]*>)', params) if ':' in p]
        for i, a in enumerate(ps):
            for b in ps[i + 1:]:
                pairs[a + ', ' + b].append((f, n, name))
    for what, table, least in (('require', facts, 3), ('take', pairs, 8)):
        for k, members in sorted(table.items(), key=lambda x: -len(x[1])):
            if len(members) >= least:
                yield members[0][0], members[0][1], '%d functions %s %s' % (len(members), what, k)


def point6():
    "parallel arrays in one struct, buffers with a length beside, numbers that stand for places"
    for f, t in BARE.items():
        for m in re.finditer(r'struct (\w+)[^{;]*\{([^}]*)\}', t):
            arrays = re.findall(r'\[u?\w+; (\w+)\]', m.group(2))
            if len(arrays) != len(set(arrays)):
                yield f, t.count('\n', 0, m.start()) + 1, 'struct %s: parallel arrays' % m.group(1)
            if re.search(r'\[\w+; \w+\]', m.group(2)) and re.search(r'\b(len|count|used|n): u', m.group(2)):
                yield f, t.count('\n', 0, m.start()) + 1, 'struct %s: an array with a length beside' % m.group(1)
    for f, n, name, params, clauses, body in FUNCTIONS:
        if re.search(r'out: &mut \[u(8|16)\], at: usize', params):
            yield f, n, 'fn %s: a buffer with a place beside it' % name


def point7():
    "switches on which step to run: a match of three arms or more that all call a function with the same arguments"
    for f, n, name, params, clauses, body in FUNCTIONS:
        for m in re.finditer(r'\bmatch [^{]+\{', body):
            arms = re.findall(r'=> \w[\w:.]*\(([^()]*)\),', body[m.end():braces(body, m.end() - 1)])
            common = collections.Counter(arms).most_common(1)
            if common and common[0][1] > 2:
                yield f, n, 'fn %s: %d arms call with the same arguments' % (name, common[0][1])
        if re.search(r'\b(direct|received): bool', params):
            yield f, n, 'fn %s: a truth value that says which way' % name


def point8():
    "answers of proofs"
    for f in sorted(glob.glob('crates/*/proofs/**/Answers.antt', recursive=True)):
        for i, line in enumerate(open(f, encoding='utf-8').read().split('\n')):
            if line.startswith('pub ') or line.startswith('abbrev pub '):
                yield f, i + 1, line.split(':')[0]


def main():
    wanted = [a for a in sys.argv[1:] if a.isdigit()] or list('12345678')
    for k in wanted:
        places = list(globals()['point' + k]())
        print('point %s: %d' % (k, len(places)))
        if '--list' in sys.argv:
            for f, n, what in places:
                print('  %s:%d %s' % (f, n, what))


if __name__ == '__main__':
    main()
