#!/usr/bin/env python3
"""Prints, as the end of docs/DESIGN-PASS.md, what differs between two trees of this repository: public signatures with their clauses,
types with their invariants, definitions, and the statements of theorems. python3 tools/design/changed.py OLD NEW
OLD and NEW are folders with crates/. It goes by text. Of a theorem the statement is compared, and of a definition all of it."""
import collections
import glob
import re
import sys

from places import braces


def flat(text):
    return re.sub(r'\s+', ' ', text).strip()


def outer_impl(t, at):
    name = ''
    for m in re.finditer(r'(?m)^impl\b([^{]*)\{', t[:at]):
        if braces(t, m.end() - 1) > at:
            name = flat(m.group(1))
    return name


def source_items(root):
    """(crate, kind, name) -> texts: public functions with their clauses, types and impls with theirs"""
    items = collections.defaultdict(list)
    for f in sorted(glob.glob(root + '/crates/*/src/**/*.rt', recursive=True)):
        crate = f.split('/crates/')[1].split('/')[0]
        t = re.sub(r'//[^\n]*', '', open(f, encoding='utf-8').read())
        for m in re.finditer(r'(?m)^[ \t]*(?:#\[[^\n]*\]\s*)*((?:pub )?(?:extern "C" )?fn (\w+))', t):
            left = t.find('(', m.end())
            depth, i = 0, left
            while True:
                depth += {'(': 1, ')': -1}.get(t[i], 0)
                i += 1
                if depth == 0:
                    break
            end = i
            while True:
                b = t.find('{', end)
                if b < 0 or not re.search(r'\b(requires|ensures)\b', t[end:b]):
                    break
                end = braces(t, b)
            b = t.find('{', end)
            if b < 0:
                continue
            ret = re.match(r'\s*(?:->[^{]*?)?(?=\s*(?:requires|ensures|where|\{))', t[i:])
            text = flat(t[m.start(1):end if end > i else i + (ret.end() if ret else 0)])
            text = text.replace('( ', '(').replace(', )', ')')
            where = outer_impl(t, m.start(1))
            if text.startswith('pub ') or ' for ' in where:
                items[crate, 'function', (where + ' :: ' if where else '') + m.group(2)].append(text)
        for m in re.finditer(r'(?m)^[ \t]*((?:#\[derive[^\n]*\]\s*)?pub(?:\(crate\))? (?:struct|enum) (\w+)[^{;]*)([{;])', t):
            end = braces(t, m.end() - 1) if m.group(3) == '{' else m.end()
            items[crate, 'type', m.group(2)].append(flat(t[m.start(1):end]).replace(', }', ' }'))
        for m in re.finditer(r'(?m)^[ \t]*(ghost (?!use)\w[^;]*;)', t):
            items[crate, 'ghost', outer_impl(t, m.start(1)) + ' ' + flat(m.group(1)).split(':')[0].split('=')[0]].append(flat(m.group(1)))
    return items


HEAD = re.compile(r"^(\s*)((?:abbrev |unfoldable |opaque )?(?:pub )?)([^\s:(){}]+) : (.*)$")
RECORD = re.compile(r'^(\s*)((?:pub )?record ([^\s({]+).*)$')


def spec_items(root):
    """(crate, kind, name) -> texts: definitions whole, records whole, theorems without their proofs"""
    items = collections.defaultdict(list)
    for f in sorted(glob.glob(root + '/crates/*/specs/*.antt')) + sorted(glob.glob(root + '/crates/*/proofs/*.antt')):
        crate = f.split('/crates/')[1].split('/')[0]
        lines = [re.sub(r'\s*--.*$', '', line) for line in open(f, encoding='utf-8').read().split('\n')]
        i = 0
        while i < len(lines):
            r, m = RECORD.match(lines[i]), HEAD.match(lines[i])
            if r:
                indent, text, i = len(r.group(1)), [lines[i]], i + 1
                while i < len(lines) and (not lines[i].strip() or len(lines[i]) - len(lines[i].lstrip()) > indent):
                    text.append(lines[i])
                    i += 1
                items[crate, 'record', r.group(3)].append(flat(' '.join(text)))
                continue
            if m and not m.group(3).startswith(('use ', 'module ', '--')):
                indent, name, text, i = len(m.group(1)), m.group(3), [lines[i]], i + 1
                while i < len(lines) and lines[i].strip() and len(lines[i]) - len(lines[i].lstrip()) > indent:
                    text.append(lines[i])
                    i += 1
                statement = flat(' '.join(text))
                body = []
                while i < len(lines) and (re.match(r'^\s{%d}%s(?=\s|$)' % (indent, re.escape(name)), lines[i]) or (body and lines[i].strip() and len(lines[i]) - len(lines[i].lstrip()) > indent)):
                    body.append(lines[i])
                    i += 1
                if 'abbrev' in m.group(2) or 'unfoldable' in m.group(2):
                    items[crate, 'definition', name].append(statement + ' ' + flat(' '.join(body)))
                elif indent == 0 or 'pub' in m.group(2):
                    items[crate, 'theorem', name].append(statement)
                continue
            i += 1
    return items


def beside(title, kinds, old, new, moved):
    keys = sorted(k for k in set(old) | set(new) if k[1] in kinds and sorted(old.get(k, [])) != sorted(new.get(k, [])))
    print('\n## %s (%d)\n\n```text' % (title, len(keys)))
    for k in keys:
        a, b = list(old.get(k, [])), list(new.get(k, []))
        for x in list(a):
            if x in b:
                a.remove(x)
                b.remove(x)
        if not a and not b:
            continue
        print('%s %s%s' % (k[0], k[2], '' if k in old and k in new else ' (new)' if k in new else ' (gone)'))
        for x in a:
            print('  - ' + x)
        for x in b:
            print('  + ' + x)
    print('```')


def main():
    old_root, new_root = sys.argv[1], sys.argv[2]
    old, new = source_items(old_root), source_items(new_root)
    beside('Public functions: signatures and clauses', ('function',), old, new, {})
    beside('Types', ('type',), old, new, {})
    beside('Invariants and ghost members', ('ghost',), old, new, {})
    old, new = spec_items(old_root), spec_items(new_root)
    beside('Definitions and records', ('definition', 'record'), old, new, {})
    beside('Theorems', ('theorem',), old, new, {})


main()
