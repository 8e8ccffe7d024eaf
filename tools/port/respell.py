#!/usr/bin/env python3
"""Respells this repository's own definitions, lemmas, fields and local names of antt in snake case, after the kit's port.py.

usage: python3 tools/port/respell.py [--list]      at the top of the repository; files are rewritten in place

A name of our own that has capitals inside (`isReserved`) or dashes (`reserved-is-listed`) becomes `is_reserved`, `reserved_is_listed`.
Names of the library, of functions, fields and parameters of src/, exported names, strings, inputs and outputs stay.
Where a lemma would fall together with a definition, the lemma gets `_lem`; other names that would fall together stop the script.
The names that the documents, tests and tools cite between backquotes or in lists are respelled too, by the same table.
"""

import collections
import glob
import os
import re
import sys

# a definition that is a fact is spelled as a type
FACTS = {"heldFor": "HeldFor"}
WORD = r"[A-Za-zα-ω_][\w'′]*(?:-[\w'′]+)*"
DECLARED = re.compile(
    r"^(\s*)(?:where\s+)?((?:abbrev|unfoldable)\s+)?(pub\s+)?((?:record|data|ruleset)\s+)?(" + WORD + r")"
    r"(?:\s*\{[ℓ\s\w]*\})?\s*((?:\([^)]*\)\s*|\{[^}]*\}\s*)*):\s"
)
SETS = re.compile(r"^(?:pub\s+)?ruleset\s+(?:pub\s+)?(" + WORD + ")")
USE = re.compile(r"\buse\s+([^\s{};]+?)\.\{([^}]*)\}")


def read(path):
    with open(path, encoding="utf-8") as f:
        return f.read()


def files():
    own = sorted(glob.glob("crates/*/specs/**/*.antt", recursive=True) + glob.glob("crates/*/proofs/**/*.antt", recursive=True))
    return [p for p in own if "/out/" not in p]


def is_walk(path):
    return path.endswith("/Proof.antt")


def snake(name):
    if name in FACTS:
        return FACTS[name]
    if not name[0].isupper():
        # a type, a constructor or a fact keeps its capitals
        name = re.sub(r"(?<=[a-z0-9])([A-Z])", lambda m: "_" + m[1].lower(), name)
    return name.replace("-", "_").replace("′", "'")


def code_and_comment(line, mark):
    i = line.find(mark)
    return (line, "") if i < 0 else (line[:i], line[i:])


def declared():
    """Each name that our own files declare: whether it is a definition (an abbrev, an unfoldable or a type), and where."""
    kinds, where = collections.defaultdict(set), collections.defaultdict(set)
    for path in files():
        if is_walk(path):
            continue
        for line in read(path).split("\n"):
            code, _ = code_and_comment(line, "-- ")
            m = DECLARED.match(code + " ") or None
            if m:
                name = m[5]
                kind = "def" if m[2] or m[4] else ("local" if m[1] else "lemma")
                kinds[name].add(kind)
                where[name].add(path)
            else:
                m = SETS.match(code)
                if m:
                    kinds[m[1]].add("def")
                    where[m[1]].add(path)
    return kinds, where


def foreign(text):
    """The names that a file takes from the library."""
    out = set()
    for module, names in USE.findall(text):
        parts = module.split(".")
        if parts[0] == "Rattle" and len(parts) > 1 and os.path.isdir(os.path.join("crates", parts[1])):
            continue
        out |= {n.strip().split(" as ")[0] for n in names.split(",")}
    return out


def uses(path, name):
    return re.search(TOKEN_AT + re.escape(name) + TOKEN_END, strip(read(path))) is not None


def strip(text):
    return "\n".join(code_and_comment(line, "-- ")[0] for line in text.split("\n"))


# a name as a whole, not a part of a longer one
TOKEN_AT = r"(?<![\w'′·◌-])"
TOKEN_END = r"(?![\w'′-])"


def table():
    kinds, where = declared()
    by = collections.defaultdict(set)
    for name in kinds:
        by[snake(name)].add(name)
    to = {}
    for new, olds in by.items():
        defs = {o for o in olds if "def" in kinds[o]}
        if len(defs) > 1:
            print(f"together: {new}: {[(o, sorted(where[o])[:3]) for o in sorted(defs)]}", file=sys.stderr)
        for old in olds:
            name = new
            if defs and old not in defs:
                (meant,) = sorted(defs)[:1]
                # a field or a local name may share the definition's name where no file speaks of both
                if kinds[old] != {"local"} or any(uses(path, meant) for path in where[old]):
                    name = new + "_lem"
            if name != old:
                to[old] = name
    return to, kinds, where


def turned(code, to, keep, walk=False):
    """Code with each name of ours respelled."""

    def one(m):
        old = m[0]
        if old in keep or old not in to:
            return old
        plain = not re.search(r"[A-Z]|-|′", old)
        if plain and code[: m.start()].endswith(".") and (walk or re.search(r"[\w]\.$", code[: m.start()])):
            # a field or a path that has the name already
            return old
        return to[old]

    return re.sub(TOKEN_AT + WORD + TOKEN_END, one, code)


def turned_text(text, to, mark, walk=False):
    """A comment, or a document: only what stands between backquotes, a name with capitals inside, or one of three words or more."""

    def quoted(m):
        return "`" + turned(m[1], to, set(), walk) + "`"

    def one(m):
        old = m[0]
        told = re.search(r"^[a-z0-9]+[A-Z]", old) or old.count("-") > 1 and re.search(r"^[a-z]", old)
        return to[old] if told and old in to else old

    text = re.sub(r"`([^`\n]*)`", quoted, text)
    return re.sub(TOKEN_AT + WORD + TOKEN_END, one, text)


def write(path, text, old):
    if text != old:
        with open(path, "w", encoding="utf-8") as f:
            f.write(text)
        return 1
    return 0


def antt(path, to, kinds, where):
    old = read(path)
    keep = foreign(old)
    both = {n for n in keep if n in to and path in where.get(n, ())}
    if both:
        print(f"look: {path}: {sorted(both)} are the library's and its own", file=sys.stderr)
    met = {o for o in set(re.findall(TOKEN_AT + WORD + TOKEN_END, strip(old))) if o in to and o not in keep and to[o] in keep}
    if met:
        print(f"look: {path}: {[(o, to[o]) for o in sorted(met)]}: the new name is one of the library's here", file=sys.stderr)
    out = []
    for line in old.split("\n"):
        code, comment = code_and_comment(line, "-- ")
        out.append(turned(code, to, keep, is_walk(path)) + (turned_text(comment, to, "-- ") if comment else ""))
    return write(path, "\n".join(out), old)


def rt(path, to, kinds):
    """Clauses and ghost imports cite definitions alone, and these have capitals inside, which no name of the code has."""
    old = read(path)
    defs = {o: n for o, n in to.items() if "def" in kinds[o] and re.search(r"[a-z0-9][A-Z]", o)}
    out = []
    for line in old.split("\n"):
        pieces = re.split(r'(b?"(?:[^"\\]|\\.)*")', line)
        out.append("".join(p if i % 2 else turned(p, defs, set()) for i, p in enumerate(pieces)))
    return write(path, "\n".join(out), old)


def edit(path, to, kinds):
    old = read(path)
    out, spec = [], False
    for line in old.split("\n"):
        m = re.match(r"(file|old|new):(.*)$", line)
        if m and m[1] == "file":
            spec = m[2].strip().endswith(".antt")
            out.append(line)
        elif m:
            table = to if spec else {o: n for o, n in to.items() if re.search(r"[a-z0-9][A-Z]", o)}
            out.append(f"{m[1]}:{turned(m[2], table, set())}")
        else:
            out.append(turned_text(line, to, "#"))
    return write(path, "\n".join(out), old)


def document(path, to):
    old = read(path)
    return write(path, turned_text(old, to, ""), old)


def main():
    to, kinds, where = table()
    if "--list" in sys.argv:
        for old in sorted(to):
            print(old, to[old], ",".join(sorted(kinds[old])))
        return
    n = 0
    for path in files():
        n += antt(path, to, kinds, where)
    for path in sorted(glob.glob("crates/*/src/**/*.rt", recursive=True)):
        n += rt(path, to, kinds)
    for path in sorted(glob.glob("crates/*/must-fail/*.edit")):
        n += edit(path, to, kinds)
    for path in ["README.md", *sorted(glob.glob("docs/*.md"))]:
        n += document(path, to)
    print(f"respell: {len(to)} names, {n} files")


if __name__ == "__main__":
    main()
