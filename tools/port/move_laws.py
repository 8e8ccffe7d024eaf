#!/usr/bin/env python3
"""Moves files of theorems from specs/ to proofs/, and follows them wherever they are named.

usage: python3 tools/port/move_laws.py      at the top of the repository; it may be run again

A must-fail edit of a definition is read by rt as one that cannot be read where theorems in specs/ rest on it. tools/port/moved.txt has a line
for each crate: its name, and the files of theorems that stand in proofs/ for that reason.
"""

import glob
import os
import re

HERE = os.path.dirname(os.path.abspath(__file__))


def read(path):
    with open(path, encoding="utf-8") as f:
        return f.read()


def write(path, text):
    with open(path, "w", encoding="utf-8") as f:
        f.write(text)


def named(path, name):
    return os.path.isfile(path) and re.search(rf"^\s*(pub )?mod {name}\s*$", read(path), re.M)


def move(crate, name):
    specs, proofs = f"crates/{crate}/specs", f"crates/{crate}/proofs"
    if os.path.isfile(f"{specs}/{name}.antt"):
        os.makedirs(proofs, exist_ok=True)
        os.rename(f"{specs}/{name}.antt", f"{proofs}/{name}.antt")
    lib = f"{specs}/Lib.antt"
    if named(lib, name):
        write(lib, re.sub(rf"^pub mod {name}\n", "", read(lib), flags=re.M))
    lib = f"{proofs}/Lib.antt"
    if not named(lib, name):
        write(lib, (read(lib) if os.path.isfile(lib) else "") + f"pub mod {name}\n")


def main():
    moved = {}
    for line in read(os.path.join(HERE, "moved.txt")).split("\n"):
        words = line.split()
        if words and not line.startswith("#"):
            moved[words[0]] = words[1:]
    for crate, names in moved.items():
        for name in names:
            move(crate, name)
    any_of = {crate: "|".join(sorted(names, key=len, reverse=True)) for crate, names in moved.items()}
    files = [p for end in ("antt", "rt", "edit") for p in glob.glob(f"crates/*/**/*.{end}", recursive=True) if "/out/" not in p]
    for path in files:
        old = text = read(path)
        own = path.split("/")[1]
        for crate, names in any_of.items():
            text = re.sub(rf"\bRattle\.{crate}\.specs\.({names})\b(?!')", rf"Rattle.{crate}.proofs.\1", text)
            head = "crate" if crate == own else crate
            text = re.sub(rf"\b{head}::specs::({names})::", rf"{head}::proofs::\1::", text)
        if path.endswith(".edit") and own in any_of:
            text = re.sub(rf"^file: specs/({any_of[own]})\.antt", r"file: proofs/\1.antt", text, flags=re.M)
        if text != old:
            write(path, text)


if __name__ == "__main__":
    main()
