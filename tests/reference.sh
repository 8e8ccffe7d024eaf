#!/bin/sh
# The independent reference by itself: against published values, marked cases, brute force, and its own second tellings. And what the page
# of promises rests on: the list at its head, and the limits. Needs rustc alone. What it makes goes to build/.
set -eu
cd "$(dirname "$0")/.."
out=build/tests
mkdir -p "$out"

compile() { # NAME FOLDER: the program FOLDER/NAME.rs over the reference
    rustc --edition 2021 -O -D warnings --extern reference="$out/libreference.rlib" -o "$out/$1" "$2/$1.rs"
}

rustc --edition 2021 -O -D warnings --crate-type rlib --crate-name reference \
    -o "$out/libreference.rlib" tests/reference/lib.rs

compile believed tests/programs
"$out/believed" crates

compile selftest tests/reference
"$out/selftest" tests/vectors

compile arp_selftest tests/reference
"$out/arp_selftest"

compile module_selftest tests/reference
"$out/module_selftest"

compile vectors tests/reference
"$out/vectors" check tests/vectors
