#!/bin/sh
# Proves and builds crates: a program to crates/NAME/out/NAME, a static library to crates/NAME/out/libNAME.a. What rt says goes to
# build/NAME.log, and is shown only where it fails. rt ci has built the programs, and no library: the gate calls this after it, and says so by
# HB_PROGRAMS. Then a program is not built once more, but has to be there.
#   tests/build.sh NAME..
set -eu
cd "$(dirname "$0")/.."
mkdir -p build
for name; do
    command=lib
    if [ -e "crates/$name/src/main.rt" ]; then
        # rt run also runs what it has built: with no input, and what that writes goes to the log.
        command=run
        if [ -n "${HB_PROGRAMS:-}" ]; then
            [ -x "crates/$name/out/$name" ] || { echo "build: rt ci left no crates/$name/out/$name"; exit 1; }
            continue
        fi
    fi
    (cd "crates/$name" && rt "$command") >"build/$name.log" 2>&1 </dev/null || {
        cat "build/$name.log"
        exit 1
    }
done
