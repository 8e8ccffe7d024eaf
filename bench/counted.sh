#!/bin/sh
# Runs build/bench/NAME under callgrind. Its dumps go to build/bench/NAME.callgrind; what it says is shown only where it fails.
#   bench/counted.sh NAME
set -eu
cd "$(dirname "$0")/.."
program=build/bench/$1
rm -f "$program.callgrind"
# The C library clears more than 2 KB, and a controller's state is more, by one instruction that repeats itself, and callgrind counts that once
# for each byte. Here the library is told to clear as it clears less, by a loop, for both sides.
GLIBC_TUNABLES=glibc.cpu.x86_rep_stosb_threshold=1000000 \
    valgrind --tool=callgrind --combine-dumps=yes --callgrind-out-file="$program.callgrind" "$program" >"$program.log" 2>&1 || {
    cat "$program.log"
    exit 1
}
