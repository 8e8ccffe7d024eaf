#!/bin/sh
# Instructions a symbol for encoding and decoding, by callgrind, of the library and of plain C beside it,
# for each protocol; fails where encode is above 1.6 times or decode above 2.5 times plain C. Where there is a PEC, each
# side's own PEC work over the same bytes is taken out; that of plain C goes bit by bit.
# Of blocks of 255 bytes the whole call has limits too, PEC work included: 2,000 instructions to encode one with a PEC, 27 a symbol to
# decode one with or without. Before the compiler of today the limits were 1.5 times and 25. The entries on byte pairs are shown there beside those on symbols, and have no limit.
# What it makes goes to build/.
#   bench/codec.sh [LIBRARY SYMBOLS]
set -eu
cd "$(dirname "$0")/.."
out=build/bench
library=${1:-crates/c_api/out/libc_api.a}
symbols=${2:-crates/bench_api/out/libbench_api.a}
mkdir -p "$out"
[ $# -gt 0 ] || sh tests/build.sh c_api bench_api
sh bench/plain.sh
gcc -std=c11 -O2 -Wall -Wextra -Werror -Iinclude bench/codec.c "$out/bit.o" "$out/table.o" "$library" "$symbols" -o "$out/codec"
sh bench/counted.sh codec
awk -f bench/codec.awk "$out/codec.callgrind"
