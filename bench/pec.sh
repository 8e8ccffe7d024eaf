#!/bin/sh
# Instructions a byte for the PEC, by callgrind: the library, and plain C beside it, bit by bit and with a table.
# Fails where the library is above the limit of a length. What it makes goes to build/; build/bench/pec.txt has the counts.
#   bench/pec.sh [LIBRARY]
set -eu
cd "$(dirname "$0")/.."
# The bytes, and the limit for each of them; 0: none. The compiler clears the table before it fills it, which is 17 instructions more than its
# forerunner took, under which the limits were 8 and 4.1.
limits='1:0 16:9 255:4.2 65536:0'
out=build/bench
library=${1:-crates/c_api/out/libc_api.a}
mkdir -p "$out"
[ $# -gt 0 ] || sh tests/build.sh c_api
sh bench/plain.sh
gcc -std=c11 -O2 -Wall -Wextra -Werror -Iinclude bench/pec.c "$out/bit.o" "$out/table.o" "$library" -o "$out/pec"

instructions() { # WHICH CALLS BYTES: of the whole run
    valgrind --tool=callgrind --callgrind-out-file=/dev/null "$out/pec" "$1" "$2" "$3" 2>&1 >/dev/null |
        awk '/Collected/ { print $NF }'
}

# A hundred calls more, of a long message ten, so that start-up falls out.
for row in $limits; do
    bytes=${row%:*}
    more=100
    [ "$bytes" -le 255 ] || more=10
    due=$("$out/pec" library 300 "$bytes")
    for which in plain table; do
        [ "$("$out/pec" "$which" 300 "$bytes")" = "$due" ] || {
            echo "bench: the library and plain C give different PECs" >&2
            exit 1
        }
    done
    for which in library plain table; do
        few=$(instructions "$which" 1 "$bytes")
        many=$(instructions "$which" $((1 + more)) "$bytes")
        echo "$bytes $which $(((many - few) / more)) ${row#*:}"
    done
done >"$out/pec.txt"

awk '
{
    cost[$2, $1] = $3
    limit[$1] = $4
    if ($2 == "library") bytes[++rows] = $1
}
END {
    print "pec, instructions a byte"
    printf "%8s %8s %6s %12s %14s\n", "bytes", "library", "limit", "bit by bit", "with a table"
    for (k = 1; k <= rows; k++) {
        n = bytes[k]
        ours = cost["library", n] / n
        printf "%8d %8.2f %6s %12.2f %14.2f\n", n, ours, limit[n] ? limit[n] : "-", cost["plain", n] / n, cost["table", n] / n
        if (!(ours > 0 && cost["plain", n] > 0 && cost["table", n] > 0 && (limit[n] == 0 || ours <= limit[n])))
            above = above " " n
    }
    if (rows == 0 || above != "") {
        print "bench: above the limit, or nothing counted:" above
        exit 1
    }
}' "$out/pec.txt"
