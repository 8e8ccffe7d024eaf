#!/bin/sh
# Instructions of a search for the next free address, by callgrind: the library, and plain C beside it that walks from address to address.
# What they pick is compared first. Fails where the library is above the limit. What it makes goes to build/.
#   bench/pick.sh [LIBRARY]
set -eu
cd "$(dirname "$0")/.."
limit=150
cases=18 # in bench/pick.c
out=build/bench
library=${1:-crates/c_api/out/libc_api.a}
mkdir -p "$out"
[ $# -gt 0 ] || sh tests/build.sh c_api
gcc -std=c11 -O2 -Wall -Wextra -Werror -Iinclude bench/pick.c "$library" -o "$out/pick"
sh bench/counted.sh pick
awk -v limit="$limit" -v cases="$cases" '
/^desc: Trigger: Client Request:/ {
    sub(/^desc: Trigger: Client Request: */, "")
    split($0, word, " ")
}
/^totals:/ && word[2] != "" {
    row = word[2] " " word[3] " " word[4]
    if (!(row in seen)) {
        seen[row] = 1
        rows[++count] = row
    }
    cost[word[1], row] = $2
    word[2] = ""
}
END {
    print "next free address, instructions"
    printf "%12s %5s %7s %8s %6s %8s\n", "used", "last", "picked", "library", "limit", "plain C"
    for (k = 1; k <= count; k++) {
        split(rows[k], word, " ")
        ours = cost["library", rows[k]]
        plain = cost["plain", rows[k]]
        printf "%12s %5d %7d %8d %6d %8d\n", word[1], word[2], word[3], ours, limit, plain
        if (!(ours > 0 && plain > 0 && ours <= limit))
            above = above " " word[1] " after " word[2] ";"
    }
    if (count != cases || above != "") {
        print "bench: above the limit, or not all counted:" above
        exit 1
    }
}' "$out/pick.callgrind"
