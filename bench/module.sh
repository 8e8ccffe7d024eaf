#!/bin/sh
# Instructions of a byte that a module receives, and of one that it supplies, by callgrind: the whole call, with what hands the module over.
# What the counting itself takes is counted once with no call, and taken out. What the module answers is compared. Fails where a byte is
# above the limit. What it makes goes to build/.
#   bench/module.sh [LIBRARY]
set -eu
cd "$(dirname "$0")/.."
limit=120
cases=35 # in bench/module.c, by their labels
out=build/bench
library=${1:-crates/c_api/out/libc_api.a}
mkdir -p "$out"
[ $# -gt 0 ] || sh tests/build.sh c_api
gcc -std=c11 -O2 -Wall -Wextra -Werror -Iinclude bench/module.c "$library" -o "$out/module"
sh bench/counted.sh module
awk -v limit="$limit" -v cases="$cases" '
/^desc: Trigger: Client Request:/ {
    sub(/^desc: Trigger: Client Request: */, "")
    label = $0
}
/^totals:/ && label == "nothing" {
    counting = $2
    label = ""
}
/^totals:/ && label != "" {
    cost = $2 - counting
    if (!(label in most)) {
        rows[++count] = label
        least[label] = most[label] = cost
    }
    if (cost > most[label]) most[label] = cost
    if (cost < least[label]) least[label] = cost
    label = ""
}
END {
    printf "a byte of a module, instructions, without %d of the counting\n", counting
    printf "%10s %24s %6s %6s %6s\n", "work", "byte", "least", "most", "limit"
    for (k = 1; k <= count; k++) {
        split(rows[k], word, " ")
        printf "%10s %24s %6d %6d %6d\n", word[1], word[2], least[rows[k]], most[rows[k]], limit
        if (!(least[rows[k]] > 0 && most[rows[k]] <= limit)) above = above " " rows[k] ";"
    }
    if (count != cases || counting == 0 || above != "") {
        print "bench: above the limit, or not all counted:" above
        exit 1
    }
}' "$out/module.callgrind"
