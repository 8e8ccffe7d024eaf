#!/bin/sh
# Instructions of a model run with 1, 10, 60 and 120 targets, by callgrind: the library, and plain C beside it that applies the
# plain rule and writes and reads the same traces, with the PEC bit by bit and with a table. Their answers and buffers are compared first.
# Fails where a ratio is above the limit of its size, or where a target among 120 costs more than its limit times what it costs among 10.
# What it makes goes to build/.
#   bench/model.sh [LIBRARY]
set -eu
cd "$(dirname "$0")/.."
# The targets, the limit against plain C bit by bit, and that against plain C with a table.
limits='1:1.5:2.1 10:1.3:2.05 60:1.3:2.05 120:1.3:1.85'
growth=1.35
out=build/bench
library=${1:-crates/c_api/out/libc_api.a}
mkdir -p "$out"
[ $# -gt 0 ] || sh tests/build.sh c_api
sh bench/plain.sh
gcc -std=c11 -O2 -Wall -Wextra -Werror -Iinclude bench/model.c "$out/bit.o" "$out/bit_model.o" "$out/table.o" "$out/table_model.o" \
    "$library" -o "$out/model"
sh bench/counted.sh model
awk -v limits="$limits" -v growth="$growth" '
# The count of a plain program for n targets, and how it is to the library and its limit.
function beside(who, n, limit,    plain) {
    plain = cost[who, n]
    if (!(ours > 0 && plain > 0 && ours <= limit * plain))
        above = above " " who " " n
    printf " %12d %6.2f %6s", plain, plain ? ours / plain : 0, limit
}
/^desc: Trigger: Client Request:/ {
    sub(/^desc: Trigger: Client Request: */, "")
    split($0, word, " ")
}
/^totals:/ && word[2] != "" {
    cost[word[1], word[2]] = $2
    answer[word[2]] = word[3]
    bound[word[2]] = word[4]
    gets[word[2]] = word[5]
    word[2] = ""
}
END {
    print "model run, instructions"
    form = "%8s %7s %6s %9s %12s %12s %6s %6s %12s %6s %6s\n"
    printf form, "targets", "answer", "bound", "Get UDIDs", "library", "bit by bit", "ratio", "limit", "with a table", "ratio", "limit"
    rows = split(limits, row, " ")
    for (k = 1; k <= rows; k++) {
        split(row[k], word, ":")
        n = word[1]
        ours = cost["library", n]
        printf "%8d %7d %6d %9d %12d", n, answer[n], bound[n], gets[n], ours
        beside("plain", n, word[2])
        beside("table", n, word[3])
        print ""
    }
    few = cost["library", 10] / 10
    many = cost["library", 120] / 120
    printf "a target among 120 costs %.2f times what it costs among 10, limit %s\n", few ? many / few : 0, growth
    if (!(few > 0 && many <= growth * few))
        above = above " growth"
    if (above != "") {
        print "bench: above the limit, or nothing counted:" above
        exit 1
    }
}' "$out/model.callgrind"
