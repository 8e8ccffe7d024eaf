#!/bin/sh
# Instructions of a step that binds a target, by callgrind. The program passes runs a script up to that step, and the same with
# it; the decoding is taken out of the difference. What is left is the step with what the program does around it: it reads the
# trace, keeps the state and writes the command. Fails above the limit.
# What it makes goes to build/.
#   bench/step.sh [LIBRARY PROGRAM]
set -eu
cd "$(dirname "$0")/.."
limit=3500
out=build/bench
library=${1:-crates/c_api/out/libc_api.a}
program=${2:-crates/passes/out/passes}
mkdir -p "$out"
[ $# -gt 0 ] || sh tests/build.sh c_api passes
gcc -std=c11 -O2 -Wall -Wextra -Werror -Iinclude bench/step.c "$library" -o "$out/step"
"$out/step" 2 >"$out/before.script"
"$out/step" 3 >"$out/bound.script"

lookup() { # SCRIPT: what the program answers for address 20h after it: 0 where a target is bound, 15 where nobody is. The finds
    # are followed by the last pick, one byte
    { cat "$1" && printf '\003'; } | "$program" | tail -c $((128 * 17 + 1)) | od -An -tu1 -j $((32 * 17)) -N 1 | tr -d ' '
}

# The C library clears more than 2 KB, and a controller's state is more, by one instruction that repeats itself, and callgrind counts that once
# for each byte. Here the library is told to clear as it clears less: by a loop.
instructions() { # SCRIPT WORDS..: of the whole run, or of what the words name
    script=$1
    shift
    GLIBC_TUNABLES=glibc.cpu.x86_rep_stosb_threshold=1000000 valgrind --tool=callgrind --callgrind-out-file=/dev/null "$@" "$program" <"$script" 2>&1 >/dev/null |
        awk '/Collected/ { print $NF }'
}

[ "$(lookup "$out/before.script") $(lookup "$out/bound.script")" = '15 0' ] || {
    echo "bench: the step does not bind the target"
    exit 1
}
whole=$(($(instructions "$out/bound.script") - $(instructions "$out/before.script")))
decoding=$(($(instructions "$out/bound.script" --toggle-collect=decode::decode) -
    $(instructions "$out/before.script" --toggle-collect=decode::decode)))
awk -v whole="$whole" -v decoding="$decoding" -v limit="$limit" 'BEGIN {
    rest = whole - decoding
    form = "a step that binds: %d instructions without %d of decoding, limit %d\n"
    printf form, rest, decoding, limit
    exit !(decoding > 0 && rest > 0 && rest <= limit)
}' || {
    echo "bench: above the limit, or nothing counted"
    exit 1
}
