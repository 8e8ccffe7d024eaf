#!/bin/sh
# The library from C, under valgrind: include/headboarded.h declares every function that the library has and no other, and bench/symbols.h
# those of the benchmark's library; the C tests call each; the structs of the header have the fields of those of the crates, in their
# order. What it makes goes to build/.
#   tests/boundary.sh LIBRARY SYMBOLS
set -eu
cd "$(dirname "$0")/.."
library=$1
symbols=$2
# On another processor than x86-64 tests/emulated.sh names a compiler for it and an emulator.
compiler=${CC_FOR_C:-gcc}
runner=${RUN_C:-valgrind -q --error-exitcode=9 --leak-check=full --errors-for-leak-kinds=all}
out=build/tests
mkdir -p "$out"

exported() { # LIBRARIES: the functions that they have
    nm "$@" 2>/dev/null | awk '$2 == "T" && $3 ~ /^hb_/ { print $3 }' | sort
}
names() { # FILES: the functions that they name
    cat "$@" | grep -o '\bhb_[a-z_]* *(' | tr -d ' (' | sort -u
}
same() { # WORDS: what is in build/tests/given is what is in build/tests/due
    [ -s "$out/due" ] || { echo "boundary: nothing to compare: $*"; exit 1; }
    diff "$out/due" "$out/given" || { echo "boundary: $*"; exit 1; }
}
exported "$library" >"$out/due"
names include/headboarded.h >"$out/given"
same 'the functions of the library are not those of include/headboarded.h'
exported "$symbols" >"$out/due"
names bench/symbols.h >"$out/given"
same 'the functions of the benchmark are not those of bench/symbols.h'
exported "$library" "$symbols" >"$out/due"
names tests/c/*.c >"$out/given"
same 'the functions of the libraries are not those that tests/c calls'

# A struct by line: its name and, for each field, type and name, in the words of C. HbUdid is hb_udid there, u32 uint32_t, usize size_t.
awk '
/^#\[repr\(C\)\]/ { due = 1; next }
due && /^pub struct Hb/ { name = "hb_" tolower(substr($3, 3)); fields = ""; inside = 1; due = 0; next }
inside && /^}/ { print name fields; inside = 0; next }
inside {
    type = $3
    sub(/,$/, "", type)
    if (type ~ /^Hb/) type = "hb_" tolower(substr(type, 3))
    else if (type == "usize") type = "size_t"
    else { sub(/^u/, "uint", type); type = type "_t" }
    field = $2
    sub(/:$/, "", field)
    fields = fields " " type " " field
}' crates/c_codec/src/*.rt crates/c_arp/src/*.rt crates/c_module/src/*.rt | sort >"$out/due"
awk '
/^typedef struct \{/ { inside = 1; fields = ""; next }
inside && /^}/ { name = $2; sub(/;$/, "", name); print name fields; inside = 0; next }
inside { sub(/;$/, ""); fields = fields " " $1 " " $2 }' include/headboarded.h | sort >"$out/given"
same 'the structs of the crates are not those of include/headboarded.h'
printf '%-36s %8d cases\n' 'structs of the header' "$(wc -l <"$out/due")"

# shellcheck disable=SC2086
$compiler -std=c11 -O1 -g -Wall -Wextra -Werror -Iinclude tests/c/*.c "$library" "$symbols" -o "$out/from_c"
$runner "$out/from_c" >"$out/from_c.log" 2>&1 || {
    cat "$out/from_c.log"
    exit 1
}
cat "$out/from_c.log"
