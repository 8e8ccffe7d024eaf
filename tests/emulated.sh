#!/bin/sh
# What tests/run runs on a processor other than x86-64. rt builds programs and libraries for x86-64 alone, so there they run under the emulator
# of rt's kit (tests/emulate.sh), and what is in C is compiled for x86-64 by the kit's compiler. Not run there are the Rust programs that link
# the library, valgrind over the C tests, the benchmarks and two examples of README.md: that is said at the end. What it makes goes to build/.
set -eu
cd "$(dirname "$0")/.."
out=build/tests
emulated=build/emulated
library=crates/c_api/out/libc_api.a
symbols=crates/bench_api/out/libbench_api.a
mkdir -p "$out" "$emulated"

sh tests/build.sh passes drive headboarded c_api bench_api

for name in passes headboarded; do
    printf '#!/bin/sh\nexec sh "%s/tests/emulate.sh" "%s/crates/%s/out/%s" "$@"\n' "$PWD" "$PWD" "$name" "$name" >"$emulated/$name"
    chmod +x "$emulated/$name"
done

compile() { # NAME FOLDER: the program FOLDER/NAME.rs over the reference
    rustc --edition 2021 -O -D warnings --extern reference="$out/libreference.rlib" -o "$out/$1" "$2/$1.rs"
}

# What needs nothing of rt. The gate runs it beside rt ci, and says so.
[ -n "${HB_REFERENCE:-}" ] || sh tests/reference.sh

sh tests/types.sh

compile passes tests/programs
"$out/passes" "$emulated/passes"

compile console tests/programs
"$out/console" "$emulated/headboarded" crates/headboarded/stdin examples/shelf.txt

CC_FOR_C="sh tests/x86_cc.sh" RUN_C="sh tests/emulate.sh" sh tests/boundary.sh "$library" "$symbols"

HB_CONSOLE=$emulated/headboarded sh tests/documents.sh

echo "tests: not run on $(uname -m): the Rust programs that link the library, valgrind, the benchmarks, the examples of README.md that start"
echo "tests: crates/drive/out/drive or link the library"
echo "tests: ok"
