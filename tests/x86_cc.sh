#!/bin/sh
# Compiles C files and libraries to one program for x86-64, on another processor: with the compiler, linker and C library of rt's kit, and the
# headers of gcc.
#   tests/x86_cc.sh WORDS.. -o PROGRAM, as for gcc
set -eu
kit=${RATTLE_HOME:-$(dirname "$(dirname "$(readlink -f "$(command -v rt)")")")}
tools=$kit/on/$(uname -m)/toolchain
[ -x "$tools/bin/clang" ] || { echo "x86_cc: no compiler in $tools" >&2; exit 1; }
work=build/x86_cc
rm -rf "$work"
mkdir -p "$work"
flags= files= objects= program= number=0
while [ $# -gt 0 ]; do
    case $1 in
    -o) program=$2 && shift ;;
    *.c) files="$files $1" ;;
    *.a) objects="$objects $1" ;;
    *) flags="$flags $1" ;;
    esac
    shift
done
made=
for file in $files; do
    number=$((number + 1))
    # shellcheck disable=SC2086
    "$tools/bin/clang" --target=x86_64-unknown-linux-gnu $flags -fPIC -nostdinc -isystem "$(gcc -print-file-name=include)" \
        -isystem "/usr/include/$(gcc -dumpmachine)" -isystem /usr/include -c "$file" -o "$work/$number.o"
    made="$made $work/$number.o"
done
lib=$tools/lib
# shellcheck disable=SC2086
"$tools/bin/ld.lld" -pie -dynamic-linker /lib64/ld-linux-x86-64.so.2 -o "$program" "$lib/Scrt1.o" "$lib/crti.o" "$lib/crtbeginS.o" \
    $made $objects "$lib/libc.so.6" "$lib/libc_nonshared.a" "$lib/libgcc.a" "$lib/libgcc_s.so.1" "$lib/crtendS.o" "$lib/crtn.o"
