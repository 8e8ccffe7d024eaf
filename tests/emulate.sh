#!/bin/sh
# Runs a program for x86-64, as rt builds them: on another processor under the emulator that rt's kit brings for it.
#   tests/emulate.sh PROGRAM WORDS..
set -eu
[ "$(uname -m)" != x86_64 ] || exec "$@"
kit=${RATTLE_HOME:-$(dirname "$(dirname "$(readlink -f "$(command -v rt)")")")}
tools=$kit/on/$(uname -m)/toolchain
[ -x "$tools/bin/qemu-x86_64" ] || { echo "emulate: no emulator in $tools" >&2; exit 1; }
exec "$tools/bin/qemu-x86_64" "$tools/lib/ld-linux-x86-64.so.2" --library-path "$tools/lib" "$@"
