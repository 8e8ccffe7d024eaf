#!/bin/sh
# Plain C to compare with, into build/bench: bit.o and bit_model.o work out the PEC bit by bit, table.o and table_model.o with a table.
set -eu
cd "$(dirname "$0")/.."
out=build/bench
mkdir -p "$out"
compile() { # SOURCE OBJECT WORDS..
    source=bench/$1 object=$out/$2
    shift 2
    gcc -std=c11 -O2 -Wall -Wextra -Werror -Iinclude "$@" -c "$source" -o "$object"
}
compile baseline.c bit.o
compile baseline.c table.o -DPEC_BY_TABLE
compile plain_model.c bit_model.o
compile plain_model.c table_model.o -DPEC_BY_TABLE
