#!/bin/sh
# An edit that the type checker refuses: a wire byte passed where an address is meant. The must-fail edits of the crates reach the
# prover; this one must not. It is tried in a copy of the crates, outside the repository, where rt reads no other files.
set -eu
cd "$(dirname "$0")/.."
mkdir -p build
log=$PWD/build/types.log
copy=$(mktemp -d)
trap 'rm -rf "$copy"' EXIT
cp crates.txt "$copy/"
mkdir "$copy/crates"
for crate in crates/*; do
    mkdir "$copy/$crate"
    for part in "$crate"/*; do
        case $part in
        */out | */must-fail) ;;
        *) cp -r "$part" "$copy/$crate/" ;;
        esac
    done
done
file=$copy/crates/encode/src/lib.rt
old='address_fits(sh, address) && direction_fits(sh, direction) && command_fits(sh, command)'
new='address_fits(sh, address.for_write()) && direction_fits(sh, direction) && command_fits(sh, command)'
[ "$(grep -cF "$old" "$file")" = 1 ] || { echo "types: '$old' does not stand once in $file"; exit 1; }
awk -v old="$old" -v new="$new" '{ i = index($0, old); if (i) $0 = substr($0, 1, i - 1) new; print }' "$file" >"$copy/edited"
mv "$copy/edited" "$file"
# rt try reads a program and the crates that it rests on, and proves nothing.
if (cd "$copy/crates/drive" && rt try) >"$log" 2>&1 </dev/null; then
    echo "types: a wire byte was taken for an address"
    exit 1
fi
grep -q 'error\[mismatched-types\]: expected `Address`, found `WireByte`' "$log" || { cat "$log"; exit 1; }
printf '%-36s %8d cases\n' 'types: a wire byte for an address' 1
