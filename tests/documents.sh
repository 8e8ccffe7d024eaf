#!/bin/sh
# What the documents show is true: every example in them is run, and compared. Needs rt, gcc, rustc, and what tests/run builds.
# HB_CONSOLE names another console than crates/headboarded/out/headboarded.
# What it makes goes to build/documents/. Everything is tried, and every difference is printed, before it fails.
#
# How examples are written. A block of code is fenced, and the words after its fence say what it is:
#
#   console          a session of the console: '> ' stands before each request, and below it all that is answered to it
#   c FILE           the lines of FILE between 'README.md shows the lines from here' and '.. to here.', their indent taken away
#   rattle FILE      the same
#   sh               commands, given at the root of the repository. They are run if the next block is an output
#   output           all that these commands write
#   output FILE      what they write is FILE, and the block is a piece of it: lines that follow each other there
#
# Any other block, fenced or indented, has no request of the console in it. Besides: the requests that docs/CONSOLE.md lists are those that
# its sessions show, and the answers that it lists are those that the console gives (tests/forms.sh); the table of crates in README.md has
# those of crates.txt; what documents name is there (tests/names.sh); lines and sentences are short (tests/limits.sh).
set -eu
cd "$(dirname "$0")/.."
out=build/documents
console=${HB_CONSOLE:-crates/headboarded/out/headboarded}
# docs/PORT.md and docs/DESIGN-PASS.md stand apart: they have the names that were, beside those that are.
documents="README.md $(ls docs/*.md | grep -vE '^docs/(PORT|DESIGN-PASS)\.md$' | tr '\n' ' ')tests/README.md bench/RESULTS.md"
rm -rf "$out"
mkdir -p "$out"
failed=0
cases=0

wrong() { # WORDS..: says what is wrong, and goes on
    echo "documents: $*"
    failed=1
}

# Every block of code: its lines in a file of its own, and a line of $out/blocks with its number, document, line, kind and file.
# shellcheck disable=SC2086
awk -v out="$out" '
function begin(kind, file) {
    blocks++
    printf "%d %s %d %s %s\n", blocks, FILENAME, FNR, kind, file > (out "/blocks")
    lines = out "/" blocks
    printf "" > lines
}
function end() {
    if (lines != "") close(lines)
    lines = ""
}
FNR == 1 { end(); fence = ""; blank = 1 }
fence != "" {
    if ($1 == fence) { fence = ""; end() } else print > lines
    next
}
/^[ \t]*```/ {
    end()
    fence = $1
    sub(/[^`].*/, "", fence)
    kind = $0
    sub(/^[ \t]*`+[ \t]*/, "", kind)
    words = split(kind, word, " ")
    begin(words > 0 ? word[1] : "none", words > 1 ? word[2] : "-")
    next
}
/^[ \t]*$/ { blank = 1; next }
/^(    |\t)/ {
    if (blank && lines == "") begin("indented", "-")
    if (lines != "") print > lines
    blank = 0
    next
}
{ end(); blank = 0 }
' $documents

same() { # WHERE DUE GIVEN: the two files are the same
    cases=$((cases + 1))
    diff "$2" "$3" >"$out/difference" || {
        wrong "$1: what it shows (<) is not so (>)"
        cat "$out/difference"
    }
}

answered() { # BLOCK: its requests, each with what the console answers to it
    sed -n 's/^> //p' "$1" >"$out/requests"
    number=0
    before=0
    while IFS= read -r request; do
        number=$((number + 1))
        printf '> %s\n' "$request"
        head -n "$number" "$out/requests" | "$console" >"$out/answers"
        tail -n "+$((before + 1))" "$out/answers"
        before=$(wc -l <"$out/answers")
    done <"$out/requests"
}

marked() { # FILE: what a document shows of it
    awk '
    /README.md shows the lines from here/ { inside = 1; next }
    /\.\. to here\./ { inside = 0 }
    inside {
        if (!known) { match($0, /^ */); indent = RLENGTH; known = 1 }
        if (substr($0, 1, indent) ~ /^ *$/) $0 = substr($0, indent + 1)
        print
    }' "$1"
}

is_piece() { # BLOCK FILE: the lines of the one follow each other in the other
    awk '
    FNR == NR { line[++n] = $0; next }
    { text[++m] = $0 }
    END {
        for (i = 0; n > 0 && i + n <= m; i++) {
            for (k = 1; k <= n && line[k] == text[i + k]; k++) { }
            if (k > n) exit 0
        }
        exit 1
    }' "$1" "$2"
}

# The blocks one by one.
commands=
while read -r id document line kind file; do
    block=$out/$id
    where=$document:$line
    if [ "$file" != - ] && [ ! -r "$file" ]; then
        wrong "$where: there is no $file"
        continue
    fi
    case $kind in
    console)
        grep -q '^> ' "$block" || wrong "$where: a session without a request"
        answered "$block" >"$out/given"
        same "$where" "$block" "$out/given"
        continue
        ;;
    c | rattle)
        [ "$file" != - ] || { wrong "$where: of which file?"; continue; }
        marked "$file" >"$out/given"
        same "$where" "$block" "$out/given"
        ;;
    output)
        [ -n "$commands" ] || { wrong "$where: an output of no commands"; continue; }
        # On another processor than x86-64 what rt built can't be started as it is. The block then is held against its file alone.
        if [ "$(uname -m)" != x86_64 ] && grep -q 'crates/[a-z_]*/out/' "$commands"; then
            [ "$file" = - ] || is_piece "$block" "$file" || wrong "$where: its lines do not follow each other in $file"
            commands=
            continue
        fi
        sh -eu "$commands" >"$out/given" 2>"$out/said" </dev/null || {
            wrong "$where: the commands before it fail"
            cat "$out/said"
        }
        if [ "$file" = - ]; then
            same "$where" "$block" "$out/given"
        else
            same "$where, $file" "$file" "$out/given"
            is_piece "$block" "$file" || wrong "$where: its lines do not follow each other in $file"
        fi
        ;;
    sh | indented | none | text) ;;
    *) wrong "$where: a block of unknown kind '$kind'" ;;
    esac
    commands=
    [ "$kind" != sh ] || commands=$block
    while IFS= read -r text; do
        printf '%s\n' "$text" | "$console" >"$out/answers"
        if [ -s "$out/answers" ] && ! grep -q '^?' "$out/answers"; then
            wrong "$where: a request outside of a console block: $text"
        fi
    done <"$block"
done <"$out/blocks"
[ "$cases" -gt 0 ] || wrong "no examples were found"

# The requests that docs/CONSOLE.md lists under 'Requests' are those that its sessions show. A line that is no request may be shown too.
# A request is tried where there is a module, which m speaks of.
awk '/^#/ { inside = /Requests$/ } inside' docs/CONSOLE.md | sed -n 's/^[-|] `\([a-z]*\).*/\1/p' | sort -u >"$out/listed"
[ -s "$out/listed" ] || wrong "docs/CONSOLE.md lists no requests"
awk '$2 == "docs/CONSOLE.md" && $4 == "console" { print $1 }' "$out/blocks" | while read -r id; do
    sed -n 's/^> //p' "$out/$id"
done >"$out/requests"
while IFS= read -r request; do
    printf 'module 80000000000000000000000000000000 0xff 0\n%s\n' "$request" | "$console" | grep -q '^?' ||
        echo "$request" | awk '{ print $1 }'
done <"$out/requests" | sort -u >"$out/given"
same 'docs/CONSOLE.md, the requests listed against those shown' "$out/listed" "$out/given"

# The crates.
sed -n 's/^\([a-z_]*\)\( staticlib\)\{0,1\}:.*/\1/p' crates.txt | sort >"$out/crates"
sed -n 's/^| `\([a-z_]*\)` | .*/\1/p' README.md | sort >"$out/given"
same 'README.md, its crates against those of crates.txt' "$out/given" "$out/crates"

[ $failed = 0 ] && printf '%-36s %8d cases\n' 'examples in documents' "$cases"
sh tests/forms.sh || failed=1
# shellcheck disable=SC2086
sh tests/names.sh $documents || failed=1
# shellcheck disable=SC2086
sh tests/limits.sh $documents || failed=1
exit $failed
