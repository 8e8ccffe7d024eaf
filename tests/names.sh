#!/bin/sh
# A document names nothing that is not there. Every offence is printed with its file and line, and one fails the run.
#   tests/names.sh DOCUMENT..
# What is looked at:
#
#   `name`, `a::name`    code in backticks that is one word: a function, type, field or case of a crate's src/, a definition, law or field of
#                        its specs/ or proofs/, a crate, or a file. A name that stands only in comments is none. docs/CONSOLE.md's words are
#                        the console's, and are tried in its sessions
#   `part/file`          a file or a folder, from the root, from the document or from crates/ on; specs/, proofs/, must-fail/, src/ and the
#                        ending may be left out there
#   crate/file           the same, outside of backticks, where the first part is a crate
#   [text](file#title)   the file, and a title in it; and so where a link is followed by a title: [text](file), 'title'
#
# And the scope has one name: no document says 'document 01' or 'the paper'.
set -eu
cd "$(dirname "$0")/.."
[ $# -gt 0 ] || { echo "names: no documents"; exit 1; }
out=build/names
rm -rf "$out"
mkdir -p "$out"

# Words of the languages, the tools and the console, and placeholders.
cat >"$out/words" <<'WORDS'
rt
p
w
r
X.antt
XLaws.antt
crate/label
ensures
requires
unfolding
self
let
memcpy
i2cdetect
LL
UU
XX
help
version
WORDS

find . -type d \( -name .git -o -path './crates/*/out' -o -name build \) -prune -o -type f -print | sed 's|^\./||' >"$out/files"
sed -n 's/^\([a-z_]*\)\( staticlib\)\{0,1\}:.*/\1/p' crates.txt >"$out/crates"

# What the crates define.
grep '^crates/.*\.antt$' "$out/files" | tr '\n' '\0' | LC_ALL=C xargs -0 awk '
{
    sub(/--.*/, "")
    known = 0
    for (i = 1; i <= NF && $i ~ /^(abbrev|unfoldable|opaque|pub|private|data|record|mod)$/; i++) known = 1
    if (known && $i != "where") print $i
    # names before a colon: a definition, a field or a case
    for (k = i; k <= NF && $k ~ /^[^(){}:;,=.]+$/; k++) { }
    if (k > i && $k == ":") for (; i < k; i++) print $i
}' >"$out/defined"
grep '^crates/.*\.rt$' "$out/files" | tr '\n' '\0' | LC_ALL=C xargs -0 awk '
{
    sub(/\/\/.*/, "")
    for (i = 1; i < NF; i++)
        if ($i ~ /^(fn|struct|enum|const|mod)$/) { name = $(i + 1); sub(/[^A-Za-z0-9_].*/, "", name); print name }
    if ($0 ~ /^ *(pub )?[a-z_0-9]+: /) { name = $0; sub(/^ *(pub )?/, "", name); sub(/:.*/, "", name); print name }
    if ($0 ~ /^ *[A-Z][A-Za-z]*(\(.*\))?,$/) { name = $1; sub(/[^A-Za-z].*/, "", name); print name }
}' >>"$out/defined"

# What the documents name: file, line, kind, name.
LC_ALL=C awk '
function told(kind, name) { printf "%s\t%d\t%s\t%s\n", FILENAME, FNR, kind, name }
FNR == NR { crate[$1] = 1; next }
FNR == 1 { fence = 0 }
/^[ \t]*```/ { fence = !fence; next }
fence || /^(    |\t)/ { next }
{
    line = $0
    rest = ""
    while (match(line, /`[^`]+`/)) {
        rest = rest substr(line, 1, RSTART - 1) " "
        code = substr(line, RSTART + 1, RLENGTH - 2)
        line = substr(line, RSTART + RLENGTH)
        sub(/\(\)$/, "", code)
        if (code ~ /[ \t]/ || FILENAME ~ /CONSOLE/) continue
        if (code ~ /^[A-Za-z0-9_.-]+(\/[A-Za-z0-9_.-]*)+$/) told("path", code)
        else if (code ~ /^[A-Za-z][A-Za-z0-9_-]*\.(antt|rt|md|txt|h|c|sh|edit)$/) told("file", code)
        else if (code ~ /^[A-Za-z_]+(::[A-Za-z_]+)+$/) told("parts", code)
        else if (code ~ /^[A-Za-z][A-Za-z0-9_-]*$/) told("name", code)
    }
    rest = rest line
    if (rest ~ /[Dd]ocument 01|[Tt]he paper/) told("scope", "document 01, the paper")
    quoted = rest
    while (match(quoted, /\]\([^)]*\), \047[^\047]*\047/)) {
        title = substr(quoted, RSTART + 2, RLENGTH - 3)
        quoted = substr(quoted, RSTART + RLENGTH)
        to = title
        sub(/\).*/, "", to)
        sub(/.*\), \047/, "", title)
        title = tolower(title)
        gsub(/[^a-z0-9 _-]/, "", title)
        gsub(/ /, "-", title)
        told("link", to "#" title)
    }
    while (match(rest, /\]\([^)]*\)/)) {
        told("link", substr(rest, RSTART + 2, RLENGTH - 3))
        rest = substr(rest, 1, RSTART - 1) " " substr(rest, RSTART + RLENGTH)
    }
    n = split(rest, word, /[^A-Za-z0-9_.\/-]+/)
    for (i = 1; i <= n; i++) {
        sub(/[.\/]+$/, "", word[i])
        slash = index(word[i], "/")
        if (slash > 0 && (substr(word[i], 1, slash - 1) in crate)) told("path", word[i])
    }
}' "$out/crates" "$@" >"$out/named"

# The titles of every document, as links write them.
for document; do
    LC_ALL=C awk -v name="$document" '
    /^[ \t]*```/ { fence = !fence }
    !fence && /^#+ / {
        sub(/^#+ /, "")
        title = tolower($0)
        gsub(/[^a-z0-9 _-]/, "", title)
        gsub(/ /, "-", title)
        print name "#" title
    }' "$document"
done >"$out/titles"

LC_ALL=C awk -F'\t' -v out="$out" '
function offence(what) { printf "%s:%d: %s\n", $1, $2, what; offences++ }
function read_into(file, set,    line) {
    while ((getline line < file) > 0) { set[line] = 1; count[file]++ }
    close(file)
}
# a path from the folder of its document
function from_here(path,    folder) {
    folder = $1
    if (!sub(/\/[^\/]*$/, "/", folder)) folder = ""
    path = folder path
    while (sub(/[^\/]+\/\.\.\//, "", path)) { }
    return path
}
# a file or a folder of the repository
function is_there(path) { return (path in files) || (path in folders) }
function is_path(path,    first, rest) {
    sub(/\/$/, "", path)
    if (path ~ /^build(\/|$)/ || path ~ /^crates\/[A-Za-z_]+\/out(\/|$)/ || path ~ /(CRATE|NAME|LABEL)/) return 1
    if (is_there(path) || is_there(from_here(path)) || is_there("crates/" path) || (path in parts)) return 1
    first = path
    sub(/\/.*/, "", first)
    rest = substr(path, length(first) + 2)
    first = "crates/" first "/"
    return is_there(first rest ".antt") || is_there(first "specs/" rest ".antt") || is_there(first "proofs/" rest ".antt") \
        || is_there(first "must-fail/" rest ".edit") || is_there(first "src/" rest ".rt")
}
function is_name(name) { return (name in defined) || (name in crates) || (name in words) || (name in stems) }
function is_link(to,    path, title) {
    if (to ~ /^https?:/) return 1
    title = ""
    if (index(to, "#") > 0) { title = substr(to, index(to, "#") + 1); to = substr(to, 1, index(to, "#") - 1) }
    path = to == "" ? $1 : from_here(to)
    if (!is_there(path)) return 0
    return title == "" || ((path "#" title) in titles)
}
BEGIN {
    read_into(out "/defined", defined)
    read_into(out "/crates", crates)
    read_into(out "/words", words)
    read_into(out "/files", files)
    read_into(out "/titles", titles)
    for (f in files) {
        path = f
        while (sub(/\/[^\/]*$/, "", path)) folders[path] = 1
        n = split(f, part, "/")
        for (i = 1; i < n; i++) parts[part[i]] = 1
        names[part[n]] = 1
        stem = part[n]
        sub(/\.[^.]*$/, "", stem)
        if (part[1] == "crates") stems[stem] = 1
    }
    if (count[out "/defined"] < 100) { print "names: no definitions were found"; exit 1 }
}
{ cases++ }
$3 == "path" && !($4 in words) && !is_path($4) { offence("there is no file " $4) }
$3 == "file" && !($4 in words) && !($4 in names) { offence("there is no file " $4) }
$3 == "link" && !is_link($4) { offence("a link to nothing: " $4) }
$3 == "scope" { offence("the scope (docs/SCOPE.md) is its one name, and not: " $4) }
$3 == "name" && !is_name($4) { offence("nothing has the name " $4) }
$3 == "parts" {
    n = split($4, part, "::")
    for (i = 1; i <= n; i++) if (!is_name(part[i])) { offence("nothing has the name " part[i] ", of " $4); break }
}
END {
    if (offences > 0) { printf "names: %d offences\n", offences; exit 1 }
    if (cases == 0) { print "names: no names were found"; exit 1 }
    printf "%-36s %8d cases\n", "names and links in documents", cases
}' "$out/named"
