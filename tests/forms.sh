#!/bin/sh
# The answers that docs/CONSOLE.md lists are those that the console gives. Its part 'Requests' is a list: an item for each request, and below it
# items with the forms of its answer, in backticks. Held against the requests and answers of crates/headboarded/stdin and stdout: every answer
# there has a form that is listed for its request, and every form that is listed is met there.
#
# A form begins with a number or '?'. Words that other backticks of the same item have come after it: `7` or `8`, with `place K`. In a form A, B,
# C and 0x with two digits are bytes, D, G, I, K and N numbers, U is an identifier, `B...` a list that may be empty, and '..' anything. An
# answer's first line counts. A line that is no request is answered with '?' whatever it begins with, and no form is needed for that.
set -eu
cd "$(dirname "$0")/.."
LC_ALL=C awk '
function wrong(what) { print "forms: " what; failed = 1 }
function pattern(form,    n, i, word, made, hex, k) {
    hex = "0x[0-9a-f][0-9a-f]"
    n = split(form, word, " ")
    made = ""
    for (i = 1; i <= n; i++) {
        if (word[i] ~ /^[A-Z]\.\.\.$/) { made = made "( " hex ")*"; continue }
        if (i > 1) made = made " "
        if (word[i] == "..") made = made ".*"
        else if (word[i] ~ /^[ABC]$/ || word[i] ~ /^0x..$/) made = made hex
        else if (word[i] ~ /^[DGIKN]$/) made = made "[0-9]+"
        else if (word[i] == "U") for (k = 0; k < 32; k++) made = made "[0-9a-f]"
        else made = made (word[i] == "?" ? "[?].*" : word[i])
    }
    return "^" made "$"
}
# the forms of an item that has ended
function close_item(    n, form, suffix, text, span, i, k) {
    text = item
    item = ""
    n = 0
    suffix = ""
    while (match(text, /`[^`]+`/)) {
        span = substr(text, RSTART + 1, RLENGTH - 2)
        text = substr(text, RSTART + RLENGTH)
        if (span ~ /^([0-9]|[?])/) form[++n] = span
        else if (span ~ /^[a-z]/) suffix = span
    }
    for (i = 1; i <= n; i++) {
        k = ++forms[verb]
        written[verb, k] = form[i] (suffix == "" ? "" : " " suffix)
        of[verb, k] = pattern(written[verb, k])
    }
}
FILENAME ~ /\.md$/ {
    if (/^#/) { close_item(); inside = /Requests$/ }
    else if (inside && /^- `/) { close_item(); verb = $2; gsub(/`/, "", verb); verbs[verb] = 1 }
    else if (inside && /^  +- /) { close_item(); item = $0 }
    else if (inside && item != "" && /^   /) item = item " " $0
    else if (inside && /^$/) close_item()
    next
}
FILENAME ~ /stdin$/ {
    sub(/#.*/, "")
    gsub(/\r/, " ")
    if (NF > 0) request[++asked] = $1
    next
}
# the head line and the rows of a grid
rows > 0 { rows--; next }
/^ / { next }
{
    verb = request[++answered]
    if (verb == "grid" && $0 == "0 grid") rows = 9
    fits = 0
    for (k = 1; k <= forms[verb]; k++) if ($0 ~ of[verb, k]) { met[verb, k] = 1; fits = 1 }
    if (!fits && $0 !~ /^[?]/ && !said[verb, $1]++) wrong("docs/CONSOLE.md lists no such answer to " verb ": " $0)
    if (fits) cases++
}
END {
    for (verb in verbs) {
        if (forms[verb] == 0) wrong("docs/CONSOLE.md lists no answer to " verb)
        for (k = 1; k <= forms[verb]; k++) if (!((verb, k) in met)) wrong("nothing is answered to " verb " as docs/CONSOLE.md lists: " written[verb, k])
    }
    if (asked != answered) wrong(asked " requests and " answered " answers")
    if (cases == 0) wrong("docs/CONSOLE.md lists no answers")
    if (failed) exit 1
    printf "%-36s %8d cases\n", "answers that CONSOLE.md lists", cases
}' docs/CONSOLE.md crates/headboarded/stdin crates/headboarded/stdout
