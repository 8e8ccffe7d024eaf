#!/bin/sh
# No line of a document is longer than 130 characters, and no sentence has more than 40 words. Every offence is printed with its file and
# line, and one fails the run.
#   tests/limits.sh FILE..
# A sentence ends at '.', '!', '?' or ':' before white space (brackets, quotation marks and stars may stand between), and at the end of a
# paragraph, a list item, a heading or a table cell. 'e.g.', 'i.e.' and '..' end none. A word is what stands between white space and has a
# letter, a digit or code. Code in backticks belongs to one word, however long it is; of a link the text counts. Blocks of code, fenced or
# indented by four, are no prose; their lines are measured all the same. A fence that is never closed is an offence.
set -eu
[ $# -gt 0 ] || { echo "limits: no documents"; exit 1; }
for file; do
    [ -r "$file" ] || { echo "limits: no document $file"; exit 1; }
done
LC_ALL=C awk -v width=130 -v most=40 '
function offence(line, what) {
    printf "%s:%d: %s\n", name, line, what
    offences++
}

# The sentence so far is whole.
function close_sentence() {
    if (words > 0) {
        sentences++
        if (words > most) offence(first, "a sentence of " words " words (" most " are allowed): " begin " ..")
    }
    words = 0
    begin = ""
}

function close_word() {
    if (word ~ /[A-Za-z0-9]/) {
        if (words == 0) first = word_at
        words++
        if (words <= 6) begin = begin (begin == "" ? "" : " ") word
    }
    gsub(/[])"\047*_]+$/, "", word)
    if (word ~ /[.!?:]$/ && word !~ /\.\.$/ && word !~ /^[("\047*]*(e\.g|i\.e)\.$/) close_sentence()
    word = ""
}

# A paragraph, a list item, a heading or a cell, as one text with line feeds; its first line.
function prose(text, line,    n, i, c, run, close_at, code) {
    at = line
    word = ""
    n = length(text)
    i = 1
    while (i <= n) {
        c = substr(text, i, 1)
        if (c == "`") {
            run = "`"
            while (substr(text, i + length(run), 1) == "`") run = run "`"
            i += length(run)
            close_at = index(substr(text, i), run)
            if (close_at > 0) {
                if (word == "") word_at = at
                code = substr(text, i, close_at - 1)
                word = word "c"
                at += gsub(/\n/, "", code)
                i += close_at - 1 + length(run)
            }
            continue
        }
        if (c == "]" && substr(text, i + 1, 1) == "(" && index(substr(text, i), ")") > 0) {
            i += index(substr(text, i), ")")
            continue
        }
        if (c == " " || c == "\t" || c == "\n") {
            close_word()
            if (c == "\n") at++
        } else if (c != "[") {
            if (word == "") word_at = at
            word = word c
        }
        i++
    }
    close_word()
    close_sentence()
}

function flush() {
    if (gathered != "") prose(gathered, began)
    gathered = ""
}

function gather(text, line) {
    if (gathered == "") began = line
    gathered = gathered (gathered == "" ? "" : "\n") text
}

# The cells of a row: code keeps its bars, and so does what a backslash stands before.
function row(text, line,    n, i, c, cell, inside) {
    n = length(text)
    cell = ""
    inside = 0
    for (i = 1; i <= n; i++) {
        c = substr(text, i, 1)
        if (c == "\\" && substr(text, i + 1, 1) == "|") {
            cell = cell "|"
            i++
            continue
        }
        if (c == "`") inside = !inside
        if (c == "|" && !inside) {
            if (cell !~ /^[-: ]*$/) prose(cell, line)
            cell = ""
        } else {
            cell = cell c
        }
    }
    if (cell !~ /^[-: ]*$/) prose(cell, line)
}

function end_of_file() {
    flush()
    if (fence != "") offence(opened, "a fence that is not closed")
}

FNR == 1 {
    if (NR > 1) end_of_file()
    name = FILENAME
    files++
    fence = ""
    item = 0
    blank = 1
    code_block = 0
}

{
    lines++
    sub(/\r$/, "")
    measured = $0
    gsub(/[\200-\277]/, "", measured)
    if (length(measured) > width) offence(FNR, length(measured) " characters (" width " are allowed)")

    text = $0
    sub(/^[ \t]+/, "", text)
    indent = length($0) - length(text)
    if ($0 ~ /^\t/) indent += 3
}

fence != "" {
    if (substr(text, 1, length(fence)) == fence && text ~ /^[`~]+[ \t]*$/) fence = ""
    next
}

text ~ /^(```|~~~)/ {
    flush()
    fence = text
    if (text ~ /^`/) sub(/[^`].*$/, "", fence)
    else sub(/[^~].*$/, "", fence)
    opened = FNR
    blank = 0
    code_block = 0
    next
}

text == "" {
    flush()
    blank = 1
    next
}

# Code by its indent: after an empty line, and as long as it lasts.
(blank || code_block) && indent >= item + 4 {
    code_block = 1
    blank = 0
    next
}

{
    code_block = 0
    if (blank && indent < item) item = 0
    blank = 0
}

text ~ /^#/ {
    flush()
    item = 0
    sub(/^#+[ \t]*/, "", text)
    prose(text, FNR)
    blank = 1
    next
}

text ~ /^\|/ {
    flush()
    row(text, FNR)
    next
}

text ~ /^(-+|=+|\*\*\*+)[ \t]*$/ {
    flush()
    next
}

text ~ /^([-*+]|[0-9]+[.)])[ \t]/ {
    flush()
    marker = text
    sub(/^([-*+]|[0-9]+[.)])[ \t]+/, "", text)
    item = indent + length(marker) - length(text)
    gather(text, FNR)
    next
}

{
    sub(/^>[ \t]*/, "", text)
    gather(text, FNR)
}

END {
    end_of_file()
    if (sentences == 0) {
        print "limits: no sentence was found"
        exit 1
    }
    if (offences > 0) {
        printf "limits: %d offences in %d documents\n", offences, files
        exit 1
    }
    printf "%-36s %8d cases\n", "limits of lines and sentences", lines + sentences
}
' "$@"
