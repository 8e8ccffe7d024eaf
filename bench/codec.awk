# A table from callgrind's dumps; labels as bench/codec.c writes them.

/^desc: Trigger: Client Request:/ {
    label = $0
    sub(/^desc: Trigger: Client Request: */, "", label)
}

/^totals:/ && label != "" {
    split(label, word, " ")
    row = word[3] " " word[4] " " word[5] " " word[6] " " word[7]
    if (!(row in seen)) {
        seen[row] = 1
        rows[++count] = row
    }
    cost[word[1], word[2], row] = $2
    label = ""
}

# Instructions a symbol, the PEC work taken out.
function each(work, who, row, symbols) {
    return (cost[work, who, row] - cost["pec", who, row]) / symbols
}

# A whole call of a block of 255 bytes, by an entry of the library; the one on symbols is held to the limits.
function show_block(row, symbols, with_pec, who, encode, decode, most) {
    encode = cost["encode", who, row]
    decode = cost["decode", who, row] / symbols
    most = with_pec == "p" ? most_encode : 0
    if (!(encode > 0 && decode > 0) || (who == "library" && ((most && encode > most) || decode > most_decode)))
        above = above " " who " " row ";"
    printf "%8s %3s %8s %8s %8d %8s %8.1f %8s\n", word[1], with_pec, symbols, who, encode, \
        who == "library" && most ? most : "-", decode, who == "library" ? most_decode : "-"
}

END {
    most_encode = 2000
    most_decode = 27
    if (count == 0) {
        print "bench: nothing counted"
        exit 1
    }
    print "instructions a symbol, without PEC work"
    printf "%8s %3s %5s %5s %8s %8s %8s %6s %8s %8s %6s\n", "protocol", "pec", "sent", "recv", "symbols", \
        "encode", "plain", "ratio", "decode", "plain", "ratio"
    for (k = 1; k <= count; k++) {
        split(rows[k], word, " ")
        symbols = word[5]
        e = each("encode", "library", rows[k], symbols)
        f = each("encode", "plain", rows[k], symbols)
        d = each("decode", "library", rows[k], symbols)
        g = each("decode", "plain", rows[k], symbols)
        printf "%8s %3s %5s %5s %8s ", word[1], word[2], word[3], word[4], symbols
        printf "%8.1f %8.1f %6.2f %8.1f %8.1f %6.2f\n", e, f, e / f, d, g, d / g
        if (!(e > 0 && f > 0 && e <= 1.6 * f && d > 0 && g > 0 && d <= 2.5 * g))
            above = above " " rows[k] ";"
    }
    print "blocks of 255 bytes, the whole call: instructions to encode, instructions a symbol to decode"
    printf "%8s %3s %8s %8s %8s %8s %8s %8s\n", "protocol", "pec", "symbols", "entry", "encode", "limit", "decode", "limit"
    for (k = 1; k <= count; k++) {
        split(rows[k], word, " ")
        if (word[3] + word[4] == 255) {
            blocks++
            show_block(rows[k], word[5], word[2], "library")
            show_block(rows[k], word[5], word[2], "pairs")
        }
    }
    if (blocks == 0)
        above = above " no blocks of 255 bytes;"
    if (above != "") {
        print "bench: above a limit, or nothing counted:" above
        exit 1
    }
}
