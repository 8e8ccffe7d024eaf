# bench/RESULTS.md from what the benchmarks left: pec.txt, codec.callgrind, step.txt, model.txt, pick.txt and module.txt, in this
# order.

FNR == 1 {
    file++
}

file == 1 {
    pec[$2, $1] = $3
    next
}

# Labels as bench/codec.c writes them.
file == 2 && /^desc: Trigger: Client Request:/ {
    label = $0
    sub(/^desc: Trigger: Client Request: */, "", label)
}

file == 2 && /^totals:/ && label != "" {
    split(label, word, " ")
    row = word[3] " " word[4] " " word[5] " " word[6] " " word[7]
    if (!(row in seen)) {
        seen[row] = 1
        rows[++count] = row
    }
    cost[word[1], word[2], row] = $2
    label = ""
}

file == 3 {
    step = $0
}

file == 4 && $1 ~ /^[0-9]+$/ {
    sizes[++runs] = $1
    answer[$1] = $2
    bound[$1] = $3
    gets[$1] = $4
    run["library", $1] = $5
    run["plain", $1] = $6
    limit["plain", $1] = $8
    run["table", $1] = $9
    limit["table", $1] = $11
}

file == 4 && /^a target among/ {
    grows = $0
}

file == 5 && $4 ~ /^[0-9]+$/ {
    picks[++searches] = "|" $1 "|" $2 "|" $3 "|" $4 "|" $5 "|" $6 "|"
}

file == 6 && $3 ~ /^[0-9]+$/ {
    heard[++kinds] = "|" $1 "|" $2 "|" $3 "|" $4 "|" $5 "|"
}

function ratio(a, b) {
    return b > 0 ? sprintf("%.2f", a / b) : "-"
}

# Instructions for a symbol more, from a block of 32 bytes to the longest.
function slope(work, who, short, long, a, b) {
    split(short, a, " ")
    split(long, b, " ")
    return (cost[work, who, long] - cost[work, who, short]) / (b[5] - a[5])
}

function growth(work, who) {
    return sprintf("%.1f", slope(work, who, "8 - 32 0 72", "8 - 255 0 518"))
}

# Instructions that a PEC adds to the longest Block Write.
function with_pec(work, who) {
    return cost[work, who, "8 p 255 0 520"] - cost[work, who, "8 - 255 0 518"]
}

function each_target(who, n) {
    return sprintf("%d", run[who, n] / n)
}

function pec_table(lengths, n, k, m) {
    print "## PEC\n"
    print "|bytes|library|a byte|plain C bit by bit|ratio|plain C with a table|ratio|\n|-:|-:|-:|-:|-:|-:|-:|"
    n = split("1 16 255 65536", lengths, " ")
    for (k = 1; k <= n; k++) {
        m = lengths[k]
        printf "|%d|%d|%.2f|%d|%s|%d|%s|\n", m, pec["library", m], pec["library", m] / m, pec["plain", m], \
            ratio(pec["library", m], pec["plain", m]), pec["table", m], ratio(pec["library", m], pec["table", m])
    }
}

# The count of one work for a row, then plain C's two and how it is to each.
function beside(work, who, row, ours, plain, table) {
    ours = cost[work, who, row]
    plain = cost[work, "plain", row]
    table = cost[work, "table", row]
    return sprintf("%d|%d|%s|%d|%s|", ours, plain, ratio(ours, plain), table, ratio(ours, table))
}

function codec_table(who, k, word) {
    print "|protocol|PEC|sent|received|symbols|encode|bit by bit|ratio|table|ratio|decode|bit by bit|ratio|table|ratio|"
    print "|-:|-|-:|-:|-:|-:|-:|-:|-:|-:|-:|-:|-:|-:|-:|"
    for (k = 1; k <= count; k++) {
        split(rows[k], word, " ")
        printf "|%s|%s|%s|%s|%s|%s%s\n", word[1], word[2] == "p" ? "yes" : "no", word[3], word[4], word[5], \
            beside("encode", who, rows[k]), beside("decode", who, rows[k])
    }
}

function codec_tables() {
    print "\n## Encode and decode\n"
    print "A whole call each, PEC work included, of `hb_encode_symbols` and `hb_decode_symbols`. Beside each stands plain C that works"
    print "out the PEC bit by bit, and plain C with a table. Where there is no PEC the two differ by what gcc makes of them.\n"
    codec_table("library")
    print "\nThe same of `hb_encode` and `hb_decode`, which write and read a symbol as two bytes.\n"
    codec_table("pairs")
}

function run_table(k, n) {
    print "\n## Model run\n"
    print "Plain C sorts the targets, applies the plain rule, and writes and reads the same traces.\n"
    print "|targets|answer|bound|Get UDIDs|library|plain C bit by bit|ratio|limit|with a table|ratio|limit|\n|-:|-:|-:|-:|-:|-:|-:|-:|-:|-:|-:|"
    for (k = 1; k <= runs; k++) {
        n = sizes[k]
        printf "|%d|%d|%d|%d|%d|%d|%s|%s|%d|%s|%s|\n", n, answer[n], bound[n], gets[n], run["library", n], \
            run["plain", n], ratio(run["library", n], run["plain", n]), limit["plain", n], \
            run["table", n], ratio(run["library", n], run["table", n]), limit["table", n]
    }
}

function pick_table(k) {
    print "\n## The next free address\n"
    print "A call of `hb_pool_next_free` with the used addresses and the last pick; 128 is answered where none is free. In the sets with one"
    print "free address that one is the last pick. Plain C walks from address to address.\n"
    print "|used|last|picked|library|limit|plain C|\n|-|-:|-:|-:|-:|-:|"
    for (k = 1; k <= searches; k++)
        print picks[k]
}

function module_table(k) {
    print "\n## A byte of a module\n"
    print "A call of `hb_module_receive` for a byte of each kind, and of `hb_module_supply` for each byte of a reply. Where a kind has"
    print "several places, as the identifier has 16, the cheapest and the dearest stand here. What the counting itself takes is taken out.\n"
    print "|work|byte|least|most|limit|\n|-|-|-:|-:|-:|"
    for (k = 1; k <= kinds; k++)
        print heard[k]
}

END {
    if (file != 6 || count == 0 || runs == 0 || searches == 0 || kinds == 0 || step == "" || grows == "" || \
        !pec["table", 65536] || !run["table", 120] || !cost["decode", "table", rows[count]]) {
        print "bench: nothing counted" >"/dev/stderr"
        exit 1
    }
    print "# Instructions, counted by callgrind\n"
    print "Written by `bench/run`. Plain C is `bench/baseline.c` and `bench/plain_model.c`, with gcc " compiler " -O2. These are compiled"
    print "twice: with the PEC bit by bit, and with a table. For picks it is in `bench/pick.c`. What all sides give is compared, and a"
    print "difference ends the run.\n"
    pec_table()
    codec_tables()
    print "\n## A controller step\n"
    print step "."
    run_table()
    pick_table()
    module_table()
    print "\n## How it grows\n"
    print "Plain C is here with the PEC bit by bit, unless a table is named.\n"
    print "- With the trace: linear. From a Block Write of 32 bytes to one of 255, without PEC, a symbol more costs"
    print "  " growth("encode", "library") " instructions to encode (plain C " growth("encode", "plain") ") and " \
        growth("decode", "library") " to decode (plain C " growth("decode", "plain") "). With PEC the long one costs"
    print "  " with_pec("encode", "library") " more to encode (plain C " with_pec("encode", "plain") ", with a table " \
        with_pec("encode", "table") ") and " with_pec("decode", "library") " more to decode (plain C"
    print "  " with_pec("decode", "plain") ", with a table " with_pec("decode", "table") "). The library's decoder works the PEC out also where"
    print "  none is used."
    print "- With the targets: between linear and quadratic. A target costs " each_target("library", 10) " instructions in a run with 10,"
    print "  " each_target("library", 60) " with 60 and " each_target("library", 120) " with 120 (plain C " each_target("plain", 10) ", " \
        each_target("plain", 60) " and " each_target("plain", 120) ","
    print "  with a table " each_target("table", 10) ", " each_target("table", 60) " and " each_target("table", 120) "). The traces and the controller's steps cost the same"
    print "  for each target. The search for the winner looks at every record for each Get UDID. The check of the list compares"
    print "  every two records. 120 targets are more than the 93 addresses on no row of Table 17 and the rows that fixed ones stand on,"
    print "  so that run ends with 13."
    print "  Held to a limit: " grows "."
}
