# The two tables of a ledger side by side, within 80 columns of plain text (after tables.awk, which reads them).

END {
    if (refused) {
        print "refused " refused ": " reason[refused]
        exit
    }
    show("", filled("======= WITH script closings ", "="), filled("====== WITHOUT script closings ", "="))
    show("month", head(), head())
    for (m = 1; m <= 12; m++) {
        show(m, row(1, m), row(2, m))
        if (bend[1] == m || bend[2] == m) show("", rule(1, m), rule(2, m))
    }
    print ""
    print sentence(1)
    print sentence(2)
    print ""
    print meaning[1]
    print meaning[2] " Each # is 10 %, to the nearest."
}

function show(month, left, right,    line) {
    line = sprintf("%5s %-36s %-36s", month, left, right)
    sub(/ +$/, "", line)
    print line
}

function head() {
    return sprintf("%8s %9s %6s %s", "findings", "dismissed", "rate %", "0....100 %")
}

function row(t, m) {
    return sprintf("%8d %9d %6s %s", findings[t, m], dismissed[t, m], rate(t, m), bar(dismissed[t, m], findings[t, m]))
}

# Ten places for 100 %; nothing where there is no rate.
function bar(d, n) {
    return n ? substr("##########..........", 11 - portion(d, n, 10), 10) : ""
}

# The mark under the month of a table's bend.
function rule(t, m) {
    return bend[t] == m ? filled("-------- bend after month " m " ", "-") : ""
}

# A line over the whole width of a table.
function filled(line, with) {
    while (length(line) < 36) line = line with
    return line
}
