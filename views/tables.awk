# Reads the text of the program `ledger` and says what the views have in common. A view is a second program after it:
#
#     awk -f views/tables.awk -f views/year.awk <TEXT
#
# At the view's END table 1 is the one with script closings and table 2 the one without: findings[t, m] and
# dismissed[t, m] of each month m, and bend[t], 0 where there is none. refused is the number of a refusal, else 0. A
# text that `ledger` does not print gives status 3 before any view begins.

BEGIN {
    name[1] = "with script closings"
    name[2] = "without"
    meaning[1] = "The bend is the month where the share dismissed in all later months"
    meaning[2] = "less that in all up to and with it is largest."
    reason[20] = "the ledger has more than 65,536 bytes"
    reason[21] = "the ledger has fewer than 96 bytes, which its contents table alone takes"
    reason[22] = "the contents table is wrong, or a month is not whole findings of 6 bytes"
    reason[23] = "a finding has a wrong value: its block, its second byte, closed by, or its verdict"
    reason[24] = "a month has more than 4,095 findings"
}

NR == 1 && /^refused 2[0-4]$/ { refused = $2; next }
{ good_lines += NR <= 28 && take(NR <= 14 ? 1 : 2, (NR - 1) % 14) }
END { if (refused ? NR != 1 : NR != 28 || good_lines != 28 || !bends_right(1) || !bends_right(2)) exit 3 }

# Takes line `at` of table t, counted from 0. Answers whether it is one.
function take(t, at) {
    if (at == 0) return $0 == (t == 1 ? "table with" : "table without")
    if (at == 13) return take_bend(t)
    findings[t, at] = $3 + 0
    dismissed[t, at] = $4 + 0
    return $0 == "month " at " " (0 + $3) " " (0 + $4) " " $5 && $4 + 0 <= $3 + 0 && bits_right($3 + 0, $5)
}

function take_bend(t) {
    bend[t] = $2 == "none" ? 0 : $2 + 0
    return $0 == "bend " (bend[t] ? bend[t] : "none")
}

# A month with no finding has no rate.
function bits_right(n, bits) {
    return n ? length(bits) == 16 && bits ~ /^[0-9a-f]+$/ : bits == "none"
}

# There is a finding on both sides of a bend, and no bend exactly where fewer than two months have one.
function bends_right(t) {
    if (bend[t]) return sum(findings, t, 1, bend[t]) > 0 && sum(findings, t, bend[t] + 1, 12) > 0
    return months_with_findings(t) < 2
}

function sum(counts, t, first, last,    m, all) {
    for (m = first; m <= last; m++) all += counts[t, m]
    return all + 0
}

function months_with_findings(t,    m, months) {
    for (m = 1; m <= 12; m++) months += findings[t, m] > 0
    return months + 0
}

# d times `parts`, by n, to the nearest whole number, halves up. Exact: all numbers are far below 2^53.
function portion(d, n, parts,    twice) {
    twice = 2 * parts * d + n
    return (twice - twice % (2 * n)) / (2 * n)
}

# d of n in per cent, with one decimal.
function per_cent(d, n,    tenths) {
    tenths = portion(d, n, 1000)
    return (tenths - tenths % 10) / 10 "." tenths % 10
}

# The rate of month m, a dash where it has none.
function rate(t, m) {
    return findings[t, m] ? per_cent(dismissed[t, m], findings[t, m]) : "-"
}

# The dismissed share of the months up to and with the bend, and of those after it.
function share_up_to(t) {
    return per_cent(sum(dismissed, t, 1, bend[t]), sum(findings, t, 1, bend[t])) " %"
}

function share_after(t) {
    return per_cent(sum(dismissed, t, bend[t] + 1, 12), sum(findings, t, bend[t] + 1, 12)) " %"
}

# What a table says of its bend.
function sentence(t,    m) {
    if (bend[t])
        return name[t] ": bent after month " bend[t] ", " share_up_to(t) " up to it, " share_after(t) " after"
    for (m = 1; m <= 12; m++) if (findings[t, m]) return name[t] ": no bend, since only month " m " has findings"
    return name[t] ": no bend, since no month has a finding"
}
