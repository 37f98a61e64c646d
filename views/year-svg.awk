# The two tables of a ledger as one picture, SVG 1.1 (after tables.awk, which reads them, and xml.awk). The ledger's
# name comes in the environment, as LEDGER_NAME. Solid line and filled circles: with script closings; dashed line and
# open squares: without. A refused ledger gives no picture and status 3.

BEGIN {
    width = 832
    height = 648
    edge = 20
    left = 164; column = 54; right = left + 12 * column    # month m is the m-th column of the plot
    top = 212; bottom = 462                                # 100 % and 0 %
    colour[1] = "#0b3c6f"
    colour[2] = "#a8480a"
    short[1] = "with"
    short[2] = "without"
}

END {
    if (refused) exit 3
    ledger = xml(ENVIRON["LEDGER_NAME"], 40)
    opening()
    heading()
    rate_axis()
    month_axis()
    for (t = 1; t <= 2; t++) bend_line(t)
    for (t = 2; t >= 1; t--) curve(t)
    for (t = 2; t >= 1; t--) marks(t)
    for (t = 1; t <= 2; t++) shares(t, share_row(t))
    for (t = 1; t <= 2; t++) table_below(t, bottom + 46 + 60 * (t - 1))
    write(edge, height - 16, "start", "font-size='11' fill='#555555'", meaning[1] " " meaning[2])
    print "</svg>"
}

# Places in the picture.
function middle(m) { return left + column * m - column / 2 }
function level(t, m) { return sprintf("%.1f", bottom - (bottom - top) * dismissed[t, m] / findings[t, m]) }
function share_row(t) { return 108 + 40 * t }

# The line of a bend stands between its month and the next, two side by side where they meet.
function bend_at(t) { return left + column * bend[t] + (bend[1] != bend[2] ? 0 : t == 1 ? -3 : 3) }

# Shapes. `more` is further attributes.
function write(x, y, anchor, more, words) {
    printf "<text x='%s' y='%s' text-anchor='%s'%s>%s</text>\n", x, y, anchor, (more == "" ? "" : " " more), words
}

function line(x1, y1, x2, y2, more) {
    printf "<line x1='%s' y1='%s' x2='%s' y2='%s' %s/>\n", x1, y1, x2, y2, more
}

function rect(x, y, w, h, more) {
    printf "<rect x='%s' y='%s' width='%s' height='%s' %s/>\n", x, y, w, h, more
}

function stroke(t, wide) {
    return "stroke='" colour[t] "' stroke-width='" wide "'" (t == 2 ? " stroke-dasharray='7,4'" : "")
}

function mark(t, x, y) {
    if (t == 1) printf "<circle cx='%s' cy='%s' r='3.6' fill='%s'/>\n", x, y, colour[1]
    else rect(x - 5.5, y - 5.5, 11, 11, "fill='#ffffff' stroke='" colour[2] "' stroke-width='1.8'")
}

function opening() {
    print "<?xml version='1.0' encoding='UTF-8'?>"
    print "<svg xmlns='http://www.w3.org/2000/svg' version='1.1'"
    print "    width='" width "' height='" height "' viewBox='0 0 " width " " height "'"
    print "    font-family='Helvetica, Arial, sans-serif' font-size='12' fill='#1a1a1a'>"
    print "<title>Dismissal rate by month" (ledger == "" ? "" : ": " ledger) "</title>"
    print "<desc>" sentence(1) "; " sentence(2) ".</desc>"
    rect(0, 0, width, height, "fill='#ffffff'")
}

# Title, where it is from, and what each table says, which is the legend too.
function heading(    t, y) {
    write(edge, 34, "start", "font-size='20' font-weight='bold'", "Dismissal rate by month")
    write(edge, 55, "start", "font-size='13' fill='#555555'",
        "Dismissed findings in per cent of each month's findings" (ledger == "" ? "" : ". Ledger: " ledger))
    for (t = 1; t <= 2; t++) {
        y = 60 + 20 * t
        line(edge, y, edge + 48, y, stroke(t, 2))
        mark(t, edge + 24, y)
        write(edge + 58, y + 4.5, "start", "font-size='13'", sentence(t))
    }
}

function rate_axis(    k, y) {
    for (k = 0; k <= 100; k += 20) {
        y = bottom - (bottom - top) * k / 100
        line(left, y, right, y, "stroke='#d4d4d4'")
        line(left - 5, y, left, y, "stroke='#1a1a1a'")
        write(left - 9, y + 4, "end", "", k " %")
    }
    line(left, top, left, bottom, "stroke='#1a1a1a'")
    y = (top + bottom) / 2
    write(left - 60, y, "middle", "transform='rotate(-90 " (left - 60) " " y ")'", "dismissed, % of findings")
}

function month_axis(    m) {
    line(left, bottom, right, bottom, "stroke='#1a1a1a'")
    write(left - 9, bottom + 20, "end", "font-weight='bold'", "month")
    for (m = 1; m <= 12; m++) {
        line(middle(m), bottom, middle(m), bottom + 5, "stroke='#1a1a1a'")
        write(middle(m), bottom + 20, "middle", "font-weight='bold'", m)
    }
}

# The rates of one table as lines, which end where a month has none.
function curve(t,    m, n, points) {
    for (m = 1; m <= 13; m++) {
        if (m <= 12 && findings[t, m]) {
            points = points (n++ ? " " : "") middle(m) "," level(t, m)
            continue
        }
        if (n > 1) printf "<polyline points='%s' fill='none' %s/>\n", points, stroke(t, 2)
        points = ""
        n = 0
    }
}

function marks(t,    m) {
    for (m = 1; m <= 12; m++) if (findings[t, m]) mark(t, middle(m), level(t, m))
}

# A bend goes from its row of shares down to the month axis.
function bend_line(t) {
    if (bend[t]) line(bend_at(t), share_row(t), bend_at(t), bottom, stroke(t, 1.3))
}

# The shares up to and after the bend, as dimension lines over their months.
function shares(t, y) {
    row_name(t, y, "share")
    if (!bend[t]) {
        write((left + right) / 2, y, "middle", "font-style='italic' fill='#555555'", "no bend")
        return
    }
    dimension(t, y, left, bend_at(t), 1, bend[t], share_up_to(t))
    dimension(t, y, bend_at(t), right, bend[t] + 1, 12, share_after(t))
    rect(bend_at(t) - 17, y - 7.5, 34, 15, "rx='2' fill='#ffffff' stroke='" colour[t] "'")
    write(bend_at(t), y + 3.5, "middle", "font-size='11'", "bend")
}

# One of them. Its words are drawn twice, since the other table's bend may go behind them: first a white edge.
function dimension(t, y, from, to, first, last, share,    words, k) {
    line(from, y, to, y, "stroke='" colour[t] "'")
    line(from, y - 4, from, y + 4, "stroke='" colour[t] "'")
    line(to, y - 4, to, y + 4, "stroke='" colour[t] "'")
    words = last - first < 2 ? share : "months " first " to " last ": " share
    for (k = 1; k <= 2; k++)
        write((from + to) / 2, y - 12, "middle", k == 1 ? "stroke='#ffffff' stroke-width='5'" : "", words)
}

# The counts and rates of one table, under the months.
function table_below(t, y,    m) {
    line(edge, y - 17, right, y - 17, "stroke='#9a9a9a' stroke-width='0.8'")
    row_name(t, y, "findings")
    write(left - 9, y + 17, "end", "", "dismissed")
    write(left - 9, y + 34, "end", "", "rate %")
    for (m = 1; m <= 12; m++) {
        write(middle(m), y, "middle", "", findings[t, m])
        write(middle(m), y + 17, "middle", "", dismissed[t, m])
        write(middle(m), y + 34, "middle", "", rate(t, m))
    }
}

# What stands before a row: the table with its mark, and what the row has.
function row_name(t, y, what) {
    mark(t, edge + 8, y - 4)
    write(edge + 22, y, "start", "font-weight='bold'", short[t])
    write(left - 9, y, "end", "", what)
}
