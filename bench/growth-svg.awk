# Draws the table of growth.sh: awk -f growth-svg.awk TABLE > docs/growth.svg
# A line of the table has a thing, how many there are, a version, and the instructions of its check, its may_read and its read.
# There is a panel for each thing, with axes that begin at 0; ours has full lines and the plain version dashed ones. All
# coordinates in the output are whole.

BEGIN {
    width = 230; height = 170; left = 66; top = 62; across = 320; down = 262
    split("check may_read read", calls); split("#1f5fa8 #1a8a4a #c2501a", colours)
    title["rows"] = "rows read"; unit["rows"] = 1000; axis["rows"] = "rows, thousands"
    title["labels"] = "labels"; title["users"] = "users"
    title["groups"] = "groups, edition 1"; title["chain"] = "groups in one chain, edition 2"
}
{
    if (!($1 in panel)) { panel[$1] = panels; things[panels++] = $1 }
    if (!(($1, $3) in points)) { versions[$1] = versions[$1] " " $3; known[$3] = 1 }
    n = ++points[$1, $3]
    at[$1, $3, n] = $2
    if ($2 > most[$1]) most[$1] = $2
    for (call = 1; call <= 3; call++) {
        cost[$1, $3, n, call] = $(call + 3)
        if ($(call + 3) > highest[$1]) highest[$1] = $(call + 3)
    }
}
END {
    total = across * 3 + 10
    printf "<svg xmlns=\"http://www.w3.org/2000/svg\" width=\"%d\" height=\"%d\" viewBox=\"0 0 %d %d\"", total, down * 2 + 20, total, down * 2 + 20
    print " font-family=\"sans-serif\" font-size=\"12\">"
    print "<title>Instructions of a check, a may_read and a read, by rows, labels, users and groups</title>"
    print "<rect width=\"100%\" height=\"100%\" fill=\"white\"/>"
    text(left - 46, 24, "start", "Instructions of one call, in thousands", "font-size=\"15\" font-weight=\"bold\"")
    for (p = 0; p < panels; p++) draw_panel(things[p], left + across * (p % 3), top + down * int(p / 3))
    draw_legend(left + across * 2 - 30, top + down)
    print "</svg>"
}

function whole(x) { return int(x + 0.5) }
function text(x, y, anchor, words, more) {
    printf "<text x=\"%d\" y=\"%d\" text-anchor=\"%s\"%s>%s</text>\n", x, y, anchor, more == "" ? "" : " " more, words
}
function thousands(n,    s) {
    for (s = ""; n >= 1000; n = int(n / 1000)) s = sprintf(",%03d%s", n % 1000, s)
    return n s
}

# The smallest of 1, 2 and 5 times a power of ten that has at most five steps up to a number.
function step_of(number,    step) {
    for (step = 1; ; step *= 10) {
        if (step * 5 >= number) return step
        if (step * 10 >= number) return step * 2
        if (step * 25 >= number) return step * 5
    }
}

function draw_panel(thing, x, y,    step, ceiling, tick, n, first, per, names, count, v) {
    text(x, y - 10, "start", title[thing], "font-size=\"14\" font-weight=\"bold\"")
    step = step_of(highest[thing] / 1000) * 1000
    ceiling = step * int((highest[thing] + step - 1) / step)
    for (tick = 0; tick <= ceiling; tick += step) {
        first = whole(y + height - height * tick / ceiling)
        printf "<path d=\"M%d %dh%d\" stroke=\"%s\"/>\n", x, first, width, tick ? "#ddd" : "#333"
        text(x - 6, first + 4, "end", thousands(tick / 1000))
    }
    per = unit[thing] ? unit[thing] : 1
    count = split(versions[thing], names, " ")
    text(x, y + height + 18, "middle", "0")
    for (n = 1; n <= points[thing, names[1]]; n++) {
        first = whole(x + width * at[thing, names[1], n] / most[thing])
        printf "<path d=\"M%d %dv5\" stroke=\"#333\"/>\n", first, y + height
        text(first, y + height + 18, "middle", thousands(whole(at[thing, names[1], n] / per)))
    }
    text(x + width / 2, y + height + 36, "middle", axis[thing] ? axis[thing] : "how many")
    for (v = count; v >= 1; v--)
        for (n = 3; n >= 1; n--) draw_line(thing, names[v], n, x, y, ceiling)
}

function draw_line(thing, version, call, x, y, ceiling,    n, line, marks, px, py) {
    for (n = 1; n <= points[thing, version]; n++) {
        px = whole(x + width * at[thing, version, n] / most[thing])
        py = whole(y + height - height * cost[thing, version, n, call] / ceiling)
        line = line (n == 1 ? "M" : "L") px " " py
        marks = marks mark(call, px, py)
    }
    draw_marked(version, call, line, marks)
}

# A check has a small full square, a may_read, which is nearly as much, a larger empty one, and a read a diamond.
function mark(call, x, y) {
    if (call == 1) return sprintf("M%d %dh4v4h-4z", x - 2, y - 2)
    if (call == 2) return sprintf("M%d %dh10v10h-10z", x - 5, y - 5)
    return sprintf("M%d %dl5 5l-5 5l-5 -5z", x, y - 5)
}
function draw_marked(version, call, line, marks) {
    printf "<path d=\"%s\" fill=\"none\" stroke=\"%s\" stroke-width=\"%s\"%s/>\n", line, colours[call], call == 2 ? 1 : 2, \
        version == "plain" ? " stroke-dasharray=\"5 4\"" : ""
    printf "<path d=\"%s\" fill=\"%s\" stroke=\"%s\"/>\n", marks, call == 2 ? "none" : colours[call], colours[call]
}

function draw_legend(x, y,    version, call, row) {
    split("ours plain", order)
    for (v = 1; v <= 2; v++) {
        if (!(order[v] in known)) continue
        for (call = 1; call <= 3; call++) {
            row = y + 22 * legend++
            draw_marked(order[v], call, "M" x " " row "h60", mark(call, x + 30, row))
            text(x + 70, row + 4, "start", (v == 1 ? "ours" : "plain Rust") ": " calls[call])
        }
    }
    text(x, y + 22 * legend + 10, "start", "A read is of 1,000 rows of 10 bytes,")
    text(x, y + 22 * legend + 26, "start", "but in the first panel. All else is")
    text(x, y + 22 * legend + 42, "start", "as in the largest image.")
}
