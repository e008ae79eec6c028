# Draws docs/size-and-hops.svg from the lines of bench/bounds.c: file, n, k, order, bound, table bytes, image bytes, hops on average, hops of the
# hardest payload.
BEGIN {
    split("#0072b2 #d55e00 #007a5a", colour, " ")
    split("none;7 3;2 3;12 3 2 3", dashes, ";") # of the orders 0 to 3
    top = 74; high = 280; step = 23
}
!($1 in number) {
    number[$1] = ++tables
    name[tables] = $1
    sub(/.*\//, "", name[tables])
    sub(/\.table$/, "", name[tables])
    told[tables] = $2 " states, " $3 " classes, plain table " $6 " bytes"
}
{
    t = number[$1]
    slot = $5 > 12 ? 14 : $5
    share[t, $4, slot] = 100 * $7 / $6
    hops[t, $4, slot] = $8
    hardest[t, $4, slot] = $9
}
function text(x, y, how, words) { printf "  <text x=\"%.1f\" y=\"%.1f\" %s>%s</text>\n", x, y, how, words }
function stroke(x1, y1, x2, y2, how) { printf "  <line x1=\"%.1f\" y1=\"%.1f\" x2=\"%.1f\" y2=\"%.1f\" %s/>\n", x1, y1, x2, y2, how }
# The mark of a table: a disc, a square, a triangle.
function mark(t, x, y) {
    if (t == 1) printf "  <circle cx=\"%.1f\" cy=\"%.1f\" r=\"3.8\" fill=\"%s\"/>\n", x, y, colour[t]
    else if (t == 2) printf "  <rect x=\"%.1f\" y=\"%.1f\" width=\"7\" height=\"7\" fill=\"%s\"/>\n", x - 3.5, y - 3.5, colour[t]
    else printf "  <path d=\"M %.1f %.1f l 4.6 8 h -9.2 z\" fill=\"%s\"/>\n", x, y - 5, colour[t]
}
function across(left, slot) { return left + 14 + step * slot }
function up(value, most) { return top + high - high * (value > most ? most : value) / most }
# Axes, grid and labels of one panel.
function panel(left, most, each, unit, title,    value, slot, right) {
    right = across(left, 14) + 14
    text(left, top - 54, "font-size=\"15\" font-weight=\"bold\"", title)
    for (value = 0; value <= most; value += each) {
        stroke(left, up(value, most), right, up(value, most), "stroke=\"" (value ? "#dddddd" : "#333333") "\"")
        text(left - 8, up(value, most) + 4, "text-anchor=\"end\"", value unit)
    }
    for (slot = 0; slot <= 14; slot++) {
        if (slot == 13) continue
        stroke(across(left, slot), top + high, across(left, slot), top + high + 5, "stroke=\"#333333\"")
        text(across(left, slot), top + high + 19, "text-anchor=\"middle\"", slot == 14 ? "none" : slot)
    }
    stroke(left, top, left, top + high, "stroke=\"#333333\"")
    text((left + right) / 2, top + high + 39, "text-anchor=\"middle\"", "bound D (none: 65535, which binds nothing)")
}
# The line of one table in one order, from D 0 to 12 and pale to the case without a bound. A value above the axis is written beside its mark.
function curve(left, most, t, order, of,    slot, path, how) {
    how = "stroke=\"" colour[t] "\" stroke-width=\"2\" stroke-dasharray=\"" dashes[order + 1] "\""
    for (slot = 0; slot <= 12; slot++) path = path sprintf("%s%.1f %.1f", slot ? " L " : "M ", across(left, slot), up(of[t, order, slot], most))
    printf "  <path d=\"%s\" fill=\"none\" %s/>\n", path, how
    stroke(across(left, 12), up(of[t, order, 12], most), across(left, 14), up(of[t, order, 14], most), how " stroke-opacity=\"0.4\"")
    for (slot = 0; slot <= 14; slot++) if (slot != 13) mark(t, across(left, slot), up(of[t, order, slot], most))
    if (of[t, order, 14] > most) text(across(left, 14) + 4, up(most, most) - 9 - 14 * order, "text-anchor=\"end\" fill=\"" colour[t] "\"", sprintf("order %d: %.1f, above the axis", order, of[t, order, 14]))
}
# The level line of one table in order 3, which has no bound, with a mark at each end.
function level(left, most, t, of,    height) {
    height = up(of[t, 3, 0], most)
    stroke(across(left, 0), height, across(left, 14), height, "stroke=\"" colour[t] "\" stroke-width=\"2\" stroke-dasharray=\"" dashes[4] "\"")
    mark(t, across(left, 0), height)
    mark(t, across(left, 14), height)
}
function curves(left, most, of,    t, order) {
    for (t = 1; t <= tables; t++) for (order = 0; order <= 2; order++) curve(left, most, t, order, of)
    for (t = 1; t <= tables; t++) level(left, most, t, of)
}
END {
    print "<svg xmlns=\"http://www.w3.org/2000/svg\" viewBox=\"0 0 1344 492\" width=\"1344\" height=\"492\" font-family=\"sans-serif\" font-size=\"12\" fill=\"#222222\">"
    print "  <title>Size and hops against the bound D</title>"
    print "  <rect width=\"1344\" height=\"492\" fill=\"#ffffff\"/>"
    panel(66, 200, 25, "%", "Image, as a share of the plain table")
    stroke(66, up(100, 200), across(66, 14) + 14, up(100, 200), "stroke=\"#555555\" stroke-dasharray=\"6 4\"")
    text(across(66, 14) + 12, up(100, 200) + 14, "text-anchor=\"end\" font-size=\"11\" fill=\"#555555\"", "the plain table")
    curves(66, 200, share)
    panel(510, 3.5, 0.5, "", "Hops for a byte, on average")
    curves(510, 3.5, hops)
    panel(954, 6, 1, "", "Hops for a byte, hardest payload")
    curves(954, 6, hardest)
    for (t = 1; t <= tables; t++) {
        stroke(66, 412 + 20 * t, 94, 412 + 20 * t, "stroke=\"" colour[t] "\" stroke-width=\"2\"")
        mark(t, 80, 412 + 20 * t)
        text(102, 416 + 20 * t, "", name[t] ": " told[t])
    }
    text(510, 436, "", "Average: over all pairs of a state and a byte, each counted once.")
    text(510, 456, "", "Hardest payload: of 4,096 bytes from the start state, the one that")
    text(510, 476, "", "costs the most hops of all.")
    text(954, 436, "", "Whole lines: order 0. Dashes: order 1, BGS.")
    text(954, 456, "", "Dots: order 2, REF.")
    text(954, 476, "", "Level, dashes and dots: order 3, toward the start.")
    print "</svg>"
}
