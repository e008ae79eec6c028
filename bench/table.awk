# The table of bench/run: joins the counts (row NUMBER SIDE INSTRUCTIONS) to the rows that the harness printed, one field between tabs after the other.
function grouped(x,    text) {
    if (x == "-") return x
    text = sprintf("%d", x)
    while (text ~ /[0-9][0-9][0-9][0-9]/) sub(/[0-9][0-9][0-9](,|$)/, ",&", text)
    return text
}
# Three digits that count.
function short(x,    digits) {
    digits = x >= 100 ? 0 : x >= 10 ? 1 : x >= 1 ? 2 : x >= 0.1 ? 3 : x >= 0.01 ? 4 : 5
    return sprintf("%." digits "f", x)
}
function line(operation, what, table, image, archive, c, ratio, ms_archive, ms_c, stack) {
    printf "| %-19s | %-43s | %11s | %11s | %13s | %11s | %5s | %9s | %7s | %11s |\n", operation, what, table, image, archive, c, ratio, ms_archive, ms_c, stack
}
FNR == NR {
    split($0, part, " ")
    count[part[2], part[3]] = part[4]
    next
}
FNR == 1 {
    line("operation", "case", "table bytes", "image bytes", "instr. Rattle", "instr. C", "ratio", "ms Rattle", "ms C", "stack bytes")
    line(":---", ":---", "---:", "---:", "---:", "---:", "---:", "---:", "---:", "---:")
}
{
    archive = count[$1, "archive"] - count[$1, "less"]
    line($2, $3, grouped($4), grouped($5), grouped(archive), grouped(count[$1, "c"]), sprintf("%.2f", archive / count[$1, "c"]), short($6), short($7), grouped($8))
}
