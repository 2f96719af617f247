# The figures of measure_growth.sh: lines `count ROW NUMBER STORE INSTRUCTIONS`. With `part=table` it prints a Markdown table, and else draws
# the chart, whose axes are both logarithmic: a panel for each row, and in it a line for each store. `counts` are the numbers in order.
#
# The slope of a line is the power of the number by which the instructions grow from the least to the greatest: 0 where they don't grow.

BEGIN {
    count_count = split(counts, number, " ")
    row_count = split("links pairs random gets scans", row, " ")
    split("two sets and a get of a page,allocations of a page with a pair,inserts into a map,gets from a map,scans of 100 pairs of a map", titles, ",")
    store_count = split("dilluvas lmdb", store, " ")
    split("Dilluvas,LMDB", names, ",")
}

$1 == "count" { instructions[$2, $3, $4] = $5 }

function commas(value,    text) {
    for (text = sprintf("%d", value); text ~ /^[0-9]+[0-9][0-9][0-9]/; sub(/[0-9][0-9][0-9](,|$)/, ",&", text)) {}
    return text
}

function of(i, j, k) {
    return instructions[row[i], number[k], store[j]]
}

function slope(i, j) {
    return log(of(i, j, count_count) / of(i, j, 1)) / log(number[count_count] / number[1])
}

function print_table(    i, j, k, head, rule) {
    head = "| instructions of a line | store |"
    rule = "|---|---|"
    for (k = 1; k <= count_count; k++) {
        head = head " " commas(number[k]) " |"
        rule = rule "---|"
    }
    print head " slope |"
    print rule "---|"
    for (i = 1; i <= row_count; i++)
        for (j = 1; j <= store_count; j++) {
            printf "| %s | %s |", titles[i], names[j]
            for (k = 1; k <= count_count; k++) printf " %s |", commas(of(i, j, k))
            printf " %.2f |\n", slope(i, j)
        }
}

function x_of(k) {
    return left + log(number[k] / number[1]) / log(number[count_count] / number[1]) * wide
}

function y_of(value) {
    return top + high - log(value / least) / log(greatest / least) * high
}

function draw_panel(i,    j, k, power) {
    printf "<text class=\"head\" x=\"%d\" y=\"%d\">%s</text>\n", left - 44, top - 14, titles[i]
    for (power = least; power <= greatest; power *= 10) {
        printf "<path class=\"grid\" d=\"M%d %.1fh%d\"/>\n", left, y_of(power), wide
        printf "<text class=\"mark\" x=\"%d\" y=\"%.1f\">%s</text>\n", left - 6, y_of(power) + 4, commas(power)
    }
    for (k = 1; k <= count_count; k++)
        printf "<text class=\"below\" x=\"%.1f\" y=\"%d\">%s</text>\n", x_of(k), top + high + 16, short_count(number[k])
    for (j = 1; j <= store_count; j++) {
        printf "<path class=\"line %s\" d=\"", store[j]
        for (k = 1; k <= count_count; k++) printf "%s%.1f %.1f", k == 1 ? "M" : "L", x_of(k), y_of(of(i, j, k))
        print "\"/>"
        for (k = 1; k <= count_count; k++) printf "<circle class=\"%s\" cx=\"%.1f\" cy=\"%.1f\" r=\"3\"/>\n", store[j], x_of(k), y_of(of(i, j, k))
    }
}

function short_count(value) {
    return value >= 1000000 ? value / 1000000 " M" : value >= 1000 ? value / 1000 " k" : value
}

function draw_style() {
    print "<style>"
    print "svg { background: #ffffff } text { font: 12px sans-serif; fill: #24292f } .back { fill: #ffffff }"
    print ".head { font-weight: bold } .mark { text-anchor: end } .below { text-anchor: middle }"
    print ".grid { stroke: #d0d7de } .line { fill: none; stroke-width: 2 }"
    print ".line.dilluvas { stroke: #c2410c } circle.dilluvas { fill: #c2410c } .line.lmdb { stroke: #57606a } circle.lmdb { fill: #57606a }"
    print "@media (prefers-color-scheme: dark) {"
    print "svg { background: #0d1117 } .back { fill: #0d1117 } text { fill: #e6edf3 } .grid { stroke: #30363d }"
    print ".line.dilluvas { stroke: #fb923c } circle.dilluvas { fill: #fb923c } .line.lmdb { stroke: #9aa4ae } circle.lmdb { fill: #9aa4ae } }"
    print "</style>"
}

function draw_legend(    j) {
    for (j = 1; j <= store_count; j++) {
        printf "<circle class=\"%s\" cx=\"%d\" cy=\"%d\" r=\"5\"/>\n", store[j], 22 + (j - 1) * 96, 58
        printf "<text x=\"%d\" y=\"62\">%s</text>\n", 34 + (j - 1) * 96, names[j]
    }
}

function draw_chart(    i) {
    columns = 2
    wide = 280
    high = 140
    width = 760
    height = 92 + int((row_count + columns - 1) / columns) * (high + 64)
    least = 1000
    greatest = 100000
    printf "<svg xmlns=\"http://www.w3.org/2000/svg\" viewBox=\"0 0 %d %d\" width=\"%d\" height=\"%d\" role=\"img\">\n", width, height, width, height
    print "<title>Instructions of a line, of Dilluvas and LMDB, by how many pages or keys there are</title>"
    draw_style()
    printf "<rect class=\"back\" width=\"%d\" height=\"%d\"/>\n", width, height
    print "<text class=\"head\" x=\"16\" y=\"24\">Instructions of a line, by how many pages or keys there are: lower is better</text>"
    print "<text x=\"16\" y=\"43\">Both axes are logarithmic. A level line is a cost that does not grow.</text>"
    draw_legend()
    for (i = 1; i <= row_count; i++) {
        left = 66 + (i - 1) % columns * (wide + 88)
        top = 104 + int((i - 1) / columns) * (high + 64)
        draw_panel(i)
    }
    print "</svg>"
}

END {
    if (part == "table") print_table()
    else draw_chart()
}
