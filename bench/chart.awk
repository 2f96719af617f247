# Draws docs/benchmarks.svg and docs/maps.svg from what figures.awk read: a bar for each program's processor time of a line of some scripts
# (`scripts`). With `scales` one all bars have one scale, with room for four times the longest of the first program, which is Dilluvas; with
# `scales` each, that is so for the bars of each script. A longer bar is cut, which a break of two slanted lines shows, and its number is that
# of the whole bar.

function drawn_time(script, whose) {
    return is_nothing(time, script, whose) ? 0 : line_time(script, whose)
}

function number_of(script, whose) {
    return is_nothing(time, script, whose) ? "-" : short(line_time(script, whose))
}

function name_of(whose) {
    return whose == program[1] ? "Dilluvas" : title_of[whose]
}

# What a script does, and of a script of maps also with which keys and values.
function heading_of(script,    cell) {
    if (split(title_of[script], cell, " [|] ") == 1) return cell[1]
    return cell[1] ", " thousands(cell[2]) " keys of " cell[3] " bytes, values of " cell[4]
}

# The time for which a bar has room.
function greatest_drawn(script,    i, longest) {
    if (scales == "each") return 4 * drawn_time(script, program[1])
    for (i = 1; i <= drawn_count; i++)
        if (drawn_time(drawn[i], program[1]) > longest) longest = drawn_time(drawn[i], program[1])
    return 4 * longest
}

function draw_bar(class, top, long) {
    printf "<rect class=\"%s\" x=\"%d\" y=\"%d\" width=\"%.1f\" height=\"15\"/>\n", class, left, top, long
}

# The break of a bar that is as long as there is room.
function draw_break(top,    at) {
    at = left + bar_room * 0.9
    printf "<path class=\"back\" d=\"M%d %dl8 -19h9l-8 19z\"/>\n", at, top + 17
    printf "<path class=\"break\" d=\"M%d %dl8 -19m9 0l-8 19\"/>\n", at, top + 17
}

function draw(script, top,    j, long, is_cut, most) {
    printf "<text x=\"16\" y=\"%d\"><tspan class=\"head\">%s</tspan> (%s lines)</text>\n", top + 13, heading_of(script), thousands(lines_of[script])
    most = greatest_drawn(script)
    for (j = 1; j <= program_count; j++) {
        top += 20
        long = most ? drawn_time(script, program[j]) / most * bar_room : 0
        is_cut = long > bar_room
        if (is_cut) long = bar_room
        printf "<text class=\"name\" x=\"%d\" y=\"%d\">%s</text>\n", left - 8, top + 12, name_of(program[j])
        draw_bar(j == 1 ? "own" : "other", top, long)
        if (is_cut) draw_break(top)
        printf "<text x=\"%.1f\" y=\"%d\">%s</text>\n", left + long + 6, top + 12, number_of(script, program[j])
    }
}

function draw_style() {
    print "<style>"
    print "svg { background: #ffffff } text { font: 12px sans-serif; fill: #24292f } .back { fill: #ffffff }"
    print ".head { font-weight: bold } .name { text-anchor: end } .own { fill: #c2410c } .other { fill: #8c959f }"
    print ".break { fill: none; stroke: #24292f; stroke-width: 1.5 }"
    print "@media (prefers-color-scheme: dark) {"
    print "svg { background: #0d1117 } .back { fill: #0d1117 } text { fill: #e6edf3 } .own { fill: #fb923c } .other { fill: #6e7681 }"
    print ".break { stroke: #e6edf3 } }"
    print "</style>"
}

END {
    drawn_count = split(scripts, drawn, " ")
    width = 760
    left = 96
    bar_room = width - left - 64
    group = 20 * program_count + 34
    first = 81
    height = first + drawn_count * group
    printf "<svg xmlns=\"http://www.w3.org/2000/svg\" viewBox=\"0 0 %d %d\" width=\"%d\" height=\"%d\" role=\"img\">\n", width, height, width, height
    print "<title>Processor time of a line in microseconds, of Dilluvas and other stores, by script</title>"
    draw_style()
    printf "<rect class=\"back\" width=\"%d\" height=\"%d\"/>\n", width, height
    print "<text class=\"head\" x=\"16\" y=\"24\">Processor time of a line, microseconds: shorter is better</text>"
    print "<text x=\"16\" y=\"43\">A figure is the mean of the lines that the heading counts. Some stores' figures depend on how many lines there are.</text>"
    printf "<text x=\"16\" y=\"60\">%s A bar with a break is cut; its number is that of the whole bar.</text>\n", scales == "each" ? "Each script has its own scale." : "All bars have one scale."
    for (i = 1; i <= drawn_count; i++) draw(drawn[i], first + (i - 1) * group)
    print "</svg>"
}
