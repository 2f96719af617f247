# What the tables of memory_tables.awk and file_tables.awk are made of.

# head(FIRST, FROM, [LAST]): the head of a table, of the columns FIRST and then the programs from this one on, and a last column
function head(first, from, last,    i, line, rule) {
    line = first
    rule = "|---|"
    gsub(/[^|]/, "", first)
    gsub(/./, "---|", first)
    for (i = from; i <= program_count; i++) {
        line = line " | " title_of[program[i]]
        first = first "---|"
    }
    if (last) {
        line = line " | " last
        first = first "---|"
    }
    print "| " line " |"
    print rule first
}

# The time of a line, in microseconds; after `~` where it is rough.
function time_cell(figures, script, whose) {
    if (is_nothing(figures, script, whose)) return "-"
    return (is_rough(figures, script, whose) ? "~" : "") short(own(figures, script, whose) / lines_of[script])
}

function print_times(figures,    i, j, line) {
    head("script | lines", 1)
    for (i = 1; i <= listed_count; i++) {
        line = title_of[listed[i]] " | " thousands(lines_of[listed[i]])
        for (j = 1; j <= program_count; j++) line = line " | " time_cell(figures, listed[i], program[j])
        print "| " line " |"
    }
}

function seconds(number) {
    return sprintf("%.3f", number / 1000000)
}

# Whole runs, in seconds: median (least to greatest).
function print_runs(figures,    i, j, line, script, whose) {
    head("script", 1)
    for (i = 1; i <= listed_count; i++) {
        script = listed[i]
        line = title_of[script]
        for (j = 1; j <= program_count; j++) {
            whose = program[j]
            line = line " | " (run_count[script, whose] ? seconds(median(figures, script, whose)) " (" seconds(least(figures, script, whose)) " to " seconds(greatest(figures, script, whose)) ")" : "-")
        }
        print "| " line " |"
    }
}

# The nearest whole number, of which 0 has no sign.
function whole(number) {
    return sprintf("%.0f", number) + 0
}
