# Prints measure_counts.sh's table, with figures.awk and tables.awk. A script's name ends with its count, as `gets-60000`.

function base_of(script) {
    sub(/-[0-9]*$/, "", script)
    return script
}

function says_little(script, whose) {
    return is_nothing(time, script, whose) || is_rough(time, script, whose)
}

# The stores that take more than a quarter more for a line of this script than for one of the other, or less, each with the factor. Rough
# figures are not compared.
function changes(script, other,    j, whose, factor, text) {
    for (j = 1; j <= program_count; j++) {
        whose = program[j]
        if (says_little(script, whose) || says_little(other, whose)) continue
        factor = line_time(script, whose) / line_time(other, whose)
        if (factor <= 1.25 && factor >= 0.8) continue
        text = text (text ? ", " : "") title_of[whose] " " short(factor) " times"
    }
    return text ? text : "none"
}

END {
    head("script | lines", 1, "changed by more than a quarter")
    for (i = 1; i <= listed_count; i++) {
        script = listed[i]
        if (base_of(script) != base_of(first)) first = script
        line = title_of[script] " | " thousands(lines_of[script])
        for (j = 1; j <= program_count; j++) line = line " | " time_cell(time, script, program[j])
        print "| " line " | " (script == first ? "" : changes(script, first)) " |"
    }
}
