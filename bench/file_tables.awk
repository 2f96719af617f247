# Prints measure_file.sh's tables, with figures.awk and tables.awk: with `tables` page that of docs/BENCHMARKS.md, else those of
# bench/results/file.md.

# The syncs of a script's own lines, without its setup's.
function syncs_cell(script, whose) {
    return (script, whose) in syncs ? thousands(syncs[script, whose] - syncs[setup_of[script], whose]) : "-"
}

function print_syncs(    i, j, line) {
    head("script | flushes", 1)
    for (i = 1; i <= listed_count; i++) {
        line = title_of[listed[i]] " | " thousands(flushes_of[listed[i]])
        for (j = 1; j <= program_count; j++) line = line " | " syncs_cell(listed[i], program[j])
        print "| " line " |"
    }
}

function milliseconds(number) {
    return short(number / 1000)
}

# What one whole run over a store took, of the kind of the row.
function opening_cell(row, script, whose) {
    if (row == "wall time, ms") return milliseconds(least(wall, script, whose))
    if (row == "processor time, ms") return milliseconds(least(time, script, whose))
    if (row == "syncs") return thousands(syncs[script, whose])
    return short(kept[script, whose] / 1000)
}

function print_opening(script, rows,    row, count, i, j, line) {
    count = split(rows, row, ";")
    for (i = 1; i <= count; i++) {
        if (row[i] == "syncs" && !syncs_count) continue
        line = title_of[script] " | " row[i]
        for (j = 1; j <= program_count; j++) line = line " | " opening_cell(row[i], script, program[j])
        print "| " line " |"
    }
}

function print_openings(    i) {
    head("store | ", 1)
    title_of["nothing"] = "none: a new one is made, and nothing else"
    print_opening("nothing", "wall time, ms;processor time, ms;syncs")
    for (i = 1; i <= reopened_count; i++) print_opening(reopened[i], "wall time, ms;processor time, ms;syncs;files, MB")
}

END {
    if (tables == "page") {
        print "### Over a file: wall time of a line, microseconds\n"
        print_times(wall)
        exit
    }
    print "## Processor time of a line, microseconds\n"
    print_times(time)
    print "\n## Syncs\n"
    if (syncs_count) print_syncs()
    else print "Not counted, as strace is missing or may not trace here."
    print "\n## Reopening, and one get\n"
    print_openings()
    print "\n## Wall time of whole runs, setup included, seconds: median (least to greatest)\n"
    print_runs(wall)
}
