# Prints measure.sh's tables, with figures.awk and tables.awk: with `tables` page that of docs/BENCHMARKS.md, else those of
# bench/results/memory.md.

function ratio_cell(script, other) {
    if (is_nothing(time, script, program[1]) || is_nothing(time, script, other)) return "-"
    return (is_rough(time, script, program[1]) || is_rough(time, script, other) ? "~" : "") short(own(time, script, program[1]) / own(time, script, other))
}

function print_ratios(    i, j, line) {
    head("script", 2)
    for (i = 1; i <= listed_count; i++) {
        line = title_of[listed[i]]
        for (j = 2; j <= program_count; j++) line = line " | " ratio_cell(listed[i], program[j])
        print "| " line " |"
    }
}

# Bytes for each line, above what the setup takes.
function bytes_each(script, whose) {
    return (median(memory, script, whose) - median(memory, setup_of[script], whose)) * 1024 / lines_of[script]
}

function files_each(script, whose) {
    return (files[script, whose] - files[setup_of[script], whose]) * 1024 / lines_of[script]
}

function print_memory(    i, j, line, script, wanted, count) {
    head("script", 1)
    count = split("short_sets pages_1000000 pairs_1000000 frees_mixed reuses", wanted, " ")
    for (i = 1; i <= count; i++) {
        script = wanted[i]
        line = title_of[script]
        for (j = 1; j <= program_count; j++) {
            line = line " | " whole(bytes_each(script, program[j]))
            if (files[script, program[j]] > 0) line = line ", files " whole(files_each(script, program[j]))
        }
        print "| " line " |"
    }
}

END {
    if (tables == "page") {
        print "### Processor time of a line, microseconds\n"
        print_times(time)
        exit
    }
    print "## `sledpc`'s processor time over each other's\n"
    print_ratios()
    print "\n## Processor time of whole runs, setup included, seconds: median (least to greatest)\n"
    print_runs(time)
    print "\n## Peak memory, bytes a line, and bytes of files a line\n"
    print_memory()
}
