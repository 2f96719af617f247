# Prints measure_maps.sh's tables, with ../figures.awk and ../tables.awk: with `tables` page that of docs/BENCHMARKS.md, else those of
# bench/results/maps.md. Of the results there are also lines `bytes NAME PROGRAM COUNT`.

BEGIN {
    title_of["dilluvas"] = "dilluvas"
    title_of["plain_map"] = "std::map"
    title_of["lmdb_each"] = "LMDB, a transaction each"
    cells = "script | keys | bytes of a key | of a value"
    # What we aim at: the processor time of a line over LMDB's, and over that of a transaction for each.
    aim["random", "lmdb"] = aim["rising", "lmdb"] = aim["scans", "lmdb"] = 2
    aim["random", "lmdb_each"] = aim["rising", "lmdb_each"] = 0.5
    aim["gets", "lmdb"] = 1.5
    aim["flushes_1", "lmdb"] = 1
}

$1 == "bytes" { bytes[$2, $3] = $4 }

function is_over_file(script) {
    return script ~ /^(filled-|flushes_)/
}

function kind_of(script) {
    sub(/-.*/, "", script)
    return script
}

function keys_of(script,    part) {
    split(script, part, "-")
    return part[2]
}

# The first cells of a row.
function cells_of(script,    cell, count, i, line) {
    count = split(title_of[script], cell, " [|] ")
    line = cell[1]
    for (i = 2; i <= count; i++) line = line " | " thousands(cell[i])
    return line
}

function has_of_sort(over_file,    i) {
    for (i = 1; i <= listed_count; i++) if (is_over_file(listed[i]) == over_file) return 1
    return 0
}

# A table of one sort of scripts, of those with so many keys or of all: their processor times or wall times.
function print_sort(figures, over_file, keys,    i, j, line) {
    head(cells " | lines", 1)
    for (i = 1; i <= listed_count; i++) {
        if (is_over_file(listed[i]) != over_file || (keys && keys_of(listed[i]) != keys)) continue
        line = cells_of(listed[i]) " | " thousands(lines_of[listed[i]])
        for (j = 1; j <= program_count; j++) line = line " | " time_cell(figures, listed[i], program[j])
        print "| " line " |"
    }
}

function ratio_cell(script, other,    text) {
    if (is_nothing(time, script, program[1]) || is_nothing(time, script, other)) return "-"
    text = (is_rough(time, script, program[1]) || is_rough(time, script, other) ? "~" : "") short(own(time, script, program[1]) / own(time, script, other))
    if ((kind_of(script), other) in aim) text = text " (at most " aim[kind_of(script), other] ")"
    return text
}

function print_ratios(    i, j, line) {
    head(cells, 2)
    for (i = 1; i <= listed_count; i++) {
        line = cells_of(listed[i])
        for (j = 2; j <= program_count; j++) line = line " | " ratio_cell(listed[i], program[j])
        print "| " line " |"
    }
}

function print_bytes(    i, j, line) {
    head(cells, 1)
    for (i = 1; i <= listed_count; i++) {
        if (!is_over_file(listed[i])) continue
        line = cells_of(listed[i])
        for (j = 1; j <= program_count; j++) line = line " | " ((listed[i], program[j]) in bytes ? thousands(bytes[listed[i], program[j]]) : "-")
        print "| " line " |"
    }
}

# A heading and a blank line, after another one behind what stands before it.
function print_heading(text) {
    if (headings++) print ""
    print text "\n"
}

END {
    for (i = 1; i <= listed_count; i++) if (keys_of(listed[i]) + 0 > most) most = keys_of(listed[i]) + 0
    if (tables == "page") {
        print_heading("### Ordered maps: processor time of a line, microseconds")
        if (has_of_sort(0)) print_sort(time, 0, most)
        if (!has_of_sort(1)) exit
        print_heading("Over a file:")
        print_sort(time, 1, 0)
        exit
    }
    if (program[1] == "dilluvas") {
        print_heading("## `dilluvas`'s processor time over each other's")
        print_ratios()
    }
    if (has_of_sort(0)) {
        print_heading("## In memory: processor time of a line, microseconds")
        print_sort(time, 0, 0)
    }
    if (!has_of_sort(1)) exit
    print_heading("## Over a file: processor time of a line, microseconds")
    print_sort(time, 1, 0)
    print_heading("## Over a file: wall time of a line, microseconds")
    print_sort(wall, 1, 0)
    print_heading("## Bytes of the files at the end")
    print_bytes()
}
