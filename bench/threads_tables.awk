# Prints measure_threads.sh's tables, with figures.awk and tables.awk: with `tables` page that of docs/BENCHMARKS.md, else those of
# bench/results/threads.md.

BEGIN {
    split("shared plain plain_map lmdb lmdb_own sqlite sqlite_own", names, " ")
    split("shared cache;cache, not shared;plain map, a mutex;LMDB, a mutex;LMDB, own transactions;SQLite, a mutex;SQLite, own connections", titles, ";")
    for (i in names) title_of[names[i]] = titles[i]
}

# How many thousand calls a second; after `~` where it is rough.
function rate_cell(script, whose,    rate) {
    if (is_nothing(wall, script, whose)) return "-"
    rate = lines_of[script] / own(wall, script, whose) * 1000
    return (is_rough(wall, script, whose) ? "~" : "") (rate < 100 ? short(rate) : thousands(rate + 0.5))
}

function print_rates(    i, j, line) {
    head("calls", 1)
    for (i = 1; i <= listed_count; i++) {
        line = title_of[listed[i]]
        for (j = 1; j <= program_count; j++) line = line " | " rate_cell(listed[i], program[j])
        print "| " line " |"
    }
}

END {
    if (tables == "page") {
        print "### Threads: thousand calls a second, by the clock\n"
        print_rates()
        exit
    }
    print "## Processor time of a call, microseconds\n"
    print_times(time)
    print "\n## Wall time of whole runs, setup included, seconds: median (least to greatest)\n"
    print_runs(wall)
}
