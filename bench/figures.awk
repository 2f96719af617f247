# The figures of the runs of measure.sh or measure_file.sh, for the tables and the chart. The first file is the list of scripts, the
# second the results: lines `script NAME SETUP LINES`, `run NAME PROGRAM MICROSECONDS WALL KILOBYTES FILES`, where WALL is microseconds too,
# and of measure_file.sh `flushes NAME COUNT`, `syncs NAME PROGRAM COUNT` and `kept NAME PROGRAM KILOBYTES`. `programs` are their names
# in order. Scripts of what was kept, whose names begin with `reopened_`, stand apart from the others.

BEGIN {
    program_count = split(programs, program, " ")
    split("sledpc plain_map lmdb sqlite leveldb rocksdb", names, " ")
    split("sledpc,plain map,LMDB,SQLite,LevelDB,RocksDB", titles, ",")
    for (i in names) title_of[names[i]] = titles[i]
}

FNR == NR {
    if ($1 ~ /^reopened_/) reopened[++reopened_count] = $1
    else listed[++listed_count] = $1
    title = $0
    sub(/^[^ ]* [^ ]* /, "", title)
    title_of[$1] = title
    next
}

$1 == "script" {
    setup_of[$2] = $3
    lines_of[$2] = $4
}

$1 == "run" {
    at = ++run_count[$2, $3]
    time[$2, $3, at] = $4
    wall[$2, $3, at] = $5
    memory[$2, $3, at] = $6
    files[$2, $3] = $7
}

$1 == "flushes" { flushes_of[$2] = $3 }
$1 == "syncs" { syncs[$2, $3] = $4; syncs_count++ }
$1 == "kept" { kept[$2, $3] = $4 }

# nth(FIGURES, SCRIPT, WHOSE, PLACE): the figure that stands there in ascending order
function nth(figures, script, whose, place,    count, i, j, held, sorted) {
    count = run_count[script, whose]
    for (i = 1; i <= count; i++) {
        held = figures[script, whose, i]
        for (j = i - 1; j >= 1 && sorted[j] > held; j--) sorted[j + 1] = sorted[j]
        sorted[j + 1] = held
    }
    return sorted[place]
}

function least(figures, script, whose) {
    return nth(figures, script, whose, 1)
}

# Of an even number of figures the mean of the two in the middle.
function median(figures, script, whose,    count) {
    count = run_count[script, whose]
    return (nth(figures, script, whose, int((count + 1) / 2)) + nth(figures, script, whose, int((count + 2) / 2))) / 2
}

function greatest(figures, script, whose) {
    return nth(figures, script, whose, run_count[script, whose])
}

# The microseconds of a script's own lines: the least of its runs without the least of its setup's. The figures are processor times or
# wall times.
function own(figures, script, whose) {
    return least(figures, script, whose) - least(figures, setup_of[script], whose)
}

# The microseconds of a line, by processor time.
function line_time(script, whose) {
    return own(time, script, whose) / lines_of[script]
}

# What is left of a script without its setup says nothing below a twentieth of that, and little below a fifth or five milliseconds. Nor
# does a script say anything of a program that didn't run it, or one that has no lines, as a small COUNT gives it.
function is_nothing(figures, script, whose) {
    return !run_count[script, whose] || !lines_of[script] || own(figures, script, whose) <= least(figures, setup_of[script], whose) / 20
}

function is_rough(figures, script, whose) {
    return own(figures, script, whose) < least(figures, setup_of[script], whose) / 5 || own(figures, script, whose) < 5000
}

# A number with about three figures.
function short(number) {
    return number < 10 ? sprintf("%.2f", number) : number < 100 ? sprintf("%.1f", number) : sprintf("%.0f", number)
}

function thousands(number,    text) {
    text = sprintf("%d", number)
    while (match(text, /^[0-9][0-9][0-9][0-9]+/)) text = substr(text, 1, RLENGTH - 3) "," substr(text, RLENGTH - 2)
    return text
}
