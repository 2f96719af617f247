# The scripts of measure.sh and measure_file.sh: their setups and their lines. $count is about how many lines most of them have; those
# whose single lines are dear have fewer.
#
# $list is a file with a line for each script, of its name, the name of its setup, and what it does. What a script takes is what all
# takes without what its setup takes by itself. A setup that is listed too has one of its own.

# setup_of NAME: the name of the setup of a script or of a setup
setup_of() {
    awk -v name="$1" '$1 == name { found = $2 } END { print found ? found : "nothing" }' "$list"
}

# whole_script NAME: the lines of a script or of a setup after those of its own setup
whole_script() {
    [ "$1" = nothing ] || whole_script "$(setup_of "$1")"
    script_lines "$1"
}

# script_lines NAME: the lines of a script or of a setup. A name may end with a count of its own, as `gets-60000`.
script_lines() {
    case $1 in
    nothing) ;;
    *-*) (count=${1##*-} && script_lines "${1%-*}") ;;
    absent) absent "$count" ;;
    gets) rounds 1000 "$count" 0 1 ;;
    links_*) rounds "${1#links_}" "$count" 2 1 ;;
    sets) rounds 1000 "$count" 1 0 ;;
    deletions) deletions 1000 "$count" ;;
    replacements) replacements 1000 "$((count / 5))" ;;
    pages_*) repeated "${1#pages_}" 'alloc' ;;
    pairs_*) repeated "${1#pairs_}" 'alloc 61=62' ;;
    leaf_*) leaf "${1#leaf_}" ;;
    leaves_1000) leaves 1000 "$((count / 1000))" ;;
    leaves_8000) leaves 8000 "$((count / 8000))" ;;
    large_1000) large 1000 "$((count / 10))" ;;
    large_8000) large 8000 "$((count / 40))" ;;
    replies) repeated "$((count / 200))" 'get 2' ;;
    flushes_*) flushes 1000 "$count" "${1#flushes_}" ;;
    batches_*) batches 1000 "$count" "${1#batches_}" ;;
    durable_batches_*) batches 1000 "$count" "${1#durable_batches_}" | with_flushes "$((${1#durable_batches_} + 2))" ;;
    durable_large_1000) large 1000 "$((count / 10))" | with_flushes 100 ;;
    short_sets) short_sets 1000 1000000 ;;
    ids_*) repeated "$count" 'id' ;;
    frees_mixed) frees_mixed 1000000 ;;
    frees_rising) frees_rising 1000000 ;;
    reuses) repeated 1000000 'alloc' ;;
    names_*) names "${1#names_}" ;;
    roots_10) roots 10 "$count" ;;
    roots_1000) roots 1000 "$((count / 10))" ;;
    roots_10000) roots 10000 "$((count / 50))" ;;
    flushed_short_sets) script_lines pages_1000 && script_lines short_sets && echo flush ;;
    flushed_*) script_lines "${1#flushed_}" && echo flush ;;
    reopened_*) echo 'get 2' ;;
    *) die "there is no script $1" ;;
    esac
}

# interval_of SCRIPT: the interval of ids that a script wants
interval_of() {
    case $1 in
    ids_*) echo "${1#ids_}" ;;
    *) echo 10 ;;
    esac
}

# can_run PROGRAM SCRIPT: whether the program has what the script is about. In LevelDB's and RocksDB's batches what was changed can't be
# read before they are written, so these two have none here.
can_run() {
    case $1-$2 in
    leveldb-*batches_* | rocksdb-*batches_*) return 1 ;;
    esac
}

# repeated TIMES LINE: the same line so often
repeated() {
    awk -v n="$1" -v line="$2" 'BEGIN { for (i = 0; i < n; i++) print line }'
}

# absent LINES: gets of ids after those of 1,000 pages
absent() {
    awk -v lines="$1" 'BEGIN {
        seed = 1
        for (i = 0; i < lines; i++) {
            seed = (seed * 16807) % 2147483647
            printf "get %d\n", 1002 + seed % 1000000
        }
    }'
}

# with_flushes EVERY: the lines of standard input, with a flush after each so many
with_flushes() {
    awk -v every="$1" '{ print } NR % every == 0 { print "flush" }'
}

# flushes PAGES LINES EVERY: sets with a flush after each so many, which ends them
flushes() {
    rounds "$1" "$(($2 / ($3 + 1) * $3))" 1 0 | with_flushes "$3"
}

# rounds PAGES LINES SETS GETS: rounds over so many pages, of which the ids begin at 2. In each round one page gets so many sets, each
# of the next of four keys, and is asked for so often.
rounds() {
    awk -v pages="$1" -v lines="$2" -v sets="$3" -v gets="$4" 'BEGIN {
        for (i = 0; i < pages; i++) stamp[i] = 1
        seed = 1
        while (written < lines) {
            seed = (seed * 16807) % 2147483647
            page = seed % pages
            for (k = 0; k < sets; k++) {
                printf "set %d %d 61%02x %04x\n", page + 2, stamp[page], stamp[page] % 4, done % 65536
                stamp[page]++
                done++
                written++
            }
            for (k = 0; k < gets; k++) { printf "get %d\n", page + 2; written++ }
        }
    }'
}

# batches PAGES LINES SETS: batches of so many sets of so many pages
batches() {
    awk -v pages="$1" -v lines="$2" -v sets="$3" 'BEGIN {
        for (i = 0; i < pages; i++) stamp[i] = 1
        seed = 1
        for (written = 0; written < lines; written += sets + 2) {
            print "pin"
            for (k = 0; k < sets; k++) {
                seed = (seed * 16807) % 2147483647
                page = seed % pages
                printf "set %d %d 61%02x %04x\n", page + 2, stamp[page], stamp[page] % 4, done++ % 65536
                stamp[page]++
            }
            print "seal"
        }
    }'
}

# short_sets PAGES LINES: sets of one of four keys of one byte to a value of one byte
short_sets() {
    awk -v pages="$1" -v lines="$2" 'BEGIN {
        for (i = 0; i < pages; i++) stamp[i] = 1
        seed = 1
        for (i = 0; i < lines; i++) {
            seed = (seed * 16807) % 2147483647
            page = seed % pages
            printf "set %d %d 6%d 62\n", page + 2, stamp[page], stamp[page] % 4
            stamp[page]++
        }
    }'
}

# deletions PAGES LINES: a set, and then the deletion of its key
deletions() {
    awk -v pages="$1" -v lines="$2" 'BEGIN {
        for (i = 0; i < pages; i++) stamp[i] = 1
        seed = 1
        for (i = 0; i < lines; i += 2) {
            seed = (seed * 16807) % 2147483647
            page = seed % pages
            printf "set %d %d 61%02x %04x\n", page + 2, stamp[page], i % 8, i % 65536
            printf "del %d %d 61%02x\n", page + 2, stamp[page] + 1, i % 8
            stamp[page] += 2
        }
    }'
}

# replacements PAGES LINES: a page gets four other pairs
replacements() {
    awk -v pages="$1" -v lines="$2" 'BEGIN {
        for (i = 0; i < pages; i++) stamp[i] = 1
        seed = 1
        for (i = 0; i < lines; i++) {
            seed = (seed * 16807) % 2147483647
            page = seed % pages
            value = sprintf("%04x", i % 65536)
            printf "replace %d %d 6100=%s 6101=%s 6102=%s 6103=%s\n", page + 2, stamp[page]++, value, value, value, value
        }
    }'
}

# leaf PAIRS: the allocation of a page of so many pairs, in one line
leaf() {
    awk -v pairs="$1" 'BEGIN { printf "alloc"; for (i = 0; i < pairs; i++) printf " %04x=%02x", i, i % 256; printf "\n" }'
}

# leaves PAIRS LINES: the allocation of so many pages of so many pairs, in a line each
leaves() {
    leaf "$1" | awk -v n="$2" '{ for (i = 0; i < n; i++) print }'
}

# large PAIRS LINES: sets of the keys of page 2, which has so many pairs
large() {
    awk -v pairs="$1" -v lines="$2" 'BEGIN {
        seed = 1
        for (i = 0; i < lines; i++) {
            seed = (seed * 16807) % 2147483647
            printf "set 2 %d %04x %04x\n", i + 1, seed % pairs, i % 65536
        }
    }'
}

# frees_mixed PAGES: a free of each of at most 2^20 pages, in the order of a generator that gives each number below 2^20 once
frees_mixed() {
    awk -v pages="$1" 'BEGIN {
        for (i = 0; i < 1048576; i++) {
            seed = (seed * 82901 + 12345) % 1048576
            if (seed < pages) printf "free %d 1\n", seed + 2
        }
    }'
}

# frees_rising PAGES: a free of each page, the least id first
frees_rising() {
    awk -v pages="$1" 'BEGIN { for (i = 0; i < pages; i++) printf "free %d 1\n", i + 2 }'
}

# names NAMES: so many names of four bytes, in a mixed order, each with a root of its own
names() {
    awk -v names="$1" 'BEGIN {
        for (i = 0; i < names; i++) {
            name = i * 7919 % names
            printf "cas %08x - %d\n", name, 2 + 2 * name
        }
    }'
}

# roots NAMES LINES: swaps of the roots of these names. Each gets one of two roots in turn.
roots() {
    awk -v names="$1" -v lines="$2" 'BEGIN {
        seed = 1
        for (i = 0; i < lines; i++) {
            seed = (seed * 16807) % 2147483647
            name = seed % names
            root = 2 + 2 * name
            printf "cas %08x %d %d\n", name, root + swapped[name], root + 1 - swapped[name]
            swapped[name] = 1 - swapped[name]
        }
    }'
}
