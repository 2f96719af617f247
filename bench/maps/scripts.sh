# The scripts of measure_maps.sh, in place of those of ../scripts.sh. A name is that of its kind, how many keys it is about, and how many
# bytes a key and a value have: `gets-100000-8-100`. Those of the kinds `filled` and `flushes_EVERY` are over a file.

# list_scripts: a line for each script in memory, of all sizes and counts: its name, that of its setup, and what it does, which are the first
# cells of its row: what, how many keys, and how many bytes a key and a value have
list_scripts() {
    for size in $sizes; do
        for keys in $counts; do
            each=$keys-${size%/*}-${size#*/} cells="$keys | ${size%/*} | ${size#*/}"
            echo "random-$each nothing inserts in a mixed order | $cells"
            echo "rising-$each nothing inserts in rising order | $cells"
            echo "gets-$each flushed-$each gets | $cells"
            echo "scans-$each flushed-$each scans of 100 pairs | $cells"
            echo "removals-$each flushed-$each removals in a mixed order | $cells"
        done
    done
}

# list_over_file: the same for each script over a file. A flush each 1 is dear, so there is one for a size, of the least count, and at most of
# 10,000 keys.
list_over_file() {
    least=$(echo "$counts 10000" | tr ' ' '\n' | sort -n | head -n 1)
    for size in $sizes; do
        bytes=${size%/*}-${size#*/}
        echo "flushes_1-$least-$bytes nothing_over_file inserts, a flush each 1 | $least | ${size%/*} | ${size#*/}"
        for keys in $counts; do
            cells="$keys | ${size%/*} | ${size#*/}"
            for every in 100 10000; do
                [ "$every" -ge "$keys" ] || echo "flushes_$every-$keys-$bytes nothing_over_file inserts, a flush each $every | $cells"
            done
            echo "filled-$keys-$bytes nothing_over_file inserts, a flush at the end | $cells"
        done
    done
}

is_over_file() {
    case $1 in
    nothing_over_file | filled-* | flushes_*) ;;
    *) return 1 ;;
    esac
}

# setup_of NAME: the name of the setup of a script, or of a setup
setup_of() {
    case $1 in
    filled-* | flushes_*) echo nothing_over_file ;;
    gets-* | scans-* | removals-*) echo "flushed-${1#*-}" ;;
    *) echo nothing ;;
    esac
}

# script_lines NAME: the lines of a script or of a setup
script_lines() {
    kind=${1%%-*} size=${1#*-}
    case $kind in
    nothing | nothing_over_file) ;;
    *) lines_of_kind "$kind" $(echo "$size" | tr - ' ') ;;
    esac
}

# lines_of_kind KIND KEYS KEY VALUE: of KEYS keys of KEY bytes, whose values have VALUE
lines_of_kind() {
    case $1 in
    random) pairs mixed "$2" "$3" "$4" ;;
    rising) pairs rising "$2" "$3" "$4" ;;
    flushed | filled) pairs mixed "$2" "$3" "$4" && echo flush ;;
    flushes_*) pairs mixed "$2" "$3" "$4" | with_flushes "${1#flushes_}" ;;
    gets) present get "$2" "$3" "$(at_least 300000 "$2")" '' ;;
    scans) present scan "$2" "$3" "$(at_least 10000 "$(($2 / 10))")" ' 100' ;;
    removals) removals "$2" "$3" ;;
    *) die "there is no script of $1" ;;
    esac
}

at_least() {
    echo "$(($1 > $2 ? $1 : $2))"
}

# What the scripts share. `key` gives the next key of a mixed order: of a generator that gives each number below 2^31 - 1 once, in eight
# hexadecimal digits, behind as many of a number that is made of it where keys have 16 bytes.
shared_awk='
    function key(    front) {
        seed = (seed * 16807) % 2147483647
        front = size > 8 ? sprintf("%08x", (seed * 48271) % 2147483647) : ""
        return front sprintf("%08x", seed)
    }
    BEGIN { seed = 1 }
'

# pairs ORDER KEYS KEY VALUE: a set of each key to a value of its own
pairs() {
    awk -v order="$1" -v keys="$2" -v size="$3" -v bytes="$4" "$shared_awk"'
        BEGIN {
            while (length(rest) < bytes - 8) rest = rest "value-of-a-pair."
            rest = substr(rest, 1, bytes - 8)
            for (i = 0; i < keys; i++)
                printf "set m %s %08x%s\n", order == "rising" ? sprintf("%0" size "d", i) : key(), (i * 48271) % 2147483647, rest
        }
    '
}

# present CALL KEYS KEY LINES END: so many calls on keys of `pairs mixed`, drawn at random
present() {
    awk -v call="$1" -v keys="$2" -v size="$3" -v lines="$4" -v end="$5" "$shared_awk"'
        BEGIN {
            for (i = 0; i < keys; i++) made[i] = key()
            drawn = 7
            for (i = 0; i < lines; i++) {
                drawn = (drawn * 48271) % 2147483647
                print call " m " made[drawn % keys] end
            }
        }
    '
}

# removals KEYS KEY: a removal of each key of `pairs mixed`, in the order of a generator that gives each number below a power of 2 once
removals() {
    awk -v keys="$1" -v size="$2" "$shared_awk"'
        BEGIN {
            for (i = 0; i < keys; i++) made[i] = key()
            for (room = 1; room < keys; room *= 2) {}
            for (i = 0; i < room; i++) {
                place = (place * 82901 + 12345) % room
                if (place < keys) print "del m " made[place]
            }
        }
    '
}
