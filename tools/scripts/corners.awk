# Prints rows of scripts (rows.awk) that go through each command at its corners. With `over` as `memory`: leaves of none to 1,000 pairs with
# short and long keys and values, pages and stamps by the lengths of their numbers, ids by how many were drawn, pairs of any size, and lines of
# 65,536 bytes and more. With `over` as `file`: pending bytes at 4,096.

# `text` with each sign `*` as the pairs, each behind a space, `+` as a value, and `#` as a number. A part behind `|` is one more row.
function rows(text, pairs, value, number,    part, count, i) {
    count = split(text, part, "|")
    for (i = 1; i <= count; i++) {
        gsub(/#/, number, part[i])
        gsub(/\+/, value, part[i])
        gsub(/\*/, pairs, part[i])
        print part[i]
    }
}

function end_group() {
    print ""
}

# So many pairs of a key and no byte. The keys have four bytes and the tail.
function pairs_of(count, tail,    i, words) {
    words = ""
    for (i = 0; i < count; i++) {
        words = words sprintf(" %08x", i) tail "=-"
    }
    return words
}

# The word of a byte string of so many bytes.
function word_of(count,    i, word) {
    if (count == 0) {
        return "-"
    }
    word = ""
    for (i = 0; i < count; i++) {
        word = word byte[i % 5]
    }
    return word
}

# How many bytes the log takes up to the flush: two messages with the node of the pairs, whose keys and values have so many bytes, three
# links, and an empty leaf.
function flushed(count, key, value) {
    return 2 * ((count > 240 ? 9 : 8) + count * (key + 2)) + 121 + value
}

# ---- leaves

function leaves(tail, value,    text, counts, n, i) {
    text = "alloc* -> page 2 1|get 2 -> leaf 1*|set 2 1 00 + -> ok 2|get 2 -> leaf 2 00=+*|set 2 2 00 - -> ok 3|get 2 -> leaf 3 00=-*"
    text = text "|del 2 3 00 -> ok 4|get 2 -> leaf 4*|set 2 3 00 + -> stale 4|replace 2 4 -> ok 5|get 2 -> leaf 5|replace 2 5* -> ok 6"
    text = text "|get 2 -> leaf 6*|replace 2 5* -> stale 6|flush -> flushed #|flush -> flushed 0|free 2 6 -> ok 7|get 2 -> none"
    text = text "|replace 2 7* -> gone|alloc* -> page 2 8|get 2 -> leaf 8*|alloc* -> page 3 1|get 3 -> leaf 1*"
    n = split("0 1 2 3 16 17 1000", counts, " ")
    for (i = 1; i <= n; i++) {
        rows(text, pairs_of(counts[i], tail), value, flushed(counts[i], length(tail) / 2 + 4, length(value) / 2))
        end_group()
    }
}

# ---- numbers

function numbers(    page, text, list, n, i) {
    for (page = 2; page <= 2289; page++) {
        rows("alloc -> page # 1", "", "", page)
    }
    text = "get # -> leaf 1|set # 1 61 62 -> ok 2|get # -> leaf 2 61=62|del # 2 61 -> ok 3|replace # 3 63=64 -> ok 4|get # -> leaf 4 63=64"
    text = text "|free # 4 -> ok 5|get # -> none|free # 5 -> gone|alloc 65=66 -> page # 6|get # -> leaf 6 65=66"
    n = split("2 9 10 99 100 239 240 241 999 1000 2286 2287 2288", list, " ")
    for (i = 1; i <= n; i++) {
        rows(text, "", "", list[i])
    }
    # numbers above all pages, and stamps that no page has: at the ends of the bytes that a number takes
    text = "get # -> none|set # 1 61 62 -> gone|del # # 61 -> gone|replace # # -> gone|free # # -> gone|set 2289 # 61 62 -> stale 1"
    text = text "|del 2289 # 61 -> stale 1|replace 2289 # 61=62 -> stale 1|free 2289 # -> stale 1"
    n = split("2290 67823 67824 16777215 16777216 4294967295 4294967296 137438953471 137438953472 1099511627775 1099511627776" \
        " 281474976710655 281474976710656 72057594037927935 72057594037927936 9223372036854775807 9223372036854775808" \
        " 18446744073709551615", list, " ")
    for (i = 1; i <= n; i++) {
        rows(text, "", "", list[i])
    }
    end_group()
}

function stamps(    stamp) {
    print "alloc -> page 2 1"
    for (stamp = 1; stamp < 2290; stamp++) {
        print "set 2 " stamp " 61 62 -> ok " (stamp + 1)
    }
    end_group()
}

# ---- generated ids

# So many ids, and the bytes of the log behind them: it has 35 at first, and each tenth id but 0 puts a counter there, which takes 17 and
# those of its number.
function ids(count, bytes,    id) {
    for (id = 0; id < count; id++) {
        print "id -> id " id
    }
    print "size -> size " bytes
    end_group()
}

# ---- pairs and lines of any size

# A pair of so many bytes is replied as it was encoded.
function pair(key, value,    words) {
    words = word_of(key) "=" word_of(value)
    print "alloc " words " -> page 2 1"
    print "get 2 -> leaf 1 " words
}

function pairs(    list, n, i, sides) {
    n = split("0 1 21 22 23 24 25 30 31 79 80 81 160 161 200", list, " ")
    for (i = 1; i <= n; i++) {
        pair(list[i], 1)
        end_group()
        pair(1, list[i])
        end_group()
    }
    # entries at the room of a piece, and those of the longest lines
    n = split("0=0 77=1 78=0 0=78 39=39 78=1 79=0 0=79 40=39 80=80 200=200 0=32764 32764=0", list, " ")
    for (i = 1; i <= n; i++) {
        split(list[i], sides, "=")
        pair(sides[1], sides[2])
        end_group()
    }
}

# A line with so many digits of a value.
function long_line(digits, reply,    value) {
    value = "0000000000000000"
    while (length(value) < digits) {
        value = value value
    }
    print "set 9 10 61 " substr(value, 1, digits) " -> " reply
    print "get 9 -> none"
    end_group()
}

# ---- pending bytes

# How many bytes the file has behind a run that puts a value of so many bytes on a page and flushes nothing: at 4,096 bytes that are
# pending they are written.
function pending(value, bytes) {
    pair(1, value)
    print "--"
    print "size -> size " bytes
    end_group()
}

BEGIN {
    split("00 7f a9 ff 3c", given, " ")
    for (at = 1; at <= 5; at++) {
        byte[at - 1] = given[at]
    }
    if (over == "file") {
        pending(4065, 53)
        pending(4066, 4158)
        exit
    }
    leaves("", "76")
    # keys and values with more than is kept in place
    leaves("7878787878787878787878787878787878787878787878", "767676767676767676767676767676767676767676767676")
    numbers()
    stamps()
    n = split("0=35 1=35 10=35 11=53 20=53 21=71 241=467 250=467 251=486 2281=4343 2291=4363 2301=4383", drawn, " ")
    for (i = 1; i <= n; i++) {
        split(drawn[i], part, "=")
        ids(part[1], part[2])
    }
    pairs()
    long_line(65524, "gone")
    long_line(65526, "error line")
}
