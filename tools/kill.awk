# What the program has to keep over kills; for kill.sh, in whose folder it reads and writes.
#
# The task `make` reads a state, writes a script, and to `reading` the lines that read a file, and prints when to kill the program. The
# task `judge` reads what a run found in the file, the state before the script, the script, the replies to it that were seen and the
# faults that were reported, in this order. It prints the state that was found, or what differs.
#
# A state is what a file holds: the last id that was seen, how many pages there are, and of each its pairs or that it is free. Stamps begin
# at 0 at each opening. Pages 0 and 1 are the cache's own.

BEGIN {
    KEYS = 8
    LAST_PAGE = 25
    COMMANDS = 400
    pages = 2
    last_id = -1
    differing = 0
}

FILENAME == "found" { found[++finds] = $0; if (finds < LAST_PAGE) find(finds + 1); next }
FILENAME == "state" && $1 == "id" { last_id = $2; next }
FILENAME == "state" && $1 == "pages" { pages = $2; next }
FILENAME == "state" { place($2, $1 == "page"); put_pairs($2, 3); next }
FILENAME == "script" { command[++commands] = $0; next }
FILENAME == "replies" { reply[replies++] = $0; next }
FILENAME == "faults" { faults = faults "\n" $0; next }

END {
    if (task == "make") make()
    else judge()
}

# ---- pages: `kept` and `is_here` are those of the commands so far, and `seen` and `was_seen` those that were found; of so many of their
# values and pages the two differ

function find(page,    i) {
    if ($1 " " $2 != "leaf 0") return
    was_seen[page] = 1
    differing++
    for (i = 3; i <= NF; i++) {
        seen[page, key_of($i)] = substr($i, 4)
        differing++
    }
}

function put(page, key, value) {
    differing -= kept[page, key] != seen[page, key]
    kept[page, key] = value
    differing += kept[page, key] != seen[page, key]
}

function place(page, here) {
    differing -= is_here[page] != was_seen[page]
    is_here[page] = here
    differing += is_here[page] != was_seen[page]
}

function clear(page,    key) {
    for (key = 1; key <= KEYS; key++) put(page, key, "")
}

function key_of(word) {
    return index("12345678", substr(word, 2, 1))
}

# Puts the pairs of the line from one word on.
function put_pairs(page, from,    i) {
    for (i = from; i <= NF; i++) put(page, key_of($i), substr($i, 4))
}

function pairs_of(page,    key, text) {
    text = ""
    for (key = 1; key <= KEYS; key++)
        if (kept[page, key] != "") text = text " 6" key "=" kept[page, key]
    return text
}

# The page that an alloc uses: the greatest free one, or a new one.
function next_page(    page) {
    for (page = pages - 1; page >= 2; page--) if (!is_here[page]) return page
    return pages
}

# ---- commands

# Makes the change of a line, and answers what it is replied, but for a number of an id or a flush.
function apply(line,    page) {
    $0 = line
    if ($1 == "alloc") {
        page = next_page()
        if (page == pages) pages++
        place(page, 1)
        put_pairs(page, 2)
        return "page " page " " ++stamp[page]
    }
    if ($1 == "get") return is_here[$2] ? "leaf " stamp[$2] + 0 pairs_of($2) : "none"
    if ($1 == "flush" || $1 == "id") return $1 == "flush" ? "flushed" : "id"
    if ($1 == "pin" || $1 == "seal" || $1 == "cancel") return "ok"
    page = $2
    if (!is_here[page]) return "gone"
    if ($3 != stamp[page] + 0) return "stale " stamp[page] + 0
    if ($1 == "set") put(page, key_of($4), $5 "")
    if ($1 == "del") put(page, key_of($4), "")
    if ($1 == "replace" || $1 == "free") clear(page)
    if ($1 == "replace") put_pairs(page, 4)
    if ($1 == "free") place(page, 0)
    return "ok " ++stamp[page]
}

# ---- a script

function below(n) {
    return int(rand() * n)
}

# A value that no other command of this file has; now and then a long one, so that a frame is written without a flush, and in long batches
# each, of 1,200 bytes and more.
function new_value() {
    return sprintf("%08x%06x", seed % 2147483648, ++values) (is_long || below(30) == 0 ? sprintf("%0*d", is_long ? 2400 : 800, 0) : "")
}

function new_pairs(    key, text) {
    text = ""
    for (key = 1; key <= KEYS; key++) if (below(4) == 0) text = text " 6" key "=" new_value()
    return text
}

function write(line) {
    print line >"script"
    apply(line)
}

function write_change(    page, kind, at) {
    page = 2 + below(pages)
    at = stamp[page] + 0
    # a token that is out of date changes nothing
    if (below(20) == 0) at++
    kind = below(20)
    if (kind < 3 && next_page() <= LAST_PAGE) write("alloc" new_pairs())
    else if (kind < 12) write("set " page " " at " 6" 1 + below(KEYS) " " new_value())
    else if (kind < 15) write("del " page " " at " 6" 1 + below(KEYS))
    else if (kind < 18) write("replace " page " " at new_pairs())
    else if (kind < 19) write("free " page " " at)
    else write("get " page)
}

# A long one has ten segments and more.
function write_batch(    left) {
    is_long = below(4) == 0
    write("pin")
    for (left = is_long ? 50 : 1 + below(8); left > 0; left--) write_change()
    write(below(4) == 0 ? "cancel" : "seal")
    is_long = 0
}

function make(    i, kind, page) {
    srand(seed)
    for (i = 0; i < COMMANDS; i++) {
        kind = below(20)
        if (kind < 5) write("flush")
        else if (kind < 6) write("id")
        else if (kind < 8) write_batch()
        else write_change()
    }
    for (page = 2; page <= LAST_PAGE; page++) print "get " page >"reading"
    # these tell which pages are free, and are not flushed
    for (page = 2; page <= LAST_PAGE; page++) print "alloc" >"reading"
    printf "%.3f\n", rand() * latest
}

# ---- a judgement

function fail(why) {
    print why
    exit 1
}

# Marks the prefixes of the script that end inside a batch which is not cancelled.
function mark_batches(    i, from) {
    for (i = 1; i <= commands; i++) {
        if (command[i] == "pin") from = i
        if (command[i] == "seal") for (; from < i; from++) splits[from] = 1
    }
}

# How many commands a reply has made durable: a flush, or an id that a new counter was written for, all up to it.
function confirmed(    i, count, words) {
    count = 0
    for (i = 1; i < replies; i++) {
        split(reply[i - 1], words, " ")
        if (words[1] == "flushed") count = i
        if (words[1] == "id" && words[2] > 0 && words[2] % 10 == 0) count = i
    }
    return count
}

# Judges a reply, where it has come.
function judge_reply(i, want,    words) {
    split(reply[i - 1], words, " ")
    if (want == "flushed" && reply[i - 1] ~ /^flushed [0-9]+$/) return
    if (want == "id" && reply[i - 1] ~ /^id [0-9]+$/) {
        if (words[2] + 0 <= last_id + 0) fail("the id " words[2] " came after the id " last_id)
        last_id = words[2]
        return
    }
    if (reply[i - 1] != want) fail("line " i ", " command[i] ", was replied '" reply[i - 1] "' in place of '" want "'")
}

# Whether the pages are those that were found, and the free ones those that were used then.
function is_found(    i, page) {
    if (differing) return 0
    i = LAST_PAGE
    for (page = pages - 1; page >= 2; page--)
        if (!is_here[page] && found[i++] != "page " page " 1") return 0
    for (page = pages; i < 2 * (LAST_PAGE - 1) + 1; page++)
        if (found[i++] != "page " page " 1") return 0
    return 1
}

function state_now(    page, text) {
    text = "pages " pages
    for (page = 2; page < pages; page++) text = text "\n" (is_here[page] ? "page " page pairs_of(page) : "free " page)
    return text
}

function judge(    i, durable, want, state, split_at, lost_at) {
    if (faults != "") fail("the program reported:" faults)
    if (finds != 2 * (LAST_PAGE - 1)) fail("the file was read by " finds " replies, the last of them '" found[finds] "'")
    if (replies - 1 > commands) fail("the script was replied to by " replies - 1 " lines")
    mark_batches()
    durable = confirmed()
    split_at = lost_at = -1
    for (i = 0; i <= commands; i++) {
        if (i > 0) want = apply(command[i])
        if (i > 0 && i < replies) judge_reply(i, want)
        if (state != "" || !is_found()) continue
        if (i < durable) lost_at = i
        else if (splits[i]) split_at = i
        else state = state_now()
    }
    if (state == "" && split_at >= 0) fail("a part of a batch is there, up to line " split_at ": " command[split_at])
    if (state == "" && lost_at >= 0) fail("what line " durable " made durable is lost, after line " lost_at)
    if (state == "") fail("the file holds no prefix of the script: " found_text())
    print "id " last_id
    print state
}

function found_text(    i, text) {
    for (i = 1; i <= finds; i++) text = text "\n" found[i]
    return text
}
