# A random script (docs/SCRIPT.md) for scripts.sh. The variables say which: `seed`; `lines`, about how many; `parts`, how many
# files they come in, `name`.1 and so on; `over_file`, 1 where they are to be run over a file, and 0 over a log in memory; and `moves`, 0
# where no page may be moved over a file: nothing is replaced then, no page is linked ten times, and a part ends anywhere. Else each part
# ends with a flush.
#
# The pages that the lines so far have made are kept here, so that most lines find their page at the stamp that they name. That decides
# what is asked and not what is right: behind a part that wasn't flushed it is a guess.

BEGIN {
    srand(seed)
    HUGE = split("18446744073709551615 18446744073709550949 18446744073709550948 9223372036854775808 137438953472 4294967296", huge)
    WRONG = split("18446744073709551616 99999999999999999999999 02 00 +2 -2 2x 0x2", wrong)
    NAMES = split("- 74 7474 616161616161616161616161616161616161616161616161 00", name_of)
    # the oftener a command stands here the oftener it is asked for
    KINDS = split("alloc alloc alloc alloc set set set set set set set set del del get get get replace replace replace free free open root cas cas id id mark mark flush size amp" (over_file ? "" : " gc gc"), kinds)
    pages = 2
    is_wide = one_in(4)
    is_narrow = !is_wide && moves && one_in(3)
    for (part = 1; part <= parts; part++) write_part(name "." part, int(lines / parts))
}

function write_part(file, count) {
    out = file
    if (part > 1) reopen()
    else if (is_wide) write_many()
    while (count-- > 0) write_one()
    if (moves && pinned) write("seal")
    if (moves) write("flush")
    close(out)
}

# Pages whose numbers differ by 256 share a part of the capacity, so that they put one another out of memory.
function write_many(    i) {
    for (i = 0; i < 260; i++) write("alloc")
}

function write_one() {
    if (one_in(12)) print wrong_line() >out
    else if (one_in(500)) write(longest_line())
    else write(line_of(kinds[1 + below(KINDS)]))
}

function write(line) {
    print line >out
    apply(line)
}

function below(n) {
    return int(rand() * n)
}

function one_in(n) {
    return below(n) == 0
}

# ---- words

# Hexadecimal of so many bytes.
function hex(count,    text) {
    for (text = ""; count >= 3; count -= 3) text = text sprintf("%06x", below(16777216))
    while (count-- > 0) text = text sprintf("%02x", below(256))
    return text
}

# Hexadecimal of many bytes, which are repeated.
function long_hex(count,    text) {
    text = hex(97)
    while (length(text) < 2 * count) text = text text
    return substr(text, 1, 2 * count)
}

function new_key() {
    if (one_in(150)) return long_hex(1 + below(20000))
    if (one_in(12)) return "-"
    if (one_in(8)) return hex(1 + below(30))
    return sprintf("6%x", below(16))
}

# Of up to 22 bytes a string lies in place, and above 512 it is a blob in memory.
function new_value() {
    if (is_wide && one_in(6)) return long_hex(1000 + below(4000))
    if (one_in(150)) return long_hex(1 + below(20000))
    if (one_in(30)) return long_hex(490 + below(30))
    if (one_in(6)) return hex(20 + below(5))
    return one_in(6) ? "-" : hex(1 + below(4))
}

# Pairs whose keys ascend, each behind a space.
function pairs(count,    text, key) {
    text = one_in(6) && count > 0 ? " -=" new_value() : ""
    for (key = below(8); count > 0; count--) {
        text = text sprintf(" %02x%s=", key, one_in(9) ? hex(1 + below(24)) : "") new_value()
        key += 1 + below(12)
    }
    return text
}

# So many pairs with short values.
function many_pairs(count,    text, i) {
    text = ""
    for (i = 0; i < count; i++) text = text sprintf(" %04x=%02x", i, i % 256)
    return text
}

function new_pairs(    kind) {
    kind = below(20)
    if (kind == 0) return many_pairs(one_in(4) ? 1000 + below(4000) : below(300))
    if (kind <= 3) return ""
    if (kind <= 10) return pairs(1)
    if (kind <= 14) return pairs(2)
    return pairs(kind == 15 ? 16 : kind == 16 ? 17 : below(20))
}

function new_name() {
    return one_in(40) ? long_hex(1 + below(3000)) : name_of[1 + below(NAMES)]
}

function new_page() {
    if (one_in(25)) return huge[1 + below(HUGE)]
    if (one_in(25)) return below(2)
    if (is_wide && !one_in(6)) return 2 + below(4) + 256 * below(2)
    if (is_narrow && !one_in(4)) return 2 + below(2)
    return 2 + below(pages - (one_in(15) ? 0 : 2))
}

function stamp_for(page,    kind) {
    kind = below(30)
    if (kind == 0) return huge[1 + below(HUGE)]
    if (kind == 1) return 0
    if (kind == 2) return stamp[page] + 1
    if (kind == 3 && stamp[page] > 0) return stamp[page] - 1
    return stamp[page] + 0
}

# A page and a stamp: mostly of a page that is there.
function new_token(    page, tries) {
    do page = new_page()
    while (!(page in is_here) && !one_in(20) && tries++ < 20)
    return page " " stamp_for(page)
}

# A page that names have: never 0, which is none to the library.
function new_root(    page) {
    page = new_page()
    return one_in(4) || page == 0 ? "-" : page
}

# ---- lines

function line_of(kind) {
    if (kind == "alloc") return kind new_pairs()
    if (kind == "set") return linked(kind " " new_token() " " new_key() " " new_value())
    if (kind == "del") return linked(kind " " new_token() " " new_key())
    if (kind == "replace") return (moves ? kind " " new_token() : "alloc") new_pairs()
    if (kind == "free") return kind " " new_token()
    if (kind == "get") return kind " " (one_in(4) ? new_page() : token_page())
    if (kind == "open" || kind == "root") return kind " " new_name()
    if (kind == "cas") return cas_line(new_name())
    if (kind == "mark") return !pinned || one_in(6) ? "pin" : one_in(3) ? "cancel" : "seal"
    return kind
}

function token_page(    words) {
    split(new_token(), words, " ")
    return words[1]
}

function cas_line(name) {
    return "cas " name " " (name in root && !one_in(4) ? root[name] : new_root()) " " new_root()
}

# Counts the links of a page, of which only some may be made where nothing is to be moved.
function linked(line,    words) {
    split(line, words, " ")
    if (!moves && ++links[words[2]] > 8) return "get " words[2]
    return line
}

# A line of as many bytes as one may have.
function longest_line() {
    return "alloc 61=" long_hex(32761) " 62=-"
}

# A line that is no command: one that is, spoiled.
function wrong_line(    line, kind) {
    kind = below(22)
    line = line_of(kinds[1 + below(KINDS)])
    if (kind == 0) return ""
    if (kind == 1) return line " "
    if (kind == 2) return " " line
    if (kind == 3) sub(/ |$/, "  ", line)
    if (kind == 4) line = toupper(line)
    if (kind == 5) sub(/^[a-z]*/, "&s", line)
    if (kind == 6) sub(/ |$/, "\t", line)
    if (kind < 7) return line
    if (kind == 7) return line "\r"
    if (kind == 8) return line " x"
    if (kind == 9) return line sprintf("%c", 128 + below(128))
    return wrong_words(kind)
}

function wrong_words(kind) {
    if (kind == 10) return "get " wrong[1 + below(WRONG)]
    if (kind == 11) return "set " new_page() " " wrong[1 + below(WRONG)] " 61 62"
    if (kind == 12) return "free " new_token() " " hex(1)
    if (kind == 13) return "set " new_token() " " new_key()
    if (kind == 14) return "set " new_token() " " new_key() " 6" (one_in(2) ? "" : "A")
    if (kind == 15) return "del " new_token() " " new_key() "6" (one_in(2) ? "" : "g")
    if (kind == 16) return "alloc" (one_in(2) ? " 61=62 61=63" : " 62=- 61=-")
    if (kind == 17) return "replace " new_token() (one_in(2) ? " 61" : one_in(2) ? " 61=" : " =61")
    if (kind == 18) return "alloc" pairs(2) (one_in(2) ? "=" : " -=-")
    if (kind == 19) return "cas " new_name() " - " wrong[1 + below(WRONG)]
    if (kind == 20) return "root " (one_in(2) ? "--" : toupper(hex(3)) "aA")
    # a byte too many
    return one_in(10) ? "alloc 61=" long_hex(32764) : "alloc 61"
}

# ---- what the lines so far have made

function apply(line,    words, count) {
    count = split(line, words, " ")
    if (words[1] == "alloc") add("leaf")
    else if (words[1] == "open") open_tree(words[2])
    else if (words[1] == "cas") cas(words[2], words[3], words[4])
    else if (words[1] == "pin") pinned = 1
    else if (words[1] == "seal" || words[1] == "cancel") pinned = 0
    else if (words[1] == "flush" && !pinned) pending = 4096
    else if (count >= 3 && words[2] in is_here && words[3] == stamp[words[2]]) change(words[1], words[2])
    # about as many bytes as wait
    pending += length(line) / 2 + 20
    if (over_file && !pinned && pending >= 4096) keep()
}

# The page that an alloc uses: the greatest free one, or a new one.
function add(kind,    page) {
    for (page = pages - 1; page >= 2 && page in is_here; page--) { }
    if (page < 2) page = pages++
    is_here[page] = kind
    stamp[page]++
    return page
}

function open_tree(name) {
    if (name in root) return
    add("leaf")
    root[name] = add("index")
}

function cas(name, old, next_root) {
    if ((name in root ? root[name] : "-") "" != old "") return
    if (next_root == "-") delete root[name]
    else root[name] = next_root
}

function change(kind, page) {
    if (is_here[page] == "index" && (kind == "set" || kind == "del")) return
    stamp[page]++
    if (kind == "free") delete is_here[page]
    if (kind == "replace") is_here[page] = "leaf"
}

# Keeps what is durable.
function keep(    i) {
    pending = 0
    kept_pages = pages
    for (i in kept) delete kept[i]
    for (i in is_here) kept[i] = is_here[i]
    for (i in kept_root) delete kept_root[i]
    for (i in root) kept_root[i] = root[i]
}

# Takes what was kept, and asks for all of it.
function reopen(    i) {
    pinned = 0
    for (i in is_here) delete is_here[i]
    for (i in stamp) delete stamp[i]
    for (i in root) delete root[i]
    for (i in kept) is_here[i] = kept[i]
    for (i in kept_root) root[i] = kept_root[i]
    for (i = 2; i < pages; i++) write("get " i)
    for (i = 1; i <= NAMES; i++) write("root " name_of[i])
    pages = kept_pages ? kept_pages : 2
}
