# What the pages on the command line link to, for readme.sh: of each relative link outside of code a line `link PAGE:LINE FILE ANCHOR`, where
# the anchor is `-` for none, and of each heading a line `heading FILE ANCHOR`, made as GitHub makes it.

# The file that a path leads to from a page.
function from_page(page, path,    parts, kept, count, i, n, result) {
    sub(/[^\/]*$/, "", page)
    count = split(page path, parts, "/")
    for (i = 1; i <= count; i++) {
        if (parts[i] == ".." && n) n--
        else if (parts[i] != "." && parts[i] != "") kept[++n] = parts[i]
    }
    for (i = 1; i <= n; i++) result = result (i > 1 ? "/" : "") kept[i]
    return n ? result : "."
}

function anchor_of(title) {
    gsub(/\]\([^)]*\)/, "", title)
    title = tolower(title)
    gsub(/[^a-z0-9 _-]/, "", title)
    gsub(/ /, "-", title)
    return title
}

FNR == 1 { inside = 0 }
/^ *```/ { inside = !inside; next }
inside { next }

/^#+ / {
    title = $0
    sub(/^#+ +/, "", title)
    anchor = anchor_of(title)
    times = headings[FILENAME, anchor]++
    print "heading", FILENAME, anchor (times ? "-" times : "")
}

{
    rest = $0
    # code that is no link's text
    gsub(/`[^`]*`/, "`", rest)
    while (match(rest, /\]\([^) ]*\)/)) {
        target = substr(rest, RSTART + 2, RLENGTH - 3)
        rest = substr(rest, RSTART + RLENGTH)
        if (target ~ /^[a-z]+:/) continue
        anchor = target
        if (!sub(/^[^#]*#/, "", anchor)) anchor = "-"
        sub(/#.*/, "", target)
        print "link", FILENAME ":" FNR, target == "" ? FILENAME : from_page(FILENAME, target), anchor
    }
}
