# What api.sh prints. Its files come in this order: the sources of the crates, preconditions.txt, and page.md, which is printed with the
# items that it names. api.sh says what each may hold.
#
# An item is known by its crate and its name, as `sled_pagecache/PageCache`, and a call of a type or a trait by both and its own, as
# `sled_pagecache/PageCache.link`.

# The crates of which the page has to have all that they hand on.
BEGIN { complete["sled_pagecache"]; complete["sled_shared"] }

function complain(text) {
    print "api.sh: " text >"/dev/stderr"
    failed = 1
}

function stripped(text) {
    sub(/^[ \t]+/, "", text)
    sub(/[ \t]+$/, "", text)
    return text
}

# A type's name, without its generics.
function bare(text) {
    sub(/[<( ;{:].*$/, "", text)
    return text
}

# What the words behind `impl` with its generics are: the generics are cut off.
function without_generics(text,    i, deep, c) {
    if (substr(text, 1, 1) != "<") return stripped(text)
    for (i = 1; i <= length(text); i++) {
        c = substr(text, i, 1)
        if (c == "<") deep++
        # an arrow closes none
        if (c == ">" && substr(text, i - 1, 1) != "-" && --deep == 0) break
    }
    return stripped(substr(text, i + 1))
}

# How many braces a line opens that it doesn't close.
function open_braces(text,    opened, closed) {
    opened = gsub(/\{/, "{", text)
    closed = gsub(/\}/, "}", text)
    return opened - closed
}

# ---- the sources

FNR == 1 { part = FILENAME ~ /\.rt$/ ? "source" : FILENAME ~ /preconditions\.txt$/ ? "rows" : "page" }

part == "source" && FNR == 1 {
    split(FILENAME, words, "/")
    crate = words[2]
    is_root = FILENAME ~ /^crates\/[a-z_]*\/src\/lib\.rt$/
    # the public module that the file is, if it is one
    module = words[4]
    sub(/\.rt$/, "", module)
    in_public = crate in complete && !(5 in words) && (crate "/" module) in public_module
    owner = ""
    is_trait = 0
    state = ""
    doc = ""
    derived = ""
}

# Which names a crate hands on, and which modules it shows.
part == "source" && is_root && /^pub mod / { name = $3; sub(/;.*/, "", name); public_module[crate "/" name] = 1 }
part == "source" && is_root && /^pub use / { handing = "" }
part == "source" && is_root && (/^pub use / || handing != "") {
    handing = handing " " stripped($0)
    if ($0 !~ /;$/) next
    if (crate in complete) hand_on(handing)
    handing = ""
    next
}

function hand_on(text,    from, names, count, i) {
    sub(/^ *pub use /, "", text)
    from = text
    sub(/::.*/, "", from)
    sub(/^[^{]*\{/, "", text) || sub(/^.*::/, "", text)
    gsub(/[};]/, "", text)
    count = split(text, names, ",")
    for (i = 1; i <= count; i++) {
        names[i] = stripped(names[i])
        if (names[i] != "" && names[i] != "self") wanted[(from ~ /^sled_/ ? from : crate) "/" names[i]] = 1
    }
}

part == "source" && state == "clause" { take_clause($0); next }
part == "source" && state == "signature" { take_signature($0); next }
part == "source" && state == "body" { take_body($0); next }
part == "source" && state == "header" { header = header " " stripped($0); if (/\{\}?$/) end_header(); next }

part == "source" && /^ *\/\/\// {
    line = stripped($0)
    sub(/^\/\/\/ ?/, "", line)
    doc = doc line "\n"
    next
}
part == "source" && /^ *#\[derive\(/ { line = stripped($0); sub(/^#\[derive\(/, "", line); sub(/\)\].*/, "", line); derived = line; next }
part == "source" && /^ *#\[/ { next }

part == "source" && /^impl/ { header = $0; state = "header"; if (/\{\}?$/) end_header(); next }
part == "source" && /^}/ { owner = ""; is_trait = 0; doc = ""; next }

part == "source" && /^pub (struct|enum|trait|const|type) / {
    name = bare($3)
    begin_item(crate "/" name, $2)
    if ($2 == "trait") { owner = name; is_trait = 1; signature[key] = $0; sub(/ *\{$/, "", signature[key]); next }
    signature[key] = $0
    if ($0 !~ /;$/ && $0 !~ /\}$/) { state = "body"; shown = ""; hidden = 0 }
    next
}
part == "source" && /^pub (const )?fn / { begin_item(crate "/" fn_name($0), "fn"); state = "signature"; take_signature($0); next }
part == "source" && owner != "" && (/^    pub (const )?fn / || (is_trait && /^    fn /)) {
    begin_item(crate "/" owner "." fn_name($0), "call")
    calls[crate "/" owner] = calls[crate "/" owner] " " fn_name($0)
    state = "signature"
    take_signature($0)
    next
}
part == "source" { doc = ""; derived = ""; next }

function fn_name(text) {
    sub(/^ *(pub )?(const )?fn /, "", text)
    return bare(text)
}

function begin_item(new_key, new_kind) {
    key = new_key
    # a name that a crate has twice is told by the file that is public
    if (key in kind && !in_public) key = key "'"
    kind[key] = new_kind
    docs[key] = doc
    file[key] = FILENAME
    line_of[key] = FNR
    derives[key] = derived
    signature[key] = ""
    clauses[key] = 0
    if (in_public && new_kind != "call") wanted[key] = 1
    doc = ""
    derived = ""
}

function end_header(    text, trait_name, type_name) {
    state = ""
    text = header
    sub(/ *\{\}?$/, "", text)
    sub(/^impl/, "", text)
    text = without_generics(text)
    doc = ""
    if (match(text, / for /)) {
        trait_name = substr(text, 1, RSTART - 1)
        type_name = bare(substr(text, RSTART + 5))
        owner = ""
        if (trait_name != "Model") { impls++; impl_crate[impls] = crate; impl_trait[impls] = trait_name; impl_type[impls] = type_name }
        return
    }
    owner = bare(text)
}

function end_signature() {
    state = ""
    sub(/\n$/, "", signature[key])
}

function take_signature(text,    line) {
    line = stripped(text)
    if (line ~ /^(requires|ensures)/) { state = "clause"; clause = ""; deep = 0; take_clause(text); return }
    if (line == "{" || line == "{}") { end_signature(); return }
    if (line ~ /;$/) { signature[key] = signature[key] without_indent(text) "\n"; end_signature(); return }
    if (line ~ /\{\}?$/) { sub(/ *\{\}?$/, "", text); signature[key] = signature[key] without_indent(text) "\n"; end_signature(); return }
    signature[key] = signature[key] without_indent(text) "\n"
}

function without_indent(text) {
    if (kind[key] == "call") sub(/^    /, "", text)
    return text
}

# Takes a clause to its closing brace, and keeps it where it is a precondition.
function take_clause(text,    name, ends) {
    clause = clause (clause == "" ? "" : " ") stripped(text)
    deep += open_braces(text)
    if (deep > 0) return
    ends = clause ~ /;$/
    sub(/;$/, "", clause)
    if (clause ~ /^requires/) {
        name = clause
        sub(/^requires */, "", name)
        sub(/ *\{.*/, "", name)
        sub(/^[^{]*\{ */, "", clause)
        sub(/ *\}$/, "", clause)
        clauses[key]++
        clause_name[key, clauses[key]] = name == "" ? "requires" : name
        clause_text[key, clauses[key]] = clause
    }
    if (ends) end_signature()
    else state = "signature"
}

# Takes a line of a struct or an enum: what is public of it is kept, with its text.
function take_body(text,    line) {
    line = stripped(text)
    if (text ~ /^}/) {
        if (hidden) shown = shown "    // private fields\n"
        signature[key] = signature[key] "\n" shown "}"
        state = ""
        return
    }
    if (line ~ /^#\[/ || line ~ /^\/\/ / || line == "") return
    if (line ~ /^ghost /) { skipping = open_braces(text); return }
    if (kind[key] == "struct" && line !~ /^pub / && line !~ /^\/\/\// && text ~ /^    [^ ]/) { hidden = 1; return }
    if (kind[key] == "struct" && line !~ /^pub / && line !~ /^\/\/\//) return
    shown = shown plain(text) "\n"
}

# ---- what meets the preconditions

part == "rows" && (/^#/ || /^ *$/) { next }
part == "rows" {
    count = split($0, words, / \| /)
    if (count != 3) { complain(FILENAME ":" FNR ": a row has three columns"); next }
    if ((words[1], words[2]) in met) complain(FILENAME ":" FNR ": " words[1] " has a second row for `" words[2] "`")
    met[words[1], words[2]] = words[3]
    row_line[words[1], words[2]] = FNR
    next
}

# ---- the page

part == "page" && /^@item / { print_item($2); next }
part == "page" && /^@calls / { for (i = 3; i <= NF; i++) print_item($2 "." $i); next }
part == "page" && /^@all / {
    print_item($2)
    count = split(calls[$2], names, " ")
    for (n = 1; n <= count; n++) print_item($2 "." names[n])
    next
}
part == "page" && /^@/ { complain(FILENAME ":" FNR ": nothing is known of " $1); next }
part == "page" { say($0) }

# Prints a line. Of empty lines in a row one is printed, and none at the end.
function say(line) {
    if (line == "") { is_apart = 1; return }
    if (is_apart) print ""
    is_apart = 0
    print line
}

# A text without its links to other items: what they name stays.
function plain(text,    name) {
    while (match(text, /\[`[^`]*`\](\([^)]*\))?/)) {
        name = substr(text, RSTART + 1, RLENGTH - 1)
        sub(/\].*/, "", name)
        text = substr(text, 1, RSTART - 1) name substr(text, RSTART + RLENGTH)
    }
    return text
}

# Prints the paragraphs of a text.
function say_text(text,    count, lines, i, paragraph) {
    count = split(text, lines, "\n")
    for (i = 1; i <= count; i++) {
        if (lines[i] != "") { paragraph = paragraph (paragraph == "" ? "" : " ") lines[i]; continue }
        if (paragraph == "") continue
        say_sentences(plain(paragraph), "")
        say("")
        paragraph = ""
    }
}

# Prints one sentence a line.
function say_sentences(text, indent) {
    while (match(text, /[.?!] [A-Z`]/)) {
        say(indent substr(text, 1, RSTART))
        text = substr(text, RSTART + 2)
    }
    say(indent text)
}

# The name under which an item is shown.
function shown_name(item) {
    sub(/^[^\/]*\//, "", item)
    sub(/\./, "::", item)
    return item
}

function print_item(item,    n, text) {
    if (!(item in kind)) { complain(FILENAME ":" FNR ": no source has " item); return }
    if (item in printed) { complain(FILENAME ":" FNR ": " item " is there twice"); return }
    printed[item] = 1
    if (docs[item] == "") complain(file[item] ":" line_of[item] ": " shown_name(item) " has no text")
    say("")
    say("#### [`" shown_name(item) "`](../" file[item] ")")
    say("")
    say("```rust")
    say(signature[item] (kind[item] == "trait" ? " { .. }" : ""))
    say("```")
    say("")
    say_text(docs[item])
    text = traits_of(item)
    if (text != "") say("Implements " text ".")
    say("")
    if (clauses[item] == 0) return
    say("Preconditions:")
    say("")
    for (n = 1; n <= clauses[item]; n++) {
        say("- `" clause_name[item, n] ": " clause_text[item, n] "`")
        if ((item, clause_name[item, n]) in met) say_sentences("Met by " met[item, clause_name[item, n]], "  ")
        else complain("docs/api/preconditions.txt has no row for `" clause_name[item, n] "` of " item)
        used[item, clause_name[item, n]] = 1
    }
    say("")
}

# The traits that a type has, those that are derived first.
function traits_of(item,    text, count, names, i, type_name, in_crate) {
    if (kind[item] != "struct" && kind[item] != "enum") return ""
    count = split(derives[item], names, /, */)
    for (i = 1; i <= count; i++) if (names[i] != "") text = text (text == "" ? "" : ", ") "`" names[i] "`"
    type_name = item
    sub(/^[^\/]*\//, "", type_name)
    in_crate = item
    sub(/\/.*/, "", in_crate)
    for (i = 1; i <= impls; i++) {
        if (impl_type[i] != type_name) continue
        if (impl_crate[i] != in_crate && (impl_crate[i] "/" type_name) in kind) continue
        text = text (text == "" ? "" : ", ") "`" impl_trait[i] "`"
    }
    return text
}

END {
    for (item in wanted) if (!(item in printed)) complain("docs/api/page.md has no line for " item)
    for (item in calls) {
        if (!(item in printed)) continue
        count = split(calls[item], names, " ")
        for (n = 1; n <= count; n++) if (!((item "." names[n]) in printed)) complain("docs/api/page.md has no line for " item "." names[n])
    }
    for (row in met) if (!(row in used)) { split(row, words, SUBSEP); complain("docs/api/preconditions.txt:" row_line[row] ": " words[1] " has no precondition `" words[2] "`") }
    exit failed
}
