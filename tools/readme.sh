#!/bin/sh
# Compares README.md, docs/GUIDE.md, examples/README.md, docs/SCRIPT.md and docs/API.md with the code, word for word, and prints what differs:
#
# - each block of Rattle of README and the guide stands at the head of a file of a folder readme, of crates/sled_script_tests/src/tests or
#   crates/sled_shared_tests/src, which is named as its function is and has a test after it, and each of these files has its block;
# - each block of Rust of README that uses the crate dilluvas, of C and of Python is a program of bindings, which bindings/check.sh runs;
# - each session of the program `./sledpc` in README and docs/SCRIPT.md is one that the gate makes. Over a log in memory it stands in the
#   gate's run of the program (its words in crates/sledpc/args, its input in crates/sledpc/stdin, and its replies at the same lines of
#   crates/sledpc/stdout), or in tools/scripts/memory.rows; over a file the runs of a block are the first ones of a group of
#   tools/scripts/file.rows; and a crew is one of tools/scripts.sh;
# - each other command of a session is there;
# - the minutes by crate of README's section 'Build it' are those of the table of docs/dev/GATE.md, and each crate of the program and of the
#   library for other languages has its row, and the sums that README names are those of its rows;
# - each program of crates/example_* has its session in examples/README.md, with what it writes (its file stdout, which the gate
#   compares with its runs), and each block of code there stands in a source or a proof of one of them;
# - each file of a crate's specs has its line in docs/dev/SPECS.md, with the first comment of the file;
# - docs/KEYS.md, and each session of `./dilluvas` in README, is as tools/keys.sh wants it;
# - docs/API.md is what tools/api.sh prints, and docs/dev/PROOF_MAP.md what tools/proof_map.sh does;
# - the pages of `worded` below have no phrase of tools/words.txt, outside code and the targets of links;
# - tools/vendor.sh, as the guide calls it, copies the libraries as they are, changes nothing at a second call, and refuses one that differs;
# - the packages of cargo and pip have the project's own LICENSE (a copy, since `rt ci` takes no tree with a link in it);
# - each relative link of a page leads to a file that is there, and to a heading of it, and each page of docs or bench that a source or a
#   script names is there.
#
# The status is 0 where nothing differs, and else 1.
set -eu

cd "$(CDPATH='' cd -- "$(dirname -- "$0")/.." && pwd)"
examples='crates/sled_script_tests/src/tests/readme crates/sled_shared_tests/src/readme'
run=crates/sledpc
rows=tools/scripts
work=$(mktemp -d)
trap 'rm -rf "$work"' EXIT
trap 'exit 1' HUP INT PIPE TERM
status=0

differ() {
    printf '%s: %s\n' "$page" "$1"
    status=1
}

# Cuts a page into files in a folder of its own, $cut, in order: NUMBER.rust, NUMBER.antt, NUMBER.c and NUMBER.python for a block of that
# language, NUMBER.COUNT.command for a command of a session and NUMBER.COUNT.replies for what stands below it. The page is $page from then on.
# Where there are more pages, they are cut as if they were one.
cut_page() {
    page=$1
    cut=$work/$(echo "${page%.md}" | tr / _)
    mkdir "$cut"
    awk -v work="$cut" -v page="$page" '
        /^```/ && !inside { inside = 1; number++; kind = substr($0, 4); count = 0; next }
        /^```/ { inside = 0; next }
        !inside { next }
        kind == "rust" || kind == "antt" || kind == "c" || kind == "python" { print > sprintf("%s/%03d.%s", work, number, kind); next }
        kind != "" && kind != "console" && kind != "sh" { next }
        /^\$ / { count++; print substr($0, 3) > sprintf("%s/%03d.%03d.command", work, number, count); next }
        count > 0 { print > sprintf("%s/%03d.%03d.replies", work, number, count); next }
        { print page ": a session begins with no command: " $0 > (work "/faults") }
        END { if (inside) print page ": a block has no end" > (work "/faults") }
    ' "$@"
}

compare_rust() {
    for block in "$cut"/*.rust; do
        [ -e "$block" ] || continue
        grep -q '^use dilluvas::' "$block" && mv "$block" "$block.dilluvas" && continue
        name=$(sed -n 's/^\(pub \)\{0,1\}fn \([a-z0-9_]*\).*/\2/p' "$block" | head -n 1)
        # shellcheck disable=SC2086 # several folders
        file=$(find $examples -name "$name.rt")
        if [ -z "$name" ] || [ ! -f "$file" ]; then
            differ "no file $name.rt of $examples has the block that begins so: $(head -n 1 "$block")"
            continue
        fi
        : >"$cut/$name.has_block"
        grep -q '^#\[test\]$' "$file" || differ "no test in $file runs its block"
        head -n "$(wc -l <"$block")" "$file" >"$work/head"
        if ! diff "$block" "$work/head" >"$work/diff"; then
            differ "the block of \`$name\` (<) differs from $file (>):"
            cat "$work/diff"
        fi
    done
    # shellcheck disable=SC2086 # several folders
    find $examples -name '*.rt' >"$work/examples"
    while read -r file; do
        [ -e "$cut/$(basename "$file" .rt).has_block" ] || differ "no block has $file"
    done <"$work/examples"
}

# Compares the one block of a language with a program: $1 is the block, if there is one, and $2 the program.
compare_program() {
    if [ ! -f "$1" ]; then
        differ "no block is $2, or more than one"
    elif ! diff "$1" "$2" >"$work/diff"; then
        differ "a block (<) differs from $2 (>):"
        cat "$work/diff"
    fi
}

compare_bindings() {
    compare_program "$(echo "$cut"/*.rust.dilluvas)" bindings/rust/examples/readme.rs
    compare_program "$(echo "$cut"/*.c)" bindings/c/readme.c
    compare_program "$(echo "$cut"/*.python)" bindings/python/readme.py
}

# Puts the runs of a file of rows on one line, as &[("..",".."),("..","..")],&[("..","..")], with the runs of each group together.
rows_of() {
    awk '
        function end_run() { runs = runs (runs == "" ? "" : ",") "(\"" asked "\",\"" wanted "\")"; asked = wanted = "" }
        function end_group() { if (inside) { end_run(); all = all "&[" runs "]," }; runs = ""; inside = 0 }
        /^#/ { next }
        /^$/ { end_group(); next }
        { inside = 1 }
        /^--$/ { end_run(); next }
        {
            at = index($0, " -> ")
            line = substr($0, 1, at - 1)
            asked = asked (sub(/\\c$/, "", line) ? line : line "\\n")
            wanted = wanted substr($0, at + 4) "\\n"
        }
        END { end_group(); print all }
    ' "$rows/$1.rows" >"$work/$1.rows"
}

# A row of a run: what is printed to it, and the file of what it replies.
row_of() {
    printf '("%s","%s")' "$1" "$(awk '{ printf "%s\\n", $0 }' "$2")"
}

# Compares one run of the program over a log in memory: $1 is what is printed to it, $2 the file of what it replies.
compare_run() {
    # What tools/run.sh says of the program's building comes between the replies.
    sed -n 's/^sledpc: //p' "$2" | while read -r said; do
        grep -qF "say '$said'" tools/run.sh || echo "$page: tools/run.sh doesn't say '$said'" >>"$cut/faults"
    done
    sed '/^sledpc: /d' "$2" >"$work/replies"
    grep -qF -- "$(row_of "$1" "$work/replies")" "$work/memory.rows" && return
    if [ mem != "$(tr '\n' ' ' <"$run/args" | sed 's/ *$//')" ]; then
        differ "the word mem isn't that of $run/args"
    fi
    printf '%b' "$1" >"$work/input"
    first=$(awk '
        NR == FNR { wanted[++count] = $0; next }
        { line[FNR] = $0; lines = FNR }
        END {
            for (at = 1; at + count - 1 <= lines; at++) {
                for (i = 1; i <= count && line[at + i - 1] == wanted[i]; i++) { }
                if (i > count) { print at; exit }
            }
        }
    ' "$work/input" "$run/stdin")
    if [ -z "$first" ]; then
        differ "no run of $rows/memory.rows is this, and its lines are not in $run/stdin:"
        row_of "$1" "$work/replies"
        echo
        return
    fi
    sed -n "$first,$((first + $(wc -l <"$work/input") - 1))p" "$run/stdout" >"$work/stdout"
    if ! diff "$work/replies" "$work/stdout" >"$work/diff"; then
        differ "the replies to '$1' (<) differ from $run/stdout (>):"
        cat "$work/diff"
    fi
}

# The runs over one file that a block has so far, as rows, and the block and the file.
file_rows=''
file_runs=''

# Compares them: a group over a file that isn't there at first begins with these runs.
compare_file_runs() {
    [ -z "$file_rows" ] || grep -qF -- "&[${file_rows%,}" "$work/file.rows" ||
        differ "no group of $rows/file.rows begins with ${file_rows%,}"
    file_rows=''
}

compare_sessions() {
    for command in "$cut"/*.command; do
        [ -e "$command" ] || continue
        replies=${command%.command}.replies
        [ -e "$replies" ] || : >"$replies"
        text=$(cat "$command")
        input=''
        words=''
        case $text in
        "printf '"*"' | ./sledpc "*)
            input=${text#"printf '"}
            input=${input%"' | ./sledpc "*}
            words=${text##*"' | ./sledpc "}
            ;;
        esac
        runs="${command%.*.command} $words"
        [ "$runs" = "$file_runs" ] || compare_file_runs
        case $text in
        "printf '"*"' | ./sledpc file "*)
            file_runs=$runs
            file_rows="$file_rows$(row_of "$input" "$replies"),"
            ;;
        "printf '"*"' | ./sledpc mem") compare_run "$input" "$replies" ;;
        # tools/keys.sh compares these
        "printf '"*"' | ./dilluvas "*) ;;
        "./sledpc crew "*)
            row="crew ${text#"./sledpc crew "} '$(cat "$replies")'"
            grep -qxF -- "$row" tools/scripts.sh || differ "no line of tools/scripts.sh is: $row"
            ;;
        ./* | .ci/* | tools/*)
            [ -x "${text%% *}" ] || differ "there is no command ${text%% *}"
            ;;
        "rt "* | "cd crates/"* | "(cd crates/"*) ;;
        # bindings/readme.sh makes these
        bindings/* | "cargo "* | "cc "* | "PYTHONPATH="*) ;;
        *) differ "nothing is known of the command '$text'" ;;
        esac
    done
    compare_file_runs
}

# The minutes of a proof by crate, in the rows of a section: $1 is its heading, $2 the page, and $3 the cell of the minutes.
minutes_of() {
    awk -v heading="$1" -v at="$3" '
        /^##/ { inside = $0 == heading }
        inside && split($0, part, "|") > 4 && part[2] ~ /^ `/ { gsub(/[ `]/, "", part[2]); print part[2], part[at] + 0 }
    ' "$2" | LC_ALL=C sort
}

# The minutes of the crates on standard input together, rounded.
sum_of() {
    awk 'NR == FNR { minutes[$1] = $2; next } { sum += minutes[$1] } END { printf "%.0f", sum }' "$work/minutes" -
}

compare_minutes() {
    minutes_of '## Build it' README.md 3 >"$work/minutes"
    minutes_of '## Budget' docs/dev/GATE.md 3 >"$work/cells"
    { tools/sum.sh --crates sledpc && tools/sum.sh --crates dilluvas && tools/sum.sh --crates sled_c; } | LC_ALL=C sort -u >"$work/built"
    cut -d ' ' -f 1 "$work/minutes" | cmp -s - "$work/built" || differ "the rows of 'Build it' are not the crates that are built"
    LC_ALL=C comm -23 "$work/minutes" "$work/cells" >"$work/diff"
    [ ! -s "$work/diff" ] || differ "minutes of 'Build it' are not those of docs/dev/GATE.md: $(tr '\n' ';' <"$work/diff")"
    all=$(sum_of <"$work/minutes")
    for part in "$(tools/sum.sh --crates sled_c | sum_of) of the $all processor minutes" "$(tools/release/libraries.sh | sum_of) of the $all minutes"; do
        grep -qF "$part" README.md || differ "by the rows of 'Build it' it is $part"
    done
}

# Whether the lines of the file $1 stand in the file $2, one after another.
stands_in() {
    awk '
        NR == FNR { wanted[++count] = $0; next }
        { line[FNR] = $0; lines = FNR }
        END {
            for (at = 1; at + count - 1 <= lines; at++) {
                for (i = 1; i <= count && line[at + i - 1] == wanted[i]; i++) { }
                if (i > count) exit 0
            }
            exit 1
        }
    ' "$1" "$2"
}

compare_examples() {
    for example in crates/example_*; do
        session=$(grep -lxF "cd $example && rt run" "$cut"/*.command || true)
        if [ ! -f "$session" ]; then
            differ "no session, or more than one, is 'cd $example && rt run'"
        elif ! diff "${session%.command}.replies" "$example/stdout" >"$work/diff"; then
            differ "the replies to 'cd $example && rt run' (<) differ from $example/stdout (>):"
            cat "$work/diff"
        fi
    done
    find crates/example_* -path '*/out' -prune -o -name '*.rt' -print -o -name '*.antt' -print >"$work/sources"
    for block in "$cut"/*.rust "$cut"/*.antt; do
        found=''
        while read -r file; do
            ! stands_in "$block" "$file" || found=$file
        done <"$work/sources"
        [ -n "$found" ] || differ "no source or proof of crates/example_* has the block that begins so: $(head -n 1 "$block")"
    done
}

tell_faults() {
    [ -s "$cut/faults" ] || return 0
    cat "$cut/faults"
    status=1
}

# Each file of definitions is named in the list of them.
compare_definitions() {
    for file in crates/*/specs/*.antt crates/*/specs/*/*.antt; do
        case $file in
        */Lib.antt) ;;
        *) echo "$file" ;;
        esac
    done >"$work/definitions"
    # shellcheck disable=SC2046 # no path has a space
    awk '
        FNR == 1 { first = 1 }
        !/^-- / { first = 0 }
        first { text[FILENAME] = text[FILENAME] (FNR == 1 ? "" : " ") substr($0, 4) }
        END { for (file in text) print "(../../" file ") | " text[file] " |" }
    ' $(cat "$work/definitions") >"$work/first_comments"
    while read -r file; do
        line=$(grep -F "(../../$file) |" "$work/first_comments") || line="(../../$file) |"
        grep -qF "$line" docs/dev/SPECS.md || differ "docs/dev/SPECS.md has no line for $file with its first comment"
    done <"$work/definitions"
}

# docs/api/page.md is a part of docs/API.md, and its links are of that page.
compare_links() {
    find . -name '*.md' ! -path './.git/*' ! -path '*/out/*' ! -path ./docs/api/page.md | sed 's/^\.\///' >"$work/pages"
    # shellcheck disable=SC2046 # no path has a space
    awk -f tools/links.awk $(cat "$work/pages") >"$work/links"
    grep '^link ' "$work/links" >"$work/only_links" || true
    while read -r _ page file anchor; do
        if [ ! -e "$file" ]; then
            differ "it links to $file, which isn't there"
        elif [ "$anchor" != - ] && ! grep -qxF "heading $file $anchor" "$work/links"; then
            differ "it links to #$anchor of $file, which has no such heading"
        fi
    done <"$work/only_links"
}

compare_named_pages() {
    find . -type f ! -path './.git/*' ! -path '*/out/*' ! -path '*/target/*' -exec grep -oE '(docs|bench)/[A-Za-z_/]+\.md' {} + |
        sort -u >"$work/named"
    while IFS=: read -r page file; do
        [ -e "$file" ] || [ -e "${page%/*}/$file" ] || differ "it names $file, which isn't there"
    done <"$work/named"
}

compare_proof_map() {
    page=docs/dev/PROOF_MAP.md
    tools/proof_map.sh | diff "$page" - >"$work/diff" && return
    differ 'it (<) differs from what tools/proof_map.sh prints (>):'
    cat "$work/diff"
}

compare_calls() {
    page=docs/API.md
    if ! tools/api.sh >"$work/calls" 2>"$work/complaints"; then
        differ 'tools/api.sh fails:'
        cat "$work/complaints"
    elif ! diff "$page" "$work/calls" >"$work/diff"; then
        differ 'it (<) differs from what tools/api.sh prints (>):'
        cat "$work/diff"
    fi
}

compare_vendor() {
    page=tools/vendor.sh
    mkdir -p "$work/repository/.git"
    for call in first second; do
        tools/vendor.sh "$work/repository" >/dev/null || differ "its $call call fails"
        for crate in $(tools/sum.sh --crates sled_pagecache); do
            diff -r "crates/$crate/src" "$work/repository/crates/$crate/src" >/dev/null || differ "its $call call leaves other sources of $crate"
            [ "$(grep -c "^$crate:" "$work/repository/crates.txt")" = 1 ] || differ "its $call call leaves no line of $crate, or more than one"
        done
    done
    echo >>"$work/repository/crates/sled_node/src/lib.rt"
    ! tools/vendor.sh "$work/repository" sled_tree >/dev/null 2>&1 && [ ! -e "$work/repository/crates/sled_tree" ] ||
        differ 'it copies beside a library that has other files'
}

compare_licences() {
    for page in bindings/rust/LICENSE bindings/python/LICENSE; do
        cmp -s LICENSE "$page" || differ 'it is not a copy of LICENSE'
    done
    page=.
    find . -path ./.git -prune -o -name out -prune -o -name target -prune -o -type l -print >"$work/links"
    [ ! -s "$work/links" ] || differ "a link stands in the tree: $(head -n 1 "$work/links")"
}

# The pages that are held to tools/words.txt: a page is added once it has none of these phrases.
worded='README.md docs/README.md docs/GUIDE.md docs/KEYS.md docs/SCRIPT.md docs/DIFFERENCES.md docs/ARCHITECTURE.md'
worded="$worded docs/BINDINGS.md docs/COMMAND.md docs/BACKUP.md docs/FORMAT.md docs/PROOFS.md docs/BENCHMARKS.md docs/SPACE.md docs/SCALE.md"
worded="$worded examples/README.md bindings/README.md bindings/rust/README.md bindings/python/README.md bindings/replicated/README.md"
worded="$worded docs/API.md CHANGELOG.md CONTRIBUTING.md SECURITY.md"

# Prints PAGE:LINE: PHRASE for each phrase of tools/words.txt on these pages.
compare_words() {
    # shellcheck disable=SC2086 # several pages
    awk '
        NR == FNR { sub(/ *#.*/, ""); if ($0 != "") phrases = phrases (phrases == "" ? "" : "|") $0; next }
        FNR == 1 { inside = 0 }
        /^ *```/ { inside = !inside; next }
        inside { next }
        {
            # each line begins a sentence
            rest = ". " tolower($0) " "
            gsub(/[.;|]/, " &", rest)
            gsub(/`[^`]*`/, "`", rest)
            gsub(/\]\([^)]*\)/, "]", rest)
            while (match(rest, "[^a-z](" phrases ")[^a-z]")) {
                phrase = substr(rest, RSTART + 1, RLENGTH - 2)
                sub(/^[^a-z]*/, "", phrase)
                print FILENAME ":" FNR ": " phrase
                rest = substr(rest, RSTART + RLENGTH - 1)
            }
        }
    ' tools/words.txt $worded >"$work/words"
    [ ! -s "$work/words" ] || status=1
    cat "$work/words"
}

rows_of memory
rows_of file
cut_page README.md docs/GUIDE.md
compare_rust
compare_bindings
compare_sessions
compare_definitions
compare_minutes
tell_faults
cut_page examples/README.md
compare_examples
compare_sessions
tell_faults
cut_page docs/SCRIPT.md
compare_sessions
tell_faults
compare_calls
compare_proof_map
compare_vendor
compare_licences
compare_links
compare_named_pages
compare_words
tools/keys.sh || status=1
exit $status
