#!/bin/sh
# Prints docs/dev/PROOF_MAP.md, a map of the proofs: for each file of lemmas its first comment, and what uses it; and for each call of
# docs/API.md the files of lemmas that its proof uses. It is made from the crates' folders proofs, and tools/readme.sh compares it.
#
#     tools/proof_map.sh >docs/dev/PROOF_MAP.md
#
# A file of lemmas stands in proofs itself, or in a folder of lemmas there, whose name begins with a capital and which has a file of its name
# beside it, with a comment and the list of what is in it. What is in a folder for a function, whose name begins with none, are the answers to
# the function's own goals. The files Names.antt and Lib.antt of a crate, which have names alone, are left out. The status is 0.
set -eu

cd "$(CDPATH='' cd -- "$(dirname -- "$0")/.." && pwd)"
export LC_ALL=C
crates='sled_base sled_node sled_log sled_disk sled_pagecache sled_search sled_tree sled_shared sled_lines sled_script sled_keys sled_handle'

cat <<'PAGE'
# A map of the proofs

Made by `tools/proof_map.sh` from the crates' folders `proofs`; `./check` compares it.
Each file of lemmas has its first comment, and the functions whose goals it answers; if it answers none, the files of lemmas that use it.
After more than four `..` stands, and how many there are.
A folder of lemmas has a section of its own, after the files that are in none.
Below are the calls of [API.md](../API.md), each with the files of lemmas that answer its goals: what a clause of it rests on is found there.
PAGE
for crate in $crates; do
    folder=crates/$crate/proofs
    printf '\n## `%s`\n' "$crate"
    # shellcheck disable=SC2046 # no path has a space
    awk -v folder="$folder" -v crate="$crate" '
        # a file of lemmas, as NAME or FOLDER/NAME; none for the answers of a function, which are below a folder that begins with no capital
        function lemma_of(path) {
            sub(folder "/", "", path)
            sub(/\.antt$/, "", path)
            return path ~ /^([A-Z][^\/]*\/)*[A-Za-z]+$/ ? path : ""
        }
        # the function of a file of answers: the last two parts of its path where the first of them is a type, else the last one
        function function_of(path,    parts, count) {
            sub(folder "/", "", path)
            count = split(path, parts, "/")
            return (count > 2 && parts[count - 2] ~ /^[A-Z]/ ? parts[count - 2] "::" : "") parts[count - 1]
        }
        function folder_of(lemma) { return sub(/\/[^\/]*$/, "", lemma) ? lemma : "" }
        function add(list, item, count) { return list (list == "" ? "" : ", ") (count > 4 ? "" : "`" item "`") }
        function told(list, count) { sub(/(, )+$/, "", list); return count > 4 ? list ", .. (" count ")" : list }
        # the files of one folder, or those that are in none
        function table(where,    i, lemma, label, list, begun) {
            for (i = 1; i <= lemma_count; i++) {
                lemma = lemmas[i]
                if (folder_of(lemma) != where || lemma in files_in || lemma == "Names" || lemma == "Lib") continue
                if (!begun++) print "\n| file | what it shows | who uses it |\n|---|---|---|"
                label = lemma
                sub(/.*\//, "", label)
                list = user_count[lemma] > 0 ? told(users[lemma], user_count[lemma]) : told(files[lemma], file_count[lemma])
                gsub(/\|/, "\\|", text[lemma])
                print "| [`" label "`](../../" folder "/" lemma ".antt) | " text[lemma] " | " list " |"
            }
        }
        FILENAME == "docs/API.md" { if (match($0, /^#### \[`[A-Za-z:_]+`/)) is_call[substr($0, 8, RLENGTH - 8)] = 1; next }
        FNR == 1 {
            lemma = lemma_of(FILENAME)
            name = lemma == "" ? function_of(FILENAME) : ""
            if (lemma != "") { lemmas[++lemma_count] = lemma; if (folder_of(lemma) != "") files_in[folder_of(lemma)]++ }
            in_comment = 1
        }
        lemma != "" && in_comment && /^-- / { text[lemma] = text[lemma] (text[lemma] == "" ? "" : " ") substr($0, 4); next }
        { in_comment = 0 }
        /^use / {
            if (!match($0, "Rattle\\." crate "\\.proofs\\.([A-Z][A-Za-z]*\\.)+[{]")) next
            used = substr($0, RSTART, RLENGTH - 2)
            sub(".*\\.proofs\\.", "", used)
            gsub(/\./, "/", used)
            user = name == "" ? lemma : name
            if (used == "Names" || (user, used) in seen) next
            seen[user, used] = 1
            if (name == "") { files[used] = add(files[used], lemma, ++file_count[used]); next }
            users[used] = add(users[used], name, ++user_count[used])
            if (name in is_call) { if (!(name in rests)) calls[++call_count] = name; rests[name] = rests[name] (rests[name] == "" ? "" : ", ") "[`" used "`](../../" folder "/" used ".antt)" }
        }
        END {
            if (lemma_count == 0) { print "\nIt has no files of lemmas: the goals of its functions are answered by those below it."; exit }
            table("")
            for (i = 1; i <= lemma_count; i++) {
                lemma = lemmas[i]
                if (!(lemma in files_in)) continue
                print "\n### `" lemma "`"
                if (text[lemma] != "") print "\n" text[lemma]
                table(lemma)
            }
            if (call_count > 0) print "\n| call | files of lemmas |\n|---|---|"
            for (i = 1; i <= call_count; i++) print "| `" calls[i] "` | " rests[calls[i]] " |"
        }
    ' docs/API.md $(find "$folder" -name '*.antt' ! -name Invariants.antt | sort)
done
