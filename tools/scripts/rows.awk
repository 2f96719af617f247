# Cuts rows of scripts into files of the folder `work`: GROUP.RUN.script, and GROUP.RUN.replies with what is wanted for it.
#
# A row is a line of a script, the sign ` -> `, and the reply to it; in the line `\r` stands for a carriage return, and `\c` at its end says
# that no newline ends the script. A row `--` begins the next run of the group, an empty row ends the group, and one that begins with `#` is
# a comment.

function begin_run() {
    if (script != "") {
        close(script)
        close(replies)
    }
    name = sprintf("%s/%03d.%02d", work, group, ++run)
    script = name ".script"
    replies = name ".replies"
    printf "" >script
    printf "" >replies
}

/^#/ { next }

/^$/ {
    inside = 0
    next
}

!inside {
    inside = 1
    group++
    run = 0
    begin_run()
}

/^--$/ {
    begin_run()
    next
}

{
    at = index($0, " -> ")
    if (!at) {
        print "rows.awk: there is no ` -> ` in the row: " $0 >"/dev/stderr"
        exit 1
    }
    line = substr($0, 1, at - 1)
    newline = sub(/\\c$/, "", line) ? "" : "\n"
    gsub(/\\r/, "\r", line)
    printf "%s%s", line, newline >script
    printf "%s\n", substr($0, at + 4) >replies
}
