# Does each must-fail edit, crates/NAME/must-fail/*.edit or more-edits/NAME/*.edit, fit the crate NAME? The rules are rt's: a `file:` line
# names a file of the crate, an `old:` text stands there exactly once after the edit's pairs before it, and there is a pair. What does not
# fit is printed.

# The text of a file, and nothing where there is none.
function text_of(path,    line, text) {
    while ((getline line < path) > 0) text = text line "\n"
    close(path)
    return text
}

function say(what) { print edit ": " what; misfit[edit] = 1 }

# Replaces the pair's old text in the edit's own copy of the file.
function pair(crate, file, old, new,    path, text, at, rest) {
    path = "crates/" crate "/" file
    if (file !~ /^(src|specs|proofs)\// || file ~ /(^|\/)\.\.(\/|$)/) { say("it names no file under src/, specs/ or proofs/: " file); return }
    if (!(path in texts)) texts[path] = text_of(path)
    text = path in edited ? edited[path] : texts[path]
    if (text == "") { say("there is no file " path); return }
    at = old == "" ? 0 : index(text, old)
    rest = substr(text, at + length(old))
    if (!at) say("its old text is not in " path ": " old)
    else if (index(rest, old)) say("its old text stands more than once in " path ": " old)
    else edited[path] = substr(text, 1, at - 1) new rest
}

BEGIN {
    for (i = 1; i < ARGC; i++) {
        edit = ARGV[i]
        split(edit, part, "/")
        crate = part[2]
        split("", edited)
        file = old = ""
        pairs = 0
        while ((getline line < edit) > 0) {
            if (line ~ /^file: /) file = substr(line, 7)
            else if (line ~ /^old: /) old = substr(line, 6)
            else if (line ~ /^new:/) {
                new = substr(line, 5)
                sub(/^ /, "", new)
                pair(crate, file, old, new)
                old = ""
                pairs++
            }
        }
        close(edit)
        if (old != "") say("an old text has no new one: " old)
        if (!pairs) say("it has no pair of an old and a new text")
    }
    bad = 0
    for (edit in misfit) bad++
    if (bad) print bad " of " ARGC - 1 " must-fail edits do not fit the sources"
    else print ARGC - 1 " must-fail edits fit the sources"
    exit (bad > 0)
}
