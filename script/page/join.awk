# Joins the page: `awk -v folder=DIR -f join.awk page.html` writes page.html, in which each line that is only {{NAME}} is
# replaced by the file NAME of DIR, and {{NAME}} within a line by the first line of that file. Of a file NAME.js, lines that
# are only a comment are left out, except those at its beginning. With `-v only=script` it writes only the content of the
# element <script> that has no attributes, from the end of its first tag to its last one; with `-v only=style` that of
# <style>.
function fail(reason) {
    print "error: " FILENAME ":" FNR ": " reason > "/dev/stderr"
    exit 1
}
function put(line) {
    if (only == "" || inside) print line
}
$0 == "</" only ">" { inside = 0 }
match($0, /[{][{][a-z.-]+[}][}]/) {
    name = substr($0, RSTART + 2, RLENGTH - 4)
    path = folder "/" name
    if (RLENGTH == length($0)) {
        is_begun = 0
        while ((got = (getline line < path)) > 0) {
            if (tolower(line) ~ /<\/?(script|style)/) fail("the part " name " has a tag that would end it")
            is_comment = name ~ /[.]js$/ && line ~ /^ *\/\/ /
            if (!is_comment) is_begun = 1
            if (!is_comment || !is_begun) put(line)
        }
        if (got < 0) fail("there is no part " name)
        close(path)
        next
    }
    while (match($0, /[{][{][a-z.-]+[}][}]/)) {
        name = substr($0, RSTART + 2, RLENGTH - 4)
        path = folder "/" name
        if (only == "" && (getline line < path) <= 0) fail("there is no part " name)
        close(path)
        $0 = substr($0, 1, RSTART - 1) (only == "" ? line : "") substr($0, RSTART + RLENGTH)
    }
}
{ put($0) }
# (the content of the element begins with the line feed after its tag)
only != "" && $0 == "<" only ">" { inside = 1; print "" }
