# The words of a comment or of a help as roff. Paragraphs are filled, so that a page fits any terminal; a line that is set in is a term
# and what it means; a point of a list stays one; what stands behind a line 'Example:' is shown as it is.

# roff reads a point or a quote at the start of a line, and a backslash, as its own
function plain(text) {
    gsub(/\\/, "\\e", text)
    gsub(/-/, "\\-", text)
    sub(/^[.']/, "\\\\\\&&", text)
    return text
}

function head(title, section, version) {
    print ".TH " title " " section " \"\" \"Levelspruce " version "\" \"Levelspruce\""
    print ".ad l\n.nh"
}

# as they stand, but for as many spaces at the front as the first line has
function show(text,   lines, n, i, indent) {
    n = split(text, lines, "\n")
    match(lines[1], /^ */)
    indent = RLENGTH
    print ".nf"
    for (i = 1; i <= n; i++)
        if (i < n || lines[i] != "")
            print lines[i] == "" ? ".sp" : plain(substr(lines[i], indent + 1))
    print ".fi"
}

function term(text, wide) {
    print ".TP " wide
    print "\\fB" plain(text) "\\fR"
}

# an entry: its term, and what it means where that stands in the same line
function entry(line,   gap) {
    gap = match(line, /  +/)
    if (gap == 0) {
        term(line, 4)
        return
    }
    term(substr(line, 1, RSTART - 1), RSTART > 3 ? 12 : 4)
    print plain(substr(line, RSTART + RLENGTH))
}

function words(text,   lines, n, i, line, indent, before, entry_indent, rest) {
    n = split(text, lines, "\n")
    for (i = 1; i <= n; i++) {
        line = lines[i]
        match(line, /^ */)
        indent = RLENGTH
        if (indent == length(line)) {
            before = ""
        } else if (line == "Example:") {
            for (rest = ""; i < n; i++)
                rest = rest lines[i + 1] "\n"
            print ".SH EXAMPLE"
            show(rest)
        } else if (indent == 0 && line ~ /^- /) {
            print ".IP \\(bu 2"
            print plain(substr(line, 3))
            before = "point"
        } else if (indent == 0) {
            if (before != "text")
                print ".PP"
            print plain(line)
            before = "text"
        } else if (before == "point" || (before == "entry" && indent > entry_indent + 1)) {
            print plain(substr(line, indent + 1))
        } else {
            entry(substr(line, indent + 1))
            entry_indent = indent
            before = "entry"
        }
    }
}
