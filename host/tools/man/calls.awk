# The man page levelspruce(3) from include/levelspruce.h, in the header's order.

function end_defines(   lines, n, i, at) {
    if (defines == "")
        return
    words(said)
    print ".PD 0"
    n = split(defines, lines, "\n")
    for (i = 1; i < n; i++) {
        at = index(lines[i], "  ")
        term(at ? substr(lines[i], 1, at - 1) : lines[i], 4)
        if (at)
            print plain(substr(lines[i], at + 2))
    }
    print ".PD"
    said = defines = ""
}

# in lines that are short enough
function prototype(call,   parts, n, i, line) {
    gsub(/[ \n]+/, " ", call)
    sub(/ $/, "", call)
    sub(/\( ?/, "(, ", call)
    n = split(call, parts, ", ")
    print ".PP\n.nf"
    line = parts[1]
    for (i = 2; i <= n; i++)
        if (length(line) + length(parts[i]) + 2 > 68) {
            print plain(line) (i > 2 ? "," : "")
            line = "    " parts[i]
        } else {
            line = line (i > 2 ? ", " : "") parts[i]
        }
    print plain(line)
    print ".fi"
}

function begin() {
    begun = 1
    sub(/^[^\n]*\n\n?/, "", said)
    head("LEVELSPRUCE", 3, version)
    print ".SH NAME"
    print "levelspruce \\- link code of SDH line cards (virtual concatenation with LCAS), proved"
    print ".SH SYNOPSIS"
    print ".nf\n.B #include <levelspruce.h>\n.sp\ncc program.c $(pkg\\-config \\-\\-cflags \\-\\-libs levelspruce)\n.fi"
    print ".SH DESCRIPTION"
    words(said)
    print ".SH CALLS AND CONSTANTS"
    said = ""
}

# a comment that stands by itself
/^\/\*/ {
    end_defines()
    if (said != "")
        words(said)
    said = $0
    sub(/^\/\* ?/, "", said)
    if (sub(/ *\*\/$/, "", said) == 0) {
        in_words = 1
        if (said != "")
            said = said "\n"
    }
    next
}
in_words {
    line = $0
    ends = sub(/ *\*\/$/, "", line)
    sub(/^ \* ?/, "", line)
    if (!(ends && line == ""))
        said = said line "\n"
    if (ends)
        in_words = 0
    if (ends && !begun)
        begin()
    next
}
# what the compiler alone looks at is left out
/^#if/ { end_defines(); if ($0 !~ /LEVELSPRUCE_H$/) in_test++; next }
/^#endif/ { if (in_test > 0) { in_test--; said = "" } next }
in_test > 0 { next }
# of a macro with arguments its name and theirs
/^#define LEVELSPRUCE_[A-Z0-9_]+\(/ {
    line = $0
    sub(/^#define /, "", line)
    sub(/\).*/, ")", line)
    defines = defines line "\n"
    goes_on = $0 ~ /\\$/
    next
}
goes_on { goes_on = $0 ~ /\\$/; next }
/^#define LEVELSPRUCE_[A-Z0-9_]+( |$)/ && !/^#define LEVELSPRUCE_H$/ {
    line = $0
    sub(/^#define /, "", line)
    sub(/ *\/\* */, "  ", line)
    sub(/ *\*\/$/, "", line)
    defines = defines line "\n"
    next
}
/^LEVELSPRUCE_MUST_USE$/ { next }
/^(uint8_t|const char) .*levelspruce_/ { in_call = 1; call = "" }
in_call {
    call = call $0 "\n"
    if ($0 ~ /;$/) {
        name = call
        sub(/\(.*/, "", name)
        sub(/.*[ *]/, "", name)
        print ".SS " name
        words(said)
        prototype(call)
        said = ""
        in_call = 0
    }
    next
}
END {
    end_defines()
    print ".SH SEE ALSO"
    print also
}
