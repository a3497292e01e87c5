# The man page of a program from its help, whose first line says how it is called and what it is.
NR == 1 {
    gsub(/@program@/, program)
    at = index($0, ": ")
    what = substr($0, at + 2)
    sub(/\.$/, "", what)
    head(toupper(program), 1, version)
    print ".SH NAME"
    print plain(program) " \\- " plain(what)
    print ".SH SYNOPSIS"
    print plain(substr($0, 1, at - 1))
    print ".SH DESCRIPTION"
    next
}
{ gsub(/@program@/, program); text = text $0 "\n" }
END {
    words(text)
    print ".SH SEE ALSO"
    print also
}
