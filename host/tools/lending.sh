# Sourced by ./run and by the installed programs, which say by $helps where the helps are, by $from from where the caller
# names files, and by version which version it is: a program's help, the file that it is lent, and whether its answers could be
# written.
# shellcheck disable=SC2154

# helped NAME CALLED WORD: where the word asks for it, prints the help of a program that is called so, or the version, and ends.
helped() {
    case $3 in
    --help | -h)
        sed "s|@program@|$2|g" "$helps/$1.txt"
        exit
        ;;
    --version)
        version
        exit
        ;;
    esac
}

# lent WHAT EXAMPLE [FILE|-]: $input is one of the caller's files, named from where the caller is, or an example
lent() {
    what=$1 example=$2
    shift 2
    case ${1:-} in
    '') input=$example ;;
    - | /*) input=$1 ;;
    *) input=$from/$1 ;;
    esac
    if [ $# -gt 1 ]; then
        echo "a $what has one file, and not also '$2'" >&2
        exit 2
    fi
    reads "$input" "${1:-}"
}

# reads FILE NAMED: goes on where the file can be read, or is standard input (-)
reads() {
    if [ "$1" != - ] && { [ ! -r "$1" ] || [ -d "$1" ]; }; then
        echo "cannot read the file '$2'" >&2
        exit 2
    fi
}

# torn_and_mended EXAMPLE [IN OUT]: $torn is the caller's file IN and $mended is OUT, which must not be there yet; or $torn is an
# example, and $mended a file that is gone at the end.
torn_and_mended() {
    case $# in
    1)
        torn=$1 own=$(mktemp -d) || exit 2
        trap 'rm -rf "$own"' EXIT
        trap 'exit 130' INT
        mended=$own/mended
        ;;
    3)
        case $2 in /*) torn=$2 ;; *) torn=$from/$2 ;; esac
        case $3 in /*) mended=$3 ;; *) mended=$from/$3 ;; esac
        reads "$torn" "$2"
        if [ -e "$mended" ] || [ -L "$mended" ]; then
            echo "there is a file '$3' already, and mending writes over none" >&2
            exit 2
        fi
        ;;
    *)
        shift
        echo "mending wants two files, the recording and the one to write, and not '$*'" >&2
        exit 2
        ;;
    esac
}

# greets CALLED: says at a terminal how lines are typed
greets() { echo "type a line with a tab between its fields, as: size, tab, 2. Ctrl-D ends; $1 --help names the lines" >&2; }

# written WORD..: runs a proved program and ends with its status. Such a program has none to say by that an answer could not
# be written; what its answers are passed on by has one.
written() {
    passing "$@"
    exit
}
passing() (
    ended=$(mktemp) || exit 2
    trap 'rm -f "$ended"' EXIT
    trap 'exit 130' INT
    {
        "$@"
        echo $? >"$ended"
    } | passed_on
    status=$?
    [ "$status" != 0 ] || status=$(cat "$ended")
    exit "$status"
)
passed_on() { or_says_so cat; }

# or_says_so WORD..: passes lines on by a command. A full disk is said in words, with status 2; where nobody reads on, which a
# signal says, no word is needed.
or_says_so() {
    "$@" 2>/dev/null
    passing_on=$?
    [ "$passing_on" != 0 ] && [ "$passing_on" -lt 128 ] || return "$passing_on"
    echo 'the output cannot be written' >&2
    return 2
}

# replayed FILE WORD..: the same of the replay program, whose recording begins in that file, or on standard input (-). Its
# refusals are said in words, and where there is one the status is not 0.
replayed() {
    replaying "$@"
    exit
}
replaying() (
    recording=$1
    shift
    refused=$(mktemp) && links=$(mktemp -d) || exit 2
    trap 'rm -rf "$refused" "$links"' EXIT
    trap 'exit 130' INT
    # the program opens files whose names are UTF-8; others it gets by links
    count=0
    for word in "$@"; do
        shift
        if ! printf %s "$word" | iconv -f UTF-8 -t UTF-8 >/dev/null 2>&1; then
            count=$((count + 1))
            case $word in /*) ;; *) word=$PWD/$word ;; esac
            ln -s "$word" "$links/$count" || exit 2
            word=$links/$count
        fi
        set -- "$@" "$word"
    done
    passed_on() { or_says_so in_words "$recording"; }
    passing "$@"
    status=$?
    [ "$status" != 0 ] || [ ! -s "$refused" ] || status=1
    exit "$status"
)
in_words() {
    tab=$(printf '\t')
    sed -u -e "s/^answer${tab}13${tab}line${tab}[0-9]*\$/&${tab}malformed/" \
        -e "s/^answer${tab}4${tab}line${tab}1\$/&${tab}$(out_of_range "$1")/" -e "/^answer${tab}/w $refused"
}

# out_of_range FILE: which of a recording's settings is, in words. What is no plain file can be read but once, and not here.
out_of_range() {
    if [ ! -f "$1" ] || [ ! -s "$1" ]; then
        printf 'settings out of range, or a store above 65536 bytes\n'
        return
    fi
    head -n 1 "$1" | awk -F '\t' '
        function out(name, n, least, most) {
            if (said == "" && (n + 0 < least || n + 0 > most)) said = name "\t" (n + 0) "\tnot " least " to " most
        }
        {
            vc12 = 0
            for (i = 4; i < NF; i++) if ($i == "kind" && $(i + 1) == "VC12") vc12 = 1
            out("ports", $1, 1, 64)
            if (vc12) { out("P", $2, 136, 136); out("W", $3, 32, 512) } else { out("P", $2, 1, 2340); out("W", $3, 16, 2048) }
            for (i = 4; i <= NF; i++) if ($i ~ /^[0-9]+$/) out("time", $i, 0, 5000)
            if (said == "") said = "store\t" $1 * $3 * ($2 + 1) "\tabove 65536"
            print said
        }'
}
