# Sourced: adds up tests. Every test program ends with a line 'N passed, M failed'.

passed=0 failed=0
room=$(mktemp -d) || exit 2
trap 'rm -rf "$room"' EXIT

# counted COMMAND..: runs it, shows what it prints, and adds its tally. A command that prints no tally, or fails with
# none failed, is itself one that failed.
counted() {
    {
        "$@"
        echo $? >"$room/status"
    } 2>&1 | tee "$room/said"
    tally=$(tail -n 1 "$room/said" | sed -n 's/^\([0-9]\{1,\}\) passed, \([0-9]\{1,\}\) failed$/\1 \2/p')
    if [ -z "$tally" ]; then
        printf 'failed\t%s\tended with status %s and no tally\n' "$*" "$(cat "$room/status")"
        tally='0 1'
    elif [ "$(cat "$room/status")" != 0 ] && [ "${tally#* }" = 0 ]; then
        printf 'failed\t%s\tended with status %s\n' "$*" "$(cat "$room/status")"
        tally="${tally% *} 1"
    fi
    passed=$((passed + ${tally% *})) failed=$((failed + ${tally#* }))
}

# beside FUNCTION: runs it beside what comes next, with a tally and a room of its own. joined FUNCTION waits for it, shows
# what it printed, and adds its tally.
beside() {
    mkdir "$room/$1" || exit 2
    (
        # shellcheck disable=SC2030
        room=$room/$1 passed=0 failed=0
        "$1"
        echo "$passed passed, $failed failed" >"$room.tally"
    ) >"$room/$1.said" 2>&1 &
    eval "process_of_$1=$!"
}
joined() {
    eval "wait \"\$process_of_$1\""
    # one that broke off has left no tally, and so counts as failed
    counted cat "$room/$1.said" "$room/$1.tally"
}

# Prints the tally of all and ends. No test at all is no success.
finish() {
    echo "$passed passed, $failed failed"
    [ "$failed" -eq 0 ] && [ "$passed" -gt 0 ]
    exit
}
