# Sourced at the repository's top: what is built from proved crates, once and again when a crate has changed.

# Whether the Rattle toolchain is here; a line says so if not, and if it is another than the one of the file toolchain, with which
# all was proved.
has_toolchain() {
    if ! command -v rt >/dev/null; then
        echo "the Rattle toolchain is not here: its command rt is not among the programs on PATH (wanted: $(cat toolchain))" >&2
        return 1
    fi
    [ "$(rt version)" = "$(cat toolchain)" ] ||
        echo "the toolchain here is '$(rt version)', and this was proved with '$(cat toolchain)': what holds there may not be proved here" >&2
}

# alone proving|building: from here to this script's end, or to the other of the two, nobody else does so below target/. Where
# another run is at it, this one waits and says so. What was to be made may be there then.
alone() {
    mkdir -p target
    exec 9>"target/$1.lock"
    if command -v flock >/dev/null && ! flock -n 9; then
        echo "another run is $1 here: waiting until it is done" >&2
        until flock -w 30 9; do
            echo "still waiting for the other run: $(cat "target/$1.now" 2>/dev/null || echo "$1")" >&2
        done
    fi
}

# The file that says which toolchain it is; none where it is not here, since then nothing can be proved again.
kit_id() { command -v rt >/dev/null && echo "$(dirname "$(rt doc)")/KIT-ID"; }

# levels CRATE: the crates that it depends on, each behind the number of its level. Those of one level need nothing of
# each other.
levels() {
    awk -v wanted="$1" '
        function level(n, a, k, m, l, highest) {
            if (n in known)
                return known[n]
            m = split(deps[n], a, " ")
            for (k = 1; k <= m; k++)
                if (a[k] in deps && (l = level(a[k]) + 1) > highest)
                    highest = l
            return known[n] = highest + 0
        }
        { sub(/#.*/, "") }
        /:/ { name = rest = $0; sub(/[ \t]*:.*/, "", name); sub(/[ \t].*/, "", name); sub(/^[^:]*:/, "", rest); deps[name] = rest }
        END {
            level(wanted)
            for (n in known)
                if (n != wanted)
                    print known[n], n
        }' crates.txt | sort -k 1,1n -k 2
}

# needed CRATE..: these and all that they depend on, each once, the lowest first
needed() { for wanted in "$@"; do levels "$wanted" && echo "999 $wanted"; done | sort -k 2,2 -u | sort -k 1,1n -k 2 | cut -d ' ' -f 2; }

# read_of CRATE..: the folders of these that a proof reads
read_of() { for one in "$@"; do for part in src specs proofs; do [ ! -d "crates/$one/$part" ] || echo "crates/$one/$part"; done; done; }

# is_current FILE CRATE: whether it is there and older neither than what its crate and those below are made of, nor than the
# toolchain.
is_current() {
    # shellcheck disable=SC2046
    [ -f "$1" ] && [ -z "$(find $(read_of $(needed "$2")) $(kit_id) -newer "$1" | head -n 1)" ]
}

# weight CRATE: about how many tenths of a second its first check takes. A function takes most of a second, and what is proved of the
# definitions little.
weight() {
    functions=$(find "crates/$1/src" -name '*.rt' -exec cat {} + | grep -c 'fn [a-z_0-9]*(')
    # shellcheck disable=SC2046
    echo $((8 * functions + $(find $(read_of "$1") -name '*.antt' -exec cat {} + | wc -c) / 5000 + 1))
}

# How many crates are proved at once: at most as many as there is memory for. Each takes some 3 GB at most.
processors() { nproc 2>/dev/null || echo 1; }
with_room() {
    room_for=$(awk '/^MemAvailable/ { print int($2 / 3000000) }' /proc/meminfo 2>/dev/null)
    [ "${room_for:-1}" -ge "$1" ] && echo "$1" || { [ "${room_for:-1}" -ge 1 ] && echo "${room_for:-1}" || echo 1; }
}

# about SECONDS: in words
about() { if [ "$1" -lt 90 ]; then echo "about $((($1 + 10) / 10 * 10)) seconds"; else echo "about $((($1 + 30) / 60)) minutes"; fi; }

# At first the speed is a guess, by the weights; from a tenth of the work on it is what was measured.
time_left() {
    if [ "$((10 * weight_done))" -gt "$weight_all" ]; then
        about $(((weight_all - weight_done) * ($(date +%s) - begun) / weight_done))
    else
        about $(((weight_all - weight_done) / 10 / at_once))
    fi
}

# listed NAME..: with commas
listed() { echo "$@" | sed 's/ /, /g'; }

# told CRATE..: of what rt prints while it checks these and what is below them: each crate once, when its check has ended, how long the
# others may take, what is built, and what is not proved. The latest goes to target/proving.now too.
told() {
    # shellcheck disable=SC2046
    set -- $(needed "$@")
    begun=$(date +%s) crates_all=$# crates_done=0 weight_all=0 weight_done=0 seen=' '
    for one in "$@"; do weight_all=$((weight_all + $(weight "$one"))); done
    echo "checking $crates_all crates, $(time_left) if none was checked before"
    while read -r line; do
        case $line in
        '== summary') ;;
        '== '*)
            one=${line#== }
            case $seen in *" $one "*) continue ;; esac
            seen="$seen$one " crates_done=$((crates_done + 1)) weight_done=$((weight_done + $(weight "$one")))
            echo "checked $crates_done of $crates_all: $one, $(time_left) left"
            echo "checked $crates_done of $crates_all" >target/proving.now
            ;;
        *': failed ('*) echo "NOT PROVED: ${line%%:*}" ;;
        'built '*) echo "$line" ;;
        esac
    done
}

# build VERB CRATE: 'lib' gives a static library's archive, 'run' a program, which it starts too, on what stands beside its sources.
build() {
    folder=crates/$2 of_it=$2
    if [ "$1" = lib ]; then
        rm -f "$folder/out/lib$of_it.a"
        (cd "$folder" && rt lib) && mkdir -p target/staticlib && cp "$folder/out/lib$of_it.a" target/staticlib && echo "built lib$of_it.a"
    else
        given=/dev/null
        [ ! -f "$folder/stdin" ] || given=$PWD/$folder/stdin
        rm -f "$folder/out/$of_it"
        # the status is the program's own where there is one
        (cd "$folder" && rt run <"$given" 2>&1 >/dev/null)
        built_before "$of_it" && echo "built $of_it"
    fi
}

# built_before PROGRAM: takes it from where rt has linked it, if it is made of what is there now
built_before() { is_current "crates/$1/out/$1" "$1" && mkdir -p target/bin && cp "crates/$1/out/$1" target/bin; }

# prove_all VERB CRATE..: checks each crate with all below it, several at once, and builds it over that.
prove_all() {
    verb=$1
    shift
    for crate in "$@"; do
        (cd "crates/$crate" && rt all check --jobs "$at_once") && build "$verb" "$crate" || return
    done
}

# proving WHAT VERB CRATE..: proves crates with what they depend on, and builds them, by a command of rt for the crates themselves. On
# standard error it says what is proved, a line for each crate that is done, and every half minute that the work goes on. All that rt
# prints goes to target/proving.out; its end is shown if it fails.
proving() {
    echo "proving and building $1: this takes some minutes the first time" >&2
    shift
    mkdir -p target && rm -f target/proving.status
    dirname "$(rt doc)" >target/kit
    at_once=${RT_JOBS:-$(with_room "$(processors)")}
    echo 'checking' >target/proving.now
    seconds=0
    while sleep 30 >/dev/null 2>&1 && kill -0 $$ 2>/dev/null; do
        seconds=$((seconds + 30))
        echo "$(cat target/proving.now), $seconds seconds so far" >&2
    done 9>&- &
    says=$!
    {
        prove_all "$@" 2>&1 9>&-
        echo $? >target/proving.status
    } | tee target/proving.out | (shift && told "$@") >&2
    kill "$says" 2>/dev/null
    rm -f target/proving.now
    status=$(cat target/proving.status 2>/dev/null || echo 1)
    [ "$status" = 0 ] || tail -n 40 target/proving.out >&2
    return "$status"
}
