# Sourced: which compilers are at hand. What is missing is installed from Debian's packages, if that can be done. Tries
# things out in the folder $room, which the sourcing script makes.

# at_hand PACKAGES CHECK..: whether CHECK succeeds, if need be once PACKAGES are installed.
at_hand() {
    packages=$1
    shift
    "$@" && return
    # shellcheck disable=SC2086
    host/tools/install $packages >"$room/installed" 2>&1 && "$@"
}

# builds_c COMPILER WORD..: whether it builds a C (or C++) program with the C library.
builds_c() {
    printf '#include <stdint.h>\n#include <stdio.h>\nint main(void) { return puts("") < 0; }\n' >"$room/try.c"
    "$@" "$room/try.c" -o "$room/try" >/dev/null 2>&1
}

# sanitized_run PROGRAM WORD..: runs a program that may have sanitizers in it. Older ones fail now and then where addresses
# are random, so these are switched off where that is allowed. The search for leaks does not work on all machines, and the
# proved code allocates nothing; so it is left out.
sanitized_run() {
    ! setarch "$(uname -m)" -R true 2>/dev/null || set -- setarch "$(uname -m)" -R "$@"
    ASAN_OPTIONS=detect_leaks=0 "$@"
}

# builds_and_runs_c COMPILER WORD..: and whether the program runs here.
builds_and_runs_c() { builds_c "$@" && sanitized_run "$room/try" >/dev/null 2>&1; }

# Makes a folder $room where there is none.
has_room() {
    [ -z "${room:-}" ] || return 0
    room=$(mktemp -d) || exit 2
    trap 'rm -rf "$room"' EXIT
}

# has_make: whether make is there, if need be once it is installed; a line says so if not.
has_make() {
    ! command -v make >/dev/null || return 0
    has_room
    at_hand make command -v make >/dev/null && return
    echo 'make is not here, and could not be installed' >&2
    return 1
}

# has_archive_compiler: likewise of a C compiler for the archive's processor.
has_archive_compiler() {
    has_room
    # shellcheck disable=SC2154,SC2086
    at_hand "$archive_packages" builds_c $archive_compiler && return
    echo "no C compiler is here, and none could be installed: $archive_compiler" >&2
    return 1
}

has_clang() { command -v clang >/dev/null; }

# builds_fuzzer COMPILER WORD..: whether it builds a program of libFuzzer that runs here.
builds_fuzzer() {
    printf '#include <stddef.h>\n#include <stdint.h>\nint LLVMFuzzerTestOneInput(const uint8_t *d, size_t n) { return d == NULL && n > 0; }\n' >"$room/try.c"
    "$@" "$room/try.c" -o "$room/try" >/dev/null 2>&1 && sanitized_run "$room/try" -runs=1 >/dev/null 2>&1
}

builds_rust() {
    echo 'fn main() {}' >"$room/try.rs"
    rustc "$room/try.rs" -o "$room/try" >/dev/null 2>&1
}

has_python() { python3 -c '' 2>/dev/null; }
