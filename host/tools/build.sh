# Sourced after platform.sh and at-hand.sh: builds what host/Makefile knows, and the library's version.
# shellcheck disable=SC2034

strict='-Wall -Wextra -Werror -pedantic -Iinclude'
sanitizers='-fsanitize=address,undefined -fno-sanitize-recover=all -g'
fuzzer='-fsanitize=fuzzer,address,undefined -fno-sanitize-recover=all -g'

# The library's version, as its header has it.
version() { sed -n 's/^#define LEVELSPRUCE_VERSION "\(.*\)"$/\1/p' include/levelspruce.h; }

# The first two numbers of the version: with another of them calls may have changed.
series() { version | cut -d . -f 1,2; }

# made FILE..: builds what is not there, or older than what it is made of.
made() {
    has_make || return
    # shellcheck disable=SC2154
    MAKEFLAGS='' make -s --no-print-directory -f host/Makefile "faces=$faces" "cc=$archive_compiler" "ar=$archive_ar" "shared_cc=$shared_compiler" \
        "own_library=$own_library" "sanitizers=$sanitizers" "fuzzer=$fuzzer" "version=$(version)" "series=$(series)" "$@"
}

# is_made FILE: whether it is there and older than nothing that it is made of.
is_made() { made -q "$1" 2>/dev/null; }

# made_alone FILE: as made, with a compiler that is there or can be installed, and nobody else beside it.
made_alone() {
    ! is_made "$1" || return 0
    alone building
    has_archive_compiler && made "$1" >&2
}
