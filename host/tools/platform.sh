# Sourced at the repository's top: how programs over the proved code are built and run on this machine. The only place
# that knows one kind of machine from another.
#
# The archive holds x86-64 code. On x86-64 all programs link it. On Arm, C programs that link it are built by a cross
# compiler and run under Debian's emulator; programs that are built for the machine itself (Rust, sanitizers,
# C++) link an object of the same proved module. The toolchain itself is of x86-64 too, and needs that emulator there.
# shellcheck disable=SC2034

faces='c_face_c c_receiver_c c_cards_c c_recordings_c'  # the crates of exports; the first two have all that a link needs
archive=target/staticlib/liblevelspruce.a       # the library: all of their calls and the texts, which are C
texts=target/staticlib/texts.o

# proved_of CRATE: the archive that rt writes of it
proved_of() { echo "target/staticlib/lib$1.a"; }

# The toolchain's folder. Where rt is not on PATH, it is the one that was there at the last proof.
kit() {
    if command -v rt >/dev/null; then
        dirname "$(rt doc)"
    else
        cat target/kit 2>/dev/null
    fi
}

case $(uname -m) in
aarch64)
    archive_compiler='x86_64-linux-gnu-gcc -static'
    archive_ar=x86_64-linux-gnu-ar
    archive_objdump=x86_64-linux-gnu-objdump
    archive_packages='gcc-x86-64-linux-gnu libc6-dev-amd64-cross qemu-user'
    shared_compiler=x86_64-linux-gnu-gcc
    emulator=qemu-x86_64
    own_library=target/host/liblevelspruce.a
    own_library_possible() { has_python; }
    make_own_library() {
        mkdir -p target/host && rm -f "$own_library" && gcc -std=c99 -O2 -fPIC -Iinclude -c host/library/texts.c -o target/host/texts.o || return
        own_objects=target/host/texts.o
        for one_face in $faces; do
            python3 host/tools/native-object "$one_face" "target/host/$one_face.o" || return
            own_objects="$own_objects target/host/$one_face.o"
        done
        # shellcheck disable=SC2086
        ar rcs "$own_library" $own_objects
    }
    # The words with which COMPILER compiles for this very processor. clang 14 believes the processor's name, though a
    # virtual machine may hide its scalable vectors: such code stops at an illegal instruction.
    tuned_for() {
        if [ "$1" = clang ] && ! grep -qw sve /proc/cpuinfo; then echo -mcpu=native+nosve; else echo -mcpu=native; fi
    }
    # a program of x86-64 that finds its libraries, and those in the folder FOLDER, while it runs
    run_shared_program() { LD_LIBRARY_PATH='' "$emulator" -L /usr/x86_64-linux-gnu -E LD_LIBRARY_PATH="$1" "$2"; }
    ;;
*)
    archive_compiler=gcc
    archive_ar='ar'
    archive_objdump=objdump
    archive_packages='gcc libc6-dev'
    shared_compiler=gcc
    emulator=''
    own_library=$archive
    own_library_possible() { :; }
    make_own_library() { :; }
    tuned_for() { :; }
    run_shared_program() { LD_LIBRARY_PATH=$1 "$2"; }
    ;;
esac

# runs a program of x86-64 that has its C library in it, or finds this machine's
run_archive_program() { $emulator "$@"; }

# The words that run a program that rt linked. It needs the toolchain's C library, of which an emulator has to be told.
if [ -n "$emulator" ]; then
    libraries=$(kit)/toolchain/lib
    linked="$emulator $libraries/ld-linux-x86-64.so.2 --library-path $libraries"
else
    linked=''
fi
