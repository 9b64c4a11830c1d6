# shellcheck shell=sh
# Sourced from the repository's root, by tests and by host/build. C programs of host/ with the static
# libraries: built for x86-64 and run. Gives the functions host_program, run and host_test, and exits with
# 77 where nothing can run.

command -v rt >/dev/null || { echo "${0##*/} could not run: there is no rt"; exit 77; }
kit=$(rt doc) || { echo "${0##*/} could not run: rt has no kit for this machine"; exit 77; }
kit=$(dirname "$kit")
. tests/lib/run-proved.sh

room=target/host
# one rounding for each operation
flags='-Wall -Wextra -pedantic -ffp-contract=off -Iinclude'

# Sets `libraries` to the paths of the libraries, each proved and built anew where it is old.
make_libraries() { # LIBRARY..
    mkdir -p target
    tools/build "$@" >"target/${0##*/}.log" 2>&1 || { cat "target/${0##*/}.log"; exit 1; }
    libraries=''
    for library; do libraries="$libraries target/staticlib/lib$library.a"; done
}

# Whether a compiler makes a program of an empty source that includes a header: it may lack headers, or a linker.
compiler_works() { # LANGUAGE COMPILER
    tried=$(mktemp -d) works=no
    printf '%s\n' '#include <stdio.h>' 'int main(void) { return 0; }' >"$tried/empty.c"
    if "$2" -x "$1" "$tried/empty.c" -o "$tried/empty" >/dev/null 2>&1 && [ -x "$tried/empty" ]; then works=yes; fi
    rm -r "$tried"
    [ "$works" = yes ]
}

# On x86-64 the machine's own compiler is taken, as a user's would be. Another kind of machine has none
# for x86-64, and one without a compiler may be unable to install it: there the kit's serves.
choose_compiler() {
    compiler="the kit's clang"
    [ "$(uname -m)" = x86_64 ] || return 0
    compiler_works c cc || { apt-get update && apt-get install -y gcc libc6-dev; } >&2 || return 0
    if compiler_works c cc; then compiler=cc; fi
}

# The kit's compiler, which has no headers of its own.
kit_clang() { # WORDS..
    "$kit/toolchain/bin/clang" --target=x86_64-unknown-linux-gnu -fPIE -nostdinc -isystem tests/lib/c-headers "$@"
}

# Builds a program of a C source, of object files besides it, and of `libraries`.
build() { # SOURCE LEVEL PROGRAM OBJECT..
    source=$1 level=$2 built=$3
    shift 3
    # shellcheck disable=SC2086
    if [ "$compiler" = cc ]; then
        cc -std=c99 $flags "-O$level" "$source" "$@" $libraries -o "$built"
    else
        kit_clang -std=c99 $flags "-O$level" -c "$source" -o "$built.o"
        "$kit/bin/rattle-link" --target x86_64-unknown-linux-gnu --toolchain "$kit/toolchain" \
            -o "$built" "$built.o" "$@" $libraries 2>&1
    fi
}

# program_of SOURCE.c LIBRARY..: builds it with the libraries, and sets `program` to its path.
program_of() {
    source_of=$1 program=$room/$(basename "$1" .c)
    shift
    make_libraries "$@"
    choose_compiler
    mkdir -p "$room"
    build "$source_of" 2 "$program"
}

# host_program NAME LIBRARY..: the same of host/NAME.c.
host_program() {
    host_name=$1
    shift
    program_of "host/$host_name.c" "$@"
}

# Runs what was built, on this machine.
run() { # PROGRAM WORDS..
    if [ "$compiler" = cc ]; then "$@"; else run_proved "$@"; fi
}

# Runs a program of host/NAME.c, which must find every answer right, and print the lines of host/NAME.stdout, of which there are some.
prints_its_lines() { # NAME PROGRAM
    [ -s "host/$1.stdout" ] || { echo "${0##*/} FAILED: host/$1.stdout is empty or not there"; exit 1; }
    if ! run "$2" >"$2.stdout" || ! cmp "$2.stdout" "host/$1.stdout"; then
        cat "$2.stdout"
        echo "${0##*/} FAILED: $2 finds an answer wrong, or prints a line that is not that of host/$1.stdout"
        exit 1
    fi
}

# host_test NAME LIBRARY..: host/NAME.c, with the libraries, does so at -O0 and at -O2.
host_test() {
    host_name=$1
    shift
    make_libraries "$@"
    choose_compiler
    mkdir -p "$room"
    for level in 0 2; do
        program=$room/$host_name-O$level
        build "host/$host_name.c" "$level" "$program"
        prints_its_lines "$host_name" "$program"
    done
    cat "$room/$host_name-O2.stdout"
    echo "${0##*/} passed: the same lines at -O0 and at -O2 of the host (compiled by $compiler)"
}
