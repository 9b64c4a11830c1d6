# shellcheck shell=sh
# Sourced from the repository's root by the gate, by tests, by oracle/build and by bench/run: the tools that tests
# need, and whether they are here. A function missing_WHAT prints a line on what is missing, or nothing.

# Option::is_none_or is the newest thing that oracle/src and bench/src use.
oldest_rust=1.82

# One rounding for each operation: rustc by itself never makes one operation of a product and a sum, and the flag
# keeps LLVM from it too. No word on the processor's model, since the proved build has none either.
rust() { rustc --edition 2021 -C opt-level=3 -C llvm-args=-fp-contract=off "$@"; }

rust_version() { rustc --version 2>/dev/null | cut -d ' ' -f 2; }

missing_rust() {
    version=$(rust_version) || version=''
    if [ -z "$version" ]; then
        echo 'no rustc'
    elif ! printf '%s\n' "$oldest_rust" "$version" | sort -V -C; then
        echo "rustc $version is too old: $oldest_rust or later is needed"
    else
        missing_linker "$version"
    fi
}

missing_linker() { # VERSION
    tried=$(mktemp -d)
    echo 'fn main() {}' | rust --crate-name empty -o "$tried/empty" - 2>"$tried/said" ||
        echo "rustc $1 cannot build an empty program: $(head -n 1 "$tried/said")"
    rm -r "$tried"
}

# Where the crate's modules are within its source.
place=algebra/dense/fixed

# Sets `fixed` to their folder: below CLARABEL_SRC, if that is set, or else below a place where the source may be.
find_source() {
    for folder in "${CLARABEL_SRC:-docs/src}" "${CLARABEL_SRC:-../shared/docs/src}"; do
        for fixed in "$folder/$place" "$folder/src/$place"; do
            [ ! -d "$fixed" ] || return 0
        done
    done
    return 1
}

# A wrong CLARABEL_SRC is no missing tool: oracle/build fails on it.
missing_source() {
    find_source || [ -n "${CLARABEL_SRC:-}" ] || echo 'no source of clarabel 0.11.1; set CLARABEL_SRC to its src folder'
}

missing_python() {
    python3 -c 'import sys; sys.exit(sys.version_info < (3, 9))' 2>/dev/null || echo 'no python3 of version 3.9 or later'
}

missing_clone() {
    { command -v git >/dev/null && [ -e .git ]; } || echo 'no git, or this is no clone'
}

# What is missing of those named, in one line, or nothing.
missing() { # WHAT..
    for what; do "missing_$what"; done | awk '{ printf "%s%s", between, $0; between = "; " }'
}

# Ends a test with 77 where one of those named is missing.
needs() { # WHAT..
    lacks=$(missing "$@")
    [ -z "$lacks" ] || { echo "${0##*/} could not run: $lacks"; exit 77; }
}
