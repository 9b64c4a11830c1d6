# shellcheck shell=sh
# Sourced by tests of golden lists in the repository's root. Gives the function made_again.

# Sees that a golden list, which oracle/make-golden writes for a program, is the same when it is made once more, and says so.
made_again() { # LIST PROGRAM
    test=$(basename "$0")
    made=target/$test
    oracle/make-golden "$1" "$made" || exit $?
    for file in stdin stdout; do
        [ -s "$made/$file" ] || { echo "$test: FAILED: oracle/make-golden makes an empty $file"; exit 1; }
        if ! cmp "crates/$2/$file" "$made/$file"; then
            echo "$test: FAILED: oracle/make-golden $1 makes another $file, which stands in $made"
            exit 1
        fi
    done
    rm -r "$made"
    echo "$test: ok"
}
