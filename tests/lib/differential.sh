# Sourced by the differential tests in the repository's root. Builds the oracle and proved programs: those that the variable
# proved names, or else the probe. Gives the functions compare, for which the variable seed is set, and finish. Exit status 77:
# there is nothing to compare with (oracle/build says what).

test=$(basename "$0")
oracle=$(oracle/build) || exit $?
mkdir -p target
# shellcheck disable=SC2086
if ! tools/build ${proved:-probe} >"target/$test.log" 2>&1; then
    cat "target/$test.log"
    exit 1
fi

failed='' said=target/$test.said

# A subject that no test compares would go unseen.
subjects=$("$oracle" subjects) || failed=' subjects'
for subject in $subjects; do
    grep -qE "^compare .* $subject( |\$)" tests/differential-* || failed="$failed $subject:no-test-compares-it"
done

# An oracle that prints nothing has compared nothing: what it says at the end of a subject is looked at, as well as its status.
compare() { # COUNT SUBJECT..
    all_equal="$1 inputs, 0 differences, [1-9][0-9]* branches, 0 never hit"
    count=$1
    shift
    for subject; do
        if ! "$oracle" "$subject" "$count" "$seed" tests/lib/run-proved target/bin/probe >"$said"; then
            failed="$failed $subject"
        elif ! tail -n 1 "$said" | grep -q "^$subject: $all_equal\$"; then
            failed="$failed $subject:nothing-compared"
        fi
        cat "$said"
    done
}

# Says how the test went.
finish() {
    [ -z "$failed" ] || { echo "$test: FAILED:$failed"; exit 1; }
    echo "$test: ok"
}
