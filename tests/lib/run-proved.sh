# shellcheck shell=sh
# Sourced by tests and by ./run. How a proved program, which is for x86-64, is run. Gives the functions exec_proved and run_proved.

# exec_proved PROGRAM WORDS..: becomes the program, as rt runs it. Signals reach the program itself.
# The variable PRELOADED may name a library whose functions stand before those of the C library.
exec_proved() {
    # a name without a slash is looked up in PATH
    case $1 in */*) program=$1 ;; *) program=./$1 ;; esac
    shift
    [ -z "${PRELOADED:-}" ] || exec env "LD_PRELOAD=$PRELOADED" "$program" "$@"
    exec "$program" "$@"
}

# run_proved PROGRAM WORDS..: runs it so. Input, output and status are the program's.
run_proved() ( exec_proved "$@" )
