# How the scripts of this folder measure: sourced, not run. It says where things are ($root, $built), makes
# a folder to work in ($work), and counts what a program for x86-64 takes on this machine.
root=$(cd "$(dirname "${BASH_SOURCE[0]}")/.." && pwd)
built=$root/target/bench
emulated=$([ "$(uname -m)" = x86_64 ] || echo yes)
counter=callgrind
if [ "$emulated" ]; then counter='a counter in the emulator'; fi
within=() # what ends a run that takes too long
work=$(mktemp -d)
trap 'rm -rf "$work"' EXIT
say() { printf '%s\n' "$@"; }

# run COMMAND..: runs a program for x86-64 on this machine.
run() { "${within[@]}" ${emulated:+qemu-x86_64} "$@"; }

# instructions INPUT COMMAND..: how many the command carries out on the input.
instructions() {
    local input=$1
    shift
    if [ "$emulated" ]; then
        run -plugin "$built/counter.so,to=$work/count" "$@" <"$input" >"$work/answers" || return
        cat "$work/count"
    else
        run valgrind --tool=callgrind --callgrind-out-file=/dev/null "$@" \
            <"$input" >"$work/answers" 2>"$work/said" || return
        awk '/Collected/ { print $4 }' "$work/said"
    fi
}

# one_run INPUT COMMAND..: its microseconds, and `-` in place of an emulator's, which say nothing.
one_run() {
    local input=$1 start=${EPOCHREALTIME/./}
    shift
    if [ "$emulated" ]; then say -; return; fi
    run "$@" <"$input" >"$work/answers" || return
    say $((${EPOCHREALTIME/./} - start))
}

# microseconds INPUT COMMAND..: of the shortest of three runs.
microseconds() { for _ in 1 2 3; do one_run "$@"; done | sort -n | head -n 1; }
