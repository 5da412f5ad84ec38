# Sourced, after tests/c/toolchain.sh, by the scripts that count instructions: `instructions` tells those of one event.
# shellcheck shell=sh

scratch=$(mktemp -d)
trap 'rm -rf "$scratch"' EXIT

# Each counts all the instructions of a run of PROGRAM ARGUMENT.. .
count_with_perf() {
    perf stat -x , -e instructions:u -o "$scratch/perf" "$@" >/dev/null
    awk -F , '/instructions/ { print $1 }' "$scratch/perf"
}

count_with_valgrind() {
    valgrind --tool=callgrind --callgrind-out-file=/dev/null "$@" 2>&1 >/dev/null | awk '/Collected/ { print $NF }'
}

# The emulator tells each translated piece of the program as it enters it, here of one instruction each.
count_with_emulator() {
    mkfifo "$scratch/trace"
    grep -c '^Trace' <"$scratch/trace" &
    "$emulator" "$one_instruction" -d exec,nochain -D "$scratch/trace" "$@" >/dev/null
    wait $!
    rm "$scratch/trace"
}

# How instructions are counted on this machine, if at all.
counter=
find_counter() {
    if [ -n "$emulator" ]; then
        counter=count_with_emulator
        one_instruction=-one-insn-per-tb
        "$emulator" -help | grep -q -e "$one_instruction" || one_instruction=-singlestep
    elif perf stat -x , -e instructions:u -o "$scratch/perf" true 2>/dev/null && ! grep -q '<not' "$scratch/perf"; then
        counter=count_with_perf
    elif command -v valgrind >/dev/null; then
        counter=count_with_valgrind
    fi
}

# instructions EVENTS PROGRAM ARGUMENT..: of one event of target/c/PROGRAM, whose last argument is their number. What a run costs
# besides is the same in both runs.
instructions() {
    [ -n "$counter" ] || { echo -; return; }
    events=$1
    program=$2
    shift 2
    few=$("$counter" "target/c/$program" "$@" "$events")
    many=$("$counter" "target/c/$program" "$@" $((3 * events)))
    awk "BEGIN { printf \"%.0f\", ($many - $few) / (2 * $events) }"
}
