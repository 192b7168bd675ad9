#!/usr/bin/env bash
# Times calls about one thing by four and by eight threads at once: one completion, one condition, one bit, one page,
# and one bit that each thread keeps for a while (`held`); by the library for C beside a semaphore, a mutex and a
# condition variable of the C library; by that for Rust beside std's and parking_lot's. In a run each program makes 10
# rounds of each kind, in turn with the others, of which the middle one counts; of the runs' nanoseconds, for a pair of
# calls, and ratios it writes the middle one, with the least and the greatest in brackets. And how many calls of the
# system a pair takes in C.
# It needs gcc, rustc, cargo and what front/try leaves in front/out; for parking_lot that crate as Debian has it
# (librust-parking-lot-dev): without it those lines are missing. The calls are counted by perf, or else by strace.
# RUNS: how many runs of each kind (5). THREADS: how many threads (`4 8`). BUSY: how many loops keep processors busy
# meanwhile (0). WITH: a command that starts the programs, as `taskset -c 0,1`. BEFORE: another clone, in which front/try
# left its archive: its libraries make the same in the same runs, and the ratio to them is `before`.
set -eu
cd "$(dirname "$0")/.."
. bench/front_runs.sh
RUNS=${RUNS:-5}

# The program in C over the library of a clone: CLONE PROGRAM.
build_c() {
    gcc -std=gnu11 -O2 -o "$2" bench/front_contended.c "$1/front/c/sugwelan.c" "$1/front/out/libsugwelan.a" -lpthread
}

# A run of a program, and where there is another clone of that of its library too: PROGRAM THREADS.
run() {
    ${WITH:-} "$made/$1" "$2"
    [ -z "${BEFORE:-}" ] || ${WITH:-} "$made/before_$1" "$2" | sed -n 's/^sugwelan /before /p'
}

# How many calls of the system a command makes.
count_calls() {
    if perf stat -x , -e raw_syscalls:sys_enter -o "$made/calls" "$@" >"$made/text" 2>"$made/said"; then
        sed -n 's/^\([0-9]*\),.*raw_syscalls.*/\1/p' "$made/calls"
    else
        strace -f -c -o "$made/calls" "$@" >"$made/text"
        awk '$NF == "total" { print $4 }' "$made/calls"
    fi
}

# Calls of the system for a pair of each kind: PROGRAM THREADS WHO.
write_calls() {
    local name count
    for name in completion condition bit page held; do
        count=$(count_calls ${WITH:-} "$made/$1" "$2" "$3" "$name")
        awk -v name="$name" -v who="$1 $3" -v count="$count" '{ pairs += $3 }
            END { printf "  %s, %s: %.4f calls of the system\n", name, who, count / pairs }' "$made/text"
    done
}

build_c . "$made/c"
build_rust front_contended . "$made/rust"
if [ -n "${BEFORE:-}" ]; then
    build_c "$BEFORE" "$made/before_c"
    build_rust front_contended "$BEFORE" "$made/before_rust"
fi
for threads in ${THREADS:-4 8}; do
    measure "in C, $threads threads" run c "$threads"
    write_calls c "$threads" sugwelan
    write_calls c "$threads" pthread
    [ -z "${BEFORE:-}" ] || write_calls before_c "$threads" sugwelan
    measure "in Rust, $threads threads" run rust "$threads"
done
