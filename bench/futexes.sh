#!/bin/sh
# Times the mutex and the condition variable of futexes beside a std Mutex and Condvar in plain Rust, and a wake of a
# futex on which nobody sleeps beside the system call. It writes the nanoseconds and the ratio of each run, and then of
# each name the middle one with the least and the greatest. `lock` is a lock and an unlock of one thread, `two` and
# `four` the same of threads that share the mutex; `hand_parked` is a number that two threads hand to and fro, all of
# whose waits park at once, and `hand_looked` one whose waits look first, both beside the Condvar. Three more names are
# programs in plain Rust beside the Condvar, with no Domain: `steps` hands the number on by the same loads, stores and
# locked instructions as the calls of `hand_parked` (bench/hand_steps.rs), so its ratio is what such calls cost in
# whatever language they are written, and what `hand_parked` takes beyond it is this library's own; `steps_timed` is the
# same with the system's timer of the longest time, which each park of the library starts, and `hand_timed` the Condvar
# itself where each wait has a far deadline. It needs rustc, and the program built by `rt run` in crates/bench_threads.
# In a run each program makes 30 short rounds of each kind, in turn with the other; the middle round counts.
# RUNS: how many runs (5). BUSY: how many loops keep processors busy meanwhile (0). WITH: a command that starts the
# programs, as `chrt -f 50`, by which other work gives way to them. MOST: where it is given, the status is 1 if the
# middle ratio of `hand_parked` is greater. OTHER: where it is given, the threads of both programs are placed alike, as
# `bench/trips.sh` does it (it needs taskset too): the first one on processor ONE (0), and the others on this one; then
# the numbers that are handed on are written alone.
set -eu
cd "$(dirname "$0")/.."
. bench/runs.sh
build_plain futexes "$made/plain" --edition 2021
[ -z "${OTHER:-}" ] || build_pin

# Starts a program, with its threads placed where that is asked for.
start() {
    if [ -z "${OTHER:-}" ]; then
        ${WITH:-} "$@"
    else
        placed "$OTHER" "$@" | grep -E '^(hand|steps)'
    fi
}

# The middle round of each name, in nanoseconds: NAME WHO MIDDLE. WHO is `own`, or `beside` for what that is compared
# with: the Condvar's rounds count for each kind of hand.
rounds() {
    for _ in 1 2 3; do
        start "$made/plain" | awk '
            $1 == "hand" {
                many = split("hand_parked hand_looked hand_timed steps steps_timed", names)
                for (i = 1; i <= many; i++) print "beside", names[i], $2, $3
                next
            }
            { print $1 ~ /^(hand|steps)/ ? "own" : "beside", $0 }'
        start crates/bench_threads/out/bench_threads futexes | sed 's/^/own /'
    done | middle_rounds
}

# NAME NANOSECONDS RATIO of one run.
ratios() {
    rounds | ratios_of own %.2f beside
}

make_runs '{ printf "%s %s ns, ratio %s; ", $1, $2, $3 }'
middles 2 nanoseconds
middles 3 'ratio' | tee "$made/ratios"
if [ -n "${MOST:-}" ]; then
    awk -v most="$MOST" '$1 == "hand_parked," { found = 1; if ($4 + 0 > most + 0) worse = 1 }
        END { exit worse || !found }' "$made/ratios"
fi
