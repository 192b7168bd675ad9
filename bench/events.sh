#!/bin/sh
# Times conditions that are set and waited for beside a std Condvar and a raw futex in plain Rust, and writes the ratios
# of each run, and then of each name the middle one with the least and the greatest. It needs rustc, and the program
# built by `rt run` in crates/bench_threads. In a run each program makes 30 short rounds of each kind, in turn with the
# other; the middle round counts. The ordinary scheduler puts the two threads of a round trip on one processor or on
# two: bench/trips.sh times trips with the threads placed.
# RUNS: how many runs (5). BUSY: how many loops keep processors busy meanwhile (0). WITH: a command that starts the
# programs, as `chrt -f 50`, by which other work gives way to them.
set -eu
cd "$(dirname "$0")/.."
. bench/runs.sh
build_plain events "$made/plain"

# The middle round of each name and program, in nanoseconds: NAME WHO MIDDLE.
rounds() {
    for _ in 1 2 3; do
        ${WITH:-} "$made/plain"
        ${WITH:-} crates/bench_threads/out/bench_threads events | sed 's/^/domain /'
    done | middle_rounds
}

# NAME NANOSECONDS RATIO RATIO of one run: to the Condvar, and to the futex.
ratios() {
    rounds | ratios_of domain %.2f condvar futex
}

make_runs '{ printf "%s %s ns, ratios %s and %s; ", $1, $2, $3, $4 }'
middles 2 nanoseconds
middles 3 'ratio to the Condvar'
middles 4 'ratio to the futex'
