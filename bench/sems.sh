#!/bin/sh
# Times permits of semaphores beside sem_t of the C library, and writes the nanoseconds and the ratios of each run, and
# then of each name the middle one with the least and the greatest: an `up` with the `down` that takes it, of one thread
# (sem_pair), and a round trip of two threads that hand a permit to and fro and park at once (sem_parked). It needs gcc,
# and the program built by `rt run` in crates/bench_threads. In a run each program makes 30 rounds of each kind, in turn
# with the other; the middle round counts. The ordinary scheduler puts the two threads of a round trip on one processor
# or on two: ON names the processors that both programs are to run on, as `ON=0` or `ON=0,1`.
# RUNS: how many runs (5). BUSY: how many loops keep processors busy meanwhile (0). WITH: a command that starts the
# programs, as `chrt -f 50`, by which other work gives way to them.
set -eu
cd "$(dirname "$0")/.."
. bench/runs.sh
gcc -std=gnu11 -O2 -o "$made/sems" bench/sems.c -lpthread
with="${WITH:-}${ON:+ taskset -c $ON}"

# The middle round of each name and program, in nanoseconds: NAME WHO MIDDLE.
rounds() {
    for _ in 1 2 3; do
        $with "$made/sems"
        $with crates/bench_threads/out/bench_threads sems | sed 's/^/domain /'
    done | middle_rounds
}

# NAME NANOSECONDS RATIO of one run.
ratios() {
    rounds | ratios_of domain %.2f sem
}

make_runs '{ printf "%s %s ns, ratio %s; ", $1, $2, $3 }'
middles 2 nanoseconds
middles 3 'ratio to sem_t'
