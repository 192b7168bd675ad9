#!/usr/bin/env bash
# Times the library for C and for Rust: round trips of two threads that park, beside condition variables, futexes and
# parking_lot's condition variables, with both threads on one processor and each on its own; and calls that find nobody
# waiting. In a run each program makes 10 rounds of each kind, in turn with the others, of which the middle one counts;
# of the runs' nanoseconds and ratios it writes the middle one, with the least and the greatest in brackets.
# It needs gcc, rustc, cargo, taskset and what front/try leaves in front/out; for parking_lot that crate as Debian has
# it (librust-parking-lot-dev): without it those lines are missing.
# RUNS: how many runs of each kind (9). ONE: the first processor (0), and OTHER: the second (1). BUSY: how many loops
# keep processors busy meanwhile (0). WITH: a command that starts the programs, as `chrt -f 50`.
set -eu
cd "$(dirname "$0")/.."
. bench/front_runs.sh
one=${ONE:-0}
other=${OTHER:-1}
archives=$PWD/front/out

build_c() {
    gcc -std=gnu11 -O2 "$@" bench/front.c front/c/sugwelan.c "$archives/libsugwelan.a" -lpthread
}

build_pin
build_c -o "$made/c_front"
build_c -DSUGWELAN_LOOKS=400 -o "$made/c_looks"
build_rust front . "$made/rust_front"
measure "in C, both threads on processor $one" placed "$one" "$made/c_front" trips
measure "in C, on processors $one and $other" placed "$other" "$made/c_front" trips
measure "in C, on processors $one and $other, 400 looks before a thread parks" placed "$other" "$made/c_looks" trips
measure "in Rust, both threads on processor $one" placed "$one" "$made/rust_front" trips
measure "in Rust, on processors $one and $other" placed "$other" "$made/rust_front" trips
measure 'in C, not placed' ${WITH:-} "$made/c_front"
measure 'in Rust, not placed' ${WITH:-} "$made/rust_front"
