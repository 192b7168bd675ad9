#!/bin/sh
# Times the steps of a Domain beside plain Rust. It writes the ratios of each run, and then of each name the middle one
# with the least and the greatest. It needs rustc, and the program built by `rt run` in crates/bench_threads.
# RUNS: how many runs (5). BUSY: how many loops keep processors busy meanwhile (0). WITH: a command that starts the
# programs, as `chrt -f 50`, by which other work gives way to them.
set -eu
cd "$(dirname "$0")/.."
. bench/runs.sh
build_plain plain "$made/plain"

# NAME NANOSECONDS RATIO of one run; and the round trip that parks at once beside two threads that tell each other a number.
ratios() {
    {
        ${WITH:-} "$made/plain" | sed 's/^/plain /'
        ${WITH:-} crates/bench_threads/out/bench_threads steps | sed 's/^/domain /'
    } | awk '
        $1 == "plain" { plain[$2] = $4 / $3 }
        $1 == "domain" && NF == 4 {
            printf "%s %.1f %.2f\n", $2, $4 / $3, $4 / $3 / plain[$2]
            if ($2 == "trip_parked") printf "trip_parked_to_told %.1f %.2f\n", $4 / $3, $4 / $3 / plain["trip_told"]
        }'
}

make_runs '{ printf "%s %s ns, ratio %s; ", $1, $2, $3 }'
spread 3 | awk '{ printf "%s: middle %s, from %s to %s\n", $1, $2, $5, $6 }'
