#!/bin/sh
# Times copies of 64 MiB through two pipes of a Domain, beside three threads over two bounded channels of std and over
# two pipes of the kernel, in pieces of 4,096 bytes. It writes the MiB a second of the middle copy of each, with the
# least and the greatest, and the ratio to the channels. It needs rustc, and the program built by `rt run` in
# crates/bench_copy.
# RUNS: how many runs of five copies each (3). BUSY: how many loops keep processors busy meanwhile (0). WITH: a command
# that starts the programs, as `chrt -f 50`, by which other work gives way to them.
set -eu
cd "$(dirname "$0")/.."
. bench/runs.sh
build_plain copy "$made/copy" --edition 2021

run=0
while [ "$run" -lt "${RUNS:-3}" ]; do
    ${WITH:-} "$made/copy"
    ${WITH:-} crates/bench_copy/out/bench_copy times
    run=$((run + 1))
done >"$made/lines"
awk '{ print $1, $2 / 1048576 / ($3 / 1e9) }' "$made/lines" | sort -k 1,1 -k 2,2n | awk '
    function flush() {
        if (name == "") return
        middle[name] = rates[int((count + 1) / 2)]
        least[name] = rates[1]
        greatest[name] = rates[count]
    }
    $1 != name { flush(); name = $1; count = 0; names[++many] = name }
    { rates[++count] = $2 }
    END {
        flush()
        for (i = 1; i <= many; i++) {
            n = names[i]
            printf "%-14s %6.0f MiB/s (%.0f to %.0f), %.2f of the channels\n", n, middle[n], least[n], greatest[n],
                middle[n] / middle["sync_channel"]
        }
    }'
