#!/bin/sh
# Times holds of a head's lock beside a std Mutex and a ticket lock in plain Rust, and writes the figures of each run. It
# needs rustc, and the program built by `rt run` in crates/bench_threads. RUNS: how many runs (7). In a run each program
# makes many short rounds, three times in turn with the other. Of one thread's holds the least round counts; where
# threads share a lock, the middle one. The first ratio is to the Mutex, the second to the plain ticket lock. A wake goes
# over entries of tasks that are awake: it calls each, and wakes no thread.
set -eu
cd "$(dirname "$0")/.."
made=$(mktemp -d)
trap 'rm -rf "$made"' EXIT
plain=$made/heads
rustc -O -o "$plain" bench/heads.rs

# The least and the middle round of each name, in nanoseconds a hold: WHO NAME LEAST MIDDLE.
rounds() {
    awk -v who="$1" 'NF == 3 { print who, $1, $3 / $2 }' "$made/$1" | sort -k 2,2 -k 3,3g | awk '
        function flush() { if (name != "") print who, name, all[1], all[int((n + 1) / 2)] }
        $2 != name { flush(); who = $1; name = $2; n = 0 }
        { all[++n] = $3 }
        END { flush() }'
}

for _ in $(seq "${RUNS:-7}"); do
    rm -f "$made/plain" "$made/head"
    for _ in 1 2 3; do
        "$plain" >>"$made/plain"
        crates/bench_threads/out/bench_threads heads >>"$made/head"
    done
    { rounds plain; rounds head; } | awk '
        { least[$1, $2] = $3; middle[$1, $2] = $4 }
        function shared(name) {
            printf "%s %.1f ns, ratios %.2f and %.2f; ", name, middle["head", name],
                middle["head", name] / middle["plain", name], middle["head", name] / middle["plain", "ticket_" name]
        }
        function woken(count) { return least["head", "wake_" count] }
        END {
            printf "lock %.1f ns, ratios %.2f and %.2f; ", least["head", "lock"],
                least["head", "lock"] / least["plain", "lock"], least["head", "lock"] / least["plain", "ticket"]
            shared("two")
            shared("four")
            printf "look %.0f ns; active %.1f ns; ", least["head", "look"], least["head", "active"]
            printf "wake over 1, 8, 65 entries %.0f, %.0f, %.0f ns, a member %.1f, %.1f, %.1f ns\n", woken(1), woken(8),
                woken(65), woken(1), woken(8) / 8, woken(65) / 65
        }'
done
