#!/bin/sh
# Times pages that one, two and four threads take in turn, beside plain Rust: a std Mutex, parking_lot's Mutex with its
# fair unlock, and a lock that hands itself on to the first of its queue. It writes the nanoseconds a lock and the
# ratios of each run, then of each name the middle ones with the least and the greatest; and how often of 1,000 locks a
# thread had to let another one pass that came later. It needs rustc, and the program built by `rt run` in
# crates/bench_threads; for parking_lot also cargo and that crate as Debian has it (librust-parking-lot-dev): without it
# that column is -.
# RUNS: how many runs (5). BUSY: how many loops keep processors busy meanwhile (0). WITH: a command that starts the
# programs, as `chrt -f 50`, by which other work gives way to them.
set -eu
cd "$(dirname "$0")/.."
. bench/runs.sh

# The plain program, with parking_lot where it can be had.
build() {
    if has_parking_lot; then
        mkdir -p "$made/plain/src"
        take_debian "$made/plain"
        cp bench/pages.rs "$made/plain/src/main.rs"
        cat >"$made/plain/Cargo.toml" <<-'END'
	[package]
	name = "pages"
	version = "0.0.0"
	edition = "2021"
	[features]
	parking_lot = ["dep:parking_lot"]
	[dependencies]
	parking_lot = { version = "0.12", optional = true }
	END
        (cd "$made/plain" && cargo build --quiet --release --offline --features parking_lot)
        cp "$made/plain/target/release/pages" "$made/pages"
    else
        build_plain pages "$made/pages" --edition 2021
    fi
}
build

# One run: the lines of all programs, as WHO NAME COUNT NANOSECONDS, and WHO NAME COUNT passed PASSED.
lines() {
    ${WITH:-} "$made/pages"
    ${WITH:-} crates/bench_threads/out/bench_threads pages >"$made/domain"
    awk 'NF == 3 { print "domain", $0 }' "$made/domain"
    awk '$1 == "came" { print $2, $3, $4 }' "$made/domain" | sort -k 1,1 -k 2,2n | awk '
        function flush() { if (name != "") print "domain", name, count, "passed", passed }
        $1 != name { flush(); name = $1; count = passed = 0; latest = -1 }
        { count++; if ($3 < latest) passed++; else latest = $3 }
        END { flush() }'
}

# NAME and, for the domain, the Mutex, the fair Mutex and the hand-off lock, the middle of the rounds in nanoseconds;
# then how many of 1,000 locks let another pass.
middles_of() {
    awk '$4 != "passed" { print $2, $1, $4 / $3 } $4 == "passed" { print $2, $1 "_passed", 1000 * $5 / $3 }' |
        sort -k 1,1 -k 2,2 -k 3,3g | awk '
        function flush() { if (name != "") middle[name, who] = all[int((n + 1) / 2)] }
        $1 != name || $2 != who { flush(); name = $1; who = $2; n = 0 }
        { all[++n] = $3; names[name] }
        END {
            flush()
            count = split("domain mutex fair handoff", kinds, " ")
            for (name in names) {
                line = name
                for (i = 1; i <= count; i++)
                    line = line " " (((name, kinds[i]) in middle) ? middle[name, kinds[i]] : "-")
                for (i = 1; i <= count; i++)
                    line = line " " (((name, kinds[i] "_passed") in middle) ? middle[name, kinds[i] "_passed"] : "-")
                print line
            }
        }' | sort
}

# NAME NANOSECONDS, the three ratios and the four that let another pass, of one run.
ratios() {
    lines | middles_of | awk '
        function ratio(a, b) { return b == "-" ? "-" : sprintf("%.2f", a / b) }
        { printf "%s %.1f %s %s %s %s %s %s %s\n", $1, $2, ratio($2, $3), ratio($2, $4), ratio($2, $5), $6, $7, $8, $9 }'
}

make_runs '{
    printf "%s %s ns, ratios %s, %s and %s, passed %s beside %s, %s and %s; ", $1, $2, $3, $4, $5, $6, $7, $8, $9 }'
middles 2 nanoseconds
middles 3 'ratio to the Mutex'
middles 4 'ratio to the fair Mutex'
middles 5 'ratio to the hand-off lock'
middles 6 'of 1,000 locks let another pass'
middles 7 'of 1,000 locks of the Mutex'
middles 8 'of 1,000 locks of the fair Mutex'
middles 9 'of 1,000 locks of the hand-off lock'
