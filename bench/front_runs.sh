# For front.sh and front_contended.sh: builds programs, makes runs of them, and writes what came out.
. bench/runs.sh

# A program in Rust, bench/NAME.rs, over the library of a clone, with parking_lot where it can be had: NAME CLONE PROGRAM.
build_rust() {
    local name=$1 clone features=()
    clone=$(cd -- "$2" && pwd)
    rm -rf "$made/crate"
    mkdir -p "$made/crate/src"
    cp "bench/$name.rs" "$made/crate/src/main.rs"
    cat >"$made/crate/Cargo.toml" <<-END
	[package]
	name = "front"
	version = "0.0.0"
	edition = "2021"
	[lints.rust]
	unexpected_cfgs = "allow"
	[dependencies]
	sugwelan = { path = "$clone/front/rust" }
	END
    if has_parking_lot; then
        printf 'parking_lot = { version = "0.12", optional = true }\n' >>"$made/crate/Cargo.toml"
        take_debian "$made/crate"
        features=(--features parking_lot)
    fi
    (cd "$made/crate" && SUGWELAN_ARCHIVES=$clone/front/out CARGO_TARGET_DIR=$made/target \
        cargo build --quiet --release --offline "${features[@]}")
    cp "$made/target/release/front" "$3"
}

# NAME NANOSECONDS, and WHO RATIO for each other kind: of one run of a program.
ratios() {
    sort -k 2,2 -k 1,1 -k 3,3 | awk '
        { time[$2, $1] = time[$2, $1] " " $4 / $3; names[$2]; kinds[$1] }
        function middle(list, all, count, i, j, kept) {
            count = split(list, all, " ")
            for (i = 2; i <= count; i++) {
                kept = all[i]
                for (j = i - 1; j > 0 && all[j] + 0 > kept + 0; j--) all[j + 1] = all[j]
                all[j + 1] = kept
            }
            return all[int((count + 1) / 2)]
        }
        END {
            for (name in names) {
                own = middle(time[name, "sugwelan"])
                printf "%s nanoseconds %.1f\n", name, own
                for (who in kinds)
                    if (who != "sugwelan" && (name, who) in time)
                        printf "%s %s %.3f\n", name, who, own / middle(time[name, who])
            }
        }'
}

# The middle of the runs, with the least and the greatest, for each name and what it is compared with.
middles() {
    sort -k 1,1 -k 2,2 -k 3,3g "$made/all" | awk '
        function flush() {
            if (name != "") printf "  %s, %s: %s (%s to %s)\n", name, what, all[int((n + 1) / 2)], all[1], all[n]
        }
        $1 != name || $2 != what { flush(); name = $1; what = $2; n = 0 }
        { all[++n] = $3 }
        END { flush() }'
}

# Makes the runs of a program, which the words behind the title start.
measure() {
    printf '%s:\n' "$1"
    shift
    : >"$made/all"
    for _ in $(seq "${RUNS:-9}"); do
        "$@" | ratios >>"$made/all"
    done
    middles
}
