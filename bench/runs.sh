# Read by other scripts here, in the folder above this one: what they share. Loops that keep processors busy, as many as
# BUSY says, run until the script ends, and so long there is a folder for what it makes, of which made is the path.
. bench/busy.sh
made=$(mktemp -d)
end() {
    end_loops
    rm -rf "$made"
}
trap end EXIT

# Builds a program in plain Rust, bench/NAME.rs: NAME PROGRAM WORD.. for the compiler.
build_plain() {
    name=$1
    program=$2
    shift 2
    rustc -O "$@" -o "$program" "bench/$name.rs"
}

# Where Debian keeps crates for cargo, and whether parking_lot is one of them.
registry=/usr/share/cargo/registry
has_parking_lot() {
    ls -d $registry/parking_lot-0.12.* >/dev/null 2>&1
}

# Lets cargo take the crates of a folder of sources from there: FOLDER.
take_debian() {
    mkdir -p "$1/.cargo"
    printf '[source.crates-io]\nreplace-with = "debian"\n[source.debian]\ndirectory = "%s"\n' $registry \
        >"$1/.cargo/config.toml"
}

# Starts a program whose first thread is on the first processor, ONE (0), and those that it starts on the processor of a
# number: NUMBER PROGRAM.. What build_pin builds places them.
placed() {
    pin=$1
    shift
    ${WITH:-} taskset -c "${ONE:-0}" env PIN="$pin" LD_PRELOAD="$made/pin.so" "$@"
}
build_pin() {
    build_plain pin "$made/pin.so" --edition 2024 --crate-type cdylib
}

# Of lines WHO NAME COUNT NANOSECONDS the middle round of each name and program, in nanoseconds: NAME WHO MIDDLE.
middle_rounds() {
    awk 'NF == 4 { print $2, $1, $4 / $3 }' | sort -k 1,1 -k 2,2 -k 3,3g | awk '
        function flush() { if (name != "") print name, who, all[int((n + 1) / 2)] }
        $1 != name || $2 != who { flush(); name = $1; who = $2; n = 0 }
        { all[++n] = $3 }
        END { flush() }'
}

# Of those NAME NANOSECONDS of one program, and the ratio to each of the others: WHO FORM OTHER.., FORM that of a ratio.
ratios_of() {
    own=$1
    form=$2
    shift 2
    awk -v own="$own" -v form="$form" -v others="$*" '
        { middle[$1, $2] = $3 }
        $2 == own { names[++count] = $1 }
        END {
            many = split(others, other, " ")
            for (i = 1; i <= count; i++) {
                time = middle[names[i], own]
                line = sprintf("%s %.1f", names[i], time)
                for (j = 1; j <= many; j++) line = line sprintf(" " form, time / middle[names[i], other[j]])
                print line
            }
        }'
}

# Makes the runs, RUNS of them (5), of each of which the script's ratios writes NAME NANOSECONDS RATIO..: it writes each
# run on a line, every name of it by this action of awk, and keeps them all.
make_runs() {
    for _ in $(seq "${RUNS:-5}"); do
        ratios >"$made/run"
        awk "$1"' END { print "" }' "$made/run"
        cat "$made/run" >>"$made/all"
    done
}

# Of a column of all runs the middle one for each name, the quarters, the least and the greatest: NAME and these five.
spread() {
    sort -k 1,1 -k "$1,$1g" "$made/all" | awk -v column="$1" '
        function flush() {
            if (name == "") return
            print name, all[int((n + 1) / 2)], all[int((n + 3) / 4)], all[int((3 * n + 3) / 4)], all[1], all[n]
        }
        $1 != name { flush(); name = $1; n = 0 }
        { all[++n] = $column }
        END { flush() }'
}

# The middle one of a column for each name, with the least and the greatest: COLUMN WHAT.
middles() {
    spread "$1" | awk -v what="$2" '{ printf "%s, %s: middle %s, from %s to %s\n", $1, what, $2, $5, $6 }'
}
