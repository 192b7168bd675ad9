#!/usr/bin/env bash
# Builds waitq_chart and runs its tests, compares what it draws of some worked scripts with the pictures in docs/, draws
# every text of examples/ with and without its script, tries what it refuses, and tests its start script on a toy.
#
# usage: .ci/charts.sh [--write]         (it needs cargo; layout and lints are left out where cargo has no such command)
#
# With --write the pictures in docs/ are made anew. Prints a line for each case that fails, and at the end 'N passed, M
# failed'. The status is 1 where one failed.
set -u

root=$(dirname -- "$(dirname -- "$(readlink -f -- "${BASH_SOURCE[0]}")")")
chart=$root/chart
examples=$root/examples
pictures="wait_set_wake one_locker_selected look_before_queueing look_after_queueing"
work=$(mktemp -d)
toy="$work/a toy"
trap 'rm -rf -- "$work"' EXIT
passed=0
failed=0

fail() {
    failed=$((failed + 1))
    printf 'FAILED: %s\n' "$*"
}

# Draws a worked script as it stands in docs/.
picture() {
    "$1" --script "$examples/$2.waitq" --title "${2//_/ }" <"$examples/$2.text"
}

# Runs a program with words over a text, and compares its status and a part of what it says or writes.
try() {
    local program=$1 what=$2 status=$3 part=$4 got
    shift 4
    timeout 60 "$program" "$@" >"$work/out" 2>&1
    got=$?
    if [ "$got" = "$status" ] && grep -qF -- "$part" "$work/out"; then
        passed=$((passed + 1))
    else
        fail "$what: status $got: $(head -c 200 -- "$work/out")"
    fi
}

# Draws an example without and with its script. No sleep in it may be drawn as lost.
draw() {
    local program=$1 text=$2 name words
    name=$(basename -- "$text" .text)
    for words in "" "--script ${text%.text}.waitq"; do
        # shellcheck disable=SC2086  # the words are two or none
        if ! timeout 60 "$program" $words <"$text" >"$work/svg" 2>"$work/said" || [ -s "$work/said" ]; then
            fail "$name $words: $(head -n 1 -- "$work/said")"
        elif ! tail -n 1 -- "$work/svg" | grep -qx '</svg>' || grep -q 'LOST' "$work/svg"; then
            fail "$name $words: no whole picture, or a lost wakeup in it"
        else
            passed=$((passed + 1))
        fi
    done
}

# Writes a line of each form, with each word that may stand in it.
forms() {
    printf 't1 %s\n' 'load c0 0' 'load d255 18446744073709551615' 'load b0 3' 'load v15 7' 'set c0 1' 'take c0 1' \
        'tas b0.0 0' 'tas b0.63 1' 'tas b0.1 0 t255' 'clear b0.0' 'handed t2' 'lock h65535' 'unlock h256' \
        'unlock h256 spent' 'queue h256 front' 'queue h256 tail' 'queue h256 prio' 'unqueue t2' 'mark h0' 'unmark h0' \
        'queued yes' 'queued no' 'active h0 yes' 'active h0 no' 'state run' 'state int' 'state unint' 'state kill' \
        'sleep asleep' 'sleep stay' 'sleep signal' 'wake t2 yes' 'wake t2 no' 'signal t2 plain' 'signal t2 fatal' \
        'accept none' 'accept plain' 'accept fatal' 'look yes' 'look no' 'woken t2' 'flag yes' 'flag no' 'unflag' \
        '= 0' '= -512' '= woken 1 selected 0 holds 1 end' '= woken 1 selected 1 holds 2 spent' \
        '= woken 0 selected 0 holds 1 stopped' 'refused 2' 'nocall' 'asleep' 'busy h0'
}

# Runs a command of cargo in chart/.
cargo_case() {
    if (cd -- "$chart" && CARGO_NET_OFFLINE=true timeout 600 cargo "$@") </dev/null >"$work/out" 2>&1; then
        passed=$((passed + 1))
    else
        fail "cargo $1: $(tail -n 30 -- "$work/out")"
    fi
}

# Checks the sources, and runs the tests.
check_sources() {
    ! command -v rustfmt >/dev/null || cargo_case fmt --check
    ! command -v cargo-clippy >/dev/null || cargo_case clippy --quiet --all-targets -- -D warnings
    cargo_case test --quiet
}

# Writes a toy's source, which shows a number.
write_toy() {
    printf 'fn main() {\n    println!("toy {}", %s);\n}\n' "$1" >"$toy/src/main.rs"
}

# Runs a toy's start script with the PATH $3, by a link, and compares its status and a part of what it says or writes.
start() {
    PATH=$3 "$work/link" >"$work/out" 2>&1 </dev/null
    local got=$?
    if [ "$got" = "$2" ] && grep -qF -- "$4" "$work/out"; then
        passed=$((passed + 1))
    else
        fail "start script: $1: status $got: $(head -c 200 -- "$work/out")"
    fi
}

# Tests the start script on a toy.
check_start() {
    local tool
    mkdir -p -- "$toy/src" "$work/bin"
    for tool in bash date dirname env find readlink touch; do
        ln -s -- "$(command -v "$tool")" "$work/bin/$tool"
    done
    cp -- "$chart/waitq_chart" "$chart/Cargo.toml" "$chart/Cargo.lock" "$toy"
    ln -s -- "$toy/waitq_chart" "$work/link"
    write_toy 1
    start "no cargo" 1 "$work/bin" "waitq_chart: not built yet, and the command cargo"
    start "a first build" 0 "$PATH" "toy 1"
    start "built before" 0 "$work/bin" "toy 1"
    write_toy 2
    start "a source that changed, without cargo" 1 "$work/bin" "isn't on the PATH"
    start "a source that changed" 0 "$PATH" "toy 2"
    write_toy '"no end'
    start "a source that is wrong" 1 "$PATH" "waitq_chart: not built"
    write_toy 3
    start "a source that is right again" 0 "$PATH" "toy 3"
}

# Tries all cases on a program.
check() {
    local program=$1 name text first=$examples/wait_set_wake.text
    for name in $pictures; do
        if picture "$program" "$name" | cmp -s -- - "$root/docs/$name.svg"; then
            passed=$((passed + 1))
        else
            fail "$name differs from docs/$name.svg"
        fi
    done
    for text in "$examples"/*.text; do
        draw "$program" "$text"
    done
    try "$program" "each form of a line" 0 "  53  Task 1 can make no step" --explain < <(forms)
    try "$program" "a chart of each form" 0 "</svg>" < <(forms)
    try "$program" "sentences" 0 "   7  Task 1 falls asleep." --explain <"$first"
    try "$program" "a range" 0 "Lines 7–11 of 25, 2 tasks." --lines 7-11 <"$first"
    try "$program" "a page" 0 "owed by t2" --html <"$first"
    try "$program" "a trace" 0 '"name":"wake t1 yes"' --trace <"$first"
    try "$program" "no command" 2 "usage" --no-such-word <"$first"
    try "$program" "a word without its value" 2 "usage" --script <"$first"
    try "$program" "no such theme" 2 "usage" --theme blue <"$first"
    try "$program" "a range from its end" 2 "usage" --lines 9-8 <"$first"
    try "$program" "the last of three outputs" 0 "Task 1 falls asleep." --html --trace --explain <"$first"
    try "$program" "a title that looks like a word" 0 "<title>--full</title>" --title=a --title --full <"$first"
    try "$program" "a line that is none" 3 "line 2 of the text" < <(printf 't1 nocall\nt1 nocal\n')
    try "$program" "a number with a zero in front" 3 "line 1 of the text" < <(printf 't01 nocall\n')
    try "$program" "no line feed" 3 "no line feed" < <(printf 't1 nocall')
    try "$program" "another script's text" 3 "of the script" --script "$examples/mode_misses.waitq" <"$first"
    try "$program" "no such script" 4 "script" --script "$work/none" <"$first"
    try "$program" "no input" 4 "the text could not be read" <&-
    # shellcheck disable=SC2016  # the inner shell reads them
    try bash "no room for the output" 5 "could not be written" -c '"$0" --explain >/dev/full' "$program" <"$first"
    # shellcheck disable=SC2016
    try bash "no output" 5 "could not be written" -c '"$0" --explain >&-' "$program" <"$first"
    try "$program" "an empty range" 3 "in the range" --lines 90-99 <"$first"
    try "$program" "too many rows" 8 "more than 2000" --full < <(yes "t1 look no" | head -n 300000)
    try "$program" "a range of a long text" 0 "Lines 299990–300000 of 300000" --lines 299990-300000 --full \
        < <(yes "t1 look no" | head -n 300000)
}

program=$chart/waitq_chart
if ! "$program" --explain <"$examples/wait_set_wake.text" >"$work/out" 2>&1; then
    fail "not built: $(tail -n 30 -- "$work/out")"
elif [ "${1:-}" = --write ]; then
    for name in $pictures; do
        picture "$program" "$name" >"$root/docs/$name.svg"
    done
fi
check_sources
check_start
check "$program"
printf '%d passed, %d failed\n' "$passed" "$failed"
[ "$failed" = 0 ]
