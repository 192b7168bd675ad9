#!/usr/bin/env bash
# Tests the start script ./waitq on toy repositories: a program waitq over a library, both of a few lines, and at the
# end over two more that do not stand on one another, with a program waitq_replay over one library beside it.
# What the prover refuses is planted for the kit itself; runs that change, stop, overlap or go side by side while they
# build have a stand-in for it, which builds at once what the source says.
#
# Prints a line for each case that fails, and at the end 'N passed, M failed'. The status is 1 where one failed.
set -u

start=$(dirname -- "$(dirname -- "$(readlink -f -- "${BASH_SOURCE[0]}")")")/waitq
work=$(mktemp -d)
trap 'rm -rf -- "$work"' EXIT
toy="$work/a toy"
passed=0
failed=0

# Writes the source of the program, which shows the number after $1, and claims that it is $2.
write_program() {
    cat >"$toy/crates/waitq/src/main.rt" <<END
//! Shows a number.
#![tactic(auto)]

ghost use Rattle.std.specs.Prelude.{◌≡◌};

use lower::next;
use std::io;

fn shown() -> u16
    ensures { result ≡ $2 }
{
    next($1)
}

fn main(rt: HostRuntime) -> io::Result<()> {
    let number = shown();
    println!(rt; "toy {number}")?;
    Ok(())
}
END
}

# Writes the repository, with a copy of the start script.
write_toy() {
    mkdir -p -- "$toy/crates/lower/src" "$toy/crates/waitq/src" "$toy/crates/other/src"
    cp -- "$start" "$toy/waitq"
    printf 'Handles allowed: none.\n' >"$toy/HANDLES"
    printf '# Three crates.\nwaitq: lower\nlower:\nother: lower\n' >"$toy/crates.txt"
    cat >"$toy/crates/lower/src/lib.rt" <<'END'
//! Numbers.
#![tactic(auto)]

ghost use Rattle.std.specs.Prelude.{◌≡◌, ◌+◌};

pub fn next(number: u8) -> u16
    ensures { result ≡ number + 1 }
{
    number as u16 + 1
}
END
    git init -q -- "$toy"
}

# Makes the folder $work/bin of the start script's tools, without rt, and $work/kit of a stand-in for the kit.
# Its prover notes each call, does what MEDDLE says at a program and MEDDLE_LIB at a library, builds a library that is its
# name, and a program that shows the number of the source; its linker takes that as it is.
write_tools() {
    mkdir -- "$work/bin" && mkdir -p -- "$work/kit/bin"
    local tool
    for tool in awk bash cat chmod cp cut dirname find flock mkdir mv nproc readlink rm sed seq sha256sum sleep sort \
        tail touch wc xargs; do
        ln -s -- "$(command -v "$tool")" "$work/bin/$tool"
    done
    cat >"$work/kit/bin/rt" <<'END'
#!/usr/bin/env bash
kit=$(dirname -- "$(dirname -- "$0")")
case $1 in
    doc) echo "$kit/START-HERE.md" ;;
    version) cat -- "$kit/version" ;;
esac
END
    echo 'kit 1' >"$work/kit/version"
    cat >"$work/kit/bin/rattle" <<'END'
#!/usr/bin/env bash
name=${PWD##*/}
while [ $# -gt 0 ]; do
    case $1 in
        -o) to=$2 ;;
        --jobs) jobs=$2 ;;
        src/*) root=$1 ;;
    esac
    shift
done
echo "$root of $name by $jobs" >>"$CALLS"
if [ "$root" = src/lib.rt ]; then
    (eval "${MEDDLE_LIB:-}") || exit
    mkdir -p -- "$to" && echo "$name" >"$to/name"
    exit
fi
number=$(sed -n 's/.*next(\(.*\)).*/\1/p' src/main.rt)
printf '#!/usr/bin/env bash\necho stand-in %s\n' "$number" >"$to"
chmod +x "$to"
eval "${MEDDLE:-}"
END
    cat >"$work/kit/bin/rattle-link" <<'END'
#!/usr/bin/env bash
while [ $# -gt 0 ]; do
    [ "$1" != -o ] || to=$2
    case $1 in *.o) from=$1 ;; esac
    shift
done
cp -- "$from" "$to"
END
    chmod +x -- "$work/kit/bin"/*
}

# Runs the start script with the PATH $1 and the word $2, or copy, from another folder by a link; leaves its status, and
# its streams in $work/out and $work/err.
run() {
    (cd / && PATH=$1 CALLS=$work/calls "$work/link" "${2-copy}" </dev/null >"$work/out" 2>"$work/err")
    status=$?
}

# Compares a number with the one that is wanted, of what the first word says.
expect_number() {
    if [ "$2" = "$3" ]; then
        passed=$((passed + 1))
    else
        failed=$((failed + 1))
        printf 'FAILED: %s: %s, not %s\n' "$1" "$2" "$3"
    fi
}

# How many of the stand-ins that noted their process are there still, half a second later.
still_there() {
    local file count=0
    sleep 0.5
    for file in "$work"/calls.process.*; do
        ! kill -0 "$(cat -- "$file")" 2>/dev/null || count=$((count + 1))
    done
    echo "$count"
}

# Gives libraries another text.
change() {
    local name
    for name in "$@"; do
        echo "// $RANDOM$RANDOM" >>"$toy/crates/$name/src/lib.rt"
    done
}

# The libraries that are kept as proved, by their names.
kept_libraries() {
    cat -- "$toy"/.git/waitq-proved/*/*.rlib/name | xargs
}

# The libraries and programs that the stand-in was asked for in the last run.
asked_for() {
    sed -n 's/.* of \(.*\) by .*/\1/p' "$work/calls" | sort | xargs
}

# Compares the last run with a status, what it wrote, and a part of what it said.
expect() {
    if [ "$status" = "$2" ] && [ "$(cat -- "$work/out")" = "$3" ] && [[ $(cat -- "$work/err") == *"$4"* ]]; then
        passed=$((passed + 1))
    else
        failed=$((failed + 1))
        printf 'FAILED: %s: status %s\n' "$1" "$status"
        sed 's/^/    /' -- "$work/out" "$work/err"
    fi
}

write_toy
write_tools
ln -s -- "$toy/waitq" "$work/link"
without_rt=$work/bin
stand_in=$work/kit/bin:$work/bin

write_program 7 8
run "$without_rt"
expect "no rt" 1 "" "isn't on the PATH"

run "$PATH"
expect "a first build" 0 "toy 8" "waitq: 0 of 2 proved, under way: lower"
expect "what it proved last" 0 "toy 8" "waitq: 1 of 2 proved, under way: waitq"
run "$without_rt"
expect "built before" 0 "toy 8" ""

write_program 7 9
run "$PATH"
expect "a false contract, over a library that is proved" 1 "" "waitq: not built: waitq is not proved"
run "$without_rt"
expect "a false contract, without rt" 1 "" "isn't on the PATH"

write_program 7 8
run "$without_rt"
expect "the program of these sources is gone or stands" 0 "toy 8" ""

write_program 1 2
run "$stand_in"
expect "another number" 0 "stand-in 1" "waitq: built"
write_program 7 8
run "$without_rt"
expect "one program is kept" 1 "" "isn't on the PATH"

write_program 2 3
MEDDLE='exit 2' run "$stand_in"
expect "the prover stops after it made the program" 1 "" "waitq is not proved"
MEDDLE='echo >>../lower/src/lib.rt' run "$stand_in"
expect "a source changes" 1 "" "a source was changed in the meantime"
MEDDLE='sleep 0.1; cp src/main.rt src/was; echo >>src/main.rt; mv src/was src/main.rt' run "$stand_in"
expect "a source changes and changes back" 1 "" "a source was changed in the meantime"
run "$stand_in"
expect "no source changes" 0 "stand-in 2" "waitq: built"

# A build that is stopped leaves nothing that is taken for built.
write_program 3 4
(cd / && PATH=$stand_in CALLS=$work/calls MEDDLE='touch "$CALLS.begun"; sleep 2' exec "$work/link" copy) \
    </dev/null >"$work/out" 2>&1 &
until [ -e "$work/calls.begun" ]; do sleep 0.05; done
kill -TERM $!
wait $! 2>"$work/err"
run "$without_rt"
expect "a build was stopped" 1 "" "isn't on the PATH"

# Of two builds at once the second waits, and takes the program of the first.
: >"$work/calls"
(cd / && PATH=$stand_in CALLS=$work/calls MEDDLE='sleep 1' "$work/link" copy) </dev/null >"$work/first" 2>&1 &
until [ -s "$work/calls" ]; do sleep 0.05; done
run "$stand_in"
wait $!
expect "the second of two builds" 0 "stand-in 3" "another run is building the program"
cp -- "$work/first" "$work/err"
expect "the first of two builds" 0 "stand-in 3" "stand-in 3"
expect_number "builds" "$(grep -c 'main.rt' "$work/calls")" 1

# From here on the program stands on three libraries, of which two do not stand on one another.
cp -r -- "$toy/crates/lower" "$toy/crates/left"
cp -r -- "$toy/crates/lower" "$toy/crates/right"
printf 'lower:\nleft: lower\nright: lower\nwaitq: left right lower\n' >"$toy/crates.txt"

# Each of the two ends only where the other one has begun.
meet='[ "$name" = lower ] || touch "$CALLS.met.$name"
case $name in left) other=right ;; right) other=left ;; *) exit ;; esac
for _ in $(seq 200); do [ ! -e "$CALLS.met.$other" ] || exit 0; sleep 0.05; done
echo "$name was alone"; exit 1'
: >"$work/calls"
WAITQ_LANES=2 MEDDLE_LIB=$meet run "$stand_in"
expect "two lanes" 0 "stand-in 3" "waitq: 1 of 4 proved, under way: left, right"
expect "the program comes last" 0 "stand-in 3" "waitq: 3 of 4 proved, under way: waitq"
expect_number "what it proved" "$(asked_for)" "left right waitq"
expect_number "libraries that are kept then" "$(kept_libraries)" "left lower right"

# What was proved of a library is taken as long as it, all beneath it and the kit are the same.
write_program 4 5
: >"$work/calls"
WAITQ_LANES=1 run "$stand_in"
expect "one lane, and another program" 0 "stand-in 4" "waitq: 3 of 4 proved, under way: waitq"
expect_number "what it proved of another program" "$(asked_for)" "waitq"
change left
: >"$work/calls"
run "$stand_in"
expect "another library" 0 "stand-in 4" "waitq: 2 of 4 proved, under way: left"
expect_number "what it proved of another library" "$(asked_for)" "left waitq"
change lower
: >"$work/calls"
WAITQ_LANES=1 run "$stand_in"
expect "another library beneath" 0 "stand-in 4" "waitq: 1 of 4 proved, under way: left"
expect_number "what it proved of one beneath" "$(asked_for)" "left lower right waitq"
echo 'kit 2' >"$work/kit/version"
write_program 5 6
: >"$work/calls"
run "$stand_in"
expect "another kit" 0 "stand-in 5" "waitq: 0 of 4 proved, under way: lower"
expect_number "what it proved by another kit" "$(asked_for)" "left lower right waitq"

# A library whose proof fails is not kept, and one that was proved before is.
change left right
WAITQ_LANES=2 MEDDLE_LIB='[ "$name" != left ] || { sleep 0.5; echo left is false; exit 1; }' run "$stand_in"
expect "one of two is false" 1 "" "left is false"
: >"$work/calls"
run "$stand_in"
expect "the other one was proved" 0 "stand-in 5" "waitq: 2 of 4 proved, under way: left"
expect_number "what it proved then" "$(asked_for)" "left waitq"

# A library that is changed while it is proved is not taken for proved as it was.
change left
MEDDLE_LIB='sleep 0.1; cp src/lib.rt src/was; echo >>src/lib.rt; mv src/was src/lib.rt' run "$stand_in"
expect "a library changes and changes back" 1 "" "a source was changed in the meantime"
: >"$work/calls"
run "$stand_in"
expect "it is proved once more" 0 "stand-in 5" "waitq: 2 of 4 proved, under way: left"

# One large crate has all four jobs, and of two that do not stand on one another the first has three; the program is small.
for name in lower left right; do
    mkdir -p -- "$toy/crates/$name/specs"
    seq 6000 >"$toy/crates/$name/specs/Many.antt"
done
: >"$work/calls"
WAITQ_LANES=4 run "$stand_in"
expect "four jobs" 0 "stand-in 5" "waitq: 1 of 4 proved, under way: left, right"
expect_number "jobs" "$(sed -n 's/.* by //p' "$work/calls" | sort | xargs)" "1 1 3 4"

write_program 6 7
WAITQ_LANES=none run "$stand_in"
expect "no number of lanes" 1 "" "waitq: not built: WAITQ_LANES is a number"

# A crate that is not proved ends the proof beside it.
change left right
rm -f -- "$work"/calls.*
stay='case $name in lower) ;; *) echo $$ >"$CALLS.process.$name"; exec sleep 60 ;; esac'
WAITQ_LANES=2 MEDDLE_LIB="[ \$name != left ] || { sleep 0.5; echo left is false; exit 1; }; $stay" run "$stand_in"
expect "a crate in a lane is not proved" 1 "" "left is false"
expect "which one" 1 "" "waitq: not built: left is not proved; the whole of what was said of it is in $toy/out/log"
expect_number "what was said of it" "$(cat -- "$toy/out/log")" "left is false"
expect_number "processes behind it" "$(still_there)" 0

# A build that is interrupted leaves no process.
rm -f -- "$work"/calls.*
(cd / && PATH=$stand_in CALLS=$work/calls WAITQ_LANES=2 MEDDLE_LIB=$stay exec "$work/link" copy) </dev/null \
    >"$work/out" 2>&1 &
until [ -e "$work/calls.process.left" ] && [ -e "$work/calls.process.right" ]; do sleep 0.05; done
kill -TERM $!
wait $! 2>"$work/err"
expect_number "the status of an interrupted build" $? 143
expect_number "processes behind an interrupted build" "$(still_there)" 0
run "$without_rt"
expect "a build in lanes was interrupted" 1 "" "isn't on the PATH"
run "$stand_in"
expect "as many lanes as the machine allows" 0 "stand-in 6" "waitq: built"

# Words that ask for no copy and no merge need the smaller program alone, unless the larger one stands.
run "$without_rt" replay
expect "a replay, where there is no smaller program" 1 "" "lists no crate waitq_replay"
cp -r -- "$toy/crates/waitq" "$toy/crates/waitq_replay"
rm -rf -- "$toy/crates/waitq_replay/out"
sed -i 's/next(6)/next(9)/' "$toy/crates/waitq_replay/src/main.rt"
echo 'waitq_replay: left' >>"$toy/crates.txt"
run "$stand_in"
expect "a copy" 0 "stand-in 6" "waitq: built"
run "$without_rt" replay
expect "a replay by the program that stands" 0 "stand-in 6" ""
write_program 7 8
: >"$work/calls"
run "$stand_in" replay
expect "a replay by a program of its own" 0 "stand-in 9" "waitq: 2 of 3 proved, under way: waitq_replay"
expect_number "programs that it takes" "$(grep -c 'main.rt' "$work/calls")" 1
for word in drill help ''; do
    run "$without_rt" "$word"
    expect "the word '$word'" 0 "stand-in 9" ""
done
run "$without_rt" merge
expect "a merge, for which no program stands" 1 "" "isn't on the PATH"
run "$stand_in" merge
expect "a merge" 0 "stand-in 7" "waitq: built"
run "$without_rt" replay
expect "two programs are kept" 0 "stand-in 9" ""

printf '%d passed, %d failed\n' "$passed" "$failed"
[ "$failed" = 0 ]
