#!/usr/bin/env bash
# Tests front/take: on toy repositories what it copies, writes, leaves, renews and refuses; and that a program of
# another repository over crates that were taken from this one is proved, built and run there (front/outside).
#
# usage: .ci/take_test.sh           (after `rt ci`: what it proved is kept, so that only the program is proved; with a kit
#                                   that keeps nothing the program is tried, and not proved)
#
# Prints a line for each case that fails, and at the end 'N passed, M failed'. The status is 1 where one failed.
set -u

root=$(dirname -- "$(dirname -- "$(readlink -f -- "${BASH_SOURCE[0]}")")")
work=$(mktemp -d)
trap 'rm -rf -- "$work"' EXIT
toy="$work/a toy"
dest="$work/its user"
passed=0
failed=0

pass() {
    passed=$((passed + 1))
}

fail() {
    failed=$((failed + 1))
    printf 'FAILED: %s\n' "$*"
}

# Counts a case: a command that is to succeed.
holds() {
    local what=$1
    shift
    if "$@"; then
        pass
    else
        fail "$what"
    fi
}

# Writes a file, with its folders, from the words behind its name, a line each.
put() {
    mkdir -p -- "$(dirname -- "$1")"
    printf '%s\n' "${@:2}" >"$1"
}

# Git in the toy, as some author.
git_toy() {
    git -C "$toy" -c user.name=toy -c user.email=toy@example.org "$@"
}

# Makes the toy: `upper` and `other` stand on `lower`, and `alone` on nothing of the toy.
make_toy() {
    put "$toy/crates.txt" '# Four crates.' 'upper may_wait=2 tests_may=Threads+Wait: lower, arrayvec  # waits' \
        'lower:' 'alone: thiserror' 'other:lower'
    put "$toy/HANDLES" 'Handles allowed: Threads, Wait.'
    put "$toy/LICENSE-MIT" 'one licence'
    put "$toy/LICENSE-APACHE" 'another licence'
    put "$toy/crates/lower/src/lib.rt" 'the text of lower'
    put "$toy/crates/lower/specs/Lib.antt" 'its definitions'
    put "$toy/crates/lower/must-fail/wrong.edit" 'an edit'
    put "$toy/crates/lower/out/made" 'made'
    put "$toy/crates/upper/src/lib.rt" 'the text of upper'
    put "$toy/crates/upper/src/tests.rt" 'its tests'
    put "$toy/crates/upper/proofs/deep/er/Lemma.antt" 'a lemma'
    put "$toy/crates/alone/src/main.rt" 'the text of alone'
    put "$toy/crates/alone/stdout" 'what it writes'
    put "$toy/crates/other/src/lib.rt" 'the text of other'
    put "$toy/.gitignore" 'out/'
    mkdir -- "$toy/front"
    cp -- "$root/front/take" "$toy/front/take"
    git init -q -- "$toy"
    git_toy add -A
    git_toy commit -q -m 'all of it'
}

# Makes the other repository anew: empty, or with the lines of a crates.txt.
make_dest() {
    rm -rf -- "$dest"
    mkdir -- "$dest"
    [ $# = 0 ] || put "$dest/crates.txt" "$@"
}

# Runs the script with words; leaves its status, and its streams in $work/out and $work/err.
take() {
    "$toy/front/take" "$@" >"$work/out" 2>"$work/err"
    status=$?
}

# The checksum of the names and contents of all that the other repository has.
state() {
    (cd -- "$dest" && find . -print0 | LC_ALL=C sort -z && find . -type f -print0 | LC_ALL=C sort -z |
        xargs -0 sha256sum --) | sha256sum
}

# The names and commits of the crates that are noted as taken, one behind the other with commas.
noted() {
    grep -v '^#' -- "$dest/crates/SUGWELAN/taken" | cut -d ' ' -f 1,2 | paste -sd,
}

# The names of what a folder has, one behind the other with commas.
names_in() {
    find "$1" -mindepth 1 -maxdepth 1 -printf '%f\n' | LC_ALL=C sort | paste -sd,
}

# Takes, and compares the lines of standard output, one behind the other with commas.
takes() {
    local what=$1 lines=$2
    shift 2
    take "$@"
    if [ "$status" != 0 ] || [ -s "$work/err" ]; then
        fail "$what: status $status: $(cat -- "$work/err")"
    elif [ "$(paste -sd, -- "$work/out")" != "$lines" ]; then
        fail "$what: $(paste -sd, -- "$work/out")"
    else
        pass
    fi
}

# Takes what is to be refused with a status and a line, and to change nothing.
refused() {
    local what=$1 wanted=$2 line=$3 before
    shift 3
    before=$(state)
    take "$@"
    if [ "$status" != "$wanted" ] || [ -s "$work/out" ] || [[ $(cat -- "$work/err") != *"$line"* ]]; then
        fail "$what: status $status: $(cat -- "$work/err")"
    elif [ "$(state)" != "$before" ]; then
        fail "$what: something was changed"
    else
        pass
    fi
}

# What is said of the files that stand beside the crates.
note='crates/SUGWELAN/taken: written'
notes="$note,crates/SUGWELAN/LICENSE-APACHE: written,crates/SUGWELAN/LICENSE-MIT: written"

# What is there after a first taking; and that a second one changes nothing.
first_taking() {
    local before commit
    make_dest
    takes "a first taking" "lower: taken,upper: taken,$notes,crates.txt: written,HANDLES: written" "$dest" upper
    holds "its lines" diff - "$dest/crates.txt" <<'END'
lower:
upper may_wait=2 tests_may=Threads+Wait: lower arrayvec
END
    holds "its HANDLES" cmp -- "$toy/HANDLES" "$dest/HANDLES"
    holds "its licences" cmp -- "$toy/LICENSE-MIT" "$dest/crates/SUGWELAN/LICENSE-MIT"
    holds "a crate's text" diff -r -x must-fail -x out -- "$toy/crates/lower" "$dest/crates/lower"
    holds "another crate's text" diff -r -- "$toy/crates/upper" "$dest/crates/upper"
    holds "what is left out" [ "$(names_in "$dest/crates/lower")" = specs,src ]
    holds "no other crate" [ "$(names_in "$dest/crates")" = SUGWELAN,lower,upper ]
    commit=$(git_toy rev-parse HEAD)
    holds "the commit" [ "$(noted)" = "lower $commit,upper $commit" ]
    before=$(state)
    takes "a second taking" '' "$dest" upper lower
    holds "a second taking changes something" [ "$(state)" = "$before" ]
    put "$dest/crates/SUGWELAN/new/lower/src/lib.rt" 'half of it'
    takes "one more crate, after a run that was stopped" "other: taken,$note,crates.txt: written" "$dest" other
    holds "what a stopped run left" [ ! -e "$dest/crates/SUGWELAN/new" ]
    take --help
    holds "the help" [ "$status,$(grep -c 'usage: front/take DEST CRATE' -- "$work/out")" = 0,1 ]
}

# What the other repository has of its own stays.
own_things() {
    make_dest 'own: lower' '# not the last line'
    printf 'last:' >>"$dest/crates.txt"
    put "$dest/crates/own/src/lib.rt" 'its own'
    takes "beside crates of its own" "alone: taken,$notes,crates.txt: written" "$dest" alone
    holds "no HANDLES where no crate needs one" [ ! -e "$dest/HANDLES" ]
    holds "a program's files" cmp -- "$toy/crates/alone/stdout" "$dest/crates/alone/stdout"
    holds "its own lines" diff - "$dest/crates.txt" <<'END'
own: lower
# not the last line
last:
alone: thiserror
END
    put "$dest/HANDLES" 'Handles allowed: Threads, Wait, Net.'
    printf '  upper   may_wait=2 tests_may=Threads+Wait : lower,arrayvec # ours\n' >>"$dest/crates.txt"
    takes "a line in another form" "lower: taken,upper: taken,$note,crates.txt: written" "$dest" upper
    holds "a line in another form stays" grep -q '# ours' -- "$dest/crates.txt"
    holds "a HANDLES that allows more stays" grep -q Net -- "$dest/HANDLES"
}

# What stands in the way, and the status and the line of it.
refusals() {
    make_dest 'own: lower'
    refused "no words" 2 'take: usage: '
    refused "no crate" 2 'take: usage: ' "$dest"
    refused "no folder and no crate" 2 'take: usage: ' --renew
    refused "no such option" 2 'take: usage: ' --new "$dest" upper
    refused "an option behind the folder" 2 'take: usage: ' "$dest" upper --renew
    refused "no such crate" 3 'take: there is no crate arrayvec here' "$dest" lower arrayvec
    refused "no folder" 4 'take: none is no folder' none upper
    refused "a file as the folder" 4 "take: $dest/crates.txt is no folder" "$dest/crates.txt" upper
    refused "this repository" 5 "take: $toy lies in this repository" "$toy" upper
    refused "a folder of it" 5 "take: $toy/crates lies in this repository" "$toy/crates" upper
    ln -s -- "$toy" "$work/link"
    refused "a link to it" 5 "take: $work/link lies in this repository" "$work/link" upper
    refused "crates beside crates.txt" 10 "take: $dest names crates, and has no folder crates" "$dest" upper
    mkdir -- "$dest/crates"
    put "$dest/crates.txt" 'upper: lower arrayvec'
    refused "another line" 6 'take: crates.txt there has another line for upper: upper: lower arrayvec' "$dest" upper
    put "$dest/crates.txt" '# none'
    put "$dest/crates/lower/src/lib.rt" 'another text'
    refused "another crate" 7 'take: crates/lower there is another crate of that name' "$dest" upper
    refused "another crate, renewed" 7 'take: crates/lower there is another crate of that name' --renew "$dest" upper
    rm -r -- "$dest/crates/lower"
    put "$dest/HANDLES" 'Handles allowed: none.'
    refused "a HANDLES that allows less" 9 \
        'take: HANDLES there does not allow what upper needs: Handles allowed: Threads, Wait.' "$dest" upper
    takes "a crate that needs no handle" "lower: taken,$notes,crates.txt: written" "$dest" lower
    rm -r -- "$dest/crates"
    put "$dest/crates.txt" '# none'
    put "$dest/crates" 'a file'
    refused "a file where the crates go" 1 "take: $dest/crates" "$dest" lower
}

# What was taken before, and stands otherwise now.
renewals() {
    local old
    make_dest
    take "$dest" upper other
    old=$(git_toy rev-parse HEAD)
    put "$toy/crates/lower/src/more.rt" 'more'
    rm -- "$toy/crates/upper/src/tests.rt"
    sed -i 's/may_wait=2/may_wait=3/' -- "$toy/crates.txt"
    mkdir -- "$dest/crates/upper/out" "$dest/crates/upper/must-fail"
    refused "an older text" 8 "take: lower was taken from $old, and stands otherwise here: --renew replaces it" \
        "$dest" other
    refused "each of two older ones" 8 "take: upper was taken from $old, and stands" "$dest" upper
    put "$dest/crates/upper/src/lib.rt" 'mended there'
    refused "a text that was changed there" 7 "take: crates/upper there was changed since it was taken from $old" \
        --renew "$dest" other
    cp -- "$toy/crates/upper/src/lib.rt" "$dest/crates/upper/src/lib.rt"
    sed -i 's/may_wait=2/may_wait=4/' -- "$dest/crates.txt"
    refused "a line that was changed there" 6 'take: crates.txt there has another line for upper' --renew "$dest"
    sed -i 's/may_wait=4/may_wait=2/' -- "$dest/crates.txt"
    takes "renewed" "lower: renewed,upper: renewed,$note,crates.txt: written" --renew "$dest" other
    holds "the new line" [ "$(grep -c '^upper' -- "$dest/crates.txt"),$(grep -c =3 -- "$dest/crates.txt")" = 1,1 ]
    holds "the new file" cmp -- "$toy/crates/lower/src/more.rt" "$dest/crates/lower/src/more.rt"
    holds "the old file" [ ! -e "$dest/crates/upper/src/tests.rt" ]
    holds "what is no text stays" [ "$(names_in "$dest/crates/upper")" = must-fail,out,proofs,src ]
    holds "the commits" [ "$(noted)" = "lower $old+changes,other $old,upper $old+changes" ]
    takes "renewed once more" '' --renew "$dest"
    rm -r -- "$dest/crates/other"
    sed -i '/^other/d' -- "$dest/crates.txt"
    takes "a crate that was removed there" "$note" --renew "$dest"
    rm -rf -- "$toy/.git"
    takes "from no checkout" "alone: taken,$note,crates.txt: written" "$dest" alone
    holds "from no commit" grep -q '^alone unknown ' -- "$dest/crates/SUGWELAN/taken"
}

# Proves the program of another repository, builds it by both compilers, and runs what they made.
prove_program() {
    local mine=$1 wanted=$2 built
    (cd -- "$mine" && rt ci) >"$work/log" 2>&1 </dev/null
    status=$?
    grep -oE 'done in this run: [^(]*' -- "$work/log"
    if [ "$status" != 0 ]; then
        fail "the program is not proved: $(tail -n 20 -- "$work/log")"
        return
    fi
    pass
    for built in "$mine/crates/hand_over/out/hand_over"{,.by-rattle}; do
        holds "${built##*/}" cmp -- "$wanted" <(timeout 60 "$built" 2>&1)
    done
}

# Runs the program of another repository with nothing proved.
try_program() {
    local mine=$1 wanted=$2
    echo 'left out: the proof of the program, since this kit would prove all that it stands on once more'
    (cd -- "$mine/crates/hand_over" && rt try) >"$work/tried" 2>"$work/log" </dev/null
    status=$?
    holds "the program is tried: $(tail -n 20 -- "$work/log")" [ "$status" = 0 ]
    holds "what it writes" cmp -- "$wanted" "$work/tried"
}

# A program of another repository, over `wq_checked` of this one. With a kit that keeps what it has passed the program
# alone is proved there: what it stands on is the text that the gate has just proved.
program() {
    local mine=$work/outside from=$root/front/outside
    mkdir -- "$mine"
    git init -q -- "$mine"
    holds "wq_checked is taken" "$root/front/take" "$mine" wq_checked >"$work/out"
    mkdir -p -- "$mine/crates/hand_over/src"
    cp -- "$from/main.rt.txt" "$mine/crates/hand_over/src/main.rt"
    cp -- "$from/stdout" "$mine/crates/hand_over/stdout"
    cat -- "$from/line.txt" >>"$mine/crates.txt"
    if [[ $(rt help 2>&1 || :) == *--anew* ]]; then
        prove_program "$mine" "$from/stdout"
    else
        try_program "$mine" "$from/stdout"
    fi
}

make_toy
first_taking
own_things
refusals
renewals
program
printf '%d passed, %d failed\n' "$passed" "$failed"
[ "$failed" = 0 ]
