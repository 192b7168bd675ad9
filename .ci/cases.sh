# What the scripts share that try commands of `waitq` on files of the system (copy.sh, merge.sh), which read this file: a
# folder to work in, cases that are counted, runs of the program, and looks at what it left.

root=$(dirname -- "$(dirname -- "$(readlink -f -- "${BASH_SOURCE[0]}")")")
work=$(mktemp -d)
end() {
    ! mountpoint -q -- "$work/here/disk" || umount -l -- "$work/here/disk"
    rm -rf -- "$work"
}
trap end EXIT
chmod 755 -- "$work"
passed=0
failed=0
usage='waitq: usage: '
unread='waitq: read failed'
unwritten='waitq: write failed'
as=()

pass() {
    passed=$((passed + 1))
}

fail() {
    failed=$((failed + 1))
    printf 'FAILED: %s\n' "$*"
}

# Counts a case: a command that is to succeed, and what is said where it does not.
holds() {
    local what=$1
    shift
    if "$@"; then
        pass
    else
        fail "$what"
    fi
}

# Runs the program with words, as whom `as` says, and leaves its status and its streams.
run() {
    timeout 60 "${as[@]}" ./waitq "$@" >"$work/out" 2>"$work/said"
    status=$?
}

# Compares the last run with a status and the line that it said. With status 0 it says nothing; with any other it
# writes nothing.
expect() {
    local what=$1 wanted=$2 line=${3:-}
    if [ "$status" != "$wanted" ]; then
        fail "$what: status $status: $(head -c 200 -- "$work/said")"
    elif [ "$status" = 0 ] && [ -s "$work/said" ]; then
        fail "$what: status 0 says $(head -c 200 -- "$work/said")"
    elif [ "$status" != 0 ] && [[ $(cat -- "$work/said") != "$line"* || -s $work/out ]]; then
        fail "$what: says $(head -c 200 -- "$work/said"), writes $(head -c 200 -- "$work/out")"
    else
        pass
    fi
}

# Whether a file is another one's copy, and no part is left.
same() {
    if ! cmp -s -- "$2" "$3"; then
        fail "$1: the files differ"
    else
        whole "$1"
    fi
}

# Whether a file is a front of another one.
is_front() {
    [ "$(stat -c %s -- "$1")" -le "$(stat -c %s -- "$2")" ] && cmp -s -n "$(stat -c %s -- "$1")" -- "$1" "$2"
}

# Whether a file is one of two others.
is_either() {
    cmp -s -- "$1" "$2" || cmp -s -- "$1" "$3"
}

# Whether no part is left.
whole() {
    if [ -n "$(find . -name '*.part*' -print -quit)" ]; then
        fail "$1: there is $(find . -name '*.part*' -print -quit)"
        find . -name '*.part*' -delete
    else
        pass
    fi
}

# Files for a user who may not read or write all of them, in the folder `mine`; says so and fails where there is no such
# user. From then on the program is run as that one, until `as` is empty.
become_another() {
    mkdir -p mine
    printf 'closed\n' >mine/closed
    chmod 000 mine/closed
    printf 'before\n' >mine/old
    chmod 444 mine/old
    mkdir -p mine/shut
    chmod 555 mine/shut
    if [ "$(id -u)" = 0 ]; then
        chown -R nobody mine
        as=(setpriv --reuid nobody --regid nogroup --clear-groups --)
    fi
    if ! "${as[@]}" test -x waitq; then
        printf 'not tried: as another user\n'
        as=()
        return 1
    fi
}

# A disk of 64 KiB under `disk`; says so and fails where none can be mounted.
mount_small() {
    mkdir -p disk
    if ! mount -t tmpfs -o size=64k tmpfs disk 2>"$work/said"; then
        printf 'not tried: a full disk\n'
        return 1
    fi
}

# Runs bench/fail_each_copy.sh with these words.
fail_each() {
    "$root/bench/fail_each_copy.sh" "$@" >"$work/out" 2>"$work/said"
    case $? in
    0) pass ;;
    77) printf 'not tried: failing allocations, since there is no C compiler\n' ;;
    *) fail "$(head -n 1 -- "$work/said")" ;;
    esac
}

# Makes a folder for the cases of a program, with it and a file of 1 MiB, and goes there.
enter() {
    rm -rf -- "$work/here"
    mkdir -m 755 -- "$work/here"
    cd -- "$work/here" || exit 1
    cp -- "$1" waitq
    chmod 755 waitq
    seq 1 200000 | head -c 1048576 >sample
}

# Tries all cases, by `check`, on these programs, or on what `rt ci` built by each of its compilers; then the sum.
try_all() {
    local program programs=()
    if [ $# = 0 ]; then
        set -- "$root/crates/waitq/out/waitq"
        [ ! -e "$1.by-rattle" ] || set -- "$1" "$1.by-rattle"
    fi
    for program; do
        if [ -x "$program" ]; then
            programs+=("$(readlink -f -- "$program")")
        else
            fail "$program is not built"
        fi
    done
    for program in "${programs[@]}"; do
        enter "$program"
        check
        cd -- "$root" || exit 1
    done
    printf '%d passed, %d failed\n' "$passed" "$failed"
    [ "$failed" = 0 ]
}
