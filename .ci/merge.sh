#!/usr/bin/env bash
# Tries `waitq merge` on files of the system: what it writes, says and leaves for two files of several sizes, names,
# rights and kinds, where it is refused, where its streams fail, and where it is stopped in the midst.
#
# usage: .ci/merge.sh [PROGRAM]...       (what `rt ci` built, by each of its compilers, if none is given)
#
# Prints a line for each case that fails and for each that can't be tried here, and at the end 'N passed, M failed'. The
# status is 1 where one failed or a program isn't there. Some cases are tried as the user nobody where this is root.
#
# The first file has digits and line feeds, the second letters and `_`: so of what was merged it can be seen which bytes
# came from which, and in what order.
set -u

# shellcheck source=.ci/cases.sh
. "$(dirname -- "$(readlink -f -- "${BASH_SOURCE[0]}")")/cases.sh"

# The bytes of a merged file that are the first file's, and those that are the second's.
firsts() {
    tr -d 'a-j_' <"$1"
}

seconds() {
    tr -dc 'a-j_' <"$1"
}

# Whether a file has the bytes of two others, those of each in their order, and no part is left.
merged() {
    if ! firsts "$4" | cmp -s -- - "$2"; then
        fail "$1: the bytes of the first file"
    elif ! seconds "$4" | cmp -s -- - "$3"; then
        fail "$1: the bytes of the second file"
    else
        whole "$1"
    fi
}

# Whether what a file has of two others is a front of each.
is_merged_front() {
    firsts "$3" >"$work/firsts"
    seconds "$3" >"$work/seconds"
    is_front "$work/firsts" "$1" && is_front "$work/seconds" "$2"
}

# Whether the text is that of two files of so many bytes.
told() {
    printf 'merged %d bytes\nmoved %d\n' "$2" "$((3 * $2))" | cmp -s -- - "$work/out" || fail "$1: the text"
}

# Merges with words that are to be refused, or to fail, while `old` is the third file: it stays, and no part is left.
refused() {
    local what=$1 wanted=$2 line=$3
    shift 3
    printf 'before\n' >old
    run merge "$@"
    expect "$what" "$wanted" "$line"
    printf 'before\n' >before
    same "$what, and what was there" before old
}

# Two files of several sizes, each beside each, and the text that is written of them.
sizes() {
    local first second
    for first in 0 1 4096 4097 20000 1048576; do
        for second in 0 1 4096 4097 20000 1048576; do
            head -c "$first" sample >a
            head -c "$second" letters >b
            rm -f c
            run merge a b c
            expect "$first and $second bytes" 0
            merged "$first and $second bytes" a b c
            told "$first and $second bytes" $((first + second))
        done
    done
    printf 'before\n' >c
    run merge a b c
    expect "over a shorter file" 0
    merged "over a shorter file" a b c
    head -c 10 sample >short
    head -c 20 letters >other
    run merge short other c
    expect "over a longer file" 0
    merged "over a longer file" short other c
}

# Words that are no command, and files that can't be read or written.
refusals() {
    refused "no names" 2 "$usage"
    refused "one name" 2 "$usage" a
    refused "two names" 2 "$usage" a b
    refused "four names" 2 "$usage" a b old old2
    refused "an event" 2 "$usage" a b old signal:relay@1
    refused "an empty name" 2 "$usage" "" b old
    refused "an empty second name" 2 "$usage" a "" old
    refused "an empty third name" 2 "$usage" a b ""
    refused "the same name twice" 2 "$usage" a a old
    refused "the first name as the third" 2 "$usage" old b old
    refused "the second name as the third" 2 "$usage" a old old
    refused "a name that begins with -" 2 "$usage" -a b old
    refused "a second name that begins with -" 2 "$usage" a -b old
    refused "a name that is no UTF-8" 2 "$usage" a $'\xff' old
    refused "no first file" 4 "waitq: no file none" none b old
    refused "no second file" 4 "waitq: no file none" a none old
    refused "neither file: the first is named" 4 "waitq: no file none" none nothing old
    refused "no such folder of it" 4 "waitq: no file none/a" none/a b old
    refused "a file as a folder" 4 "$unread" a/a b old
    refused "a second file as a folder" 4 "$unread" a b/b old
    refused "a folder as the first" 4 "$unread" folder b old
    refused "a folder as the second" 4 "$unread" a folder old
    refused "a folder as the third" 5 "$unwritten" a b folder
    refused "the third in no folder" 5 "$unwritten" a b none/c
    refused "the third in a file" 5 "$unwritten" a b old/c
    refused "a device as the third" 5 "$unwritten" a b /dev/full
    holds "a device as the third: it is one no more" [ -c /dev/full ]
    refused "a FIFO as the third" 5 "$unwritten" a b fifo
    refused "a link that leads nowhere as the third" 5 "$unwritten" a b nowhere
    holds "a link that leads nowhere as the third: its file was made" [ ! -e none ]
    rm -f c
    run merge a none c
    holds "no second file: the third was made" [ ! -e c ]
}

# What the system refuses to a user who is not root.
forbidden() {
    become_another || return
    refused "a first file that can't be read" 4 "$unread" mine/closed b mine/new
    refused "a second file that can't be read" 4 "$unread" a mine/closed mine/new
    holds "a file that can't be read: the third was made" [ ! -e mine/new ]
    refused "the third in a folder that can't be written" 5 "$unwritten" a b mine/shut/c
    refused "the third can't be written" 5 "$unwritten" a b mine/old
    holds "the third can't be written: it was" [ "$(cat mine/old)" = before ]
    run merge a b mine/new
    expect "as this user" 0
    merged "as this user" a b mine/new
    as=()
    chmod 755 mine/shut
}

# Names: other names of one file, links, and names that are long or odd.
names() {
    local name
    printf 'before\n' >old
    ln old other_name
    ln -s old link
    refused "into another name of the first" 5 "$unwritten" old b other_name
    refused "into another name of the second" 5 "$unwritten" a old other_name
    refused "into the first by another path" 5 "$unwritten" old b ./old
    refused "into the second by another path" 5 "$unwritten" a old ./old
    refused "into a link to the first" 5 "$unwritten" old b link
    refused "into a link to the second" 5 "$unwritten" a old link
    rm other_name link
    head -c 20000 sample >a
    ln a again
    run merge a again c
    expect "two names of one file" 0
    holds "two names of one file: $(stat -c %s c) bytes" [ "$(stat -c %s c)" = 40000 ]
    told "two names of one file" 40000
    rm again
    run merge a ./a c
    expect "one file by two paths" 0
    told "one file by two paths" 40000
    mkdir -p deep/er
    ln -sf ../../old deep/er/link
    run merge a b deep/er/link
    expect "through a link" 0
    merged "through a link" a b old
    holds "through a link: it is one no more" [ -L deep/er/link ]
    for name in "a b" "100%s" $'two\nlines' -n "*" "ä→" "$(printf 'n%.0s' {1..255})" "$PWD/c" .part; do
        case $name in -*) name=./$name ;; esac
        run merge a b "$name"
        expect "to $name" 0
        holds "to $name: the bytes" is_merged_front a b "$name"
        holds "to $name: $(stat -c %s -- "$name") bytes" [ "$(stat -c %s -- "$name")" = 40000 ]
    done
    printf '12\n' >"1%s"
    printf 'ab_' >"b*"
    run merge "1%s" "b*" c
    expect "from odd names" 0
    rm -f ./.part
    merged "from odd names" "1%s" "b*" c
}

# The rights of a new file: those that both sources have, but for the umask's; and those of an old one.
rights() {
    local first second mask old wanted
    while read -r first second mask wanted old; do
        rm -f d e f
        printf '1\n' >d
        printf 'a_' >e
        chmod "$first" d
        chmod "$second" e
        if [ -n "$old" ]; then
            printf 'before\n' >f
            chmod "$old" f
        fi
        (umask "$mask" && timeout 60 ./waitq merge d e f >"$work/out")
        holds "rights: $first and $second under $mask over ${old:-none}: $(stat -c %a f)" \
            [ "$(stat -c %a f)" = "$wanted" ]
    done <<'END'
644 644 022 644
644 600 022 600
600 644 022 600
640 604 000 600
755 644 022 644
777 777 027 750
644 644 077 600
444 644 022 444
644 644 022 600 600
600 600 022 666 666
END
    rm -f d e f
}

# Streams that are closed or full, and a disk that is.
streams() {
    rm -f c
    timeout 60 ./waitq merge a b c >&- 2>"$work/said"
    status=$?
    : >"$work/out"
    expect "standard output is closed" 5 "$unwritten"
    merged "standard output is closed" a b c
    rm -f c
    timeout 60 ./waitq merge a b c >/dev/full 2>"$work/said"
    status=$?
    expect "standard output is full" 5 "$unwritten"
    merged "standard output is full" a b c
    rm -f c
    timeout 60 ./waitq merge a b c <&- >&- 2>&-
    holds "all streams are closed" [ $? = 5 ]
    merged "all streams are closed" a b c
    timeout 60 ./waitq merge a none c 2>/dev/full
    holds "standard error is full" [ $? = 4 ]
    # a process's memory can be opened, and not be read from its front
    run merge /proc/self/mem b old
    expect "a first read that fails" 4 "$unread"
    : >"$work/nothing"
    holds "a first read that fails: a front" is_merged_front "$work/nothing" b old
    whole "a first read that fails"
    run merge a /proc/self/mem old
    expect "a second read that fails" 4 "$unread"
    holds "a second read that fails: a front" is_merged_front a "$work/nothing" old
    whole "a second read that fails"
    # a write that goes past the limit of a file's size fails, where the signal of it is ignored
    (trap '' XFSZ && ulimit -f 8 && exec timeout 60 ./waitq merge sample letters old) >"$work/out" 2>"$work/said"
    status=$?
    expect "a file larger than is allowed" 5 "$unwritten"
    holds "a file larger than is allowed: $(stat -c %s old) bytes" [ "$(stat -c %s old)" = 8192 ]
    holds "a file larger than is allowed: a front" is_merged_front sample letters old
    whole "a file larger than is allowed"
    head -c 100 sample | timeout 60 ./waitq merge /dev/stdin b c >"$work/out" 2>"$work/said"
    status=$?
    expect "from standard input" 0
    head -c 100 sample >short
    merged "from standard input" short b c
    if mount_small; then
        printf 'before\n' >disk/old
        run merge sample letters disk/old
        expect "a full disk" 5 "$unwritten"
        holds "a full disk: a front" is_merged_front sample letters disk/old
        holds "a full disk: nothing of the files" [ "$(stat -c %s disk/old)" -gt 40000 ]
        whole "a full disk"
        umount disk
    fi
}

# Whichever has bytes first: one source is a FIFO that gives nothing yet, and what the other gave is in the part.
first_come() {
    local merge which
    for which in first second; do
        rm -f pipe
        mkfifo pipe
        head -c 20000 letters >b
        if [ "$which" = first ]; then
            ./waitq merge pipe b c >"$work/out" 2>"$work/said" &
        else
            ./waitq merge b pipe c >"$work/out" 2>"$work/said" &
        fi
        merge=$!
        exec 8<>pipe
        for _ in {1..3000}; do
            [ ! -e c.part0 ] || [ "$(stat -c %s c.part0)" -lt 20000 ] || break
            sleep 0.02
        done
        holds "the $which gives nothing: the other is held up" cmp -s -- b c.part0
        head -c 50000 sample >&8
        for _ in {1..3000}; do
            [ "$(stat -c %s c.part0)" -lt 50000 ] || break
            sleep 0.02
        done
        holds "the $which gives bytes: they are held up" [ "$(stat -c %s c.part0)" -ge 50000 ]
        exec 8>&-
        wait "$merge"
        status=$?
        expect "the $which came late" 0
        head -c 50000 sample >short
        merged "the $which came late" short b c
        told "the $which came late" 70000
    done
}

# Starts a merge of what comes through a FIFO and of `b` to `old`, lets 50,000 bytes come, and leaves its number in
# `merge`.
start_merge() {
    rm -f pipe
    mkfifo pipe
    printf 'before\n' | tee before >old
    # of a job in the background SIGINT is ignored, and under nohup SIGHUP, unless they are set back
    env --default-signal ./waitq merge pipe b old >"$work/out" 2>"$work/said" &
    merge=$!
    exec 8<>pipe
    head -c 50000 sample >&8
    for _ in {1..3000}; do
        [ ! -e old.part0 ] || [ "$(stat -c %s old.part0)" -lt 40000 ] || break
        sleep 0.02
    done
}

# A merge that is stopped in the midst.
stopped() {
    local signal
    for signal in INT TERM HUP KILL; do
        start_merge
        holds "in the midst: no part" [ -s old.part0 ]
        kill -s "$signal" "$merge"
        wait "$merge" 2>"$work/said"
        status=$?
        holds "SIG$signal in the midst: status $status" [ "$status" -gt 128 ]
        exec 8>&-
        holds "SIG$signal in the midst: the third file was changed" cmp -s -- before old
        holds "SIG$signal in the midst: the part" is_merged_front sample b old.part0
        run merge a b old
        expect "after SIG$signal, beside the part that it left" 0
        rm -f old.part0
        merged "after SIG$signal" a b old
    done
    start_merge
    kill -s STOP "$merge"
    sleep 0.1
    kill -s CONT "$merge"
    exec 8>&-
    wait "$merge"
    status=$?
    expect "held up and let go on" 0
    head -c 50000 sample >short
    merged "held up and let go on" short b old
}

# Two merges to one file at once: it is one of them whole.
at_once() {
    local first
    head -c 1000 sample >short
    head -c 1000 letters >other
    for _ in {1..3}; do
        timeout 60 ./waitq merge sample letters c >"$work/first" 2>&1 &
        first=$!
        run merge short other c
        expect "the second of two at once" 0
        holds "the first of two at once" wait "$first"
        if [ "$(stat -c %s c)" = 2000 ]; then
            merged "two at once" short other c
        else
            merged "two at once" sample letters c
        fi
    done
}

# Tries all cases on the program in this folder.
check() {
    seq 1 300000 | tr '0-9\n' 'a-j_' | head -c 1048576 >letters
    sizes
    head -c 20000 sample >a
    head -c 20000 letters >b
    mkdir folder
    mkfifo fifo
    ln -s none nowhere
    refusals
    forbidden
    names
    rights
    streams
    first_come
    stopped
    at_once
    # each allocation, and each start of a thread, failing in turn
    fail_each --merge "$PWD/waitq"
}

try_all "$@"
