#!/usr/bin/env bash
# Tries `waitq copy` on files of the system: what it writes, says and leaves for files of several sizes, names, rights and
# kinds, where it is refused, where its streams fail, and where it is stopped in the midst.
#
# usage: .ci/copy.sh [PROGRAM]...        (what `rt ci` built, by each of its compilers, if none is given)
#
# Prints a line for each case that fails and for each that can't be tried here, and at the end 'N passed, M failed'. The
# status is 1 where one failed or a program isn't there. Some cases are tried as the user nobody where this is root.
set -u

killed='waitq: killed'
# shellcheck source=.ci/cases.sh
. "$(dirname -- "$(readlink -f -- "${BASH_SOURCE[0]}")")/cases.sh"

# Copies with words that are to be refused, or to fail, while `old` is the second file: it stays, and no part is left.
refused() {
    local what=$1 wanted=$2 line=$3
    shift 3
    printf 'before\n' >old
    run copy "$@"
    expect "$what" "$wanted" "$line"
    printf 'before\n' >before
    same "$what, and what was there" before old
}

# Files of several sizes, and the text that is written of them.
sizes() {
    local size
    for size in 0 1 99 100 4096 4097 20000 1048576; do
        head -c "$size" sample >a
        rm -f b
        run copy a b
        expect "$size bytes" 0
        same "$size bytes" a b
        printf 'copied %d bytes\nmoved %d\nwatch 0 %d\nwatch 1 %d\nsignals 0\n' "$size" $((3 * size)) "$size" \
            "$(tr -dc '\n' <a | wc -c)" | cmp -s -- - "$work/out" || fail "$size bytes: the text"
    done
    printf 'before\n' >b
    run copy a b
    expect "over a shorter file" 0
    same "over a shorter file" a b
    head -c 10 sample >short
    run copy short b
    same "over a longer file" short b
}

# Words that are no command, and files that can't be read or written.
refusals() {
    local event
    run
    expect "no words" 2 "$usage"
    refused "no names" 2 "$usage"
    refused "no second name" 2 "$usage" a
    refused "an empty name" 2 "$usage" "" old
    refused "the same name" 2 "$usage" old old
    refused "a name that begins with -" 2 "$usage" -a old
    refused "a name that is no UTF-8" 2 "$usage" a $'\xff'
    for event in kill:main@1 kill:relay kill:relay@01 signal:relay@1099511627777 stop:relay@1; do
        refused "the event $event" 2 "$usage" a old "$event"
    done
    # shellcheck disable=SC2046  # a word each
    refused "seventeen events" 2 "$usage" a old $(yes signal:relay@1 | head -n 17)
    refused "no such file" 4 "waitq: no file none" none old
    refused "no such folder of it" 4 "waitq: no file none/a" none/a old
    refused "a file as a folder" 4 "$unread" a/a old
    refused "a folder as the first" 4 "$unread" folder old
    refused "a folder as the second" 5 "$unwritten" a folder
    refused "the second in no folder" 5 "$unwritten" a none/b
    refused "the second in a file" 5 "$unwritten" a old/b
    refused "a device as the second" 5 "$unwritten" a /dev/full
    holds "a device as the second: it is one no more" [ -c /dev/full ]
    refused "a FIFO as the second" 5 "$unwritten" a fifo
    refused "a link that leads nowhere as the second" 5 "$unwritten" a nowhere
    holds "a link that leads nowhere as the second: its file was made" [ ! -e none ]
}

# What the system refuses to a user who is not root.
forbidden() {
    become_another || return
    refused "a file that can't be read" 4 "$unread" mine/closed mine/new
    holds "a file that can't be read: the second was made" [ ! -e mine/new ]
    refused "the second in a folder that can't be written" 5 "$unwritten" a mine/shut/b
    refused "the second can't be written" 5 "$unwritten" a mine/old
    holds "the second can't be written: it was" [ "$(cat mine/old)" = before ]
    run copy a mine/new
    expect "as this user" 0
    same "as this user" a mine/new
    as=()
    chmod 755 mine/shut
}

# Names: other names of one file, links, and names that are long or odd.
names() {
    local name
    printf 'before\n' >old
    ln old other
    ln -s old link
    refused "a file to a second name of it" 5 "$unwritten" old other
    refused "a file to itself by another path" 5 "$unwritten" old ./old
    refused "a file to a link to it" 5 "$unwritten" old link
    rm other link
    mkdir -p deep/er
    ln -sf ../../old deep/er/link
    run copy a deep/er/link
    expect "through a link" 0
    same "through a link" a old
    holds "through a link: it is one no more" [ -L deep/er/link ]
    for name in "a b" "100%s" $'two\nlines' -n "*" "ä→" "$(printf 'n%.0s' {1..255})" "$(printf '→%.0s' {1..85})" \
        "$PWD/b" .part; do
        case $name in -*) name=./$name ;; esac
        run copy a "$name"
        expect "to $name" 0
        holds "to $name: the files differ" cmp -s -- a "$name"
    done
    run copy "100%s" b
    expect "from an odd name" 0
    rm -f ./.part
    whole "names"
}

# The rights of the copy beside those that cp gives: SRC's and the umask, and those of an old DST, if there is one.
rights() {
    local mode mask old
    while read -r mode mask old; do
        rm -f c by_us by_cp
        printf 'after\n' >c
        chmod "$mode" c
        if [ -n "$old" ]; then
            printf 'before\n' | tee by_us >by_cp
            chmod "$old" by_us by_cp
        fi
        (umask "$mask" && cp c by_cp && timeout 60 ./waitq copy c by_us >"$work/out")
        holds "rights: $mode under $mask over ${old:-none}: $(stat -c %a by_us), and by cp $(stat -c %a by_cp)" \
            [ "$(stat -c %a by_us)" = "$(stat -c %a by_cp)" ]
    done <<'END'
644 022
640 000
755 022
777 027
444 022
4755 022
600 077
644 022 600
600 022 666
444 077 755
END
    if [ "$(id -u)" = 0 ]; then
        chown nobody:daemon by_us
        run copy a by_us
        holds "the owner: $(stat -c %U:%G by_us)" [ "$(stat -c %U:%G by_us)" = nobody:daemon ]
    fi
}

# Streams that are closed or full, and a disk that is.
streams() {
    rm -f b
    timeout 60 ./waitq copy a b >&- 2>"$work/said"
    status=$?
    : >"$work/out"
    expect "standard output is closed" 5 "$unwritten"
    same "standard output is closed" a b
    rm -f b
    timeout 60 ./waitq copy a b >/dev/full 2>"$work/said"
    status=$?
    expect "standard output is full" 5 "$unwritten"
    same "standard output is full" a b
    rm -f b
    timeout 60 ./waitq copy a b <&- >&- 2>&-
    holds "all streams are closed" [ $? = 5 ]
    same "all streams are closed" a b
    timeout 60 ./waitq copy none b 2>/dev/full
    holds "standard error is full" [ $? = 4 ]
    # a process's memory can be opened, and not be read from its front
    printf 'before\n' >old
    run copy /proc/self/mem old
    expect "a read that fails" 4 "$unread"
    holds "a read that fails: the file is not empty" [ ! -s old ]
    whole "a read that fails"
    # a write that goes past the limit of a file's size fails, where the signal of it is ignored
    printf 'before\n' >old
    (trap '' XFSZ && ulimit -f 8 && exec timeout 60 ./waitq copy sample old) >"$work/out" 2>"$work/said"
    status=$?
    expect "a file larger than is allowed" 5 "$unwritten"
    head -c 8192 sample >short
    same "a file larger than is allowed" short old
    head -c 100 sample | timeout 60 ./waitq copy /dev/stdin b >"$work/out" 2>"$work/said"
    status=$?
    expect "from standard input" 0
    same "from standard input" short_sample b
    small_disk
}

# A disk of 64 KiB, where one can be mounted.
small_disk() {
    mount_small || return
    printf 'before\n' >disk/old
    run copy sample disk/old
    expect "a full disk" 5 "$unwritten"
    holds "a full disk: no front of the first file" is_front disk/old sample
    holds "a full disk: nothing of the first file" [ "$(stat -c %s disk/old)" -gt 40000 ]
    whole "a full disk"
    umount disk
}

# Starts a copy of what comes through a FIFO to `old`, lets 50,000 bytes come, and leaves its number in `copy`.
start_copy() {
    rm -f pipe
    mkfifo pipe
    printf 'before\n' | tee before >old
    # of a job in the background SIGINT is ignored, and under nohup SIGHUP, unless they are set back
    env --default-signal ./waitq copy pipe old >"$work/out" 2>"$work/said" &
    copy=$!
    exec 8<>pipe
    head -c 50000 sample >&8
    for _ in {1..3000}; do
        [ ! -e old.part0 ] || [ "$(stat -c %s old.part0)" -lt 40000 ] || break
        sleep 0.02
    done
}

# A copy that is stopped in the midst.
stopped() {
    local signal
    for signal in INT TERM HUP USR1 ALRM KILL; do
        start_copy
        holds "in the midst: no part" [ -s old.part0 ]
        kill -s "$signal" "$copy"
        wait "$copy" 2>"$work/said"
        status=$?
        holds "SIG$signal in the midst: status $status" [ "$status" -gt 128 ]
        exec 8>&-
        holds "SIG$signal in the midst: the second file was changed" cmp -s -- before old
        holds "SIG$signal in the midst: the part" is_front old.part0 sample
        run copy a old
        expect "after SIG$signal, beside the part that it left" 0
        holds "after SIG$signal: the files differ" cmp -s -- a old
        rm -f old.part0
        whole "after SIG$signal"
    done
    start_copy
    kill -s STOP "$copy"
    sleep 0.1
    kill -s CONT "$copy"
    exec 8>&-
    wait "$copy"
    status=$?
    expect "held up and let go on" 0
    head -c 50000 sample >short
    same "held up and let go on" short old
}

# Two copies to one file at once: it is one of them whole.
at_once() {
    local first
    tac sample >reversed
    for _ in {1..3}; do
        timeout 60 ./waitq copy sample b >"$work/first" 2>&1 &
        first=$!
        run copy reversed b
        expect "the second of two at once" 0
        holds "the first of two at once" wait "$first"
        holds "two at once: the file is none of them" is_either b sample reversed
        whole "two at once"
    done
}

# What the system is asked in which order: the part is synced before it gets the second file's name, and the folder after
# that, so a crash leaves the old file or the copy.
synced() {
    local at_part at_name at_folder
    if ! command -v strace >/dev/null || ! strace -o "$work/calls" true 2>"$work/said"; then
        printf 'not tried: the order of syncs, since there is no strace\n'
        return
    fi
    printf 'before\n' >old
    timeout 60 strace -f -y -o "$work/calls" -e trace=fsync,fdatasync,rename,renameat,renameat2 ./waitq copy a old \
        >"$work/out" 2>"$work/said"
    status=$?
    expect "syncs that are traced" 0
    same "syncs that are traced" a old
    at_part=$(grep -nE 'f(data)?sync\([0-9]+<.*/old\.part0>\) *= 0' "$work/calls" | cut -d : -f 1 | head -n 1)
    at_name=$(grep -nE 'rename(at2?)?\(.*old\.part0.*= 0' "$work/calls" | cut -d : -f 1 | head -n 1)
    at_folder=$(grep -nE "fsync\\([0-9]+<$PWD>\\)" "$work/calls" | cut -d : -f 1 | tail -n 1)
    holds "the part is not synced before it is renamed" [ "${at_part:-99}" -lt "${at_name:-0}" ]
    holds "the folder is not synced after the rename" [ "${at_name:-99}" -lt "${at_folder:-0}" ]
}

# Signals that are planned.
planned() {
    local event number
    for event in kill:reader@0 kill:relay@4096 kill:writer@8192 kill:writer@20000; do
        printf 'a longer file than that which is copied\n' >b
        run copy a b "$event"
        expect "$event" 6 "$killed"
        holds "$event: no front of the first file" is_front b a
        whole "$event"
    done
    for event in kill:writer@20001 signal:reader@0 signal:relay@4096 signal:writer@20000; do
        number=1
        [ "$event" != kill:writer@20001 ] || number=0
        run copy a b "$event"
        expect "$event" 0
        same "$event" a b
        holds "$event: $(tail -n 1 -- "$work/out")" [ "$(tail -n 1 -- "$work/out")" = "signals $number" ]
    done
}

# Tries all cases on the program in this folder.
check() {
    sizes
    head -c 20000 sample >a
    head -c 100 sample >short_sample
    mkdir folder
    mkfifo fifo
    ln -s none nowhere
    refusals
    forbidden
    names
    rights
    streams
    stopped
    at_once
    synced
    planned
    # each allocation, and each start of a thread, failing in turn
    fail_each "$PWD/waitq"
}

try_all "$@"
