#!/usr/bin/env bash
# Times `waitq copy` of a file of 200 MiB beside `cat SRC | cat | cat > DST`, which are three processes and two pipes of
# the kernel; the same with a sync of DST behind it, as the copy makes one; and `cp`. Each DST is compared with SRC.
#
# usage: bench/copy_cat.sh [PROGRAM]          (what ./waitq built, if none is given)
#
# It writes the MiB a second of the middle run of each, with the least and the greatest, and what part of that the copy
# goes at: the ratio of the times within one run, the middle one, the least and the greatest.
# RUNS: how many runs of one each (5). MIB: how large the file is (200). IN: the folder for the files (a new one under
# /tmp; /dev/shm takes the disk out). BUSY: how many loops keep processors busy meanwhile (0). WITH: a command that starts
# the programs, as `chrt -f 50`, by which other work gives way to them.
set -eu

root=$(cd "$(dirname "$(readlink -f "${BASH_SOURCE[0]}")")/.." && pwd)
. "$root/bench/busy.sh"
work=$(mktemp -d -p "${IN:-/tmp}")
end() {
    end_loops
    rm -rf -- "$work"
}
trap end EXIT
program=${1:-}
if [ -z "$program" ]; then
    "$root/waitq" copy "$root/examples/wait_set_wake.waitq" "$work/copied" >"$work/text"
    programs=("$root"/out/waitq-*)
    program=${programs[0]}
fi
program=$(readlink -f -- "$program")
cd -- "$work"
head -c "$((${MIB:-200} * 1048576))" /dev/urandom >a

# Times a command that makes the file b of a, in seconds behind its name.
once() {
    local name=$1 begun ended
    rm -f b
    begun=$(date +%s%N)
    # shellcheck disable=SC2086  # WITH is words
    ${WITH:-} bash -c "$2" >text
    ended=$(date +%s%N)
    cmp a b
    printf '%s %d\n' "$name" $((ended - begun))
}

for ((run = 0; run < ${RUNS:-5}; run++)); do
    once copy "'$program' copy a b"
    once three-cats 'cat a | cat | cat >b'
    once three-cats-and-a-sync 'cat a | cat | cat >b && sync b'
    once cp 'cp a b'
done >lines

awk -v mib="${MIB:-200}" '
    function sorted(list, count,    i, j, x) {
        for (i = 2; i <= count; i++)
            for (j = i; j > 1 && list[j] < list[j - 1]; j--) { x = list[j]; list[j] = list[j - 1]; list[j - 1] = x }
    }
    $1 == "copy" { run++; base = $2 }
    !($1 in many) { names[++kinds] = $1 }
    { rate[$1, ++many[$1]] = mib / ($2 / 1e9); ratio[$1, many[$1]] = $2 / base }
    END {
        for (k = 1; k <= kinds; k++) {
            n = names[k]
            for (i = 1; i <= run; i++) { rates[i] = rate[n, i]; ratios[i] = ratio[n, i] }
            sorted(rates, run)
            sorted(ratios, run)
            middle = int((run + 1) / 2)
            printf "%-22s %6.1f MiB/s (%.1f to %.1f); the copy goes at %.3f of that (%.3f to %.3f)\n", n, rates[middle],
                rates[1], rates[run], ratios[middle], ratios[1], ratios[run]
        }
    }' lines
