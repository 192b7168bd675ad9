#!/usr/bin/env bash
# Measures the replay of a long script: instructions an event, and how time and memory grow with the
# events.
#
# usage: bench/measure.sh [EVENTS]                                  (300000 if it isn't given)
#        bench/measure.sh --heavy [CALLS [SEED]] [--no-bits]        (12000 and 1 if they aren't given)
#
# The first measures the script of make_script.py, the second that of make_heavy_script.py; a script of a
# tenth is measured beside it.
#
# The instructions are counted by valgrind's callgrind, and are of the whole program: reading and
# parsing the script, making the events, and writing the text to a file. Nothing here passes or fails.
set -eu

root=$(cd "$(dirname "$(readlink -f "${BASH_SOURCE[0]}")")/.." && pwd)
writer=$root/bench/make_script.py
many=300000
if [ "${1:-}" = --heavy ]; then
    writer=$root/bench/make_heavy_script.py
    many=12000
    shift
fi
if [[ ${1:-} =~ ^[0-9]+$ ]]; then
    many=$1
    shift
fi
few=$((many / 10))

if ! command -v valgrind >/dev/null; then
    echo "measure.sh: valgrind is missing: apt-get update && apt-get install -y valgrind" >&2
    exit 1
fi
if [ ! -x /usr/bin/time ]; then
    echo "measure.sh: /usr/bin/time is missing: apt-get update && apt-get install -y time" >&2
    exit 1
fi
work=$(mktemp -d)
trap 'rm -rf "$work"' EXIT

# Builds the program where it isn't, and sees that it runs.
"$root/waitq" replay <"$root/examples/wait_set_wake.waitq" | cmp - "$root/examples/wait_set_wake.text"
shopt -s nullglob
programs=("$root"/out/waitq_replay-* "$root"/out/waitq-*)
program=${programs[0]}

for size in few many; do
    python3 "$writer" "${!size}" "$@" >"$work/$size.waitq"
done

valgrind --tool=callgrind --callgrind-out-file="$work/callgrind.out" --log-file="$work/valgrind.log" \
    "$program" replay <"$work/many.waitq" >"$work/many.text"
instructions=$(sed -n 's/.*Collected : \([0-9]*\).*/\1/p' "$work/valgrind.log")
events=$(sed -n 's/^events //p' "$work/many.text")
echo "events            $events"
echo "instructions      $instructions"
echo "an event          $((instructions / events)) instructions"

# The least wall time of five runs, in seconds.
python3 - "$program" "$work" <<'PYTHON'
import subprocess
import sys
import time

program, work = sys.argv[1:]


def run(size):
    """The wall time of a replay in seconds."""
    with open(f"{work}/{size}.waitq", "rb") as script, open(f"{work}/{size}.text", "wb") as text:
        begin = time.perf_counter()
        subprocess.run([program, "replay"], stdin=script, stdout=text, check=True)
        return time.perf_counter() - begin


def events(size):
    """The number of events that the text says."""
    with open(f"{work}/{size}.text", encoding="ascii") as text:
        return next(int(line.split()[1]) for line in text if line.startswith("events "))


times = {}
for size in ("few", "many"):
    times[size] = min(run(size) for _ in range(5))
    print(f"wall time         {times[size]:.4f} s for {events(size)} events")
growth = events("many") / events("few")
print(f"time ratio        {times['many'] / times['few']:.1f} for {growth:.1f} times the events")
PYTHON

for size in few many; do
    /usr/bin/time -f %M -o "$work/memory" "$program" replay <"$work/$size.waitq" >"$work/$size.text"
    echo "peak memory       $(cat "$work/memory") KiB for $(sed -n 's/^events //p' "$work/$size.text") events"
done
