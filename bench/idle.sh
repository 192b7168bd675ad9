#!/bin/sh
# Shows that who waits uses no processor: two tasks wait for about a second, one asleep and one for the lock of a head,
# and the processor time of the whole program is written beside the time that it took. It needs the program built by
# `rt run` in crates/bench_threads.
set -eu
cd "$(dirname "$0")/.."
TIMEFORMAT='%R s, of which on a processor %U s for the program and %S s for the kernel'
export TIMEFORMAT
bash -c 'time crates/bench_threads/out/bench_threads heads idle'
