#!/usr/bin/env python3
"""Writes a replay script of at least as many events as asked, for measurements.

usage: make_script.py [EVENTS]        (300000 if it isn't given)

The script repeats one round. Sixteen waiters, on four conditions, load their condition, queue and go to
sleep. Then another task sets each condition and wakes all its waiters, which see it set and leave the
queue, and it sets the conditions back to 0. Each step line asks for just the events that it makes, so the
sum of the step counts is the number of events. The same number of events gives the same script.
"""

import sys

WAITERS = 16
CONDITIONS = 4
WAKER = WAITERS

# The events of a waiter up to its sleep: load, lock, queue, state, unlock, load, sleep.
TO_SLEEP = 7
# Those of a woken waiter: lock, queue, state, unlock, load, state, queued, lock, unqueue, unlock.
TO_END = 10
# Those of a wake of all: lock, wake and unqueue of each waiter, unlock.
WAKE_ALL = 2 + 2 * (WAITERS // CONDITIONS)

MOST_BYTES = 1_048_576
MOST_STEPS = 1_000_000


def call(task, text, count):
    """The lines of a call and its first steps."""
    return f"call {task} {text}\nstep {task} {count}\n"


def round_of():
    """One round as text, and its number of events."""
    lines = []
    for waiter in range(WAITERS):
        lines.append(call(waiter, f"wait c{waiter % CONDITIONS} plain", TO_SLEEP))
    for condition in range(CONDITIONS):
        lines.append(call(WAKER, f"set c{condition} 1", 1))
        lines.append(call(WAKER, f"wake c{condition} normal 0", WAKE_ALL))
    for waiter in range(WAITERS):
        lines.append(f"step {waiter} {TO_END}\n")
    for condition in range(CONDITIONS):
        lines.append(call(WAKER, f"set c{condition} 0", 1))
    events = WAITERS * (TO_SLEEP + TO_END) + CONDITIONS * (2 + WAKE_ALL)
    return "".join(lines), events


def main():
    wanted = int(sys.argv[1]) if len(sys.argv) > 1 else 300_000
    text, events = round_of()
    rounds = -(-wanted // events)
    script = "waitq 1\n" + text * rounds
    if len(script) > MOST_BYTES or rounds * events > MOST_STEPS:
        most = min((MOST_BYTES - len("waitq 1\n")) // len(text), MOST_STEPS // events) * events
        sys.exit(f"make_script.py: a script has at most {most} events of this kind")
    sys.stdout.write(script)


if __name__ == "__main__":
    main()
