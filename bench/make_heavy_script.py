#!/usr/bin/env python3
"""Writes a heavy replay script: every call in every form, at least as many calls as asked.

usage: make_heavy_script.py [CALLS [SEED]] [--no-bits]        (12000 and 1 if they aren't given)

The script is a row of scenes, drawn from SEED. A crowd is more than 65 entries on one head, which several
walkers walk over at once, stopped at every place, also between two critical sections, or after each other;
strangers are bits and variables that share a head; an interruption is a waiting call that is signalled behind a number of its events;
noise is any call by any task. Each scene ends with waking, stepping and taking off whoever is left. Refused
calls, and steps of tasks that sleep or find a lock held, are part of it. With --no-bits no call of bits and
variables is written. The same CALLS and SEED give the same script.
"""

import sys

# The last task only sets, kicks and resets, and has no call open between two scenes.
ACTORS = range(127)
HELPER = 127
PRIORITY_TASKS = 64
CONDITIONS = 48
SIMPLE = range(48, 64)
COMPLETIONS = 64
WORDS = 128
BITS = 64
VARIABLES = 128
VARIABLE_BASE = 128
HASH = 0x61C8864680B583EB

MOST_BYTES = 1_048_576
MOST_STEPS = 1_000_000

HOWS = ("plain", "int", "kill", "int-ex", "kill-ex")
STATES = ("plain", "int", "kill")
FORMS = ("front", "tail", "prio")

# More steps than a call makes that walks over no crowd, and than one that does.
SHORT = 24
LONG = 400
# How many wakes in a row walk over a crowd that stands.
WAKES = 24
# The entries that one critical section calls before its walk breaks, and the events of such a section whose
# wakes all find a running task: lock, wakes, mark, unlock.
CALLED = 65
TO_BREAK = CALLED + 3


def head_of(number):
    """The head of a number that stands for a bit, 64 * word + bit, or for a variable."""
    return (number * HASH % 2**64) >> 56


class Numbers:
    """SplitMix64: the same numbers in every version of the language."""

    def __init__(self, seed):
        self.state = seed % 2**64

    def word(self):
        self.state = (self.state + 0x9E3779B97F4A7C15) % 2**64
        mixed = self.state
        mixed = (mixed ^ (mixed >> 30)) * 0xBF58476D1CE4E5B9 % 2**64
        mixed = (mixed ^ (mixed >> 27)) * 0x94D049BB133111EB % 2**64
        return mixed ^ (mixed >> 31)

    def below(self, end):
        return self.word() % end

    def between(self, low, high):
        """A number from low to high."""
        return low + self.below(high - low + 1)

    def pick(self, things):
        return things[self.below(len(things))]

    def one_in(self, count):
        return self.below(count) == 0

    def shuffled(self, things):
        things = list(things)
        for last in range(len(things) - 1, 0, -1):
            other = self.below(last + 1)
            things[last], things[other] = things[other], things[last]
        return things


class Script:
    """The lines of a script, and how many bytes, calls and steps they are."""

    def __init__(self):
        self.lines = ["waitq 1\n"]
        self.size = len(self.lines[0])
        self.calls = 0
        self.steps = 0
        # The steps that were asked of a task since its last call.
        self.asked = {}

    def line(self, text):
        self.lines.append(text + "\n")
        self.size += len(text) + 1

    def open(self, task, text):
        self.line(f"call {task} {text}")
        self.calls += 1
        self.asked[task] = 0

    def step(self, task, count):
        self.line(f"step {task} {count}")
        self.steps += count
        self.asked[task] = self.asked.get(task, 0) + count

    def call(self, task, text, count=SHORT):
        """A call and its first steps."""
        self.open(task, text)
        self.step(task, count)


class Scenes:
    def __init__(self, script, numbers, bits):
        self.script = script
        self.numbers = numbers
        self.turn = 0
        self.signalled = set()
        self.standing = set()
        self.interruptions = self.every_interruption(bits)
        # The bits of each head, and its variable, of which no head has two.
        self.bits_of = {}
        for number in range(WORDS * BITS):
            self.bits_of.setdefault(head_of(number), []).append(f"b{number // BITS}.{number % BITS}")
        self.variable_of = {head_of(VARIABLE_BASE + v): f"v{v}" for v in range(VARIABLES)}
        self.shared = sorted(self.variable_of)
        self.bits = bits
        self.plan = [self.crowd, self.bookmarks, self.long_walks, self.simple_queue, self.completion] * 2
        self.plan += [self.interruption] * 8 + [self.noise] * 4
        if bits:
            self.plan += [self.crowd_of_strangers, self.crowd_of_a_variable] * 2 + [self.strangers] * 3

    def next_scene(self):
        self.numbers.pick(self.plan)()

    # Small parts

    def actors(self, count):
        return self.numbers.shuffled(ACTORS)[:count]

    def help(self, text, count=1):
        self.script.call(HELPER, text, count)

    def signal(self, by, whom, kind=None):
        self.signalled.add(whom)
        self.script.call(by, f"signal {whom} {kind or self.numbers.pick(('plain', 'plain', 'fatal'))}", 2)

    def add(self, task, condition, kinds=("default", "woken"), forms=FORMS):
        self.standing.add(task)
        form = self.numbers.pick([form for form in forms if form != "prio" or task < PRIORITY_TASKS])
        self.script.call(task, f"add c{condition} {self.numbers.pick(kinds)} {form}", 3)

    def wake_text(self, condition):
        mode = self.numbers.pick(("normal", "normal", "normal", "int"))
        count = self.numbers.pick((0, 0, 0, 1, 1, 2, 3, self.numbers.between(4, 127)))
        return f"wake c{condition} {mode} {count}"

    def mixed_steps(self, tasks, lines, most):
        """So many lines of some steps, each of one of the tasks, of those whose call goes on if any does."""
        for _ in range(lines):
            going = [task for task in tasks if self.script.asked.get(task, LONG) < SHORT // 2]
            self.script.step(self.numbers.pick(going or tasks), self.numbers.between(1, most))

    def run_out(self, tasks, count=SHORT):
        """Each task goes on as far as it goes, twice, since one may have held what another wants."""
        for _ in range(2):
            for task in self.numbers.shuffled(tasks):
                self.script.step(task, count)

    def take_back(self, tasks):
        """Entries that stand are taken off, and signals taken."""
        for task in tasks:
            if task in self.standing:
                self.script.call(task, "remove", 3)
            if task in self.signalled:
                self.script.call(task, "accept", 1)
        self.standing.difference_update(tasks)
        self.signalled.difference_update(tasks)

    def rouse(self, tasks):
        """Whoever sleeps is kicked, and goes on to the end of a call whose condition is set."""
        for task in tasks:
            self.help(f"kick {task}")
            self.script.step(task, SHORT)

    def release(self, tasks, bits, count=SHORT):
        """The bits are given back by whoever keeps one, and by those who get one then."""
        for _ in range(2):
            for task in tasks:
                self.help(f"kick {task}")
                self.script.step(task, SHORT)
                for bit in bits:
                    self.script.call(task, f"clearbit {bit}", count)

    # Crowds: walks that break

    def crowd(self):
        """Entries of every kind on one wait queue, and walkers stopped anywhere."""
        numbers, script = self.numbers, self.script
        condition = numbers.below(CONDITIONS)
        tasks = self.actors(numbers.between(76, len(ACTORS)))
        walkers, others, members = tasks[:5], tasks[5:8], tasks[8:]
        for task in members:
            if numbers.one_in(2):
                self.add(task, condition)
                if numbers.one_in(3):
                    script.call(task, f"woken {numbers.pick(STATES)}", numbers.between(1, 3))
            else:
                script.call(task, f"wait c{condition} {numbers.pick(HOWS)}", numbers.pick((3, 5, 6, 7, 8, 8, 8, 8)))
        for task in walkers:
            script.call(task, self.wake_text(condition), numbers.between(1, 160))
        for _ in range(10):
            task = numbers.pick(members)
            what = numbers.below(5)
            if what == 0:
                script.call(task, "remove", numbers.between(1, 3))
                self.add(task, condition)
            elif what == 1:
                self.signal(others[0], task)
                script.step(task, SHORT)
            elif what == 2:
                script.call(others[1], f"kick {task}", 1)
                script.step(task, numbers.between(1, 8))
            elif what == 3:
                script.call(others[2], f"set c{condition} {numbers.below(2)}", 1)
            self.mixed_steps(walkers, 2, 40)
        for _ in range(2):
            for task in members:
                script.step(task, SHORT)
            for task in walkers:
                script.step(task, LONG)
        self.help(f"set c{condition} 1")
        script.call(walkers[0], f"wake c{condition} normal 0", LONG)
        for task in members:
            script.step(task, SHORT)
        self.take_back(tasks)
        self.help(f"set c{condition} 0")

    def bookmarks(self):
        """Several bookmarks on one head, also of one place, before no entry, and alone."""
        numbers, script = self.numbers, self.script
        condition = numbers.below(CONDITIONS)
        tasks = self.actors(CALLED + numbers.between(1, 12) + 7)
        walkers, members = tasks[:7], tasks[7:]
        for task in members:
            self.add(task, condition, ("default",), ("front",))
        for task in walkers[:3]:
            script.call(task, f"wake c{condition} normal {numbers.below(3)}", TO_BREAK)
        # The first entries added stand last; without them the further walkers break before bookmarks alone.
        behind = members[:len(members) - CALLED]
        if numbers.one_in(2):
            self.take_back(behind)
        for task in walkers[3:6]:
            steps = numbers.pick((TO_BREAK, TO_BREAK, TO_BREAK + 1, TO_BREAK - 1))
            script.call(task, f"wake c{condition} int 0", steps)
        for task in numbers.shuffled(behind):
            self.take_back([task])
            self.add(task, condition, ("default",), FORMS[:2])
            self.mixed_steps(walkers[:6], 1, 2)
        if numbers.one_in(2):
            for task in walkers[:6]:
                script.step(task, numbers.pick((1, 2, 3, 4, TO_BREAK)))
        else:
            script.step(numbers.pick(walkers[:6]), LONG)
        if numbers.one_in(3):
            script.step(walkers[4], 1)
        self.take_back(members)
        script.call(walkers[6], f"wake c{condition} normal 0", LONG)
        self.run_out(walkers, LONG)
        for task in members:
            script.step(task, 3)
        self.standing.update(members)
        self.take_back(members)

    def long_walks(self):
        """Wakes after each other over entries that stand, while another walk waits behind its bookmark."""
        numbers, script = self.numbers, self.script
        condition = numbers.below(CONDITIONS)
        tasks = self.actors(numbers.between(CALLED + 4, len(ACTORS)))
        stopped, walker, members = tasks[0], tasks[1], tasks[2:]
        for task in members:
            self.add(task, condition, ("default",))
        script.call(stopped, f"wake c{condition} normal 0", TO_BREAK)
        for _ in range(WAKES):
            script.call(walker, f"wake c{condition} {numbers.pick(('normal', 'int'))} {numbers.below(4)}", LONG)
            if numbers.one_in(4):
                moved = numbers.pick(members)
                self.take_back([moved])
                self.add(moved, condition, ("default",))
        self.run_out([stopped], LONG)
        self.take_back(members)

    # Strangers: bits and variables of one head

    def some_waiters(self, waiters, bits, variable, lockers):
        """Waiting calls on one head, of which so many may get a bit: those."""
        numbers, script = self.numbers, self.script
        getting = []
        for task in waiters:
            if len(getting) < lockers and numbers.one_in(4):
                getting.append(task)
                script.open(task, f"lockbit {numbers.pick(bits)} {numbers.pick(STATES)}")
            elif numbers.one_in(2):
                script.open(task, f"waitbit {numbers.pick(bits)} {numbers.pick(STATES)}")
            else:
                script.open(task, f"waitvar {variable} {numbers.pick((0, 0, 0, 1))} {numbers.pick(STATES)}")
            script.step(task, numbers.pick((2, 4, 5, 6, 7, 8, 8, 8, 8, 8)))
        return getting

    def strangers_of_a_head(self):
        """The variable of a head, and three of its bits."""
        head = self.numbers.pick(self.shared)
        return self.variable_of[head], [self.numbers.pick(self.bits_of[head]) for _ in range(3)]

    def hold(self, holders, bits):
        for holder, bit in zip(holders, bits):
            self.script.call(holder, f"trybit {bit}", 1)

    def walk_and_wait(self, rounds, walkers, waiters, other, bits):
        """Steps of walkers and waiters, each with their most steps a line; another signals, and takes bits
        before a walk comes to them."""
        for _ in range(rounds):
            self.mixed_steps(walkers[0], 2, walkers[1])
            self.mixed_steps(waiters[0], 1, waiters[1])
            if self.numbers.one_in(3):
                self.signal(other, self.numbers.pick(waiters[0]))
            if self.numbers.one_in(4):
                self.script.call(other, f"trybit {self.numbers.pick(bits)}", 1)

    def end_strangers(self, variable, bits, keepers, waiters, tasks, count=SHORT):
        self.help(f"setvar {variable} 2", LONG)
        self.release(keepers, bits, count)
        self.rouse(waiters)
        self.take_back(tasks)
        self.help(f"setvar {variable} 0", LONG)

    def strangers(self):
        numbers, script = self.numbers, self.script
        variable, bits = self.strangers_of_a_head()
        tasks = self.actors(numbers.between(14, 24))
        holders, setters, other, waiters = tasks[:3], tasks[3:5], tasks[5], tasks[6:]
        self.hold(holders, bits)
        getting = self.some_waiters(waiters, bits, variable, 6)
        for setter in setters:
            script.open(setter, f"setvar {variable} {numbers.pick((1, 1, 2, numbers.word()))}")
        for holder, bit in zip(holders, bits):
            script.open(holder, f"clearbit {bit}")
        walkers = holders + setters
        self.walk_and_wait(8, (walkers, 5), (waiters, 6), other, bits)
        self.run_out(tasks, 80)
        self.end_strangers(variable, bits, holders + [other] + getting, waiters, tasks)

    def crowd_of_strangers(self):
        """More waiters of several bits and a variable than one critical section calls."""
        numbers, script = self.numbers, self.script
        variable, bits = self.strangers_of_a_head()
        tasks = self.actors(numbers.between(80, len(ACTORS)))
        holders, setters, other, waiters = tasks[:3], tasks[3:6], tasks[6], tasks[7:]
        self.hold(holders, bits)
        getting = self.some_waiters(waiters, bits, variable, 5)
        walkers = holders + setters
        for setter in setters:
            script.call(setter, f"setvar {variable} {numbers.pick((1, 2, 3))}", numbers.between(1, 70))
        for holder, bit in zip(holders, bits):
            script.call(holder, f"clearbit {bit}", numbers.between(1, 70))
        self.walk_and_wait(10, (walkers, 30), (waiters, 8), other, bits)
        for _ in range(2):
            for task in waiters:
                script.step(task, SHORT)
            for task in walkers:
                script.step(task, LONG)
        self.end_strangers(variable, bits, holders + [other] + getting, waiters, tasks, LONG // 2)

    def crowd_of_a_variable(self):
        """A walk that takes off all that it calls, stopped at its break, and others that find its bookmark."""
        numbers, script = self.numbers, self.script
        head = numbers.pick(self.shared)
        variable, bit = self.variable_of[head], numbers.pick(self.bits_of[head])
        tasks = self.actors(CALLED + numbers.between(1, 8) + 4)
        holder, setters, waiters = tasks[0], tasks[1:4], tasks[4:]
        script.call(holder, f"trybit {bit}", 1)
        for task in waiters:
            script.call(task, f"waitvar {variable} 0 {numbers.pick(STATES)}", 8)
        # set, active, lock, a wake and an unqueue each, mark, unlock
        script.call(setters[0], f"setvar {variable} 1", 2 * CALLED + 5)
        for task in waiters[:len(waiters) - CALLED]:
            self.rouse([task])
        script.call(setters[1], f"setvar {variable} 2", numbers.between(2, 6))
        script.call(holder, f"clearbit {bit}", numbers.between(2, 6))
        self.mixed_steps([holder] + setters, 4, 3)
        self.run_out([holder] + setters, LONG)
        script.call(setters[2], f"setvar {variable} 3", LONG)
        for task in waiters:
            script.step(task, SHORT)
        self.release([holder], [bit])
        self.help(f"setvar {variable} 0", LONG)

    # Simple queues and completions

    def simple_queue(self):
        numbers, script = self.numbers, self.script
        condition = numbers.pick(SIMPLE)
        tasks = self.actors(numbers.between(6, 16))
        wakers, other, waiters = tasks[:3], tasks[3], tasks[4:]
        for task in waiters:
            script.call(task, f"swait c{condition} {numbers.pick(STATES[:2])}", numbers.pick((1, 3, 4, 5, 8, 8)))
        for _ in range(5):
            script.open(numbers.pick(wakers), f"swake c{condition} {numbers.pick(('one', 'one', 'all'))}")
            self.mixed_steps(wakers, 3, 3)
            self.mixed_steps(waiters, 3, 4)
            if numbers.one_in(2):
                self.signal(other, numbers.pick(waiters))
            if numbers.one_in(3):
                script.call(other, f"set c{condition} {numbers.below(3)}", 1)
            if numbers.one_in(3):
                script.call(other, f"take c{condition}", 1)
        self.run_out(tasks, 40)
        self.help(f"set c{condition} 1")
        self.help(f"swake c{condition} all", LONG)
        self.run_out(waiters)
        self.take_back(tasks)
        self.help(f"set c{condition} 0")

    def completion(self):
        numbers, script = self.numbers, self.script
        cell = f"d{numbers.below(COMPLETIONS)}"
        tasks = self.actors(numbers.between(7, 16))
        others, waiters = tasks[:4], tasks[4:]
        calls = ("complete", "complete", "complete", "trywait", "trywait", "isdone", "completeall", "reinit")
        for task in waiters:
            script.call(task, f"waitfor {cell} {numbers.pick(STATES)}", numbers.pick((1, 2, 3, 4, 5, 7, 7, 7)))
            if numbers.one_in(6):
                script.call(others[0], f"complete {cell}", numbers.pick((1, 2, 3, 6)))
        for _ in range(8):
            script.open(numbers.pick(others), f"{numbers.pick(calls)} {cell}")
            self.mixed_steps(others, 3, 3)
            self.mixed_steps(waiters, 2, 4)
            if numbers.one_in(3):
                self.signal(others[3], numbers.pick(waiters))
        self.run_out(tasks, 40)
        script.call(others[0], f"completeall {cell}", 60)
        self.run_out(waiters)
        script.call(others[1], f"complete {cell}")
        script.call(others[2], f"isdone {cell}")
        self.help(f"reinit {cell}", 3)
        self.take_back(tasks)

    # Interruptions: a signal behind a number of a waiting call's events

    def every_interruption(self, bits):
        """Each waiting call with each number of events to its sleep and each kind of signal, in some order."""
        waits = [("plain", f"wait c3 {how}") for how in HOWS]
        waits += [("woken", f"woken {state}") for state in STATES]
        waits += [("simple", f"swait c51 {state}") for state in STATES[:2]]
        waits += [("done", f"waitfor d5 {state}") for state in STATES]
        if bits:
            waits += [("bit", f"waitbit b3.7 {state}") for state in STATES]
            waits += [("bit", f"lockbit b3.7 {state}") for state in STATES]
            waits += [("variable", f"waitvar v9 0 {state}") for state in STATES]
        return self.numbers.shuffled([
            (kind, text, events, signal)
            for signal in ("plain", "fatal")
            for kind, text in waits
            for events in range(4 if kind == "woken" else 9)
        ])

    def publish(self, kind, by, holder):
        """The wait's condition is set, and one who waits for it woken."""
        call = self.script.call
        if kind in ("plain", "woken"):
            call(by, "set c3 1", 1)
            call(by, "wake c3 normal 1")
        elif kind == "simple":
            call(by, "set c51 1", 1)
            call(by, "swake c51 one")
        elif kind == "done":
            call(by, "complete d5")
        elif kind == "bit":
            call(holder, "clearbit b3.7")
        else:
            call(by, "setvar v9 1")

    def consume(self, kind, by):
        """Another takes what was published."""
        call = self.script.call
        if kind in ("plain", "woken"):
            call(by, "take c3", 1)
        elif kind == "simple":
            call(by, "take c51", 1)
        elif kind == "done":
            call(by, "trywait d5")
        elif kind == "bit":
            call(by, "trybit b3.7", 1)
        else:
            call(by, "setvar v9 0")

    def interruption(self):
        numbers, script = self.numbers, self.script
        for _ in range(16):
            kind, text, events, signal = self.interruptions[self.turn % len(self.interruptions)]
            self.turn += 1
            other = numbers.pick(("nothing", "wake", "kick", "wake behind", "taken"))
            waiter, by, holder, signaller = self.actors(4)
            if kind == "bit":
                script.call(holder, "trybit b3.7", 1)
            if kind == "woken":
                self.add(waiter, 3, ("woken",))
            script.open(waiter, text)
            if events:
                script.step(waiter, events)
            if other in ("wake", "taken"):
                self.publish(kind, by, holder)
            if other == "kick":
                script.call(by, f"kick {waiter}", 1)
                script.step(waiter, numbers.between(1, 4))
            self.signal(signaller, waiter, signal)
            if other == "wake behind":
                self.publish(kind, by, holder)
            if other == "taken":
                self.consume(kind, signaller)
            for task in (waiter, by, holder, signaller, waiter):
                script.step(task, SHORT)
            if kind == "bit":
                script.call(signaller, "clearbit b3.7")
            self.publish(kind, by, holder)
            script.step(waiter, SHORT)
            self.as_before(kind, waiter)

    def as_before(self, kind, waiter):
        """Nothing is left of an interruption."""
        if kind == "bit":
            self.script.call(waiter, "clearbit b3.7")
        self.take_back([waiter])
        for text in {
            "plain": ("set c3 0",),
            "woken": ("set c3 0",),
            "simple": ("set c51 0",),
            "done": ("reinit d5",),
            "bit": (),
            "variable": ("setvar v9 0",),
        }[kind]:
            self.help(text, 3)

    # Noise: any call by any task

    def any_call(self, task, keeps, condition, simple, cell, bit, variable, whom):
        numbers = self.numbers
        number = numbers.pick((0, 1, 1, 2, numbers.word()))
        texts = [
            f"wait c{condition} {numbers.pick(HOWS)}",
            f"wait c{condition} {numbers.pick(HOWS)}",
            f"set c{numbers.pick((condition, simple))} {number}",
            f"take c{numbers.pick((condition, simple))}",
            f"read c{numbers.pick((condition, simple))}",
            self.wake_text(condition),
            self.wake_text(condition),
            f"add c{condition} {numbers.pick(('default', 'woken'))} {numbers.pick(FORMS)}",
            f"add c{condition} woken {numbers.pick(FORMS)}",
            "remove",
            f"woken {numbers.pick(STATES)}",
            f"woken {numbers.pick(STATES)}",
            f"signal {whom} {numbers.pick(('plain', 'fatal'))}",
            "accept",
            "accept",
            f"kick {whom}",
            f"swait c{simple} {numbers.pick(STATES[:2])}",
            f"swake c{simple} {numbers.pick(('one', 'all'))}",
            f"complete {cell}",
            f"complete {cell}",
            f"completeall {cell}",
            f"reinit {cell}",
            f"waitfor {cell} {numbers.pick(STATES)}",
            f"trywait {cell}",
            f"isdone {cell}",
        ]
        if self.bits:
            # No plain ones: whoever keeps the bit, or waits for a keeper who waits, would sleep for ever.
            texts += [f"waitbit {bit} {numbers.pick(STATES[1:])}", f"clearbit {bit}"]
            texts += [f"waitvar {variable} {number} {numbers.pick(STATES)}", f"setvar {variable} {number}"]
            if keeps:
                texts += [f"trybit {bit}", f"lockbit {bit} {numbers.pick(STATES[1:])}"] * 3
                texts += [f"clearbit {bit}"] * 4
        text = numbers.pick(texts)
        if text.startswith("add"):
            self.standing.add(task)
        if text.startswith("signal"):
            self.signalled.add(whom)
        return text

    def noise(self):
        numbers, script = self.numbers, self.script
        condition, simple, cell = numbers.below(CONDITIONS), numbers.pick(SIMPLE), f"d{numbers.below(COMPLETIONS)}"
        head = numbers.pick(self.shared)
        variable, bits = self.variable_of[head], [numbers.pick(self.bits_of[head]) for _ in range(2)]
        actors = numbers.shuffled(range(PRIORITY_TASKS))[:12]
        keepers = actors[:5]
        for _ in range(120):
            task, whom, bit = numbers.pick(actors), numbers.pick(actors), numbers.pick(bits)
            script.open(task, self.any_call(task, task in keepers, condition, simple, cell, bit, variable, whom))
            script.step(task, numbers.pick((1, 2, 3, 4, 8, 12)))
            self.mixed_steps(actors, 1, 6)
            if numbers.one_in(6):
                # A sleeper of whatever kind goes on, and ends in most cases.
                self.help(numbers.pick((f"set c{condition} 1", f"set c{simple} 1", f"kick {task}")))
                script.step(task, SHORT)
        self.run_out(actors, 60)
        self.help(f"set c{condition} 1")
        self.help(f"set c{simple} 1")
        self.help(f"completeall {cell}", LONG)
        if self.bits:
            self.help(f"setvar {variable} {numbers.word()}", LONG)
            for task in keepers:
                self.signal(HELPER, task, "fatal")
                script.step(task, SHORT)
            self.release(keepers, bits)
        self.rouse(actors)
        self.take_back(actors)
        for text in (f"set c{condition} 0", f"set c{simple} 0", f"reinit {cell}"):
            self.help(text, 3)
        if self.bits:
            self.help(f"setvar {variable} 0", LONG)


def main():
    words = [word for word in sys.argv[1:] if word != "--no-bits"]
    wanted = int(words[0]) if words else 12_000
    seed = int(words[1]) if len(words) > 1 else 1
    script = Script()
    scenes = Scenes(script, Numbers(seed), "--no-bits" not in sys.argv)
    while script.calls < wanted:
        scenes.next_scene()
        if script.size > MOST_BYTES or script.steps > MOST_STEPS:
            sys.exit(f"make_heavy_script.py: too many calls: a script of these has at most about {script.calls}")
    sys.stdout.write("".join(script.lines))


if __name__ == "__main__":
    main()
