#!/usr/bin/env python3
"""A second reading of the drill, in Python: the script of a seed, and the summary of its replay.

usage: drill_reference.py SEED COUNT             the summary, as `waitq drill SEED COUNT` writes it
       drill_reference.py --script SEED COUNT    the script, as `waitq replay` reads it
       drill_reference.py --text SEED COUNT      the text of the script, as `waitq replay` writes it

It was written from docs/MODEL.md, and not from the program. It knows just the calls that are drawn: wait, set, wake,
take, signal and accept, on plain conditions with full queues. Its queues are lists of tasks: places, words and
bookmarks are not kept. That is right while a hold calls at most 64 entries, which it asserts; only 16 tasks make calls.
"""

import sys

WORD = 2**64
CALLERS = 16
TASKS = 128
STEPS = 40
MOST_CALLS = 20_000

# States, with the bits that a wake's mask meets.
RUNNING, INTERRUPTIBLE, UNINTERRUPTIBLE = 0, 1, 2
NORMAL = INTERRUPTIBLE | UNINTERRUPTIBLE
STATES = {RUNNING: "run", INTERRUPTIBLE: "int", UNINTERRUPTIBLE: "unint"}

# Refused openings: a call is open, the own entry is queued.
CALL_OPEN, ENTRY_QUEUED = 2, 5

FIRST_HEAD = 256


def splitmix64(seed):
    """The words of a SplitMix64 generator whose state is the seed."""
    state = seed
    while True:
        state = (state + 0x9E3779B97F4A7C15) % WORD
        word = state
        word = (word ^ (word >> 30)) * 0xBF58476D1CE4E5B9 % WORD
        word = (word ^ (word >> 27)) * 0x94D049BB133111EB % WORD
        yield word ^ (word >> 31)


def drawn(word):
    """The task and the call, as words, that a word of the generator draws."""
    task, kind = word % 16, word // 16 % 8
    condition, whom = word // 128 % 4, word // 512 % 16
    call = [
        ("wait", condition, "plain"),
        ("wait", condition, "int"),
        ("wait", condition, "int-ex"),
        ("set", condition, 1),
        ("wake", condition, "normal", 0),
        ("take", condition),
        ("signal", whom, "plain"),
        ("accept",),
    ][kind]
    return task, call


def calls(seed, count):
    """The tasks and calls of a seed's script."""
    words = splitmix64(seed)
    return [drawn(next(words)) for _ in range(count)]


def yes(test):
    return "yes" if test else "no"


class Task:
    """A task: its state, its signal, the head in whose queue its entry is, and the program of its open call."""

    def __init__(self):
        self.state = RUNNING
        self.runnable = True
        self.signal = False
        self.queued = None
        self.how = None
        self.called = False
        self.program = None
        self.locks = None


class Domain:
    """The conditions, their locks and queues, the tasks, and the lines that a replay writes."""

    def __init__(self):
        self.tasks = [Task() for _ in range(TASKS)]
        self.value = [0] * 4
        self.holder = [None] * 4
        self.queue = [[] for _ in range(4)]
        self.events = 0
        self.refused = 0
        self.lines = []

    def say(self, me, text):
        self.lines.append(f"t{me} {text}\n")

    # A call's program. What stands between two of its yields is one event, and a yield comes just before its event: it
    # names the head whose lock the event takes, if it takes one. A program returns its answer.

    def lock(self, me, head):
        yield head
        self.holder[head] = me
        self.say(me, f"lock h{FIRST_HEAD + head}")

    def unlock(self, me, head):
        yield
        self.holder[head] = None
        self.say(me, f"unlock h{FIRST_HEAD + head}")

    def load(self, me, condition):
        yield
        self.say(me, f"load c{condition} {self.value[condition]}")
        return self.value[condition] != 0

    def store_state(self, me, state):
        yield
        self.tasks[me].state = state
        self.say(me, f"state {STATES[state]}")

    def wake_task(self, me, who, mask):
        """Whether the task's state met the mask."""
        yield
        task = self.tasks[who]
        hit = task.state & mask != 0
        if hit:
            task.state, task.runnable = RUNNING, True
        self.say(me, f"wake t{who} {yes(hit)}")
        return hit

    def enqueue(self, me, head, exclusive):
        """Not exclusive at the front, exclusive at the tail."""
        yield
        self.tasks[me].queued = head
        self.queue[head].insert(len(self.queue[head]) if exclusive else 0, me)
        self.say(me, f"queue h{FIRST_HEAD + head} {'tail' if exclusive else 'front'}")

    def take_off(self, me, who):
        yield
        task = self.tasks[who]
        self.queue[task.queued].remove(who)
        task.queued = None
        self.say(me, f"unqueue t{who}")

    def look(self, me):
        yield
        self.say(me, f"look {yes(self.tasks[me].signal)}")
        return self.tasks[me].signal

    def sleep(self, me):
        yield
        task = self.tasks[me]
        if task.state == RUNNING:
            self.say(me, "sleep stay")
        elif task.state == INTERRUPTIBLE and task.signal:
            task.state = RUNNING
            self.say(me, "sleep signal")
        else:
            task.runnable = False
            self.say(me, "sleep asleep")

    def finish(self, me, head):
        """The end of a wait whose condition was set."""
        yield from self.store_state(me, RUNNING)
        yield
        queued = self.tasks[me].queued is not None
        self.say(me, f"queued {yes(queued)}")
        if queued:
            yield from self.lock(me, head)
            if self.tasks[me].queued is not None:
                yield from self.take_off(me, me)
            yield from self.unlock(me, head)
        return "0"

    def leave(self, me, head):
        """The end of a wait that found a signal."""
        if self.tasks[me].queued is not None:
            yield from self.take_off(me, me)
        yield from self.unlock(me, head)
        if (yield from self.load(me, head)):
            return (yield from self.finish(me, head))
        return "-512"

    def wait(self, me, head, how):
        state = UNINTERRUPTIBLE if how == "plain" else INTERRUPTIBLE
        if (yield from self.load(me, head)):
            return "0"
        while True:
            yield from self.lock(me, head)
            if state == INTERRUPTIBLE and (yield from self.look(me)):
                return (yield from self.leave(me, head))
            if self.tasks[me].queued is None:
                yield from self.enqueue(me, head, how == "int-ex")
            yield from self.store_state(me, state)
            yield from self.unlock(me, head)
            if (yield from self.load(me, head)):
                return (yield from self.finish(me, head))
            yield from self.sleep(me)

    def wake(self, me, head, _mode, _count):
        """A wake of all: the function of each entry wakes its task, and takes the entry off where that answered yes."""
        woken = selected = 0
        yield from self.lock(me, head)
        entries = list(self.queue[head])
        assert len(entries) <= 64
        for who in entries:
            if (yield from self.wake_task(me, who, NORMAL)):
                woken += 1
                selected += self.is_exclusive(who)
                yield from self.take_off(me, who)
        yield from self.unlock(me, head)
        return f"woken {woken} selected {selected} holds 1 end"

    def is_exclusive(self, who):
        """Whether the entry of a task is: its wait tells."""
        return self.tasks[who].how == "int-ex"

    def set(self, me, condition, value):
        yield
        self.value[condition] = value
        self.say(me, f"set c{condition} {value}")
        return "0"

    def take(self, me, condition):
        yield
        found, self.value[condition] = self.value[condition], 0
        self.say(me, f"take c{condition} {found}")
        return str(found)

    def signal(self, me, who, form):
        yield
        self.tasks[who].signal = True
        self.say(me, f"signal t{who} {form}")
        yield from self.wake_task(me, who, INTERRUPTIBLE)
        return "0"

    def accept(self, me):
        yield
        found, self.tasks[me].signal = self.tasks[me].signal, False
        self.say(me, f"accept {'plain' if found else 'none'}")
        return str(int(found))

    # Lines of a script.

    def open(self, me, call):
        """Opens a call, unless the task has one open, or would queue an entry that is queued."""
        task = self.tasks[me]
        name, *numbers = call
        why = CALL_OPEN if task.program else ENTRY_QUEUED if name == "wait" and task.queued is not None else None
        if why is not None:
            self.refused += 1
            self.say(me, f"refused {why}")
            return
        if name == "wait":
            task.how = numbers[1]
        task.called = True
        task.program = getattr(self, name)(me, *numbers)
        task.locks = next(task.program)

    def step(self, me):
        """Makes the task's next event, if it can make one. Answers whether the line goes on."""
        task = self.tasks[me]
        if task.program is None:
            self.say(me, "nocall")
            return False
        if not task.runnable:
            self.say(me, "asleep")
            return False
        if task.locks is not None and self.holder[task.locks] is not None:
            self.say(me, f"busy h{FIRST_HEAD + task.locks}")
            return False
        self.events += 1
        try:
            task.locks = next(task.program)
        except StopIteration as end:
            task.program = None
            self.say(me, f"= {end.value}")
            return False
        return task.runnable

    def steps(self, me):
        """Up to so many steps of a task: fewer where its call ends, where it sleeps, or where it can make no event."""
        for _ in range(STEPS):
            if not self.step(me):
                return

    def asleep(self):
        return sum(not task.runnable for task in self.tasks)

    def end_lines(self):
        """The lines at the end of a replay's text."""
        yield f"events {self.events}\n"
        for number, task in enumerate(self.tasks):
            if task.called:
                act = "idle" if task.program is None else "open" if task.runnable else "asleep"
                yield f"task {number} {STATES[task.state]} {'plain' if task.signal else 'none'} {act}\n"
        for head, queue in enumerate(self.queue):
            if queue:
                yield f"head h{FIRST_HEAD + head} {' '.join(f't{who}' for who in queue)}\n"
        for condition, value in enumerate(self.value):
            if value:
                yield f"word c{condition} {value}\n"
        yield "end\n"


def replayed(seed, count):
    """The domain behind a seed's script."""
    domain = Domain()
    for task, call in calls(seed, count):
        domain.open(task, call)
        domain.steps(task)
    return domain


def line_text(task, call):
    """The lines of a call and its steps."""
    name, *numbers = call
    words = [str(number) for number in numbers]
    if name in ("wait", "set", "wake", "take"):
        words[0] = "c" + words[0]
    return f"call {' '.join([str(task), name, *words])}\nstep {task} {STEPS}\n"


def script(seed, count):
    """The script as text."""
    return "waitq 1\n" + "".join(line_text(task, call) for task, call in calls(seed, count))


def text(seed, count):
    """The text of the script's replay."""
    domain = replayed(seed, count)
    return "".join([*domain.lines, *domain.end_lines()])


def summary(seed, count):
    """The summary as text."""
    domain = replayed(seed, count)
    return (
        f"drill {seed} {count}\nevents {domain.events}\nrefused {domain.refused}\nasleep {domain.asleep()}\nend\n"
    )


def main():
    words = sys.argv[1:]
    says = summary
    if words and words[0] in ("--script", "--text"):
        says = script if words[0] == "--script" else text
        words = words[1:]
    if len(words) != 2 or not all(word.isascii() and word.isdigit() and str(int(word)) == word for word in words):
        sys.exit("usage: drill_reference.py [--script | --text] SEED COUNT")
    seed, count = map(int, words)
    if seed >= WORD or count > MOST_CALLS:
        sys.exit(f"drill_reference.py: SEED is below 2^64, and COUNT at most {MOST_CALLS}")
    sys.stdout.write(says(seed, count))


if __name__ == "__main__":
    main()
