"""Runs a command of rt and tells the processor seconds of each crate's parts: see bench/gate_time.sh.

The processes that the command starts are looked at five times a second. What a process had taken when it was last
seen, with the children that it had waited for, is counted for the crate and the part that its words name; the sum of
all is the system's own, so the table has a line for what was not seen.
"""

import os
import platform
import re
import resource
import signal
import subprocess
import sys
import time

PAUSE = 0.2
TICKS = os.sysconf("SC_CLK_TCK")
PARTS = ("proof", "proof with tests", "first proof of edits", "edits", "programs and runs")
PROOF, TESTS, SEED, EDITS, RUNS = PARTS


def words_of(pid):
    """The words of a process, and the folder that it runs in."""
    with open(f"/proc/{pid}/cmdline", "rb") as file:
        words = file.read().decode(errors="replace").split("\0")[:-1]
    return words, os.readlink(f"/proc/{pid}/cwd")


def behind(words, flag):
    """The word behind a flag, or none."""
    return words[words.index(flag) + 1] if flag in words[:-1] else ""


def part_of(words, folder):
    """The crate and the part of the gate that a process works on, if its words name them."""
    run = next((it for it in words if "/rt-run-" in it and "/bin/" in it), "")
    if run:
        return os.path.basename(run).removesuffix("_tests"), RUNS
    tool = next((at for at, it in enumerate(words) if os.path.basename(it) in ("rattle", "rattle-link")), None)
    if tool is None:
        return None
    if words[tool].endswith("-link"):
        return os.path.basename(folder), RUNS
    crate, verb = behind(words, "--crate-name"), words[tool + 1 : tool + 2]
    if not crate or verb not in (["check"], ["build"]):
        return None
    if "--crate-checked" in words:
        return crate, RUNS
    if os.path.basename(folder).startswith("rt-edit-"):
        return crate, SEED if os.path.basename(behind(words, "--incremental")) == "seed" else EDITS
    return crate, TESTS if "--test" in words else PROOF


def processes():
    """The processes of the system: by its number, the parent of each, when it began, and its times in seconds, its own
    and those of the children that it waited for."""
    found = {}
    for name in os.listdir("/proc"):
        if not name.isdigit():
            continue
        try:
            with open(f"/proc/{name}/stat", encoding="utf-8", errors="replace") as file:
                words = file.read().rpartition(")")[2].split()
        except OSError:
            continue
        times = [int(it) / TICKS for it in words[11:15]]
        found[int(name)] = int(words[1]), int(words[19]), times[0] + times[1], times[2] + times[3]
    return found


class Seen:
    """What was seen of the processes below one."""

    def __init__(self):
        # By the process that its words place, and by the others: the crate and the part, and the seconds.
        self.placed, self.others = {}, {}

    def look(self, top):
        """Looks at all processes below one, from the top down."""
        now, below = processes(), {}
        for pid, (parent, *_) in now.items():
            below.setdefault(parent, []).append(pid)
        left = [top]
        while left:
            pid = left.pop()
            if pid not in now:
                continue
            _, began, own, waited = now[pid]
            place = self.place(pid, began)
            if place:
                self.placed[pid, began] = place, whole(pid, now, below)
            else:
                self.others[pid, began] = own
                left += below.get(pid, [])

    def place(self, pid, began):
        """The crate and the part of a process. It may have got its words since it was last seen."""
        if (pid, began) in self.placed:
            return self.placed[pid, began][0]
        try:
            found = part_of(*words_of(pid))
        except OSError:
            return None
        if found:
            self.others.pop((pid, began), None)
        return found

    def seconds(self):
        """The seconds by crate and part."""
        found = {}
        for place, much in self.placed.values():
            found[place] = found.get(place, 0) + much
        return found


def whole(pid, now, below):
    """The seconds of a process, of those below it, and of all that they waited for."""
    much, left = 0, [pid]
    while left:
        it = left.pop()
        much += now[it][2] + now[it][3]
        left += below.get(it, [])
    return much


def measured(words):
    """Runs the command: what was seen, its status, the wall time, and the processor time that the system tells."""
    began, was = time.monotonic(), resource.getrusage(resource.RUSAGE_CHILDREN)
    ran, seen = subprocess.Popen(words, stdout=sys.stderr), Seen()
    signal.signal(signal.SIGTERM, lambda *_: (ran.terminate(), sys.exit(143)))
    while ran.poll() is None:
        seen.look(ran.pid)
        time.sleep(PAUSE)
    told = resource.getrusage(resource.RUSAGE_CHILDREN)
    exact = told.ru_utime + told.ru_stime - was.ru_utime - was.ru_stime
    return seen, ran.returncode, time.monotonic() - began, exact


def order(crates):
    """The crates as crates.txt lists them."""
    with open("crates.txt", encoding="utf-8") as file:
        listed = [line.split(":")[0].split()[0] for line in file if ":" in line.partition("#")[0]]
    return sorted(crates, key=lambda it: (listed.index(it) if it in listed else len(listed), it))


def row(name, cells):
    """A line of the table."""
    print(f"| {name} | " + " | ".join(cells) + " |")


def table(seen, exact):
    """Prints the table."""
    found = seen.seconds()
    shown = lambda much: f"{much:,.0f}" if much >= 0.5 else ""
    row("processor seconds", [*PARTS, "sum"])
    print("|---" * (len(PARTS) + 2) + "|")
    for crate in order({crate for crate, _ in found}):
        cells = [found.get((crate, part), 0) for part in PARTS]
        row(f"`{crate}`", map(shown, [*cells, sum(cells)]))
    sums = [sum(much for (_, of), much in found.items() if of == part) for part in PARTS]
    row("all crates", map(shown, [*sums, sum(sums)]))
    others = sum(seen.others.values())
    for name, much in (("`rt` itself", others), ("not seen", exact - others - sum(sums)), ("whole", exact)):
        row(name, [*[""] * len(PARTS), f"{much:,.0f}"])


def machine():
    """The processor's name, the processors that the command could use, and the system."""
    with open("/proc/cpuinfo", encoding="utf-8") as file:
        model = re.search(r"^model name\s*:\s*(.*)$", file.read(), re.M)
    kit = subprocess.run(["rt", "version"], capture_output=True, text=True, check=False).stdout.strip()
    number = len(os.sched_getaffinity(0))
    return f"{model[1] if model else platform.machine()}, {number} processors; Linux {platform.release()}; `{kit}`"


def main():
    words = sys.argv[1:]
    seen, status, wall, exact = measured(words)
    load = os.getloadavg()[2]
    table(seen, exact)
    print(f"\n`{' '.join(words)}`: {wall / 60:.1f} minutes, {exact / 60:.1f} minutes of a processor; status {status}.")
    print(f"\n*{machine()}; {time.strftime('%-d %B %Y')}; commit {os.environ.get('COMMIT', '')}; load {load:.1f}.*")
    sys.exit(status if status >= 0 else 128 - status)


if __name__ == "__main__":
    main()
