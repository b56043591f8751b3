#!/usr/bin/env python3
"""Runs a command, as `rt ci`, and writes into a file what it cost to prove each crate, its tests and each of its must-fail edits.

    python3 tools/costs.py FILE rt ci

The command's output and status are passed on. Costs are seconds of processor time, read once a second off the processes
that the command starts, so each is up to a second too low. What an earlier run has kept costs nothing and is not listed.
"""

import collections
import os
import re
import subprocess
import sys
import threading
import time

TICK = os.sysconf("SC_CLK_TCK")


def processes():
    """Gives for each process its parent, its processor seconds and its words."""
    for name in os.listdir("/proc"):
        if not name.isdigit():
            continue
        try:
            with open(f"/proc/{name}/stat", encoding="utf-8", errors="replace") as stat:
                fields = stat.read().rpartition(")")[2].split()
            with open(f"/proc/{name}/cmdline", "rb") as line:
                words = line.read().decode(errors="replace").split("\0")
        except (OSError, ValueError):
            continue
        # Behind the name in brackets: state, parent, .., user time as the 12th and system time as the 13th.
        yield int(name), int(fields[1]), (int(fields[11]) + int(fields[12])) / TICK, words


def after(words, option):
    """The word after an option, or nothing."""
    return words[words.index(option) + 1] if option in words[:-1] else ""


def what(words):
    """What a process proves: a crate, its tests, or an edit by its number in the crate; nothing for any other process."""
    crate = after(words, "--crate-name")
    if not crate or not words[0].endswith("rattle"):
        return None
    over = re.search(r"/rt-edits-\d+-\w+/(\w+)$", after(words, "--incremental"))
    if over:
        return crate, ("edits begin", 0) if over[1] == "seed" else ("edit", int(over[1]))
    return crate, ("tests" if "--test" in words else "crate", 0)


class Costs:
    """Processor seconds by what they were spent on."""

    def __init__(self):
        self.of_process = {}

    def sample(self, root):
        parents, found = {}, {}
        for pid, parent, seconds, words in processes():
            parents[pid] = parent
            found[pid] = (seconds, words)
        for pid, (seconds, words) in found.items():
            above = pid
            while above in parents and above != root:
                above = parents[above]
            name = what(words) if above == root else None
            if name:
                self.of_process[pid, name] = max(seconds, self.of_process.get((pid, name), 0))

    def by_name(self):
        sums = collections.Counter()
        for (_, name), seconds in self.of_process.items():
            sums[name] += seconds
        return sums


def edit_names(crate):
    """The edits of a crate in the order in which they are numbered."""
    folder = f"crates/{crate}/must-fail"
    names = os.listdir(folder) if os.path.isdir(folder) else []
    return sorted(name for name in names if name.endswith(".edit"))


def table(sums):
    """Lines with the cost of each crate, of its tests and of its edits, the dearest crates first, and then of each edit."""
    crates = collections.defaultdict(dict)
    for (crate, part), seconds in sums.items():
        crates[crate][part] = seconds
    whole = lambda parts: sum(parts.values())
    yield f"{'crate':<12}{'proof':>8}{'tests':>8}{'edits':>8}{'sum':>8}   (seconds of processor time)"
    for crate, parts in sorted(crates.items(), key=lambda it: -whole(it[1])):
        edits = sum(seconds for (kind, _), seconds in parts.items() if kind.startswith("edit"))
        proof, tests = parts.get(("crate", 0), 0), parts.get(("tests", 0), 0)
        yield f"{crate:<12}{proof:>8.0f}{tests:>8.0f}{edits:>8.0f}{whole(parts):>8.0f}"
    yield f"{'all':<12}{sum(map(whole, crates.values())) / 60:>32.1f}   (minutes)"
    for crate, parts in sorted(crates.items()):
        names = edit_names(crate)
        for (kind, number), seconds in sorted(parts.items()):
            if kind == "edit":
                yield f"  {seconds:>4.0f}  {crate}/{names[number] if number < len(names) else number}"


def main():
    file, command = sys.argv[1], sys.argv[2:]
    run = subprocess.Popen(command)
    costs, ended = Costs(), threading.Event()

    def watch():
        while not ended.wait(1):
            costs.sample(run.pid)

    watcher = threading.Thread(target=watch, daemon=True)
    watcher.start()
    started = time.monotonic()
    status = run.wait()
    minutes = (time.monotonic() - started) / 60
    ended.set()
    watcher.join()
    with open(file, "w", encoding="utf-8") as out:
        print(f"{' '.join(command)} took {minutes:.1f} minutes on {len(os.sched_getaffinity(0))} processors", file=out)
        for line in table(costs.by_name()):
            print(line, file=out)
    return status


sys.exit(main())
