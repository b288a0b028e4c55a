#!/usr/bin/env python3
"""Runs a command of the kit, as the gate, and prints the processor minutes of each crate.

    scripts/gate_minutes.py              runs `rt ci`
    scripts/gate_minutes.py rt check     any other command that checks crates

It stands at the top of the repository, and reads crates.txt for the chains of crates. Each half second it asks the system (Linux, /proc) which
checks run below the command, and how much processor time each has taken. What a check takes after the last such look is not seen: the last line says how
much of the whole was.
"""
import collections
import os
import resource
import subprocess
import sys
import time

TICK = os.sysconf("SC_CLK_TCK")
KINDS = ("proofs", "tests", "edits")


def processes():
    """Yields of each process its number, its parent's, and its processor seconds."""
    for name in filter(str.isdigit, os.listdir("/proc")):
        try:
            with open(f"/proc/{name}/stat", encoding="utf-8", errors="replace") as stat:
                fields = stat.read().rpartition(")")[2].split()
        except OSError:
            continue
        yield int(name), int(fields[1]), (int(fields[11]) + int(fields[12])) / TICK


def check_of(process):
    """Returns the crate that a process checks, and what of it, if it is a check."""
    try:
        with open(f"/proc/{process}/cmdline", encoding="utf-8", errors="replace") as words:
            words = words.read().split("\0")
        folder = os.readlink(f"/proc/{process}/cwd")
    except OSError:
        return None
    if "--crate-name" not in words:
        return None
    crate = words[words.index("--crate-name") + 1]
    if os.path.basename(folder).startswith("rt-edit"):
        return crate, "edits"
    return crate, "tests" if "--test" in words else "proofs"


def measured(command):
    """Runs the command, and returns its exit status and the processor seconds of each crate and kind of check."""
    run = subprocess.Popen(command)
    checks, seconds = {}, {}
    while run.poll() is None:
        parents, taken = {}, {}
        for process, parent, spent in processes():
            parents[process], taken[process] = parent, spent
        for process, spent in taken.items():
            above = process
            while above in parents and above != run.pid:
                above = parents[above]
            if above != run.pid:
                continue
            if process not in checks:
                checks[process] = check_of(process)
            if checks[process]:
                # (a number is given again only after many thousand processes)
                seconds[process, checks[process]] = spent
        time.sleep(0.5)
    sums = collections.Counter()
    for (_, check), spent in seconds.items():
        sums[check] += spent
    return run.returncode, sums


def crates():
    """Returns of each crate the crates of the repository that it stands on."""
    below = {}
    with open("crates.txt", encoding="utf-8") as lines:
        for line in lines:
            name, found, rest = line.partition("#")[0].partition(":")
            if found:
                below[name.split()[0]] = rest.split()
    return {name: [it for it in deps if it in below] for name, deps in below.items()}


def longest(below, minutes):
    """Returns the chain of crates, each proved only after the one before, that takes longest, and its minutes."""
    chains = {}

    def chain(name):
        if name not in chains:
            first = max((chain(it) for it in below[name]), default=(0, []))
            chains[name] = (first[0] + minutes(name), first[1] + [name])
        return chains[name]

    return max((chain(name) for name in below), default=(0, []))


def main():
    status, sums = measured(sys.argv[1:] or ["rt", "ci"])
    below = crates()
    print(f"\n{'processor minutes':<20}" + "".join(f"{kind:>9}" for kind in KINDS) + f"{'all':>9}")
    for name in sorted(below, key=lambda it: -sum(sums[it, kind] for kind in KINDS)):
        of = [sums[name, kind] / 60 for kind in KINDS]
        if any(of):
            print(f"{name:<20}" + "".join(f"{it:9.1f}" for it in of) + f"{sum(of):9.1f}")
    of = [sum(sums[name, kind] for name in below) / 60 for kind in KINDS]
    print(f"{'all':<20}" + "".join(f"{it:9.1f}" for it in of) + f"{sum(of):9.1f}")
    minutes, chain = longest(below, lambda name: sums[name, "proofs"] / 60)
    print(f"longest chain of proofs: {minutes:.1f} minutes, {' '.join(chain)}")
    used = resource.getrusage(resource.RUSAGE_CHILDREN)
    print(f"of {(used.ru_utime + used.ru_stime) / 60:.1f} processor minutes that the command took, {sum(of):.1f} were seen in checks")
    sys.exit(status)


main()
