#!/usr/bin/env python3
"""Runs a command and says how long it took, and for how many processor seconds each crate was checked by the commands of the kit that it ran.

    bench/times.py rt ci --anew            the gate from nothing
    bench/times.py taskset -c 0,1 rt ci    the same on two processors
    bench/times.py ./build

Looks at the running processes each second, so that what ends sooner isn't counted. The lines come in the form of the table of
docs/DEVELOPING.md: proofs, proofs of tests, edits that must be refused, and builds.
"""
import collections
import os
import signal
import subprocess
import sys
import time

TICKS = os.sysconf("SC_CLK_TCK")
KINDS = ("proofs", "proofs of tests", "edits", "builds")


def kind_of(words, folder):
    if "/rt-edit-" in folder:
        return "edits"
    if "--test" in words:
        return "proofs of tests"
    # The gate proves a crate by the command that also writes its library.
    return "proofs" if words[1:2] == ["check"] or "--empty-contracts" in words else "builds"


def processes():
    """The running processes: number, parent, processor seconds, words and folder."""
    for number in filter(str.isdigit, os.listdir("/proc")):
        try:
            with open(f"/proc/{number}/stat", encoding="utf-8") as file:
                fields = file.read().rpartition(")")[2].split()
            with open(f"/proc/{number}/cmdline", encoding="utf-8", errors="replace") as file:
                words = file.read().split("\0")
            folder = os.readlink(f"/proc/{number}/cwd")
        except OSError:
            continue
        yield int(number), int(fields[1]), (int(fields[11]) + int(fields[12])) / TICKS, fields[19], words, folder


def below(top, parents):
    """Whether a process was begun by this one."""
    def asks(number):
        while number > 1 and number != top:
            number = parents.get(number, 0)
        return number == top

    return asks


def look(top, spent):
    found = list(processes())
    is_below = below(top, {number: parent for number, parent, *_ in found})
    for number, _, seconds, began, words, folder in found:
        if words and words[0].endswith("/rattle") and is_below(number):
            name = words[words.index("--crate-name") + 1] if "--crate-name" in words else "the kit"
            spent[number, began] = (name, kind_of(words, folder), seconds)


def table(spent):
    sums = collections.defaultdict(lambda: dict.fromkeys(KINDS, 0.0))
    for name, kind, seconds in spent.values():
        sums[name][kind] += seconds
    print("| Crate | Its proofs | Proofs of its tests | Its edits | Builds |\n|---|---|---|---|---|")
    order = sorted(sums.items(), key=lambda item: -sum(item[1].values()))
    whole = dict.fromkeys(KINDS, 0.0)
    for name, row in order:
        for kind in KINDS:
            whole[kind] += row[kind]
        if sum(row.values()) >= 60:
            print(f"| `{name}` | " + " | ".join(f"{row[kind]:.0f}" if row[kind] else "" for kind in KINDS) + " |")
    print("| All | " + " | ".join(f"{whole[kind]:.0f}" for kind in KINDS) + " |")
    return sum(whole.values())


def main():
    if not sys.argv[1:] or sys.argv[1].startswith("-"):
        print(__doc__, file=sys.stderr)
        return 2
    began, spent = time.monotonic(), {}
    running = subprocess.Popen(sys.argv[1:])
    signal.signal(signal.SIGTERM, lambda number, frame: running.terminate())
    while running.poll() is None:
        look(running.pid, spent)
        time.sleep(1)
    minutes = (time.monotonic() - began) / 60
    own = os.times()
    seconds = table(spent)
    print(f"{minutes:.1f} minutes of the clock, {(own.children_user + own.children_system) / 60:.0f} of processors, {seconds / 60:.0f} of them in the table")
    return running.returncode


if __name__ == "__main__":
    sys.exit(main())
