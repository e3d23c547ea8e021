#!/usr/bin/env python3
"""Says which functions of a crate take long to check.

    bench/slow_functions.py CRATE..               the twenty slowest functions of each crate
    bench/slow_functions.py --most 5 CRATE..      the five slowest
    bench/slow_functions.py --above 10 CRATE..    those that take more than ten seconds
    bench/slow_functions.py --live CRATE..        prints each as it is checked, besides

Runs `rt check --jobs 1` from nothing in a copy of the tree that is removed in the end. A line is added to the crate's root file there,
since rt would else begin with what was kept of the same text elsewhere on this machine. The copy has the libraries that are built in the
tree; a library below the crate that is not built there, or of another text, is built first by rt and counts nothing.

A function's seconds are those that the checker's processes spent on the processor between the line that says that the function before was
checked and its own: they hold the lemma files and the types that it is the first to need, so that a short function with many seconds
tells of those. The first line's seconds hold the loading of the libraries; what is spent behind the last function is given apart. Other
work on the machine lengthens them by a fifth or so, where processors share a core. This is for those who work on proofs, and no part of
the gate.
"""
import argparse
import os
import re
import shutil
import subprocess
import sys
import tempfile

TOP = os.path.dirname(os.path.dirname(os.path.abspath(__file__)))
TICKS = os.sysconf("SC_CLK_TCK")
CHECKED = re.compile(r"checked (\S+), (\d+) of (\d+)")


def copy_of_tree(to):
    """Copies the crates with their built libraries, which are linked and not copied, and without other work that rt keeps."""
    for name in ("crates.txt", "HANDLES"):
        shutil.copy(f"{TOP}/{name}", to)
    for name in sorted(os.listdir(f"{TOP}/crates")):
        folder = f"{TOP}/crates/{name}"
        shutil.copytree(folder, f"{to}/crates/{name}", ignore=shutil.ignore_patterns("out"))
        if os.path.isdir(f"{folder}/out/rlib"):
            shutil.copytree(f"{folder}/out/rlib", f"{to}/crates/{name}/out/rlib", copy_function=os.link)


def forget(crate, folder):
    """Leaves the check of the crate nothing to begin with: rt would else take what was kept of the same text elsewhere on this machine."""
    top = f"{folder}/crates/{crate}"
    shutil.rmtree(f"{top}/out", ignore_errors=True)
    os.makedirs(f"{top}/out/incremental")
    root = next(it for it in (f"{top}/src/lib.rt", f"{top}/src/main.rt") if os.path.isfile(it))
    with open(root, "a", encoding="utf-8") as file:
        file.write(f"\n// {folder}\n")


def children_of(number):
    try:
        with open(f"/proc/{number}/task/{number}/children", encoding="utf-8") as file:
            return [int(word) for word in file.read().split()]
    except OSError:
        return []


def processor_seconds(number, crate):
    """The processor seconds of the checker of this crate, and of copies of it that it made, among the processes that this one began."""
    spent = 0.0
    for child in children_of(number):
        spent += processor_seconds(child, crate)
        try:
            with open(f"/proc/{child}/cmdline", encoding="utf-8", errors="replace") as file:
                words = file.read().split("\0")
            with open(f"/proc/{child}/stat", encoding="utf-8") as file:
                fields = file.read().rpartition(")")[2].split()
        except OSError:
            continue
        if words[0].endswith("/rattle") and words[1] == "check" and crate in words:
            spent += sum(map(int, fields[11:15])) / TICKS
    return spent


def times_of(crate, folder, is_live):
    """The functions with their seconds, the seconds behind the last, those of the whole check, and whether the crate is proved."""
    command = ["rt", "check", "--jobs", "1"]
    how = {"cwd": f"{folder}/crates/{crate}", "stdout": subprocess.PIPE, "stderr": subprocess.STDOUT, "text": True}
    running = subprocess.Popen(command, **how)
    found, before, is_proved, latest = [], 0.0, False, 0.0
    for line in running.stdout:
        latest = max(latest, processor_seconds(running.pid, crate))
        checked = CHECKED.search(line)
        if checked and checked[1].partition("::")[0] == crate:
            found.append((latest - before, checked[1]))
            if is_live:
                print(f"{latest - before:7.1f}  {checked[1]}, {checked[2]} of {checked[3]}, at {latest:.0f}", flush=True)
            before = latest
        elif "error" in line or line.startswith(("fn ", "rt:")) and "proved" in line and "not" in line:
            print(line, end="", file=sys.stderr)
        is_proved = is_proved or line.startswith("logic=proved")
    running.wait()
    return found, latest - before, latest, is_proved


def main():
    asked = argparse.ArgumentParser(description=__doc__, formatter_class=argparse.RawDescriptionHelpFormatter)
    asked.add_argument("crates", nargs="+", metavar="CRATE")
    asked.add_argument("--most", type=int, default=20, help="how many functions are printed")
    asked.add_argument("--above", type=float, metavar="SECONDS", help="print all functions that take more")
    asked.add_argument("--live", action="store_true", help="print each function as it is checked")
    given, status = asked.parse_args(), 0
    for crate in given.crates:
        if not os.path.isdir(f"{TOP}/crates/{crate}"):
            asked.error(f"no crate {crate}")
    with tempfile.TemporaryDirectory(prefix="slow_functions-") as folder:
        copy_of_tree(folder)
        for crate in given.crates:
            forget(crate, folder)
            found, rest, whole, is_proved = times_of(crate, folder, given.live)
            slowest = sorted(found, reverse=True)
            chosen = slowest[: given.most] if given.above is None else [it for it in slowest if it[0] > given.above]
            for seconds, name in chosen:
                print(f"{seconds:7.1f}  {name}")
            ending = "" if is_proved else ", not proved"
            print(f"{whole:7.1f}  {crate}, {len(found)} functions, {rest:.1f} behind the last{ending}", flush=True)
            status |= not is_proved
    return status


if __name__ == "__main__":
    sys.exit(main())
