#!/usr/bin/env python3
"""Whether another checkout's programs answer as this one's: for a change that is to leave the output of programs as it was.

    bench/same_bytes.py OTHER     OTHER is the top of a checkout of the program before the change

Runs `./tmpl` and `./tmpl_acsl` of both, proved or not, and compares bytes, messages and exit codes: for each text of examples/ and each
text of a program in the tables of tests, the report over three domains, the points, the certificate, its check, and the annotated text.
"""
import os
import re
import subprocess
import sys
import tempfile
from concurrent.futures import ThreadPoolExecutor

TOP = os.path.dirname(os.path.dirname(os.path.realpath(__file__)))
# What a run may take, in seconds: the sources as they are check each access of memory.
SECONDS = 60
LINES = (
    ["tmpl", "solve", "FILE"],
    ["tmpl", "solve", "FILE", "--domain", "zones"],
    ["tmpl", "solve", "FILE", "--domain", "octagons"],
    ["tmpl", "solve", "FILE", "--policy", "first", "--improvements", "3"],
    ["tmpl", "certify", "FILE", "--domain", "zones"],
    ["tmpl", "points", "FILE"],
    ["tmpl_acsl", "FILE", "--domain", "zones"],
)


def texts():
    """The texts of programs, without repetition."""
    found = {}
    for name in sorted(os.listdir(f"{TOP}/examples")):
        if name.endswith(".c"):
            with open(f"{TOP}/examples/{name}", "rb") as file:
                found[file.read()] = name
    for folder, _, files in os.walk(f"{TOP}/crates"):
        if re.search(r"/crates/test_\w+/src", folder):
            for name in sorted(files):
                with open(f"{folder}/{name}", encoding="utf-8") as file:
                    for literal in re.findall(r'"((?:[^"\\]|\\.)*int main(?:[^"\\]|\\.)*)"', file.read()):
                        text = re.sub(r"\\\n\s*", "", literal)
                        text = text.replace("\\n", "\n").replace("\\t", "\t").replace('\\"', '"').replace("\\\\", "\\")
                        found.setdefault(text.encode(), name)
    return found


def answer(top, words, seconds=SECONDS):
    """Standard output, standard error and status; None where it takes longer than so many seconds."""
    try:
        ran = subprocess.run([f"{top}/{words[0]}", *words[1:]], capture_output=True, timeout=seconds, check=False)
    except subprocess.TimeoutExpired:
        return None
    said = re.sub(rb"[^\n]*not proved on this machine[^\n]*\n", b"", ran.stderr)
    return ran.stdout, said, ran.returncode


def compared(task):
    """The words where both programs answer differently, and whether both answered in time."""
    other, words = task
    ours, theirs = answer(TOP, words), answer(other, words)
    if ours is None or theirs is None:
        return None, False
    return (words if ours != theirs else None), True


def main():
    if len(sys.argv) != 2 or not os.path.isfile(f"{sys.argv[1]}/tmpl"):
        print(__doc__, file=sys.stderr)
        return 2
    other = os.path.realpath(sys.argv[1])
    with tempfile.TemporaryDirectory() as room:
        tasks = []
        for number, text in enumerate(texts()):
            file = f"{room}/{number}.c"
            with open(file, "wb") as it:
                it.write(text)
            tasks += [(other, [file if word == "FILE" else word for word in line]) for line in LINES]
        # Each program is made once before the others run: cut off, it would be made by all of them at a time.
        for program in ("tmpl", "tmpl_acsl"):
            for top in (TOP, other):
                answer(top, [program], None)
        with ThreadPoolExecutor(os.cpu_count()) as pool:
            done = list(pool.map(compared, tasks))
        for words, _ in done:
            if words:
                with open(next(it for it in words if it.endswith(".c")), encoding="utf-8", errors="replace") as file:
                    print(f"differs: {' '.join(words)}\n{file.read()}")
    differing = sum(1 for words, _ in done if words)
    late = sum(1 for _, was_in_time in done if not was_in_time)
    print(f"{len(done)} command lines, {differing} differ, {late} took too long in one of the programs")
    return 1 if differing else 0


if __name__ == "__main__":
    sys.exit(main())
