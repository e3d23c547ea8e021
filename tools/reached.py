#!/usr/bin/env python3
"""Says how many files of definitions one has to read for a contract: those that its clauses reach by imports.

    tools/reached.py top_answer/src/answering.rt answer [--files]

Counted are files of specs/ and their lines without blanks and comments; types that are declared in code (`specs.declared`) are counted apart.
What a clause reaches by a trait's member, as the meanings of `Exact`, isn't followed: it can be read without.
"""
import os
import re
import sys

CRATES = os.path.join(os.path.dirname(os.path.realpath(__file__)), "..", "crates")


def file_of(module):
    """The file of a module of this repository's definitions, if it is one."""
    parts = module.split(".")
    if len(parts) < 4 or parts[0] != "Rattle" or parts[2] != "specs" or not os.path.isdir(f"{CRATES}/{parts[1]}"):
        return None
    declared = parts[3] == "declared"
    folder, ending, path = ("src", "rt", parts[4:]) if declared else ("specs", "antt", parts[3:])
    for length in range(len(path), 0, -1):
        file = f"{parts[1]}/{folder}/{'/'.join(path[:length])}.{ending}"
        if os.path.isfile(f"{CRATES}/{file}"):
            return file
    return f"{parts[1]}/src/lib.rt" if declared else None


def text_of(file):
    with open(f"{CRATES}/{file}", encoding="utf-8") as it:
        return it.read()


def clauses_of(file, function):
    """The clauses of a function: its text up to its body."""
    found = re.search(rf"^\s*(?:pub(?:\(crate\))? )?fn {function}\b.*?^\{{", text_of(file), re.M | re.S)
    return found[0] if found else sys.exit(f"reached: there is no function {function} in {file}")


def imports_of(file, clauses):
    """The modules of which the clauses name something."""
    for module, names in re.findall(r"^ghost use (Rattle\.[\w.]+)\.\{([^}]*)\};", text_of(file), re.M):
        for name in names.split(","):
            if re.search(rf"(?<![\w.]){re.escape(name.split(' as ')[-1].strip())}(?!\w)", clauses):
                yield module


def reached_from(modules):
    seen, waiting = [], [file_of(module) for module in modules]
    while waiting:
        file = waiting.pop()
        if file and file not in seen:
            seen.append(file)
            if file.endswith(".antt"):
                waiting += map(file_of, re.findall(r"^(?:pub )?use (Rattle\.[A-Za-z_.]+?)(?:\.\{| as |$)", text_of(file), re.M))
    return seen


def lines_of(file):
    return sum(1 for line in text_of(file).split("\n") if line.strip() and not line.lstrip().startswith("--"))


def main():
    words = [word for word in sys.argv[1:] if word != "--files"]
    if len(words) != 2:
        sys.exit(__doc__)
    files = reached_from(imports_of(words[0], clauses_of(*words)))
    stated = sorted((file for file in files if file.endswith(".antt")), key=lines_of, reverse=True)
    if "--files" in sys.argv:
        for file in stated:
            print(f"{lines_of(file):5} {file}")
    print(f"{words[1]}: {len(stated)} files of definitions, {sum(map(lines_of, stated))} lines; {len(files) - len(stated)} files with types")


if __name__ == "__main__":
    main()
