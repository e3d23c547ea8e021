"""Writes programs of the language that are made at random: blocks, loops of each kind, jumps, labels and declarations anywhere; and
functions of many variables.

    bench/programs.py FOLDER FIRST LAST
    bench/programs.py FOLDER wide

The program of each seed from FIRST to LAST goes to FOLDER/rSEED.c. A label stands before a statement, as C wants it. With `wide`, of 8, 16,
32 and 64 variables a loop that counts all of them goes to FOLDER/countN.c, one with a branch for each variable but the first, each
behind a label, to FOLDER/branchN.c, and a loop with a branch for each four of them, one behind the other, to FOLDER/groupN.c.
"""

import os
import random
import sys

LAST_VARIABLE = 4
DEPTH = 3


class Writer:
    def __init__(self, seed):
        self.random = random.Random(seed)
        self.variables = 0
        self.labels = 0

    def chance(self, probability):
        return self.random.random() < probability

    def term(self, name):
        factor = self.random.choice(["", "", "", "-", "2*"])
        return factor + name

    def form(self, known):
        count = min(len(known), self.random.choice([0, 1, 1, 2]))
        terms = [self.term(name) for name in self.random.sample(known, count)]
        return " + ".join(terms + [str(self.random.randint(0, 5))])

    def condition(self, known):
        if not known or self.chance(0.25):
            return "nondet()"
        left = self.random.choice(["", "", "3*"]) + self.random.choice(known)
        right = self.random.choice([str(self.random.randint(-2, 12)), self.random.choice(known)])
        relation = self.random.choice(["<", "<=", ">", ">=", "==", "!="])
        also = f" && {self.random.choice(known)} <= {self.random.randint(0, 9)}" if self.chance(0.15) else ""
        return f"{left} {relation} {right}{also}"

    def label(self):
        if not self.chance(0.2):
            return ""
        self.labels += 1
        return f"at{self.labels}: "

    def declaration(self, known):
        """A declaration of a new variable, which is known from then on; none where there are enough."""
        if self.variables == LAST_VARIABLE:
            return None
        name = "abcdefgh"[self.variables]
        self.variables += 1
        value = self.random.choice(["", f" = {self.random.randint(-3, 9)}", " = nondet()", f" = {self.form(known)}"])
        known.append(name)
        return f"int {name}{value};"

    def simple(self, known):
        if not known:
            return ";"
        name = self.random.choice(known)
        return self.random.choice(
            [
                f"{name} = {self.form(known)};",
                f"{name}++;",
                f"{name}--;",
                f"{name} += {self.random.randint(1, 3)};",
                f"{name} = nondet();",
                f"assume({self.condition(known)});",
            ]
        )

    def head(self, known):
        """The head of a `for`; what it declares is known from then on."""
        first = self.declaration(known) if self.chance(0.7) else None
        if first is None:
            first = f"{self.random.choice(known)} = 0;" if known else ";"
        change = f"{self.random.choice(known)}++" if known else ""
        return f"for ({first} {self.condition(known)}; {change})"

    def statement(self, known, depth, in_loop, blanks):
        front = blanks + self.label()
        kinds = ["simple"] * 5 + ["jump"] * in_loop + ["if", "while", "do", "for", "block"] * (depth > 0)
        kind = self.random.choice(kinds)
        inner = list(known)
        if kind == "simple":
            return f"{front}{self.simple(known)}\n"
        if kind == "jump":
            return f"{front}if ({self.condition(known)}) {self.random.choice(['break', 'continue'])};\n"
        if kind == "if":
            text = f"{front}if ({self.condition(known)})" + self.body(inner, depth, in_loop, blanks)
            return text + (f"{blanks}else" + self.body(list(known), depth, in_loop, blanks) if self.chance(0.5) else "")
        if kind == "while":
            return f"{front}while ({self.condition(known)})" + self.body(inner, depth, True, blanks)
        if kind == "do":
            return f"{front}do" + self.block(inner, depth, True, blanks) + f" while ({self.condition(known)});\n"
        if kind == "for":
            return front + self.head(inner) + self.body(inner, depth, True, blanks)
        return front + self.block(inner, depth, in_loop, blanks).lstrip(" ") + "\n"

    def block(self, known, depth, in_loop, blanks):
        return " {\n" + self.items(known, depth - 1, in_loop, blanks + "    ") + blanks + "}"

    def body(self, known, depth, in_loop, blanks):
        if self.chance(0.7):
            return self.block(known, depth, in_loop, blanks) + "\n"
        return "\n" + self.statement(known, 0, in_loop, blanks + "    ")

    def items(self, known, depth, in_loop, blanks):
        text = ""
        for _ in range(self.random.randint(1, 4)):
            made = self.declaration(known) if self.chance(0.2) else None
            text += f"{blanks}{made}\n" if made else self.statement(known, depth, in_loop, blanks)
        return text

    def program(self):
        known = []
        text = "int main() {\n    " + self.declaration(known) + "\n"
        text += self.items(known, DEPTH, False, "    ") + self.items(known, DEPTH, False, "    ")
        return text + ("    return 0;\n" if self.chance(0.3) else "") + "}\n"


def counting(count):
    """A loop in which each of so many variables is counted."""
    names = ", ".join(f"v{i} = {i}" for i in range(count))
    body = "".join(f"    v{i} += {i % 3};\n" for i in range(1, count))
    return f"int main() {{\n  int {names};\n  while (v0 < 100) {{\n    v0++;\n{body}  }}\n  return 0;\n}}\n"


def branching(count):
    """A loop with a branch for each of so many variables but the first."""
    names = ", ".join(f"v{i} = 0" for i in range(count))
    body = "".join(f"    if (nondet()) v{i} += 1;\n    m{i}: ;\n" for i in range(1, count))
    return f"int main() {{\n  int {names};\n  while (v0 < 100) {{\n    v0++;\n{body}  }}\n  return 0;\n}}\n"


def grouping(count):
    """A loop with a branch for each four of so many variables, one behind the other."""
    names = ", ".join(f"v{i} = 0" for i in range(count))
    loops = "".join(
        f"  while (v{i} < v{i + 3}) {{\n    v{i}++;\n    if (nondet()) v{i + 1} += 2; else v{i + 2} += 1;\n  }}\n"
        for i in range(0, count, 4)
    )
    firsts = "".join(f"  v{i} = 100;\n" for i in range(3, count, 4))
    return f"int main() {{\n  int {names};\n{firsts}{loops}  return 0;\n}}\n"


def write_wide(folder):
    for count in (8, 16, 32, 64):
        for kind, text in (("count", counting(count)), ("branch", branching(count)), ("group", grouping(count))):
            with open(f"{folder}/{kind}{count}.c", "w", encoding="utf-8") as file:
                file.write(text)


def main():
    folder = sys.argv[1]
    os.makedirs(folder, exist_ok=True)
    if sys.argv[2:] == ["wide"]:
        write_wide(folder)
        return
    first, last = int(sys.argv[2]), int(sys.argv[3])
    for seed in range(first, last + 1):
        with open(f"{folder}/r{seed:03}.c", "w", encoding="utf-8") as file:
            file.write(Writer(seed).program())


main()
