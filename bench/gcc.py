#!/usr/bin/env python3
"""Functions of C against C itself: each is compiled by gcc with a harness that draws its inputs, and what its runs pass is held against what
`tmpl` prints of it. `bench/gcc.sh` calls it.

    bench/gcc.py [RUNS [FILES]]     RUNS for each function, 20,000 if absent, and FILES whole files made at random, 30 if absent

Of each function of crates/test_run/src/functions/, of examples/functions/ and examples/files/, and of whole files that are made here: in every state at a loop's head, at a label and at the
exit the values of the variables that C knows there are within the bounds of `solve`, over intervals and over octagons; and no check that
`verify` calls proved is violated. A run ends where an assumption is false, where a check is, and where an operation overflows (`-ftrapv`),
since the bounds are about whole numbers. What is called answers anything, and so does an element of an array.
"""
import json
import os
import re
import subprocess
import sys
import tempfile
from fractions import Fraction

from ctree import Reader
from whole_files import generated

TOP = os.path.dirname(os.path.dirname(os.path.realpath(__file__)))
DOMAINS = ("intervals", "octagons")
HARNESS = os.path.join(TOP, "bench", "gcc.c")


class Printed:
    """A function printed as C, with calls of the harness at its points and round what its checks ask of."""

    def __init__(self, text, points, checks, asked=None):
        self.name, parameters, items, _ = Reader(text, asked).function()
        self.variables, self.scopes, self.sizes = [], [[]], {}
        self.parameters = [name for name, sizes in parameters if not sizes]
        self.sizes.update({name: sizes for name, sizes in parameters if sizes})
        self.loops = iter([k for k, point in enumerate(points) if point["kind"] == "loop"])
        self.labels = iter([k for k, point in enumerate(points) if point["kind"] == "label"])
        self.exit = len(points) - 1
        starts = [0] + [it.end() for it in re.finditer("\n", text)]
        self.checks = {starts[it["line"] - 1] + it["column"] - 1: k for k, it in enumerate(checks)}
        for name in self.parameters:
            self.declare(name)
        body = self.items(items)
        head = ", ".join(f"int {name}" for name in self.parameters) or "void"
        self.text = f"static int analysed({head}) {{\n{body}{self.see(self.exit)}; return 0;\n}}\n"

    def declare(self, name):
        if name not in self.variables:
            self.variables.append(name)
        self.scopes[-1].append(name)

    def see(self, point):
        known = [name for scope in self.scopes for name in scope]
        return f"tmpl_see({point}, {len(known)}" + "".join(f", {self.variables.index(name)}, {name}" for name in known) + ")"

    def items(self, items):
        return "".join(self.statement(item) + "\n" for item in items)

    def within(self, items):
        """Statements in braces, where what they declare is known."""
        self.scopes.append([])
        body = self.items(items)
        self.scopes.pop()
        return "{\n" + body + "}"

    def statement(self, it):
        kind = it[0]
        if kind == "label":
            return f"{it[1]}: {self.see(next(self.labels))};"
        if kind == "block":
            return self.within(it[1])
        if kind == "if":
            text = f"if ({self.value(it[1])}) {self.within(it[2])}"
            return text if it[3] is None else f"{text} else {self.within(it[3])}"
        if kind in ("while", "do", "for"):
            return self.loop(it)
        if kind == "declares":
            return self.declared(it[1])
        if kind == "change":
            return self.change(it[1]) + ";"
        if kind == "return":
            value = "" if it[1] is None else f"(void)({self.value(it[1])}); "
            return f"{{ {self.see(self.exit)}; {value}return 0; }}"
        if kind == "assume":
            return f"tmpl_assumed({self.value(it[1])} ? 1 : 0);"
        if kind == "assert":
            return f"tmpl_holds({self.checks[it[2]]}, {self.value(it[1])} ? 1 : 0);"
        if kind == "calls":
            return self.call(it)
        return kind + ";" if kind in ("break", "continue") else ";"

    def call(self, it):
        """A call that is a statement: some end the run, and some aren't to be reached."""
        _, name, arguments, place = it
        given = self.given(arguments, "; ")
        if place in self.checks:
            return f"{{ {given}tmpl_holds({self.checks[place]}, 0); }}"
        if name in ("abort", "exit"):
            return f"{{ {given}{self.see(self.exit)}; return 0; }}"
        return f"{{ {given}}}"

    def given(self, arguments, end):
        """Arguments, evaluated; an array's name alone is nothing to evaluate."""
        return "".join(f"(void)({self.value(it)}){end}" for it in arguments if it[0] != "variable" or it[1] not in self.sizes)

    def loop(self, it):
        point = next(self.loops)
        if it[0] == "while":
            return f"while ({self.see(point)}, {self.value(it[1])}) {self.within(it[2])}"
        if it[0] == "do":
            body = f"{{ {self.see(point)}; {self.within(it[2])} }}"
            return f"do {body} while ({self.value(it[1])});"
        _, (kind, first), condition, changes, body = it
        self.scopes.append([])
        before = self.declared(first) if kind == "declares" else "".join(self.change(change) + "; " for change in first)
        test = "1" if condition is None else self.value(condition)
        after = ", ".join(self.change(change) for change in changes)
        text = f"{{ {before} for (; {self.see(point)}, {test}; {after}) {self.within(body)} }}"
        self.scopes.pop()
        return text

    def declared(self, declarators):
        text = ""
        for name, value, sizes in declarators:
            if sizes:
                self.sizes[name] = sizes
                text += "".join(f"(void)({self.value(it)}); " for it in value)
                continue
            text += f"int {name} = {'tmpl_any()' if value is None else self.value(value)}; "
            self.declare(name)
        return text

    def change(self, change):
        (name, indexes), sign, at, right = change
        target = f"*tmpl_place({self.indexed(name, indexes)})" if indexes else name
        if right is None:
            return f"{target} {sign}= 1".replace("++=", "+=").replace("--=", "-=")
        return f"{target} {sign} {self.divisor(at, self.value(right))}"

    def indexed(self, name, indexes):
        """The indexes of an element, each held against its check; where a size isn't known there is an element at each index from 0 on."""
        sizes = zip(indexes, self.sizes[name])
        return " + ".join(f"0 * tmpl_index_of({self.checks[at]}, {size or 2**40}, {self.value(it)})" for (at, it), size in sizes)

    def divisor(self, at, value):
        return f"tmpl_divisor({self.checks[at]}, {value})" if at in self.checks else f"({value})"

    def value(self, it):
        kind = it[0]
        if kind == "number":
            return f"({it[1]}L)" if it[1] >= 2**31 else f"({it[1]})" if it[1] > -(2**31) else f"({it[1] + 1} - 1)"
        if kind == "variable":
            return it[1]
        if kind == "stepped":
            return f"({it[2]}{it[1]})" if it[3] else f"({it[1]}{it[2]})"
        if kind == "element":
            return f"tmpl_element({self.indexed(it[1], it[2])})"
        if kind == "call":
            return "(" + self.given(it[2], ", ") + "tmpl_any())"
        if kind == "grouped":
            return f"({self.value(it[1])})"
        if kind == "prefixed":
            return f"({it[1]} {self.value(it[2])})"
        if kind == "chosen":
            return f"({self.value(it[1])} ? {self.value(it[2])} : {self.value(it[3])})"
        _, sign, at, left, right = it
        return f"({self.value(left)} {sign} {self.divisor(at, self.value(right))})"


def answer(command, file, domain, asked):
    """What `tmpl` writes of a function of a file in JSON; None where it refuses it."""
    words = [f"{TOP}/tmpl", command, file, "--format", "json", "--domain", domain] + (["--function", asked] if asked else [])
    ran = subprocess.run(words, capture_output=True, check=False)
    return json.loads(ran.stdout) if ran.returncode in (0, 10) else None


def row_terms(row, variables):
    """The terms of a row as it is printed, by the numbers of their variables."""
    terms = re.findall(r"([-+]?) ?(?:(\d+)\*)?([A-Za-z_]\w*)", row)
    return [(variables.index(name), int(factor or 1) * (-1 if sign == "-" else 1)) for sign, factor, name in terms]


def bounds_in_c(report):
    """The finite bounds of a report as rows of the harness, and for a point that nothing reaches a row that no state fits."""
    rows = []
    for number, point in enumerate(report["points"]):
        if not point["reachable"]:
            rows.append(f"{{{number}, 0, {{0}}, {{0}}, -1, 1}}")
        for row, bound in zip(report["rows"], point["bounds"]):
            if bound not in ("+inf", "-inf"):
                terms, limit = row_terms(row, report["variables"]), Fraction(bound)
                numbers = ", ".join(str(var) for var, _ in terms)
                factors = ", ".join(str(factor) for _, factor in terms)
                rows.append(f"{{{number}, {len(terms)}, {{{numbers}}}, {{{factors}}}, {limit.numerator}, {limit.denominator}}}")
    return "static const struct row rows[] = {" + ", ".join([*rows, "{-1, 0, {0}, {0}, 0, 0}"]) + "};"


def tried(text, asked, domain, runs, room):
    """What the compiled function says of its runs, and whether it is as it is to be; None where `tmpl` refuses the text."""
    file = f"{room}/function.c"
    with open(file, "w", encoding="utf-8") as it:
        it.write(text)
    report, verdicts = answer("solve", file, domain, asked), answer("verify", file, domain, asked)
    if report is None or verdicts is None:
        return None
    printed = Printed(text, report["points"], verdicts["checks"], asked)
    if printed.variables != report["variables"]:
        return "its variables are others", False
    proved = ", ".join("1" if check["verdict"] == "proved" else "0" for check in verdicts["checks"]) or "0"
    with open(HARNESS, encoding="utf-8") as it:
        harness = it.read()
    given = ", ".join("tmpl_any()" for _ in printed.parameters)
    made = {
        "HERE_BOUNDS": bounds_in_c(report) + f"\nstatic const int proved[] = {{{proved}}};",
        "HERE_FUNCTION": printed.text,
        "HERE_CALL": f"analysed({given})",
        "HERE_RUNS": str(runs),
    }
    for name, value in made.items():
        harness = re.sub(rf"\b{name}\b", lambda _, value=value: value, harness)
    with open(f"{room}/harness.c", "w", encoding="utf-8") as it:
        it.write(harness)
    words = ["gcc", "-std=gnu17", "-O1", "-ftrapv", "-w", "-o", f"{room}/harness", f"{room}/harness.c"]
    built = subprocess.run(words, capture_output=True, text=True, check=False)
    if built.returncode:
        return built.stderr, False
    ran = subprocess.run([f"{room}/harness"], capture_output=True, text=True, timeout=600, check=False)
    return (ran.stdout + ran.stderr).strip(), ran.returncode == 0


FUNCTIONS = {"gcd.c": ("gcd",), "search.c": ("search",), "volume.c": ("mixed", "faded")}
FILES = {"ring.c": ("ring_copy",), "date.c": ("month_of", "weekday_behind"), "classes.c": ("rounded", "class_of")}


def texts(files):
    """The functions that are tried: what they are called here, their texts, and which of these is asked about."""
    for table in ("judged", "reports"):
        with open(f"{TOP}/crates/test_run/src/functions/{table}.rt", encoding="utf-8") as it:
            for name, text in re.findall(r'const (\w+): &\[u8\] =\s*b"((?:int|void) (?:[^"\\]|\\.)*)";', it.read()):
                yield name.lower(), text.replace('\\"', '"').replace("\\\\", "\\"), None
    for folder, files_there in (("functions", FUNCTIONS), ("files", FILES)):
        for name, functions in files_there.items():
            with open(f"{TOP}/examples/{folder}/{name}", encoding="utf-8") as it:
                text = it.read()
            yield from ((f"{name} {asked}", text, asked) for asked in functions)
    for seed in range(files):
        yield (f"made {seed}", *generated(seed))


def main():
    runs, files = (int(word) for word in (sys.argv[1:] + ["20000", "30"][len(sys.argv) - 1:])[:2])
    wrong = 0
    with tempfile.TemporaryDirectory() as room:
        for name, text, asked in texts(files):
            for domain in DOMAINS:
                said = tried(text, asked, domain, runs, room)
                if said is None:
                    print(f"{name}, {domain}: refused")
                    continue
                print(f"{name}, {domain}: {said[0]}")
                wrong += not said[1]
    print(f"{wrong} wrong")
    return 1 if wrong else 0


if __name__ == "__main__":
    sys.exit(main())
