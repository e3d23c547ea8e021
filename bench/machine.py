#!/usr/bin/env python3
"""Machine integers against all runs: small functions of C made at random, each run from every input by an interpreter that stands here, and
what its runs do held against what `tmpl --int N` says of it.

    bench/machine.py [COUNT] [SEED] [--int N] [--tmpl FILE] [--show]     COUNT functions, 40 if absent, from SEED, 1 if absent

Wrong is: an operation without a check of kind `range`; a check that fails in some run and isn't open, so an operation that overflows and has
no open check at its place, too; a state at the exit outside the bounds of `solve`. Beside it the open checks are counted that no run fails,
among the functions of which all runs are known, without loops, products of variables and quotients by them. These aren't wrong, since
bounds are those of rational states, and a join of paths forgets what the rows don't say.

The inputs are the parameters, variables without value, and what `nondet()`, calls and elements give. With 8 bits all values of the first
two are tried, and else the least and the greatest ones, some near 0, and some drawn at random; from the third one on they are drawn.
"""
import argparse
import itertools
import json
import os
import random
import subprocess
import sys
import tempfile
import time
from fractions import Fraction

from gcc import row_terms

TOP = os.path.dirname(os.path.dirname(os.path.realpath(__file__)))
STEPS, SECONDS, WAIT = 150, 4, 20
LEVELS = {"?": 0, "||": 1, "&&": 2, "==": 3, "!=": 3, "<": 4, "<=": 4, ">": 4, ">=": 4, "+": 5, "-": 5, "*": 6, "/": 6, "%": 6}


class Ended(Exception):
    """The run has ended."""


class Machine:
    """What a run does with integers of so many bits; a check that fails is kept with its place, and ends the run."""

    def __init__(self, bits):
        self.least, self.greatest = -(2 ** (bits - 1)), 2 ** (bits - 1) - 1
        self.failed, self.inputs, self.steps = set(), iter(()), 0

    def fail(self, kind, place):
        self.failed.add((kind, place))
        raise Ended

    def held(self, value, place):
        if not self.least <= value <= self.greatest:
            self.fail("range", place)
        return value

    def quotient(self, left, right, place):
        if right == 0:
            self.fail("divisor", place)
        size = abs(left) // abs(right)
        return self.held(size if (left < 0) == (right < 0) else -size, place)

    def joined(self, sign, left, right, place):
        if sign == "+":
            return self.held(left + right, place)
        if sign == "-":
            return self.held(left - right, place)
        if sign == "*":
            return self.held(left * right, place)
        quotient = self.quotient(left, right, place)
        return quotient if sign == "/" else left - right * quotient

    def negative(self, value, place):
        return self.held(-value, place)

    def element(self, index, size, place):
        if not 0 <= index < size:
            self.fail("index", place)
        return self.drawn()

    def called(self, _):
        return self.drawn()

    def drawn(self):
        value = next(self.inputs, None)
        return random.randint(self.least, self.greatest) if value is None else value

    def assumed(self, value):
        if value == 0:
            raise Ended

    def asserted(self, value, place):
        if value == 0:
            self.fail("assert", place)

    def step(self):
        """A run that goes on and on is followed no further; what it did so far counts."""
        self.steps += 1
        if self.steps > STEPS:
            raise Ended


class Function:
    """A function made at random: its text, and beside it the same as a function of Python over a `Machine`."""

    def __init__(self, draw, machine):
        self.draw, self.machine = draw, machine
        self.text, self.code, self.depth = "", [], 1
        self.operations, self.drawn_in, self.exact, self.loops = set(), 0, True, 0
        self.names = ["a", "b", "c"][: draw.choice((1, 2, 2, 3, 3))]
        parameters = self.names[: draw.choice((1, 1, 2))]
        self.known, self.later = list(parameters), self.names[len(parameters) :]
        self.parameters = self.inputs = len(parameters)
        self.write("int f(" + ", ".join(f"int {name}" for name in parameters) + ") {\n")
        self.size = draw.choice((None, None, 5, 100))
        if self.size is not None:
            self.write(f"    int t[{self.size}];\n")
        for _ in range(draw.randint(2, 5)):
            self.statement(2)
        self.write("}\n")
        kept, found = "".join(f"{name}, " for name in self.names), {}
        head = [f"def analysed(m, {', '.join(parameters)}):"] + [f"  {name} = m.drawn()" for name in self.names if name not in parameters]
        source = "\n".join(head + self.code + [f"  return ({kept})"])
        exec(source.replace("KEPT", f"({kept})"), {}, found)  # pylint: disable=exec-used
        self.analysed = found["analysed"]

    def write(self, text):
        self.text += text

    def does(self, line):
        self.code.append("  " * self.depth + line)

    def place(self):
        line = self.text.count("\n") + 1
        return (line, len(self.text) - (self.text.rfind("\n") + 1) + 1)

    # expressions: a tree is made, and then written
    def tree(self, depth):
        draw = self.draw
        if depth == 0 or draw.random() < 0.2:
            kind = draw.random()
            if kind < 0.6:
                return ("name", draw.choice(self.known))
            if kind < 0.92 or self.drawn_in:
                greatest = self.machine.greatest
                return ("number", draw.choice((0, 1, 2, 3, 5, 10, greatest // 2, greatest, greatest // 2 + 1, draw.randint(0, greatest))))
            self.drawn_in = 1
            if self.size is not None and draw.random() < 0.6:
                return ("element", self.tree(1))
            return draw.choice((("nondet",), ("call", self.tree(1)), ("number", self.machine.greatest + 1)))
        kind = draw.random()
        if kind < 0.5:
            sign = draw.choice("+-+-*/%")
            right = ("number", draw.choice((1, 2, 3, 7))) if sign in "*/%" and draw.random() < 0.5 else self.tree(depth - 1)
            return ("joined", sign, self.tree(depth - 1), right)
        if kind < 0.65:
            return ("prefixed", draw.choice("--+!"), self.tree(depth - 1))
        if kind < 0.8:
            return ("joined", draw.choice(("<", "<=", ">", ">=", "==", "!=")), self.tree(depth - 1), self.tree(depth - 1))
        if kind < 0.9:
            return ("joined", draw.choice(("&&", "||")), self.tree(depth - 1), self.tree(depth - 1))
        return ("chosen", self.tree(depth - 1), self.tree(depth - 1), self.tree(depth - 1))

    def names_in(self, it):
        return [it[1]] if it[0] == "name" else [name for part in it[1:] if isinstance(part, tuple) for name in self.names_in(part)]

    def certain(self, it):
        """The names to which C comes wherever the expression is evaluated."""
        if it[0] == "name":
            return [it[1]]
        parts = [part for part in it[1:] if isinstance(part, tuple)]
        if it[0] == "chosen" or it[0] == "joined" and it[1] in ("&&", "||"):
            parts = parts[:1]
        return [name for part in parts for name in self.certain(part)]

    def stepping(self, it, *around):
        """Now and then the tree with a step of a variable that stands nowhere else in it, nor around it."""
        names = self.names_in(it) + list(around)
        single = [name for name in self.certain(it) if names.count(name) == 1]
        if not single or self.draw.random() < 0.6:
            return it
        name, sign, before = self.draw.choice(single), self.draw.choice("+-"), self.draw.random() < 0.5

        def changed(part):
            if part == ("name", name):
                return ("stepped", name, sign, before)
            return tuple(changed(inner) if isinstance(inner, tuple) else inner for inner in part)

        return changed(it)

    def condition(self):
        if self.draw.random() < 0.3:
            return self.tree(2)
        compared = ("joined", self.draw.choice(("<", "<=", ">", ">=", "==", "!=")), self.tree(1), self.tree(1))
        if self.draw.random() < 0.3:
            return ("joined", self.draw.choice(("&&", "||")), compared, ("joined", self.draw.choice(("<", ">=", "!=")), self.tree(1), self.tree(1)))
        return compared

    def expression(self, it, level=0):
        """Writes the tree, in parentheses where it holds its parts less tightly than `level`; answers it in Python."""
        own = {"joined": LEVELS.get(it[1] if len(it) > 1 else "", 8) if it[0] == "joined" else 8, "chosen": 0, "prefixed": 7}.get(it[0], 8)
        if own < level or (own < 8 and self.draw.random() < 0.1):
            self.write("(")
            python = self.bare(it, own)
            self.write(")")
            return python
        return self.bare(it, own)

    def bare(self, it, own):
        kind = it[0]
        if kind == "name":
            self.write(it[1])
            return it[1]
        if kind == "stepped":
            _, name, sign, before = it
            place = self.place()
            self.write(f"{sign}{sign}{name}" if before else f"{name}{sign}{sign}")
            place = place if before else (place[0], place[1] + len(name))
            self.operations.add(place)
            return f"(({name} := m.joined('{sign}', {name}, 1, {place})) + {0 if before else -1 if sign == '+' else 1})"
        if kind == "number":
            place = self.place()
            self.write(str(it[1]))
            if it[1] > self.machine.greatest:
                self.operations.add(place)
            return f"m.held({it[1]}, {place})"
        if kind == "nondet":
            self.write("nondet()")
            return "m.drawn()"
        if kind == "call":
            self.write("g(")
            given = self.expression(it[1])
            self.write(")")
            return f"m.called({given})"
        if kind == "element":
            self.write("t")
            place = self.place()
            self.write("[")
            index = self.expression(it[1])
            self.write("]")
            return f"m.element({index}, {self.size}, {place})"
        if kind == "prefixed":
            place = self.place()
            self.write(it[1] + (" " if it[2][0] in ("prefixed", "stepped") else ""))
            value = self.expression(it[2], 7)
            if it[1] == "-":
                self.operations.add(place)
            return {"-": f"m.negative({value}, {place})", "+": value, "!": f"int({value} == 0)"}[it[1]]
        if kind == "chosen":
            tested = self.expression(it[1], 1)
            self.write(" ? ")
            left = self.expression(it[2])
            self.write(" : ")
            right = self.expression(it[3])
            return f"({left} if {tested} != 0 else {right})"
        _, sign, left, right = it
        before = self.expression(left, own)
        self.write(" ")
        place = self.place()
        self.write(sign + " ")
        behind = self.expression(right, own + 1)
        if sign in ("&&", "||"):
            return f"int({before} != 0 {'and' if sign == '&&' else 'or'} {behind} != 0)"
        if own in (3, 4):
            return f"int({before} {sign} {behind})"
        return self.operation(sign, place, before, behind, right, left)

    def operation(self, sign, place, before, behind, right, left=None):
        self.operations.add(place)
        if sign in "/%" and right[0] != "number" or sign == "*" and "number" not in (right[0], left and left[0]):
            self.exact = False
        return f"m.joined('{sign}', {before}, {behind}, {place})"

    # statements
    def change(self):
        """An assignment of some kind, without the `;`."""
        name, kind = self.draw.choice(self.known), self.draw.random()
        if kind < 0.5:
            self.write(f"{name} = ")
            self.does(f"{name} = {self.expression(self.stepping(self.tree(2), name))}")
            return
        sign = self.draw.choice("+-")
        if kind < 0.7:
            if self.draw.random() < 0.3:
                place = self.place()
                self.write(f"{sign}{sign}{name}")
            else:
                self.write(name)
                place = self.place()
                self.write(f"{sign}{sign}")
            self.operations.add(place)
            self.does(f"{name} = m.joined('{sign}', {name}, 1, {place})")
            return
        sign = self.draw.choice("+-*/%")
        self.write(name + " ")
        place = self.place()
        self.write(sign + "= ")
        right = ("number", self.draw.choice((1, 2, 3))) if self.draw.random() < 0.4 else self.stepping(self.tree(1), name)
        value = self.expression(right)
        self.does(f"{name} = {self.operation(sign, place, name, value, right)}")

    def block(self, depth):
        """Statements in braces, in the Python code one step further in."""
        self.write("{\n")
        self.depth += 1
        known = list(self.known)
        self.does("pass")
        for _ in range(self.draw.randint(1, 2)):
            self.statement(depth)
        self.known = known
        self.depth -= 1
        self.write("    }")

    def statement(self, depth):
        draw, kind = self.draw, self.draw.random()
        self.write("    ")
        if kind < 0.3 and self.later and self.depth == 1:
            self.declared()
        elif kind < 0.55 or depth == 0 and kind < 0.8:
            self.change()
            self.write(";\n")
        elif kind < 0.72 and depth > 0:
            self.write("if (")
            self.does(f"if {self.expression(self.stepping(self.condition()))} != 0:")
            self.write(") ")
            self.block(depth - 1)
            if draw.random() < 0.5:
                self.write(" else ")
                self.does("else:")
                self.block(depth - 1)
            self.write("\n")
        elif kind < 0.82 and depth > 0:
            self.loop(depth)
        elif kind < 0.9:
            place = self.place()
            word = draw.choice(("assume", "assert"))
            self.write(word + "(")
            value = self.expression(self.stepping(self.condition()))
            self.write(");\n")
            self.does(f"m.assumed({value})" if word == "assume" else f"m.asserted({value}, {place})")
        elif kind < 0.95 and depth < 2:
            self.write("return ")
            self.does(f"({self.expression(self.stepping(self.tree(1)))}, )")
            self.does("return KEPT")
            self.write(";\n")
        else:
            self.change()
            self.write(";\n")

    def declared(self):
        name = self.later.pop(0)
        self.write(f"int {name}")
        if self.draw.random() < 0.85:
            self.write(" = ")
            self.does(f"{name} = {self.expression(self.stepping(self.tree(2), name))}")
        else:
            self.does(f"{name} = m.drawn()")
            self.inputs += 1
        self.write(";\n")
        self.known.append(name)

    def loop(self, depth):
        """A loop with a counter that is a known variable; its body is once more a loop of one turn, so that jumps are Python's."""
        self.loops += 1
        name, flag, kind = self.draw.choice(self.known), f"left{self.loops}", self.draw.choice(("while", "do", "for"))
        bound = ("number", self.draw.randint(1, 6)) if self.draw.random() < 0.7 else self.tree(1)
        test = ("joined", self.draw.choice(("<", "<=", "!=")), ("name", name), bound)
        if kind == "for":
            self.write(f"for ({name} = 0; ")
            self.does(f"{name} = 0")
        elif kind == "while":
            self.write("while (")
        self.does("while True:")
        self.depth += 1
        self.does("m.step()")
        self.does(f"{flag} = False")
        after = []
        if kind == "do":
            self.write("do ")
        else:
            self.does(f"if {self.expression(test)} == 0: break")
            if kind == "for":
                self.write("; ")
                code, self.code = self.code, []
                self.change_of(name)
                after, self.code = self.code, code
            self.write(") ")
        self.does("for once in (1,):")
        self.body(name, flag, kind, depth)
        self.does(f"if {flag}: break")
        self.code += after
        if kind == "do":
            self.write(" while (")
            self.does(f"if {self.expression(test)} == 0: break")
            self.write(");")
        self.depth -= 1
        self.write("\n")

    def change_of(self, name):
        self.write(name)
        place = self.place()
        self.write("++")
        self.operations.add(place)
        self.does(f"{name} = m.joined('+', {name}, 1, {place})")

    def body(self, name, flag, kind, depth):
        self.write("{\n")
        self.depth += 1
        known = list(self.known)
        if kind != "for":
            self.write("    ")
            self.change_of(name)
            self.write(";\n")
        self.statement(depth - 1)
        if self.draw.random() < 0.4:
            self.write("    if (")
            self.does(f"if {self.expression(self.condition())} != 0:")
            if self.draw.random() < 0.5:
                self.write(") break;\n")
                self.does(f"  {flag} = True")
                self.does("  break")
            else:
                self.write(") continue;\n")
                self.does("  continue")
        self.does("pass")
        self.known = known
        self.depth -= 1
        self.write("    }")

    def runs(self, bits):
        """All that runs do: which checks fail, in which states they come to the exit, and whether these are all runs."""
        machine, started = self.machine, time.monotonic()
        machine.failed, states = set(), set()
        least, greatest = machine.least, machine.greatest
        some = sorted({least, least + 1, greatest // 2, greatest // 2 + 1, greatest - 1, greatest, *range(-3, 11)})
        if bits > 8:
            some += [random.randint(least, greatest) for _ in range(60)]
        values = range(least, greatest + 1) if bits == 8 else some
        known, free, whole = self.parameters, self.inputs + self.drawn_in, bits == 8
        first = itertools.product(some, repeat=min(2, free))
        every = itertools.product(values, repeat=min(2, free))
        for count, chosen in enumerate(itertools.chain(first, every)):
            if count % 64 == 0 and time.monotonic() - started > SECONDS:
                whole = False
                break
            given = list(chosen[:known])
            # variables that aren't declared yet have any value, which nothing uses
            hidden = [random.randint(least, greatest) for name in self.names[known:]]
            machine.inputs, machine.steps = iter(hidden + list(chosen[known:])), 0
            try:
                states.add(self.analysed(machine, *given))
            except Ended:
                pass
        return machine.failed, states, whole and free <= 2


def asked(options, command, file, domain):
    """What `tmpl` writes in JSON; None where it refuses the text, or takes too long."""
    words = [options.tmpl, command, file, "--int", str(options.int), "--domain", domain, "--format", "json"]
    try:
        ran = subprocess.run(words, capture_output=True, check=False, timeout=WAIT)
    except subprocess.TimeoutExpired:
        return None, "it took too long"
    if ran.returncode in (0, 10):
        return json.loads(ran.stdout), ""
    return None, ran.stderr.decode().strip().split("\n")[-1]


def outside(report, states):
    """A state at the exit that is outside the bounds there, with the row; None where there is none."""
    point = report["points"][-1]
    if not point["reachable"]:
        return next(((state, "unreachable") for state in states), None)
    for row, bound in zip(report["rows"], point["bounds"]):
        if bound in ("+inf", "-inf"):
            continue
        terms, limit = row_terms(row, report["variables"]), Fraction(bound)
        for state in states:
            if sum(factor * state[var] for var, factor in terms) > limit:
                return state, f"{row} <= {bound}"
    return None


def main():
    reader = argparse.ArgumentParser()
    reader.add_argument("count", nargs="?", type=int, default=40)
    reader.add_argument("seed", nargs="?", type=int, default=1)
    reader.add_argument("--int", type=int, default=8, choices=(8, 16, 32))
    reader.add_argument("--tmpl", default=f"{TOP}/tmpl")
    reader.add_argument("--show", action="store_true", help="each function with its checks")
    options = reader.parse_args()
    wrong, refused, said = 0, {}, {"proved": 0, "open": 0, "failed": 0, "known": 0, "loose": 0, "states": 0}
    with tempfile.TemporaryDirectory() as room:
        for number in range(options.count):
            draw = random.Random(f"{options.seed} {number}")
            random.seed(number)
            function = Function(draw, Machine(options.int))
            file, domain = f"{room}/function.c", draw.choice(("intervals", "intervals", "zones", "octagons"))
            with open(file, "w", encoding="utf-8") as it:
                it.write(function.text)
            verdicts, why = asked(options, "verify", file, domain)
            report, why = asked(options, "solve", file, domain) if verdicts is not None else (None, why)
            if report is None:
                why = why.split(" at ")[0]
                refused[why] = refused.get(why, 0) + 1
                if options.show:
                    print(f"function {number}: {why}\n{function.text}", flush=True)
                continue
            failed, states, whole = function.runs(options.int)
            checks = {(it["kind"], (it["line"], it["column"])): it["verdict"] for it in verdicts["checks"]}
            faults = [f"no check of {place}" for place in function.operations if ("range", place) not in checks]
            faults += [f"{kind} at {place} isn't open: {checks.get((kind, place))}" for kind, place in failed if checks.get((kind, place)) != "open"]
            out = outside(report, states)
            if out is not None:
                faults.append(f"the state {out[0]} at the exit isn't in {out[1]}")
            opens = [key for key, verdict in checks.items() if verdict == "open"]
            said["proved"] += len(checks) - len(opens)
            said["open"] += len(opens)
            said["failed"] += len(failed)
            said["states"] += len(states)
            if whole and function.exact and not function.loops:
                said["known"] += len(opens)
                said["loose"] += len([key for key in opens if key not in failed])
            wrong += bool(faults)
            if faults or options.show:
                print(f"function {number}, {domain}: {'; '.join(faults) or 'as it is to be'}\n{function.text}", end="")
                print(json.dumps(verdicts["checks"]), flush=True)
    for why, count in sorted(refused.items()):
        print(f"refused: {count}: {why}")
    tried = options.count - sum(refused.values())
    print(f"{tried} functions: {said['proved']} checks proved, {said['open']} open, of which {said['failed']} fail in some run tried")
    print(f"{said['states']} states at the exit")
    print(f"without loops and free results: {said['known']} open, of which {said['loose']} fail in no run")
    print(f"{wrong} wrong")
    return 1 if wrong else 0


if __name__ == "__main__":
    sys.exit(main())
