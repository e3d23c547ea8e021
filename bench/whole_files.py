"""Whole C files made at random, each with one function to ask about: constants of all kinds, arrays as parameters, of several dimensions and
with values, names that are declared again, steps inside expressions, and round it what a function of the language can't have. `bench/gcc.py`
tries them."""
import random

AROUND = """#include <stdio.h>
#include <limits.h>
#define SMALL 3
#define LARGE (40)
#define LOWEST (-7)
#define TWICE(x) ((x) << 1) /* not used below: "macro" */
enum { NONE, SOME = 4, MORE, };
static const int STEP = 2;
struct pair { unsigned char first; double second; };
static const char *const names[] = { "one", "it's /* two", "\\"" };
static struct pair pairs[] = { { 0x1F, 1.5e+3 }, { '\\'', .5 } };
int other(struct pair *p, unsigned flags) { return p->first & ~flags ? p->second : flags >> 2; }
"""
CONSTANTS = ("SMALL", "LARGE", "LOWEST", "NONE", "SOME", "MORE", "STEP")


class Maker:
    """Makes one function; nothing in it divides by what may be 0 without a check, and every loop ends."""

    def __init__(self, seed):
        self.draw = random.Random(seed)
        self.known = ["p", "q"]
        self.arrays = {"row": ["LARGE"], "any": [None]}

    def number(self):
        return self.draw.choice(CONSTANTS + tuple(str(self.draw.randrange(12)) for _ in range(6)))

    def value(self, depth=2):
        kind = self.draw.randrange(9)
        if depth == 0 or kind < 2:
            return self.number()
        if kind < 5:
            return self.draw.choice(self.known)
        if kind == 5:
            return f"({self.value(depth - 1)} {self.draw.choice('+-')} {self.value(depth - 1)})"
        if kind == 6:
            return f"({self.value(depth - 1)} {self.draw.choice('/%*')} {self.draw.choice(('SMALL', 'LARGE', 'MORE', '3', '(-2)'))})"
        if kind == 7:
            return f"({self.condition(depth - 1)} ? {self.value(depth - 1)} : {self.value(depth - 1)})"
        return self.element(depth - 1)

    def element(self, depth):
        name = self.draw.choice(sorted(self.arrays))
        return name + "".join(f"[{self.value(depth)}]" for _ in self.arrays[name])

    def condition(self, depth=1):
        sign = self.draw.choice(("<", "<=", ">", ">=", "==", "!="))
        plain = f"{self.value(depth)} {sign} {self.value(depth)}"
        return plain if self.draw.randrange(3) else f"{plain} {self.draw.choice(('&&', '||'))} {self.draw.choice(self.known)} {sign} {self.number()}"

    def loop(self, pad, depth):
        bound = self.draw.choice(("SMALL", "LARGE", "MORE", "9"))
        free = [name for name in ("i", "j") if name not in self.known]
        if not free:
            return self.change(pad)
        self.known.append(free[0])
        body = self.block(pad + "    ", depth - 1, free[0])
        self.known.remove(free[0])
        return f"{pad}for (int {free[0]} = NONE; {free[0]} < {bound}; {free[0]}++) {{\n{body}{pad}}}\n"

    def change(self, pad, but=()):
        targets = [name for name in self.known if name not in (*but, "i", "j", "q")]
        target = self.draw.choice(targets) if self.draw.randrange(4) else self.element(1)
        return f"{pad}{target} {self.draw.choice(('=', '=', '+=', '-='))} {self.value()};\n"

    def step(self, pad, depth, but):
        """A statement with a step in it, whose variable stands nowhere else there."""
        name = self.draw.choice([name for name in self.known if name not in (*but, "i", "j", "q")])
        sign, number = self.draw.choice(("++", "--")), self.number()
        step = self.draw.choice((f"{sign}{name}", f"{name}{sign}"))
        kind = self.draw.randrange(6)
        if kind == 0:
            return f"{pad}any[{step}] {self.draw.choice(('=', '+='))} {number};\n"
        if kind == 1:
            return f"{pad}other(row, {step}, ({number} - {self.number()}));\n"
        if kind == 2:
            return f"{pad}assert({number} - {step} < {self.number()} || q < {number});\n"
        if kind == 3 and depth:
            return f"{pad}if ({step} < {number}) {{\n{self.block(pad + '    ', depth - 1, *but)}{pad}}}\n"
        if kind == 4:
            return f"{pad}{{ int kept = {number} * {step}; assert(kept <= {self.number()}); }}\n"
        return f"{pad}any[q] += 2 * {step} - q;\n"

    def block(self, pad, depth, *but):
        text, before = "", list(self.known)
        if "t" not in self.known and self.draw.randrange(2):
            text += f"{pad}int t = {self.value(1)};\n"
            self.known.append("t")
        for _ in range(self.draw.randrange(1, 4)):
            kind = self.draw.randrange(8)
            if kind == 0 and depth:
                text += self.loop(pad, depth)
            elif kind == 1 and depth:
                text += f"{pad}if ({self.condition()}) {{\n{self.block(pad + '    ', depth - 1, *but)}{pad}}}\n"
            elif kind == 2:
                text += f"{pad}assert({self.condition()});\n"
            elif kind == 3:
                text += f"{pad}other(row, {self.value(1)});\n"
            elif kind in (4, 5):
                text += self.step(pad, depth, but)
            else:
                text += self.change(pad, but)
        self.known = before
        return text

    def function(self):
        first = "    int table[2][MORE] = { { 1, SMALL, p }, { q - 1, }, };\n    assume(LOWEST <= p && p <= LARGE);\n"
        self.arrays["table"] = [2, "MORE"]
        body = first + "".join(self.loop("    ", 2) + "    {\n" + self.block("        ", 1) + "    }\n" for _ in range(2))
        return f"int asked(int p, const int q, int row[LARGE], int *any) {{\n{body}    return p;\n}}\n"


def generated(seed):
    """A file, and the name of its function."""
    return AROUND + Maker(seed).function() + "int main(void) { printf(\"%d\\n\", asked(1, 2, NULL, NULL)); return 0; }\n", "asked"
