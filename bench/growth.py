"""growth.py FOLDER: writes programs of one kind with 3 to 12 variables, growth3.c to growth12.c, for docs/NUMBERS.md.

Each is one loop of a hundred turns, with a branch more for some of the variables."""

import os
import sys

STATEMENTS = {
    5: "if (b > c) e = b; else e = c;",
    6: "if (nondet()) { f = nondet(); assume(f >= 0 && f <= a); }",
    7: "if (nondet()) g += 1; else g = e;",
    8: "h = g + 1;",
    9: "if (b < 10) i += 1;",
    10: "j = i;",
    11: "k += 1;",
    12: "l = k - 1;",
}


def program(count):
    """The program with so many variables."""
    names = "abcdefghijkl"[:count]
    values = {name: 10 if name == "d" else 0 for name in names}
    first = "c += 1; d -= 1;" if count > 3 else "c += 1;"
    lines = [f"if (nondet()) {{ b += 1; c += 2; }} else {{ {first} }}"]
    lines += [text for least, text in STATEMENTS.items() if least <= count]
    body = "".join(f"        {line}\n" for line in [*lines, "a++;"])
    declared = ", ".join(f"{name} = {value}" for name, value in values.items())
    return f"int main() {{\n    int {declared};\n    while (a < 100) {{\n{body}    }}\n}}\n"


for count in range(3, 13):
    with open(os.path.join(sys.argv[1], f"growth{count}.c"), "w") as file:
        file.write(program(count))
