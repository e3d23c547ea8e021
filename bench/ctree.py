"""Functions of C files as trees, for the scripts beside this one: what docs/FORMATS.md says of files, of their constants and of the grammar
of a function, without its faults.

Trees are tuples whose first part says what they are. Places count the bytes before a token.
"""
import re

RESERVED = set(
    "auto break case char const continue default do double else enum extern float for goto if inline int long register return short signed "
    "sizeof static struct switch typedef union unsigned void volatile while assume assert main nondet __VERIFIER_assume __VERIFIER_assert "
    "__VERIFIER_nondet_int".split()
)
LITERAL = r""""(?:\\.|[^"\\\n])*"|'(?:\\.|[^'\\\n])*'"""
WORD = re.compile(LITERAL + r"|[A-Za-z_]\w*|\.?\d(?:[eEpP][-+]|[\w.])*|\.\.\.|<<=|>>=|->|<<|>>|\+\+|--|[-+*/%<>=!&|^]=|&&|\|\||[^\s]")
BLANK = re.compile(LITERAL + r"|//[^\n]*|/\*.*?\*/|^[ \t\r]*#[^\n]*", re.S | re.M)
DEFINE = re.compile(r"^[ \t\r]*#[ \t\r]*define[ \t\r]+(\w+)(\(?)([^\n]*)", re.M)
LEVELS = (("||",), ("&&",), ("==", "!="), ("<", "<=", ">", ">="), ("+", "-"), ("*", "/", "%"))


class Unlike(Exception):
    """The text isn't a function as the grammar has it."""


def words_of(text):
    """The tokens of a text, without its comments and directives, each with its place."""
    blank = BLANK.sub(lambda it: it.group() if it.group()[0] in "\"'" else re.sub(r"[^\n]", " ", it.group()), text)
    return [(it.group(), it.start()) for it in WORD.finditer(blank)]


def items_of(words):
    """The items of a file: up to a `;` outside all brackets, or to the end of braces behind a `)`."""
    items, first, depth, body = [], 0, 0, False
    for index, (word, _) in enumerate(words):
        if word == "{" and not depth:
            body = index > first and words[index - 1][0] == ")"
        depth += (word in ("(", "[", "{")) - (word in (")", "]", "}"))
        if not depth and (word == ";" or word == "}" and body):
            items.append(words[first:index + 1])
            first, body = index + 1, False
    return items


def name_of(item):
    """The name of the function that an item is, if it is one."""
    words = [word for word, _ in item]
    while words and words[0] in ("static", "inline", "extern"):
        words = words[1:]
    return words[1] if len(words) > 4 and words[0] in ("int", "void") and words[2] == "(" and words[-1] == "}" else None


def numbered(words):
    """The value of a number that may have a minus before it, if these words are one."""
    found = re.fullmatch(r"(-?)(0|[1-9]\d*)", "".join(words))
    return int(found[0]) if found else None


def constants_of(text, words):
    """The constants of a file: place, name and value of each, in the order of the text."""
    found = []
    for it in DEFINE.finditer(text):
        body = re.sub(r"//.*|/\*.*?\*/|\s", "", it[3])
        inner = re.fullmatch(r"\((-?\d+)\)|(-?\d+)", body)
        if not it[2] and inner:
            found.append((it.start(1), it[1], int(inner[1] or inner[2])))
    for include in re.finditer(r"^[ \t\r]*#[ \t\r]*include[ \t\r]*<limits\.h>", text, re.M):
        found += [(include.start(), "INT_MAX", 2**31 - 1), (include.start(), "INT_MIN", -(2**31))]
    for item in items_of(words):
        plain = [word for word, _ in item]
        known = item[1:] if plain[0] == "static" else item
        if [word for word, _ in known[:2]] == ["const", "int"] and len(known) > 4 and known[3][0] == "=":
            value = numbered([word for word, _ in known[4:-1]])
            if value is not None:
                found.append((known[2][1], known[2][0], value))
        if plain[0] == "enum" and "{" in plain and plain[-2] == "}":
            value = -1
            for part in " ".join(plain[plain.index("{") + 1:-2]).split(","):
                if part.strip():
                    name, _, given = part.strip().partition(" = ")
                    value = numbered(given.split()) if given else value + 1
                    place = next(at for word, at in item if word == name)
                    found.append((place, name, value))
    return sorted(found)


class Reader:
    """Reads a function of a text: the one of this name, or else `main`, or else the only one."""

    def __init__(self, text, asked=None):
        words = words_of(text)
        self.constants = constants_of(text, words)
        functions = {name_of(item): item for item in items_of(words) if name_of(item)}
        names = [asked] if asked else ["main"] if "main" in functions else list(functions)
        if len(names) != 1 or names[0] not in functions:
            raise Unlike("which function")
        self.words = functions[names[0]] + [("", len(text))]
        self.index = 0

    def constant(self):
        """The number that the next word stands for, if it is a constant there."""
        word, place = self.words[self.index]
        values = [value for at, name, value in self.constants if name == word and at < place]
        return values[-1] if values else None

    def word(self, ahead=0):
        return self.words[min(self.index + ahead, len(self.words) - 1)][0]

    def place(self):
        return self.words[self.index][1]

    def take(self, *wanted):
        if wanted and self.word() not in wanted:
            raise Unlike(f"{self.word()} in place of {' '.join(wanted)}")
        self.index += 1
        return self.words[self.index - 1]

    def is_name(self, ahead=0):
        word = self.word(ahead)
        return bool(re.fullmatch(r"[A-Za-z_]\w*", word)) and word not in RESERVED

    def function(self):
        """The name, the parameters (each with its sizes where it is an array), the items, and the place of the last brace."""
        while self.word() in ("static", "inline", "extern"):
            self.take()
        self.take("int", "void")
        name, _ = self.take()
        self.take("(")
        parameters = []
        while self.word() != ")":
            if self.word() in ("void", "const", "int", ","):
                self.take()
                continue
            pointed = self.word() == "*"
            if pointed:
                self.take()
            parameters.append((self.take()[0], [None] if pointed else self.sizes()))
        self.take(")")
        return name, parameters, self.block(), self.words[self.index - 1][1]

    def block(self):
        self.take("{")
        items = []
        while self.word() != "}":
            items.append(self.item())
        self.take("}")
        return items

    def item(self):
        if self.word() in ("const", "int"):
            declared = self.declarators()
            self.take(";")
            return "declares", declared
        return self.statement()

    def sizes(self):
        """The sizes in brackets, where there are any; None for one that isn't given."""
        found = []
        while self.word() == "[":
            self.take()
            value = None if self.word() == "]" else self.constant()
            if self.word() != "]":
                word, _ = self.take()
                value = int(word) if value is None else value
            self.take("]")
            found.append(value)
        return found

    def values(self):
        """Values in braces, flat."""
        self.take("{")
        found = []
        while self.word() != "}":
            found += self.values() if self.word() == "{" else [self.expression()]
            if self.word() != "}":
                self.take(",")
        self.take("}")
        return found

    def declarators(self):
        if self.word() == "const":
            self.take()
        self.take("int")
        found = [self.declarator()]
        while self.word() == ",":
            self.take()
            found.append(self.declarator())
        return found

    def declarator(self):
        """A name with its value, alone, or with its sizes and its values."""
        name, _ = self.take()
        if self.word() == "=":
            self.take()
            return name, self.expression(), None
        sizes = self.sizes()
        if not sizes:
            return name, None, None
        if self.word() != "=":
            return name, [], sizes
        self.take("=")
        return name, self.values(), sizes

    def in_parentheses(self):
        self.take("(")
        inner = self.expression()
        self.take(")")
        return inner

    def statement(self):
        word, place = self.word(), self.place()
        if self.is_name() and self.word(1) == ":":
            self.take()
            self.take(":")
            return "label", word
        if word == "{":
            return "block", self.block()
        if word in ("if", "while"):
            self.take()
            condition, first = self.in_parentheses(), self.labelled()
            if word == "while":
                return word, condition, first
            second = None
            if self.word() == "else":
                self.take()
                second = self.labelled()
            return word, condition, first, second
        if word == "do":
            self.take()
            body = self.labelled()
            self.take("while")
            condition = self.in_parentheses()
            self.take(";")
            return word, condition, body
        if word == "for":
            return self.for_loop()
        return self.simple(word, place)

    def for_loop(self):
        self.take("for")
        self.take("(")
        if self.word() in ("const", "int"):
            first = "declares", self.declarators()
        else:
            first = "changes", self.changes(";")
        self.take(";")
        condition = None if self.word() == ";" else self.expression()
        self.take(";")
        changes = self.changes(")")
        self.take(")")
        return "for", first, condition, changes, self.labelled()

    def simple(self, word, place):
        """A statement that ends with a `;`."""
        if word == ";":
            found = ("empty",)
        elif word in ("break", "continue"):
            self.take()
            found = (word,)
        elif word == "return":
            self.take()
            found = word, None if self.word() == ";" else self.expression()
        elif word in ("assume", "__VERIFIER_assume", "assert", "__VERIFIER_assert"):
            self.take()
            found = "assume" if "assume" in word else "assert", self.in_parentheses(), place
        elif self.is_name() and self.word(1) == "(":
            self.take()
            found = "calls", word, self.arguments(), place
        else:
            found = "change", self.change()
        self.take(";")
        return found

    def labelled(self):
        """A statement under another one, with its labels."""
        found = []
        while self.is_name() and self.word(1) == ":":
            found.append(self.statement())
        return found + [self.statement()]

    def changes(self, end):
        found = []
        while self.word() != end:
            if found:
                self.take(",")
            found.append(self.change())
        return found

    def change(self):
        """A place, what is done to it with the place of that sign, and the right side."""
        if self.word() in ("++", "--"):
            sign, at = self.take()
            return self.target(), sign, at, None
        target = self.target()
        sign, at = self.take("=", "+=", "-=", "*=", "/=", "%=", "++", "--")
        return target, sign, at, None if sign in ("++", "--") else self.expression()

    def target(self):
        """A name, with its indexes, each with the place of its bracket, or with none."""
        if not self.is_name():
            raise Unlike(f"{self.word()} is changed")
        name, _ = self.take()
        found = []
        while self.word() == "[":
            _, bracket = self.take()
            found.append((bracket, self.expression()))
            self.take("]")
        return name, found

    def arguments(self):
        self.take("(")
        found = []
        while self.word() != ")":
            if found:
                self.take(",")
            found.append(self.expression())
        self.take(")")
        return found

    def expression(self):
        condition = self.sides(0)
        if self.word() != "?":
            return condition
        self.take()
        yes = self.expression()
        self.take(":")
        return "chosen", condition, yes, self.expression()

    def sides(self, level):
        if level == len(LEVELS):
            return self.operand()
        left = self.sides(level + 1)
        while self.word() in LEVELS[level]:
            sign, at = self.take()
            left = "joined", sign, at, left, self.sides(level + 1)
        return left

    def operand(self):
        word = self.word()
        if word in ("-", "+", "!"):
            self.take()
            return "prefixed", word, self.operand()
        if word in ("++", "--"):
            self.take()
            return "stepped", self.take()[0], word, True
        if word == "(":
            return "grouped", self.in_parentheses()
        if word.isdigit():
            return "number", int(self.take()[0])
        if self.constant() is not None:
            value = self.constant()
            self.take()
            return "number", value
        if word in ("nondet", "__VERIFIER_nondet_int") or self.is_name() and self.word(1) == "(":
            self.take()
            return "call", word, self.arguments()
        name, indexes = self.target()
        if not indexes and self.word() in ("++", "--"):
            return "stepped", name, self.take()[0], False
        return ("element", name, indexes) if indexes else ("variable", name)
