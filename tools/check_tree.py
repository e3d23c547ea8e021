#!/usr/bin/env python3
"""What the tree keeps to beside its proofs: run by the gate behind `rt ci`, and by hand at any time.

    tools/check_tree.py             prints what is found, a line each; exit code 1 where there is something
    tools/check_tree.py --tables    writes the tables of docs/DEVELOPING.md that are made from the tree

- No line of a .rt or .antt file has over 140 columns, and no file over 500 lines.
- A file of definitions or of lemmas begins with a comment that says what it has; a public lemma has a line above it that says it.
- A number that limits something stands in one constant, and nowhere else in src/ and specs/.
- Each path and each name of code that a page of docs/ or the README cites exists.
- Each rule of docs/FORMATS.md that has a name (in bold) names the file that has it.
- Each crate that crates.txt names below another is cited there: a crate more is one more to be proved before it.
- The words of each command stand in docs/ as the usage line and the pages of help have them.
- The tables of crates and of edits are those of crates.txt, of the crates' first lines and of must-fail/.
"""
import collections
import os
import re
import subprocess
import sys

TOP = os.path.dirname(os.path.dirname(os.path.realpath(__file__)))
WIDTH, LENGTH = 140, 500
# Files that hold answers to the checker's goals, or only name others: they need no head.
UNHEADED = ("Answers.antt", "Invariants.antt", "Proof.antt", "Lib.antt")
found = []


def say(place, what):
    found.append(f"{place}: {what}")


def tracked(pattern):
    listed = subprocess.run(["git", "ls-files", "-co", "--exclude-standard"], cwd=TOP, capture_output=True, text=True, check=True).stdout
    return [file for file in listed.splitlines() if re.search(pattern, file) and os.path.isfile(f"{TOP}/{file}")]


def lines_of(file):
    with open(f"{TOP}/{file}", encoding="utf-8") as it:
        return it.read().split("\n")


def code_files():
    return tracked(r"^crates/[^/]+/(src|specs|proofs)/.*\.(rt|antt)$")


def check_shape():
    for file in code_files():
        lines = lines_of(file)
        for number, line in enumerate(lines, 1):
            # A text of a test or of an example is one literal, whatever its length; the kit's layout keeps an attribute on one line.
            if len(line) > WIDTH and not re.fullmatch(r'[^"]{0,40}".*"[#,;)]*|\s*#\[.*\]', line):
                say(f"{file}:{number}", f"{len(line)} columns")
        if len(lines) - 1 > LENGTH:
            say(file, f"{len(lines) - 1} lines")


def names_others_alone(lines):
    return all(re.match(r"(pub )?mod \w|\s*$|--", line) for line in lines)


def check_heads():
    for file in code_files():
        if not file.endswith(".antt") or os.path.basename(file) in UNHEADED:
            continue
        lines = lines_of(file)
        if names_others_alone(lines):
            continue
        if not lines[0].startswith("--"):
            say(file, "no head")
        for number, line in enumerate(lines):
            lemma = re.match(r"\s*pub ([^\s:]+)( \{\w+\})? : ", line)
            if "/proofs/" in file and lemma:
                above = number - 1
                while above > 0 and re.match(r"\s*(unfolding|unfoldable)\b", lines[above]):
                    above -= 1
                if not lines[above].lstrip().startswith("--"):
                    say(f"{file}:{number + 1}", f"nothing says what {lemma[1]} is")


def constants():
    """The numbers of the constants of each crate's limits, but for small ones, which mean other things elsewhere."""
    numbers = {}
    for file in tracked(r"^crates/[^/]+/src/(.*/)?limits\.rt$"):
        for line in lines_of(file):
            const = re.match(r"pub(?:\(crate\))? const (\w+): \w+ = ([\d_]+);", line)
            if const and int(const[2]) >= 1000:
                numbers[int(const[2])] = (file, const[1])
    return numbers


def check_limits():
    numbers = constants()
    for file in code_files():
        if "/proofs/" in file or re.match(r"crates/(test|bench)_|crates/\w+_(tests|bench)/", file) or file.endswith("limits.rt"):
            continue
        for number, line in enumerate(lines_of(file), 1):
            text = re.sub(r'"[^"]*"|//.*|--.*', "", line)
            # A divisor is no limit.
            for literal in re.findall(r"(?<![\w.])(?<!/ )\d[\d_]*(?![\w.])", text):
                value = int(literal.replace("_", ""))
                if value in numbers:
                    say(f"{file}:{number}", f"{literal} is {numbers[value][1]} of {numbers[value][0]}")


def pages():
    return tracked(r"^docs/\w+\.md$") + ["README.md"]


def defined_names():
    names = collections.defaultdict(set)
    for file in code_files():
        crate = file.split("/")[1]
        for line in lines_of(file):
            for name in re.findall(r"\b(?:fn|struct|enum|trait|const|type|mod|data|record) (?:pub )?(\w+)", line):
                names[crate].add(name)
            for name in re.findall(r"^\s*(?:unfoldable |abbrev )?(?:pub )?(?:abbrev )?(?:pub )?([\w'-]+) :", line):
                names[crate].add(name)
            for name in re.findall(r"^\s+([A-Z]\w+)(?: \{|\(|,|$)", line):
                names[crate].add(name)
    return names


def check_pages():
    crates = {file.split("/")[1] for file in code_files()}
    names = defined_names()
    for page in pages():
        for number, line in enumerate(lines_of(page), 1):
            for cited in re.findall(r"`([^`]+)`", line) + re.findall(r"\b(?:docs|bench|examples|tools|crates)/[\w./-]+\w", line):
                cited = cited.rstrip(".,:;")
                first = cited.split("/")[0]
                if "/out/" not in cited and re.fullmatch(r"[\w.-]+(/[\w.-]+)+/?", cited) and (first in crates or os.path.exists(f"{TOP}/{first}")):
                    where = f"crates/{cited}" if first in crates else cited
                    if not any(os.path.exists(f"{TOP}/{where}{end}") for end in ("", ".antt", ".rt", ".md")):
                        say(f"{page}:{number}", f"there is no {cited}")
                named = re.fullmatch(r"(\w+)::(\w+)(?:::(\w+))?(\(.*\))?", cited)
                if named and named[1] in crates and not all(part in names[named[1]] for part in named.groups()[1:3] if part):
                    say(f"{page}:{number}", f"{named[1]} has no {named[2]}{'::' + named[3] if named[3] else ''}")
                if re.fullmatch(r"tm_\w+|\w+_\w+", cited) and cited.startswith("tm_") and cited not in crates and cited != "tm_":
                    say(f"{page}:{number}", f"there is no crate {cited}")


def crates_listed():
    for line in lines_of("crates.txt"):
        if re.match(r"[a-z]", line):
            head, _, below = line.partition(":")
            yield head.split()[0], below.split()


def check_crates():
    texts = collections.defaultdict(str)
    for file in code_files():
        texts[file.split("/")[1]] += "\n".join(re.sub(r"^\s*(//|--).*", "", line) for line in lines_of(file)) + "\n"
    for crate, below in crates_listed():
        for name in below:
            if not re.search(rf"\b{name}::|\bRattle\.{name}\.", texts[crate]):
                say("crates.txt", f"{crate} cites nothing of {name}")


def first_sentences(crate):
    """What the crate's first lines say of it."""
    root = next(it for it in ("lib", "main") if os.path.isfile(f"{TOP}/crates/{crate}/src/{it}.rt"))
    said = []
    for line in lines_of(f"crates/{crate}/src/{root}.rt"):
        line = re.match(r"//!? (.*)", line)
        if not line:
            break
        said.append(line[1].strip())
    return " ".join(said).replace("|", "\\|")


def edits_of(crate):
    folder = f"{TOP}/crates/{crate}/must-fail"
    return sorted(it[:-5].replace("_", " ") for it in os.listdir(folder) if it.endswith(".edit")) if os.path.isdir(folder) else []


def tables():
    """The tables that are made from the tree, by their names."""
    crates = ["| Crate | What it is | Stands on |", "|---|---|---|"]
    edits = ["| Crate | Edits | What they turn |", "|---|---|---|"]
    for crate, below in crates_listed():
        crates.append(f"| `{crate}` | {first_sentences(crate)} | {' '.join(below)} |")
        turned = edits_of(crate)
        if turned:
            edits.append(f"| `{crate}` | {len(turned)} | {'; '.join(turned)} |")
    return {"crates": crates, "edits": edits}


def with_tables(text):
    for name, rows in tables().items():
        marks = f"<!-- {name}: made by tools/check_tree.py --tables -->", f"<!-- end of {name} -->"
        parts = re.compile(f"({re.escape(marks[0])}\n).*?({re.escape(marks[1])})", re.S)
        text = parts.sub(lambda it, rows=rows: it[1] + "\n".join(rows) + "\n" + it[2], text)
    return text


def check_tables():
    with open(f"{TOP}/docs/DEVELOPING.md", encoding="utf-8") as it:
        text = it.read()
    if "tools/check_tree.py --tables" not in text:
        say("docs/DEVELOPING.md", "no tables of crates and edits")
    if with_tables(text) != text:
        say("docs/DEVELOPING.md", "a table isn't that of the tree: tools/check_tree.py --tables writes it")


def check_rules():
    """Each section of docs/FORMATS.md whose text has a rule in bold names a file that is there."""
    section, bold, files = None, [], []
    for number, line in enumerate([*lines_of("docs/FORMATS.md"), "## "], 1):
        if line.startswith("#"):
            if section and bold and not files:
                say(f"docs/FORMATS.md:{section[0]}", f"no file is named for the rules of '{section[1]}'")
            section, bold, files = (number, line.strip("# ")), [], []
        bold += re.findall(r"\*\*[^*]+\*\*", line)
        files += re.findall(r"`[\w/]+\.(?:antt|rt)`", line)


def check_words():
    """docs/USING.md and docs/FORMATS.md have the words of each command, and docs/FORMATS.md the usage line, as their definitions have them."""
    definitions, code = "crates/ask_words/specs/Help.antt", "crates/ask_words/src/help.rt"
    heads = re.findall(r'^head_of page\.\w+ = codes "(.*)"$', "\n".join(lines_of(definitions)), re.M)
    line = re.search(r'b"(usage: .*?)\\n"', "\n".join(lines_of(code)), re.S)
    if not heads or not line:
        say(definitions, "no words of commands")
        return
    using, formats = "\n".join(lines_of("docs/USING.md")), "\n".join(lines_of("docs/FORMATS.md"))
    for head in heads:
        if f"`./tmpl {head}" not in using:
            say("docs/USING.md", f"`./tmpl {head}` isn't there")
        if f"| `{head}" not in formats:
            say("docs/FORMATS.md", f"`{head}` isn't there")
    usage = re.sub(r"\\\n\s*", "", line[1]).replace(" | ", " \\| ")
    if f"`{usage}`" not in formats:
        say("docs/FORMATS.md", "the usage line isn't that of the program")


def main():
    if sys.argv[1:] == ["--tables"]:
        with open(f"{TOP}/docs/DEVELOPING.md", encoding="utf-8") as it:
            text = it.read()
        with open(f"{TOP}/docs/DEVELOPING.md", "w", encoding="utf-8") as it:
            it.write(with_tables(text))
        return 0
    if sys.argv[1:]:
        print(__doc__, file=sys.stderr)
        return 2
    for check in (check_shape, check_heads, check_limits, check_pages, check_crates, check_tables, check_rules, check_words):
        check()
    for line in found:
        print(line)
    print(f"check_tree: {len(found)} found")
    return 1 if found else 0


if __name__ == "__main__":
    sys.exit(main())
