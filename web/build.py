#!/usr/bin/env python3
"""Puts the page together, one file of its parts here and of the program's module.

    web/build.py MODULE PAGE [SAYING]

MODULE is the WebAssembly of the crate tmpl_page, as `./build page` makes it; PAGE is written; SAYING stands at the page's foot.
"""
import base64
import html
import json
import os
import re
import sys
import zlib

WEB = os.path.dirname(os.path.realpath(__file__))
EXAMPLES = os.path.join(os.path.dirname(WEB), "examples")
# The programs to begin with, in the order in which they are offered, each with what it shows.
TITLES = {
    "sum.c": "sum: x + y stays 10",
    "pair.c": "pair: two counters",
    "assertions.c": "assertions: proved and open",
    "search.c": "search: a break out of a for",
    "retry.c": "retry: do, break, continue",
    "nested.c": "nested: loops in loops",
    "thirds.c": "thirds: a bound of 13/3",
    "first.c": "first: no loop at all",
}
# So that it can be sent as it is.
MOST_BYTES = 3_000_000
IMPORT = r"^import \{ ([^}]*) \} from '\./(\w+)\.js';\n"


def text_of(path):
    with open(path, encoding="utf-8") as file:
        return file.read()


def scope_of(name):
    return f"of_{name}"


def below(name, found):
    """The texts of a module and of those that it imports, each behind those that it stands on."""
    text = text_of(f"{WEB}/{name}.js")
    for _, other in re.findall(IMPORT, text, re.M):
        if other not in found:
            below(other, found)
    found[name] = text
    return found


def joined(entry):
    """Several modules as one text: each is a function of its own that gives what it exports."""
    parts = []
    for name, text in below(entry, {}).items():
        given = re.findall(r"^export (?:async )?(?:function|class|const) (\w+)", text, re.M)
        body = re.sub(IMPORT, lambda found: f"const {{ {found[1]} }} = {scope_of(found[2])};\n", text, flags=re.M)
        body = re.sub(r"^export ", "", body, flags=re.M)
        if re.search(r"^(?:import|export)\b", body, re.M):
            sys.exit(f"web/{name}.js: an import or export of another kind")
        parts.append(f"const {scope_of(name)} = (() => {{\n{body}return {{ {', '.join(given)} }};\n}})();\n")
    return "\n".join(parts)


def examples():
    """The programs of examples/ with their texts."""
    names = [name for name in os.listdir(EXAMPLES) if name.endswith(".c")]
    ordered = sorted(names, key=lambda name: (list(TITLES).index(name) if name in TITLES else len(TITLES), name))
    return [{"name": name, "title": TITLES.get(name, name), "text": text_of(f"{EXAMPLES}/{name}")} for name in ordered]


def packed(path):
    with open(path, "rb") as file:
        packer = zlib.compressobj(9, zlib.DEFLATED, -15)
        return base64.b64encode(packer.compress(file.read()) + packer.flush()).decode()


def filled(page, place, content):
    """The page with something in the place that is kept for it."""
    if page.count(place) != 1:
        sys.exit(f"web/page.html: {place} stands there {page.count(place)} times")
    if re.search("</script|</style", content, re.I):
        sys.exit(f"{place}: what is to stand there would end it")
    return page.replace(place, content)


def page_of(module, saying=""):
    """The page with a module, given as base64 of its packed bytes."""
    page = text_of(f"{WEB}/page.html")
    page = filled(page, "/* page.css */", "\n" + text_of(f"{WEB}/page.css"))
    page = filled(page, "/* page.js */", "\n" + joined("page"))
    page = filled(page, 'id="worker">', 'id="worker">\n' + text_of(f"{WEB}/worker.js"))
    page = filled(page, 'id="examples">', 'id="examples">' + json.dumps(examples(), ensure_ascii=False).replace("<", "\\u003c"))
    page = filled(page, 'id="module">', f'id="module">{module}')
    return page.replace('<span id="made"></span>', f'<span id="made">{html.escape(saying)}</span>')


def main(words):
    if len(words) not in (2, 3):
        print(__doc__, file=sys.stderr)
        return 2
    page = page_of(packed(words[0]), *words[2:]).encode()
    if len(page) > MOST_BYTES:
        sys.exit(f"build.py: the page has {len(page):,} bytes, and is to have {MOST_BYTES:,} at most")
    with open(words[1], "wb") as file:
        file.write(page)
    print(f"{words[1]}: {len(page):,} bytes", file=sys.stderr)
    return 0


if __name__ == "__main__":
    sys.exit(main(sys.argv[1:]))
