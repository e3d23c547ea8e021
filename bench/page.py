"""Walks the page as a person would, and compares what it shows with what the program writes. bench/page.sh has the words."""
import json
import os
import re
import shutil
import subprocess
import sys
import tempfile
import time

TOP = os.path.dirname(os.path.dirname(os.path.realpath(__file__)))
sys.path.insert(0, f"{TOP}/web")
sys.dont_write_bytecode = True
import build
from browser import Browser

PROGRAM = os.environ.get("TMPL", f"{TOP}/tmpl")
TABS = ("tab-checks", "tab-report", "tab-certificate", "tab-bounds")
WIDTHS = (360, 414, 600, 768, 960, 1024, 1280, 1600, 2000)
ROWS = "# a sum with a factor\nx + 2*y\n-x - 2*y\nx\n-x\n"
WRONG = "int main() {\n    int x = 0;\n    x = x * x;\n}\n"
# Six loops over octagons take minutes.
LONG = """int main() {
    int a = 0, b = 1, c = 2, d = 3, e = 4, f = 5;
    while (a < 100) { a++; b = b + 2; if (nondet()) c = b - 1; }
    while (b < 107) { b++; c = c + e; if (nondet()) d = c - 1; }
    while (c < 114) { c++; d = d + 2; if (nondet()) e = d - 1; }
    while (d < 121) { d++; e = e + a; if (nondet()) f = e - 1; }
    while (e < 128) { e++; f = f + 2; if (nondet()) a = f - 1; }
}
"""
# Said before something is asked, so that its answer is told from what was there before.
ASKED = "document.getElementById('state').dataset.kind = 'asked';"
CHECKED = """int main() {
    int x = 0, y = 10;
    while (x < 10) {
        assert(x + y == 10);
        x++;
        y--;
    }
    assert(y == 5);
}
"""


# Checks behind signs that take more than a byte, on two lines, behind a loop within a loop, and where nothing comes.
SPREAD = """int main() {
    int i = 0, j = 0; /* von \u00e4 bis \U0001d6fc */ assert(i
        == j);
    while (i < 5) {
        j = 0;
        while (j < i) { j++; assert(j <= 5); }
        i++;
    }
    assert(i == 5); assert(j < 4);
    if (i < 5) { assert(j == 100); }
}
"""


def written(words, texts):
    """What the program answers: status, output and message."""
    with tempfile.TemporaryDirectory() as room:
        for name, text in texts.items():
            with open(f"{room}/{name}", "wb") as file:
                file.write(text if isinstance(text, bytes) else text.encode())
        ran = subprocess.run([PROGRAM, *words], cwd=room, capture_output=True, check=False)
    message = [line for line in ran.stderr.decode().splitlines() if "not proved on this machine" not in line]
    return ran.returncode, ran.stdout, "\n".join(message)


class Walk:
    """The steps, and what they find wrong."""

    def __init__(self, browser, page):
        self.browser, self.page, self.faults, self.seen = browser, page, [], 0

    def expect(self, what, got, wanted=True):
        self.seen += 1
        if got != wanted:
            self.faults.append(f"{what}: {got!r:.600}, and not {wanted!r:.600}")

    def open(self, behind=""):
        self.browser.open(f"file://{self.page}{behind}")
        self.settle()

    def settle(self, seconds=60):
        """Waits until what was asked is answered."""
        quiet = "['done', 'refused'].includes(document.getElementById('state').dataset.kind)"
        self.browser.wait(f"document.getElementById('run').textContent === 'Run' && {quiet}", seconds)

    def text(self, identity):
        return self.browser.evaluate(f"document.getElementById('{identity}').textContent")

    def set_program(self, text):
        """Writes a program in place of what is there, as a person does that pastes it."""
        self.browser.evaluate(f"{ASKED} document.getElementById('text').focus(); document.getElementById('text').select()")
        self.browser.write(text)

    def choose(self, identity, value):
        self.browser.evaluate(
            f"(() => {{ {ASKED} const it = document.getElementById('{identity}'); it.value = {json.dumps(value)};"
            " for (const event of ['input', 'change']) it.dispatchEvent(new Event(event, { bubbles: true })); })()"
        )

    def domain(self, name):
        self.browser.evaluate(f"{ASKED} document.querySelector('input[value={name}]').click()")

    def click(self, identity):
        self.browser.evaluate(f"document.getElementById('{identity}').click()")

    def give(self, identity, file):
        """Gives a file to the input with this identity."""
        node = self.browser.call("Runtime.evaluate", expression=f"document.getElementById('{identity}')")["result"]["objectId"]
        self.browser.call("DOM.setFileInputFiles", files=[file], objectId=node)


def tables(walk):
    """The tables of meets, and of points before checks, that were worked out by hand."""
    for table in ("polygon_table", "checks_table"):
        found = walk.browser.evaluate(f"(() => {{ {build.joined(table)} return of_{table}.faults(); }})()")
        walk.expect(f"web/{table}.js", found, [])


def reports(walk):
    """Each example over each ready-made domain, and one over own rows."""
    for example in build.examples():
        walk.choose("example", example["name"])
        walk.settle()
        for domain in ("intervals", "zones", "octagons", "packs"):
            walk.domain(domain)
            walk.settle()
            status, output, _ = written(["solve", "p", "--domain", domain], {"p": example["text"]})
            walk.expect(f"{example['name']} over {domain}: the status", status, 0)
            walk.expect(f"{example['name']} over {domain}", walk.text("report-text").encode(), output)
            heads = len(re.findall(rb"^point ", output, re.M))
            walk.expect("how many points can be chosen", walk.browser.evaluate("document.querySelectorAll('#points input').length"), heads)
    walk.choose("example", "sum.c")
    walk.domain("rows")
    walk.settle()
    walk.choose("rows", ROWS)
    walk.settle()
    text = build.text_of(f"{TOP}/examples/sum.c")
    walk.expect("own rows", walk.text("report-text").encode(), written(["solve", "p", "--domain", "rows", "--rows", "r"], {"p": text, "r": ROWS})[1])
    walk.expect("the corners by own rows", walk.text("corners"), "Unbounded, with 2 corners: (0, 10), (10, 5).")
    walk.choose("rows", "x + z\n")
    walk.settle()
    walk.expect("rows over no variable", walk.text("rows-fault"), "The rows: unknown name in line 1.")
    walk.domain("octagons")
    walk.settle()


def large(walk):
    """A long program with many points, and one that is longer than a program may be."""
    lines = "".join(f"    while (x < {at}) {{ x = x + 1; if (nondet()) y = y + x; }}\n" for at in range(2, 22))
    text = "int main() {\n    int x = 0, y = 0;\n" + lines + "    // " + "long " * 12000 + "\n}\n"
    walk.set_program(text)
    walk.settle()
    status, output, _ = written(["solve", "p", "--domain", "octagons"], {"p": text})
    walk.expect("a large program: the status", status, 0)
    walk.expect("a large program", walk.text("report-text").encode(), output)
    walk.set_program(text + " " * 1048576)
    walk.settle()
    walk.expect("a program that is too long", walk.text("said"), "Too long: the program.")


def corners(walk):
    """Points and their pictures."""
    walk.choose("example", "sum.c")
    walk.settle()
    walk.expect("the corners at the loop", walk.text("corners"), "A segment: (0, 10), (10, 0).")
    ticks = "[...document.querySelectorAll('#picture .tick')].map((it) => it.textContent).join(' ')"
    before = walk.browser.evaluate(ticks)
    walk.browser.evaluate("document.querySelector('#points input[value=\"2\"]').click()")
    walk.expect("the corners at the exit", walk.text("corners"), "A point: (10, 0).")
    walk.expect("one scale for all points", walk.browser.evaluate(ticks), before)
    walk.browser.evaluate("document.querySelector('#points input[value=\"0\"]').click()")
    walk.expect("the corners at the entry", walk.text("corners"), "Unbounded, with no corner.")
    walk.expect("one scale for all points, again", walk.browser.evaluate(ticks), before)
    walk.choose("example", "thirds.c")
    walk.settle()
    walk.expect("a range", walk.text("corners"), "A range: 0, 13/3.")
    notes = walk.browser.evaluate("[...document.querySelectorAll('.tip')].map((it) => it.textContent)")
    walk.expect("notes", notes, ["loop0 \u2264 x \u2264 13/3", "exit0 \u2264 x \u2264 13/3"])


def wrong_text(walk):
    walk.set_program(WRONG)
    walk.settle()
    status, _, message = written(["solve", "p"], {"p": WRONG})
    walk.expect("a wrong text: the status", status, 4)
    walk.expect("a wrong text: its whole message", walk.browser.evaluate("document.getElementById('state').title"), message)
    walk.expect("a wrong text: what is said", walk.text("said"), "Not affine in line 3.")
    walk.expect("a wrong text: the rest is of a text before", walk.browser.evaluate("document.getElementById('before').hidden"), False)
    place = "[...document.querySelectorAll('.notes .line')].findIndex((it) => it.querySelector('.bad'))"
    walk.expect("a wrong text: at its line", walk.browser.evaluate(place), 2)
    walk.set_program("int main() {\n    int x = 0;\n    x = x + x;\n}\n")
    walk.settle()
    walk.expect("nothing is of a text before", walk.browser.evaluate("document.getElementById('before').hidden"))
    walk.expect("a text that is mended", walk.browser.evaluate("document.querySelectorAll('.bad').length"), 0)


def certificates(walk, room):
    """A certificate is saved, opened, and refused for another program."""
    walk.browser.call("Browser.setDownloadBehavior", behavior="allow", downloadPath=room)
    walk.choose("example", "pair.c")
    walk.settle()
    walk.click("tab-certificate")
    walk.click("certify")
    text = build.text_of(f"{TOP}/examples/pair.c")
    wanted = written(["certify", "p", "--domain", "octagons"], {"p": text})[1]
    until = time.monotonic() + 30
    while time.monotonic() < until and not (os.path.isfile(f"{room}/pair.cert") and os.path.getsize(f"{room}/pair.cert") == len(wanted)):
        walk.browser.evaluate("0")
        time.sleep(0.1)
    with open(f"{room}/pair.cert", "rb") as file:
        walk.expect("the certificate that is saved", file.read(), wanted)
    for program, expected in (("pair.c", (0, "pair.cert is accepted")), ("sum.c", (1, None))):
        walk.choose("example", program)
        walk.settle()
        walk.browser.evaluate("document.getElementById('certificate-said').textContent = ''")
        walk.give("checked", f"{room}/pair.cert")
        walk.browser.wait("document.getElementById('certificate-said').textContent !== ''")
        status, output, message = written(["check", "p", "c"], {"p": build.text_of(f"{TOP}/examples/{program}"), "c": wanted})
        walk.expect(f"a certificate checked with {program}: the status", status, expected[0])
        if expected[1]:
            walk.expect(f"a certificate checked with {program}", walk.text("certificate-said")[: len(expected[1])], expected[1])
            walk.expect("the report of a certificate", walk.text("report-text").encode(), output)
        else:
            walk.expect(f"a certificate checked with {program}", walk.text("certificate-said"), f"{message[0].upper()}{message[1:]}.")
    walk.click("tab-bounds")


def long_run(walk):
    """Long work shows where it is, doesn't freeze the page, and can be stopped."""
    walk.set_program(LONG)
    walk.browser.wait("document.getElementById('state').dataset.kind === 'working'")
    walk.browser.wait("/round [0-9]/.test(document.getElementById('said').textContent)")
    first = walk.text("said")
    walk.browser.wait(f"document.getElementById('said').textContent !== {json.dumps(first)}")
    walk.expect("how far long work is", bool(re.match(r"At work: round \d+.*, \d", walk.text("said"))))
    begun = time.monotonic()
    walk.click("run")
    walk.browser.wait("document.getElementById('said').textContent === 'Stopped.'")
    walk.expect("work is stopped at once", time.monotonic() - begun < 2)
    walk.expect("behind a stop the rest is of a text before", walk.browser.evaluate("document.getElementById('before').hidden"), False)
    walk.expect("marks of a text before", walk.browser.evaluate("document.querySelectorAll('.tip, .at-point, .chosen .chosen').length"), 0)
    walk.click("certify")
    walk.browser.wait("/round [0-9]/.test(document.getElementById('said').textContent)")
    walk.expect("a certificate in the making can be stopped", walk.text("run"), "Stop")
    walk.click("run")
    walk.browser.wait("document.getElementById('said').textContent === 'Stopped.'")
    walk.choose("example", "sum.c")
    walk.settle()
    walk.expect("behind work that was stopped", walk.text("said").startswith("Least bounds after 3 improvements"))


def links(walk):
    walk.choose("example", "retry.c")
    walk.settle()
    walk.domain("zones")
    walk.settle()
    report = walk.text("report-text")
    walk.click("share")
    walk.browser.wait("location.hash.startsWith('#p=')")
    behind = walk.browser.evaluate("location.hash")
    walk.browser.open("about:blank")
    walk.open(behind)
    walk.expect("what a link holds", walk.text("report-text"), report)
    walk.browser.open("about:blank")
    walk.open("#p=nothing")
    walk.expect("a link that holds nothing", walk.text("said").startswith("Least bounds"))


def keys(walk):
    """All by the keyboard alone."""
    walk.open()
    walk.browser.evaluate("document.getElementById('example').focus()")
    found = ["example"]
    for _ in range(60):
        walk.browser.key("Tab")
        found.append(walk.browser.evaluate("document.activeElement.id || document.activeElement.name || document.activeElement.tagName"))
        if found[-1] == "BODY":
            break
    wanted = ["example", "open", "share", "theme", "domain", "policy", "text", "run", "tab-bounds", "point", "across", "exchange", "up"]
    walk.expect("where Tab leads", [it for it in found if it in wanted], wanted)
    chosen = "document.querySelector('#points input:checked').value"
    walk.browser.evaluate("document.querySelector('#points input:checked').focus()")
    walk.browser.key("ArrowRight")
    walk.expect("the next point", walk.browser.evaluate(chosen), "2")
    walk.browser.evaluate("document.getElementById('text').focus()")
    walk.browser.key("ArrowUp", modifiers=1)
    walk.expect("the point before, from the text", walk.browser.evaluate(chosen), "1")
    walk.browser.evaluate(ASKED)
    walk.browser.key("Enter", modifiers=2)
    walk.settle()
    walk.browser.evaluate("document.getElementById('tab-bounds').focus()")
    walk.browser.key("ArrowRight")
    shown = "[...document.querySelectorAll('[role=tabpanel]')].filter((it) => !it.hidden).map((it) => it.id).join()"
    walk.expect("the next tab", walk.browser.evaluate(shown), "checks")
    walk.browser.key("Home")
    walk.expect("the first tab", walk.browser.evaluate(shown), "bounds")


def names(walk):
    """Each thing that can be focused has a name for screen readers."""
    walk.browser.call("Accessibility.enable")
    nodes = walk.browser.call("Accessibility.getFullAXTree")["nodes"]
    nameless = []
    for node in nodes:
        kind = node.get("role", {}).get("value")
        can = any(it["name"] == "focusable" and it["value"].get("value") for it in node.get("properties", []))
        if can and not node.get("ignored") and kind != "RootWebArea" and not node.get("name", {}).get("value"):
            nameless.append(kind)
    walk.expect("what has no name", nameless, [])
    image = [node["name"]["value"] for node in nodes if node.get("role", {}).get("value") in ("image", "img") and node.get("name", {}).get("value")]
    walk.expect("the picture in words", image, ["Loop, line 3, x across, y up. A segment: (0, 10), (10, 0)"])


def widths(walk):
    """Nothing sticks out at any width."""
    walk.set_program(CHECKED)
    walk.settle()
    for width in WIDTHS:
        walk.browser.resize(width, 860)
        for tab in TABS:
            walk.click(tab)
            over = walk.browser.evaluate("document.documentElement.scrollWidth - document.documentElement.clientWidth")
            walk.expect(f"what sticks out at {width} pixels behind {tab}", over, 0)
    walk.browser.resize(1280, 860)


def contrast(walk):
    """Text is at least 4.5 times as light or dark as what it stands on, in both colours."""
    script = """(() => {
        const light = ([r, g, b]) => {
            const part = (it) => { const x = it / 255; return x <= 0.04045 ? x / 12.92 : ((x + 0.055) / 1.055) ** 2.4; };
            return 0.2126 * part(r) + 0.7152 * part(g) + 0.0722 * part(b);
        };
        const parts = (text) => text.match(/[\\d.]+/g).map(Number);
        const under = (node) => {
            for (; node; node = node.parentElement) {
                const found = parts(getComputedStyle(node).backgroundColor);
                if (found.length < 4 || found[3] > 0.9) return found;
            }
            return [255, 255, 255];
        };
        const found = [];
        for (const node of document.querySelectorAll('main *, header *, footer *')) {
            const own = [...node.childNodes].some((it) => it.nodeType === 3 && it.data.trim());
            if (!own || !node.offsetWidth || node.closest('.gutter, .notes .space, svg, textarea') || node.disabled) continue;
            const [a, b] = [light(parts(getComputedStyle(node).color)), light(under(node))];
            const ratio = (Math.max(a, b) + 0.05) / (Math.min(a, b) + 0.05);
            if (ratio < 4.5) found.push(`${node.className || node.tagName} ${node.textContent.slice(0, 20)} ${ratio.toFixed(2)}`);
        }
        return [...new Set(found)];
    })()"""
    for scheme in ("light", "dark"):
        walk.browser.media(scheme)
        for tab in TABS:
            walk.click(tab)
            walk.expect(f"what is hard to read behind {tab}, {scheme}", walk.browser.evaluate(script), [])
    walk.browser.media("light")


def checks(walk):
    """Verdicts on checks: as the program writes them, at their place in the text with their state, and in the picture."""
    walk.open()
    walk.set_program(CHECKED)
    walk.settle()
    walk.expect("what is said of checks", walk.text("said").split(". ")[0], "1 of 2 checks proved")
    marked = "(kind) => [...document.querySelectorAll(kind)].map((it) => it.textContent)"
    walk.expect("the open check, underlined", "".join(walk.browser.evaluate(f"({marked})('.open-check')")), "assert(y == 5)")
    walk.expect("the check that is proved, underlined", "".join(walk.browser.evaluate(f"({marked})('.proved-check')")), "assert(x + y == 10)")
    walk.expect("its state behind its line", walk.browser.evaluate(f"({marked})('.tip.open')"), ["assertopen at x = 10, y = 0"])
    walk.click("tab-checks")
    listed = walk.browser.evaluate(f"({marked})('#check-list .check')")
    walk.expect("the checks", listed, ["provedassert(x + y == 10)line 4, column 9", "openassert(y == 5)line 8, column 5"])
    walk.browser.evaluate("document.querySelectorAll('#check-list .check')[1].click()")
    walk.expect("where an open check leads", walk.browser.evaluate("document.getElementById('text').selectionStart"), CHECKED.index("assert(y"))
    walk.browser.evaluate("document.querySelector('#check-list .why button').click()")
    walk.expect("the point before it", walk.browser.evaluate("document.querySelector('#points input:checked').value"), "1")
    seen = "A segment: (0, 10), (10, 0). The cross is the state at the check in line 8: (10, 0)."
    walk.expect("its state in the picture", walk.text("corners"), seen)
    walk.expect("its cross", walk.browser.evaluate("document.querySelectorAll('#picture .state-mark').length"), 1)
    for text in (CHECKED, build.text_of(f"{TOP}/examples/assertions.c"), SPREAD):
        walk.set_program(text)
        walk.settle()
        for domain in ("intervals", "zones", "octagons", "packs"):
            walk.domain(domain)
            walk.settle()
            status, output, _ = written(["verify", "p", "--domain", domain], {"p": text})
            walk.expect("the status of verify", status in (0, 10))
            walk.expect(f"the verdicts over {domain}", walk.text("verdict-text").encode(), output)
            found = walk.browser.evaluate("document.querySelectorAll('.open-check').length > 0")
            walk.expect(f"whether a check is open over {domain}", found, status == 10)
    walk.choose("example", "sum.c")
    walk.settle()
    walk.expect("a program without checks", walk.text("check-said").startswith("Write assert("))
    walk.expect("a program without verdicts", walk.browser.evaluate("document.getElementById('verdicts').hidden"))


def pictures(walk, room):
    """Three pictures: broad and light, broad and dark, of a telephone's width."""
    for file, example, width, height, scheme in (
        ("light", "search.c", 1360, 900, "light"), ("dark", "nested.c", 1720, 900, "dark"), ("narrow", "retry.c", 390, 1360, "light"),
    ):
        walk.browser.resize(width, height, 2 if file == "light" else 1)
        walk.browser.media(scheme)
        walk.open()
        walk.choose("example", example)
        walk.settle()
        time.sleep(0.4)
        # Without the foot, which says of what the page was made.
        clip = {"x": 0, "y": 0, "width": width, "height": walk.browser.evaluate("document.querySelector('footer').offsetTop")}
        walk.browser.picture(f"{room}/{file}.png", clip)


def main(words):
    keeps = "--picture" in words
    words = [word for word in words if word != "--picture"]
    page = os.path.realpath(words[0]) if words else f"{TOP}/out/tmpl.html"
    if not os.path.isfile(page):
        print(f"page.sh: {page} isn't there; ./build page makes it", file=sys.stderr)
        return 9
    kept = f"{TOP}/out/page"
    os.makedirs(kept, exist_ok=True)
    browser = Browser()
    with tempfile.TemporaryDirectory() as room:
        try:
            walk = Walk(browser, page)
            browser.resize(1280, 860)
            browser.media("light")
            for step in (
                Walk.open, tables, reports, large, corners, wrong_text, lambda it: certificates(it, room), long_run, links, keys, names,
                widths, contrast, checks, lambda it: pictures(it, kept),
            ):
                step(walk)
            walk.expect("what was asked of the network", browser.asked_for(), [])
            walk.expect("complaints of the browser", browser.complaints(), [])
        finally:
            browser.close()
    if keeps:
        shutil.copyfile(f"{kept}/light.png", f"{TOP}/docs/page.png")
    for fault in walk.faults:
        print(f"page.sh: {fault}")
    print(f"page.sh: {walk.seen - len(walk.faults)} of {walk.seen} as wanted; {os.path.getsize(page):,} bytes; pictures in {kept}")
    return 1 if walk.faults else 0


if __name__ == "__main__":
    sys.exit(main(sys.argv[1:]))
