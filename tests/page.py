#!/usr/bin/env python3
"""Opens the page in a headless Chromium and drops files on it.

Over the examples, the refused ones too, and over files that are made by chance, what it shows is what the program, p21-where
and p21-diff print. Then it is used as people do: with a keyboard, on a phone, without a network, with a job that is stopped,
with a memory that can't grow, and in a browser that has no 64-bit memory. Where there is a Firefox, the examples are opened
in it too, and what could differ there is tried in both. Files are dropped, chosen in fields, and where Xvfb and xdotool are, chosen
by the browsers' own choosers on a screen.

P21 names another program than ./p21. The status is 77 where there is no Chromium, no Firefox, no Xvfb or no xdotool, or no `rt`,
which makes the page.
"""

# What of WCAG 2.2 AA is tested, and how (`people`, `accessible` and `on_paper` in `tests/page.py`): the contrast of
# each text in light, dark and on paper (1.4.3); that nothing stands beside a width of 320 (1.4.10), nor with more room
# between letters, words and lines, and then nothing is cut off (1.4.12); that what is pressed has 24 by 24 pixels
# (2.5.8); that Tab leads to everything, with an outline of two pixels in sight (2.1.1, 2.4.7, 2.4.11), and a link to
# the answer (2.4.1); that headings leave out no level (1.3.1); roles and names, by the tree that Chromium gives to
# readers (4.1.2), and what is said without the focus (4.1.3). Not tested: a screen reader itself, forced colours, the
# contrast of edges, and people who need any of it.

import gzip
import hashlib
import io
import json
import os
import pathlib
import random
import re
import shutil
import socket
import subprocess
import sys
import time
import zipfile

import fuzz
import needs
from plain import commands
from renaming import shuffled
from tooling import ROOT, Tests, file_of
from web import browser, desktop, firefox, making

CASES = 300
ANSWER = """(() => {
    const answer = document.getElementById("answer");
    const texts = (within, selector) => [...within.querySelectorAll(selector)].map((found) => found.textContent);
    const differences = [...answer.querySelectorAll(".differences li")].sort((one, other) => one.dataset.at - other.dataset.at);
    if (answer.hidden || answer.children.length === 0 || !answer.hasAttribute("data-whole")) return null;
    return {
        verdict: texts(answer, ".verdict > div")[0],
        files: [...answer.querySelectorAll(".file")].map((file) => ({
            name: file.dataset.name,
            line: texts(file, ".line")[0] ?? texts(file, ".lines")[0].split("\\n")[0],
            count: texts(file, ".count")[0] ?? null,
            by: texts(file, ".by, .change"),
            canonical: texts(file, ".canonical")[0] ?? null,
            lines: texts(file, ".lines")[0]?.split("\\n") ?? null,
        })),
        differences: differences.map(
            (found) => `${texts(found, ".what")[0]}: ${texts(found, ".value").join(" -> ")}`),
        plain: differences.map((found) => texts(found, ".plain")),
    };
})()"""
SAID = "document.getElementById('said').textContent"
# The texts whose contrast to what is behind them is less than 4.5, by the rule of the WCAG.
FAINT = """(() => {
    const linear = (part) => part <= 0.03928 ? part / 12.92 : ((part + 0.055) / 1.055) ** 2.4;
    const parts = (colour) => colour.match(/[\\d.]+/g).map(Number);
    const light = ([red, green, blue]) => 0.2126 * linear(red / 255) + 0.7152 * linear(green / 255) + 0.0722 * linear(blue / 255);
    const behind = (found) => {
        for (let at = found; at; at = at.parentElement) {
            const colour = parts(getComputedStyle(at).backgroundColor);
            if (colour.length === 3 || colour[3] === 1) return colour;
        }
        return [255, 255, 255];
    };
    const texts = [...document.body.querySelectorAll("*")].filter((found) => found.checkVisibility()
        && [...found.childNodes].some((node) => node.nodeType === 3 && node.textContent.trim()));
    const contrast = (found) => {
        const both = [light(parts(getComputedStyle(found).color)), light(behind(found))].sort((one, other) => other - one);
        return (both[0] + 0.05) / (both[1] + 0.05);
    };
    return texts.filter((found) => contrast(found) < 4.5).map((found) => found.textContent);
})()"""


class Page:
    """The page in a browser, with files in a folder of their own whose names are as people see them."""

    def __init__(self, tests, path, *options):
        self.tests = tests
        self.folder = tests.here
        self.browser = browser.Browser(*options)
        self.open(path)

    def open(self, path):
        """Opens the page anew, and waits until the program stands ready."""
        self.browser.open("about:blank")
        self.browser.open(f"file://{path}")
        self.browser.wait("document.body.dataset.ready !== undefined || !document.getElementById('unable').hidden")

    def dropped(self, *names):
        """What the page shows when these files are dropped on it."""
        self.browser.ask("document.getElementById('answer').replaceChildren()")
        self.browser.drop([self.folder / name for name in names])
        return self.browser.wait(ANSWER)

    def with_program(self):
        """The environment in which the program is called p21."""
        folder = self.folder / "path"
        folder.mkdir(exist_ok=True)
        if not (folder / "p21").exists():
            (folder / "p21").symlink_to(os.path.abspath(self.tests.program))
        return {**os.environ, "PATH": f"{folder}:{os.environ['PATH']}"}

    def program(self, *words):
        """What the program writes to each stream in that folder, and its status."""
        done = subprocess.run([self.tests.program, *words], cwd=self.folder, capture_output=True, check=False)
        return done.stdout.decode("latin-1"), done.stderr.decode("latin-1"), done.returncode

    def tool(self, name, *words):
        """What a tool prints in that folder, line by line."""
        command = [ROOT / "tools" / name, *words]
        return subprocess.run(command, cwd=self.folder, capture_output=True, text=True, check=False).stdout.splitlines()

    def judge_file(self, name, shown, schema, file, places=True):
        """What the page shows of a file is what the program and p21-where print."""
        output, error, _ = self.program("check", schema, file)
        error = "".join(line for line in error.splitlines(True) if not line.startswith("note: "))
        canonical, _, status = self.program("canon", schema, file)
        wanted = {"line": (output + error).rstrip("\n"), "canonical": canonical if status == 0 else None}
        found = {key: shown[key] for key in wanted}
        if places:
            wanted["lines"] = self.tool("p21-where", "--all", schema, file) if status != 0 else None
            found["lines"] = shown["lines"]
        self.tests.judge(f"{name}, {file}", wanted, found)

    def judge_refused(self, name, line, choose):
        """A file that is chosen is refused by this line."""
        choose()
        shown = self.browser.wait(f"document.getElementById('verdict')?.textContent === 'Refused' && {ANSWER}")
        self.tests.judge(f"{name}, refused", line, shown["files"][0]["line"])

    def judge_pair(self, name, shown, schema, first, second, differ=True):
        """What the page shows of two files is what the program and p21-diff print."""
        output, error, _ = self.program("same", schema, first, second)
        refused = [file for file in shown["files"] if not file["line"].startswith("accepted")]
        if error:
            self.tests.judge(f"{name}: one is refused", True, refused != [])
            return
        self.tests.judge(f"{name}: the verdict", output, re.match("Same|Different", shown["verdict"])[0].lower() + "\n")
        if differ:
            self.tests.judge(f"{name}: differences", self.tool("p21-diff", schema, first, second), shown["differences"])


def examples(page):
    """All examples, alone and in pairs."""
    schema = "product.exp"
    steps = ["product.step", "product-other.step", "product-changed.step"]
    refused = sorted(path.name for path in (ROOT / "examples" / "refused").iterdir())
    for name in [schema, *steps, *(f"refused/{name}" for name in refused)]:
        shutil.copy(ROOT / "examples" / name, page.folder)
    for file in steps + refused:
        shown = page.dropped(schema, file)
        page.judge_file("example", shown["files"][0], schema, file)
    for first in steps:
        for second in steps + refused[:2]:
            if first != second:
                shown = page.dropped(second, schema, first) if second < first else page.dropped(first, second, schema)
                names = [file["name"] for file in shown["files"]]
                for file in shown["files"]:
                    page.judge_file("pair", file, schema, file["name"], places=False)
                page.judge_pair(f"{first} and {second}", shown, schema, *names)
    shown = page.dropped("product.step", "product-changed.step", schema)
    page.tests.judge("values as people write them", [["12.5 mm", "12.25 mm"]], [both for both in shown["plain"] if both])


def chance(page):
    """Files that are made by chance, alone and in pairs."""
    cases = fuzz.Cases(commands)
    refused = 0
    for number in range(CASES):
        _, texts, _ = cases.case("same" if number % 4 == 3 else "file", random.Random(f"page {number}"))
        names = ["schema.exp", "first.step", "second.step"][: len(texts)]
        for name, text in zip(names, texts):
            page.tests.make(name, text)
        shown = page.dropped(*names)
        for file, name in zip(shown["files"], names[1:], strict=True):
            page.judge_file(f"case {number}", file, names[0], name, places=False)
            refused += file["canonical"] is None
        if len(texts) == 3:
            page.judge_pair(f"case {number}", shown, *names, differ=number % 20 == 3)
    page.tests.judge("some of the cases are refused", True, CASES // 10 < refused < CASES)


def many(page):
    """Files with several refusals: their lines are those of p21-where, and they are counted, grouped and opened."""
    demo = "demo.exp"
    shutil.copy(ROOT / "examples" / demo, page.folder)
    broken = ["POINT($,1.,'two');", "POINT($,1.);", "NOTHING();", "CLOUD((#999),(),(TALLY(1)));"]
    named = [("PRODUCT_MODEL", "DEMO")]
    for count in (2, 4, 30):
        rows = [f"#{number}={broken[number % len(broken)]}" for number in range(1, count + 1)]
        page.tests.make("many.step", file_of("\n".join(rows), named))
        shown = page.dropped(demo, "many.step")["files"][0]
        page.judge_file(f"{count} refusals", shown, demo, "many.step")
        page.tests.judge(f"{count} refusals, counted", f"{count} refusals of {min(count, 4)} kinds", shown["count"])
    kinds = page.browser.ask("[...document.querySelectorAll('.kind > summary .times')].map((found) => found.textContent)")
    page.tests.judge("how often each kind comes", ["8 times", "8 times", "7 times", "7 times"], kinds)
    rows = [f"#{number}=POINT($,1.,'two');" for number in range(1, 401)]
    page.tests.make("many.step", file_of("\n".join(rows), named))
    shown = page.dropped(demo, "many.step")["files"][0]
    page.judge_file("400 refusals", shown, demo, "many.step")
    ask = page.browser.ask
    count_rows = "document.querySelectorAll('.refusals > li').length"
    page.tests.judge("rows at first", 20, ask(count_rows))
    ask("document.querySelector('.more').click()")
    page.tests.judge("rows behind the button", 220, ask(count_rows))
    page.tests.judge("focus on the first new row", "#21", ask("document.activeElement.querySelector('code').textContent"))
    ask("document.querySelector('.more').click()")
    page.tests.judge("all rows", [400, True], [ask(count_rows), ask("document.querySelector('.more').hidden")])
    last = "document.querySelector('.refusals > li:last-child > details')"
    page.browser.press("Tab", 9)
    ask(f"{last}.querySelector('summary').focus()")
    page.browser.press("Enter", 13, "\r")
    page.browser.wait(f"{last}.open && {last}.querySelector('mark') !== null")
    found = ask(f"['.where', 'mark'].map((part) => {last}.querySelector(part).textContent)")
    page.tests.judge("an opened row", ["line 407, column 17", "'two'"], found)


def going_on(page):
    """A list goes on behind broken statements, and says what was passed over and how far it goes."""
    shutil.copy(ROOT / "examples" / "demo.exp", page.folder)
    rows = ["#1=POINT($,1.);", "#2=POINT($,1.,2.)", "#3=POINT($,1.,'two');", "#4=POINT($,1.,'/*;", "#5=POINT(1.);", "#6=POINT('six',1.,2);"]
    text = file_of("\n".join(rows), [("PRODUCT_MODEL", "DEMO")])
    cut = text[: text.rindex("ENDSEC") + len("END")]
    read, size = text.rindex("ENDSEC"), len(cut)
    passed = "2 broken statements were passed over, and the list goes on behind them. Instances may stand in them, so no reference is said to have no target."
    ends = f"The list ends at statement 14: {read:,} of the {size:,} bytes of the file stand in front of it, and nothing is known of what stands behind."
    for name, shape, count, extent in (("broken.step", text, 6, [passed]), ("cut.step", cut, 7, [passed, ends])):
        page.tests.make(name, shape)
        shown = page.dropped("demo.exp", name)["files"][0]
        page.judge_file("broken statements", shown, "demo.exp", name)
        found = page.browser.ask("[...document.querySelectorAll('.extent')].map((found) => found.textContent)")
        page.tests.judge(f"how far the list of {name} goes", (count, extent), (int(shown["count"].split()[0]), found))
    page.browser.ask("document.querySelectorAll('.refusals > li > details').forEach((row) => { row.open = true; })")
    page.browser.wait("[...document.querySelectorAll('.refusals > li > details')].every((row) => row.querySelector('.said') !== null)")
    rows = """[...document.querySelectorAll('.refusals > li > details')].filter((row) => /was passed over/.test(row.textContent))
        .map((row) => row.querySelector('summary code').textContent)"""
    page.tests.judge("rows of what was passed over", ["at statement 11", "at statement 9"], sorted(page.browser.ask(rows)))


def stopped_on_the_way(page):
    """Many refusals by a large schema: the answer comes before all places are found, and stays where the search is stopped."""
    demo = (ROOT / "examples" / "demo.exp").read_text()
    fillers = "".join(f"ENTITY filler_{number} SUBTYPE OF (shape); a, b : OPTIONAL REAL; END_ENTITY;\n" for number in range(6000))
    end = demo.rindex("END_SCHEMA")
    page.tests.make("large.exp", demo[:end] + fillers + demo[end:])
    rows = [f"#{number}=POINT($,1.,'two');" for number in range(1, 60_001)]
    page.tests.make("stopped.step", file_of("\n".join(rows), [("PRODUCT_MODEL", "DEMO")]))
    ask, bar = page.browser.ask, "document.getElementById('progress').value"
    page.browser.drop([page.folder / "large.exp", page.folder / "stopped.step"])
    page.browser.wait(f"document.querySelectorAll('.refusals .where').length === 20 && {bar} > 0 && {bar} < 60000")
    said = ask("document.getElementById('doing').textContent")
    wanted = r"stopped\.step: looking for the places of 60,000 refusals, [\d,]+ found"
    page.tests.judge("how many places are found", True, re.fullmatch(wanted, said) is not None)
    ask("document.getElementById('stop').click()")
    page.tests.judge("stopped on the way", "Stopped. Start again", ask(SAID))
    lines = ask("document.querySelector('.lines').textContent.split('\\n')")
    page.tests.judge("what was found stays", lines[:6], page.tool("p21-where", "large.exp", "stopped.step")[:6])
    shown = page.dropped("product.exp", "product.step")
    page.judge_file("behind it", shown["files"][0], "product.exp", "product.step")


def up_to_names(page):
    """A file that is renumbered, and one in which a value is changed besides."""
    text = (page.folder / "product.step").read_bytes()
    page.tests.make("renumbered.step", shuffled(text, 1)[0])
    page.tests.make("changed.step", shuffled((page.folder / "product-changed.step").read_bytes(), 2)[0])
    page.tests.make("stamped.step", text.replace(b"2024-", b"2025-"))
    page.tests.make("both.step", shuffled(text.replace(b"2024-", b"2025-"), 3)[0])
    words = "Up to the names of their instances the files are the same."
    cases = {
        "renumbered.step": ("DifferentThe same but for numbering.", True),
        "changed.step": ("Different", False),
        "stamped.step": ("DifferentThe same but for the time stamp.", False),
        "both.step": ("DifferentThe same but for numbering and the time stamp.", False),
    }
    for file, (first, said) in cases.items():
        shown = page.dropped("product.exp", "product.step", file)
        page.tests.judge(f"{file}: what is said first", True, re.match(f"{first} ?[\\d,]+ difference", shown["verdict"]) is not None)
        page.tests.judge(f"{file}: what is said", said, words in shown["verdict"])
        way = page.browser.ask("document.querySelector('[name=way]:checked').value")
        page.tests.judge(f"{file}: how instances are told at first", "names" if file == "stamped.step" else "shapes", way)
        page.browser.ask("document.querySelector('[name=way][value=names]').click()")
        page.judge_pair(f"{file} by names", page.browser.wait(ANSWER), "product.exp", "product.step", file)
        page.browser.ask("document.querySelector('[name=way][value=shapes]').click()")
        shown = page.browser.wait(ANSWER)
        known = page.browser.ask("document.querySelector('.known').textContent")
        lines = page.tool("p21-diff", "--names", "product.exp", "product.step", file)
        page.tests.judge(f"{file} up to names", lines, [*shown["differences"], known])
    page.tests.make("alike.step", file_of(ALIKE))
    page.tests.make("renamed.step", file_of(ALIKE.replace("#", "#1")))
    shown = page.dropped("product.exp", "alike.step", "renamed.step")
    wanted = f"DifferentThe same but for numbering. 10 differences by the names of instances. {words}"
    page.tests.judge("a model that doesn't tell instances apart", wanted, shown["verdict"])
    known = page.browser.ask("document.querySelector('.known').textContent")
    page.tests.judge("and what differs by pairs", page.tool("p21-diff", "--names", "product.exp", "alike.step", "renamed.step"), [known])


def large_up_to_names(page):
    """Larger files: those that are numbered otherwise are told by what they say unasked, others by their names; and where both have
    more than 4 MiB, what may be had by asking is said."""
    rows = "\n".join(f"#{number}=POINT($,{number}.,1.);" for number in range(1, 40001))
    text = file_of(rows, [("PRODUCT_MODEL", "DEMO")])
    half = "\n".join(f"#{number}=POINT($,{number}.,{1 + (number > 20000)}.);" for number in range(1, 40001))
    page.tests.make("points.step", text)
    page.tests.make("half.step", file_of(half, [("PRODUCT_MODEL", "DEMO")]))
    page.tests.make("renumbered.step", shuffled(text.encode(), 1)[0])
    way = "document.querySelector('[name=way]:checked').value"
    known = "document.querySelector('.known')?.textContent ?? null"
    shown = page.dropped("demo.exp", "points.step", "renumbered.step")
    same = "same up to names: 40000 pairs"
    page.tests.judge("it is said unasked", True, shown["verdict"].startswith("DifferentThe same but for numbering."))
    page.tests.judge("and instances are told by what they say", ("shapes", same), (page.browser.ask(way), page.browser.ask(known)))
    shown = page.dropped("demo.exp", "points.step", "half.step")
    page.tests.judge("half of them are as they were", "Different20,000 differences.", shown["verdict"])
    page.tests.judge("and are told by their names", "names", page.browser.ask(way))
    long = [f"#{number}=POINT('{'p' * 60000}',{number}.,1.);" for number in range(1, 301)]
    for name, first in (("long.step", 0), ("later.step", 1000)):
        rows = "\n".join(row.replace(f"#{number}=", f"#{first + number}=") for number, row in enumerate(long, 1))
        page.tests.make(name, file_of(rows, [("PRODUCT_MODEL", "DEMO")]))
    hint = "document.querySelector('.differences > .hint')?.textContent ?? null"
    shown = page.dropped("demo.exp", "long.step", "later.step")
    page.tests.judge("it isn't said unasked of larger ones", "Different600 differences.", shown["verdict"])
    said = page.browser.ask(hint)
    page.tests.judge("but that it may be asked", True, said is not None and said.startswith("Fewer than half of the instances say the same under one name."))
    page.browser.ask("document.querySelector('[name=way][value=shapes]').click()")
    page.browser.wait(f"document.querySelector('.known') !== null && {ANSWER}", 120)
    found = page.browser.ask(known), page.browser.ask(hint)
    page.tests.judge("it is said where it is asked for", ("same up to names: 300 pairs", None), found)


def asked_otherwise(page):
    """Lists of what differs without the header, and without reals that are near; what is sifted; and reports, which are those of p21-diff."""
    for name in ("product.exp", "product.step"):
        shutil.copy(ROOT / "examples" / name, page.folder)
    text = (ROOT / "examples" / "product-changed.step").read_text().replace("2024-", "2025-")
    text = text.replace("#9=PERSON('jo','O''Neill',$,$);", "#9=PERSON('jo','O''Neill','<b>Pat</b>',$);\n#500=CARTESIAN_POINT('<i>',(40.,25.,30.));\n#501=VERTEX_POINT('new',#500);\n#502=VERTEX_POINT('old',#17);")
    page.tests.make("other.step", shuffled(text.encode(), 7)[0])
    page.tests.make("named.step", text)
    in_both(page, asked_otherwise_in)


# By which way of telling instances p21-diff lists, the file that is compared, and what more is asked.
ASKED = (
    ("names", "named.step", []),
    ("shapes", "other.step", ["--names"]),
)


def asked_otherwise_in(page, name):
    judge, ask, wait = page.tests.judge, page.browser.ask, page.browser.wait
    for way, file, words in ASKED:
        page.open(page.path)
        chosen(page, "product.exp", "product.step", file)
        paths = ["product.exp", "product.step", file]
        judge(f"told by {way} at first in {name}", way, ask("document.querySelector('[name=way]:checked').value"))
        for field, given, more in (
            (None, None, []),
            ("with-header", None, ["--data"]),
            ("tolerance", "0.5", ["--data", "--tolerance", "0.5"]),
            ("tolerance", "1E-7", ["--data", "--tolerance", "1E-7"]),
            ("with-header", None, ["--tolerance", "1E-7"]),
        ):
            if field == "tolerance":
                ask(f"((field) => {{ field.value = '{given}'; field.dispatchEvent(new Event('change')); }})(document.getElementById('tolerance'))")
            elif field:
                ask("document.getElementById('with-header').click()")
            shown = wait(ANSWER)
            left_out, known = (ask(f"document.querySelector('.{part}')?.textContent ?? null") for part in ("left-out", "known"))
            lines = page.tool("p21-diff", *words, *more, *paths)
            lines[0] = f"{lines[0][0].upper()}{lines[0][1:]}." if more else lines[0]
            judge(f"{file}, {words + more} in {name}", lines, [*filter(None, [left_out]), *shown["differences"], *filter(None, [known])])
            if field:
                judge(f"the focus stays on {field} in {name}", field, ask("document.activeElement.id"))
            table = page.tool("p21-diff", "--stat", *words, *more, *paths)
            rows = "[...document.querySelectorAll('.by-entity tbody tr')].map((row) => [...row.children].map((cell) => cell.textContent || '0').join(' '))"
            judge(f"by entity, {words + more} in {name}", [" ".join(line.split()) for line in table[1 + bool(more) : table.index("") - 1]], ask(rows))
            ask("[...document.querySelectorAll('.differences button')].find((found) => found.textContent === 'Save as report').click()")
            report = subprocess.run(
                [ROOT / "tools" / "p21-diff", *words, *more, "--format", "html", *paths], cwd=page.folder, capture_output=True, text=True, check=False
            ).stdout
            judge(f"the report, {words + more} in {name}", report, saved(page, "differences.html"))
        ask("((field) => { field.value = 'much'; field.dispatchEvent(new Event('change')); })(document.getElementById('tolerance'))")
        judge(f"no tolerance in {name}", "A tolerance is a number of 0 or more, as 0.001 or 1E-6.", ask("document.getElementById('no-tolerance').textContent"))
        judge(f"markup isn't run in {name}", 0, ask("document.querySelectorAll('.differences b, .differences i').length"))
    heads = "[...document.querySelectorAll('.differences h4, .differences h5')].filter((found) => found.checkVisibility()).map((found) => found.textContent.replace(/#\\d+/g, '#'))"
    found = ask(heads)
    judge(f"what owns what differs in {name}", ["In the header", "PRODUCT # “B-100”, “Block”", "In no product"], [head for head in found if not head.startswith("ADVANCED")])
    judge(f"the faces of a corner in {name}", True, any(sorted(re.findall("“(.*?)”", head)) == ["back", "right", "top"] and head.count("ADVANCED_FACE #") == 3 for head in found))
    count = "[...document.querySelectorAll('.differences li')].filter((found) => found.checkVisibility()).length"
    status = "document.querySelector('.sifting [role=status]').textContent"
    every = ask(count)
    ask("document.querySelectorAll('details').forEach((found) => { found.open = true; })" if name == "Chromium" else
        "[...document.querySelectorAll('details')].map((found) => found.open = true).length")
    usable(page, f"what differs in {name}")
    typed(page, "vertex_point", f"2 of {every}")
    judge(f"what is found in {name}", 2, ask(count))
    judge(f"headings of what is found in {name}", True, "In the header" not in ask(heads))
    typed(page, "", "")
    ask("[...document.querySelectorAll('.by-entity')].forEach((found) => { found.open = true; })")
    ask("[...document.querySelectorAll('button.entity')].find((found) => found.textContent === 'PERSON').click()")
    judge(f"one entity in {name}", [1, f"1 of {every}: PERSON"], [ask(count), ask(status)])
    ask("document.querySelector('.sifting [value=changed]').click()")
    wait(f"{status}.startsWith('3 of')")
    judge(f"what came in {name}", 3, ask(count))


def fitted(page):
    """A listing that is refused is offered as a copy that is read, and files are checked by it; another one is told what is left to do."""
    demo = (ROOT / "examples" / "demo.exp").read_text()
    page.tests.make("bounds.exp", demo.replace("END_SCHEMA;", "ENTITY more; x : LIST [1:many] OF REAL; END_ENTITY;\nEND_SCHEMA;"))
    page.tests.make("taken.exp", "SCHEMA taken;\nUSE FROM elsewhere;\nENTITY a; x : LIST [1:n] OF REAL; END_ENTITY;\nEND_SCHEMA;\n")
    page.tests.make("demo.step", file_of("#1=POINT($,1.,2.);", [("PRODUCT_MODEL", "DEMO")]))
    in_both(page, fitted_in)


def fitted_in(page, name):
    judge, ask, wait = page.tests.judge, page.browser.ask, page.browser.wait
    changes = "document.querySelector('.adapted pre').textContent.split('\\n')"
    tool = lambda listing: subprocess.run([ROOT / "tools" / "p21-adapt", "-o", "copy.exp", listing], cwd=page.folder, capture_output=True, text=True, check=False).stderr.splitlines()
    chosen(page, "bounds.exp")
    usable(page, f"a listing made fit in {name}")
    judge(f"what is changed in {name}", tool("bounds.exp"), ask(changes))
    ask("[...document.querySelectorAll('.adapted button')].find((found) => found.textContent === 'Save the copy').click()")
    judge(f"the copy in {name}", (page.folder / "copy.exp").read_text(), saved(page, "bounds.adapted.exp"))
    page.browser.choose("#first", page.folder / "demo.step")
    wait(f"document.getElementById('use-copy') && {ANSWER}")
    ask("document.getElementById('use-copy').click()")
    shown = wait(f"document.getElementById('verdict')?.textContent === 'Accepted' && {ANSWER}")
    page.judge_file(f"by the copy in {name}", shown["files"][0], "copy.exp", "demo.step")
    judge(f"what it is by in {name}", ["By bounds.adapted.exp, a copy of the listing: 1 edit, and it accepts more files than the listing does."], shown["files"][0]["by"])
    page.open(page.path)
    chosen(page, "taken.exp")
    judge(f"what is left in {name}", tool("taken.exp"), ask(changes))
    judge(f"no copy to check by in {name}", None, ask("document.getElementById('use-copy')"))


def alone(page):
    """A file and nothing else has an answer: whether it is well formed, what it says of itself, and what it holds."""
    for name in ("product.exp", "product.step", "refused/BadByte.step", "refused/Dangling.step", "refused/Count.step", "refused/BadDirective.step"):
        shutil.copy(ROOT / "examples" / name, page.folder)
    text = (ROOT / "examples" / "product.step").read_text().replace("'block.step'", "'<script>document.title=1</script>'")
    page.tests.make(HOSTILE[2], text)
    in_both(page, alone_in)


def alone_in(page, name):
    judge, ask, wait = page.tests.judge, page.browser.ask, page.browser.wait
    page.open(page.path)
    if not ask("document.getElementById('remembered').hidden"):
        forget(page)
    verdict = "document.getElementById('verdict')?.textContent"
    page.browser.choose("#first", page.folder / "product.step")
    wait(f"{verdict} === 'Well formed'")
    judge(f"the line in {name}", page.program("syntax", "product.step")[0].strip(), ask("document.querySelector('.file .line').textContent"))
    rows = dict(zip(ask("[...document.querySelectorAll('.header dt')].map((found) => found.textContent)"), ask("[...document.querySelectorAll('.header dd')].map((found) => found.textContent)")))
    judge(f"the header in {name}", ("block.step", "Edda Krüger", "PRODUCT_MODEL"), (rows["Name"], rows["Author"], rows["Schema"]))
    holds = ask("[...document.querySelectorAll('.holds tr')].map((row) => [...row.children].map((cell) => cell.textContent))")
    judge(f"what it holds in {name}", (["ORIENTED_EDGE", "24"], 128), (holds[0], sum(int(count) for _, count in holds)))
    judge(f"which schema is wanted in {name}", "Now the schema is wanted: product.step names PRODUCT_MODEL.", ask(SAID))
    usable(page, f"a file alone in {name}")
    judge(f"what a schema adds in {name}", True, "What a schema adds" in ask("document.querySelector('.wanting').textContent"))
    page.browser.choose("#second", page.folder / "BadByte.step")
    wait(f"{verdict} === 'Refused'")
    lines = ask("[...document.querySelectorAll('.file')].map((found) => found.querySelector('.line').textContent)")
    wanted = [page.program("syntax", file) for file in ("product.step", "BadByte.step")]
    judge(f"both answers in {name}", [(output + error).strip() for output, error, _ in wanted], lines)
    judge(f"their bytes in {name}", True, ask(SAID).startswith("The files have different bytes."))
    ask("document.querySelector('[data-slot=second] .remove').click()")
    for file in ("BadByte.step", "Dangling.step", "BadDirective.step"):
        page.browser.choose("#first", page.folder / file)
        line = page.program("syntax", file)[1].strip()
        wait(f"document.querySelector('.file .line')?.textContent === {json.dumps(line)}")
        place = ask("document.querySelector('.lines').textContent.split('\\n')")
        judge(f"where {file} is refused in {name}", page.tool("p21-where", "product.exp", file)[:3], place[:3])
    page.browser.choose("#first", page.folder / HOSTILE[2])
    wait(f"{verdict} === 'Well formed'")
    judge(f"no script runs in {name}", ["p21: STEP files, checked and compared", 0], ask("[document.title, document.images.length]"))
    page.browser.choose("#schema", page.folder / "product.exp")
    shown = wait(ANSWER)
    judge(f"the schema behind it in {name}", "accepted", shown["files"][0]["line"].split(",")[0])
    forget(page)


def shelf(page):
    """Several schemas and aliases: each file is checked by the schema that it names."""
    folder = page.folder / "shelf"
    folder.mkdir()
    for name in ("product.exp", "demo.exp"):
        shutil.copy(ROOT / "examples" / name, folder)
        shutil.copy(ROOT / "examples" / name, page.folder)
    page.tests.make("demo.step", file_of("#1=POINT($,1.,2.);", [("PRODUCT_MODEL", "Demo { 1 0 }")]))
    page.tests.make("other.step", file_of("", [("PRODUCT_MODEL", "OTHER")]))
    given = ["product.exp", "demo.exp"]
    shown = page.dropped(*given, "product.step", "demo.step")
    page.tests.judge("two schemas", ["by product.exp", "by demo.exp"], [by for file in shown["files"] for by in file["by"]])
    for file, schema in zip(shown["files"], given):
        page.judge_file("by a shelf", file, schema, file["name"])
    page.tests.judge("they aren't compared", True, "aren’t compared" in shown["verdict"])
    shown = page.dropped(*given, "product.step", "product-other.step")
    page.judge_pair("two files by a shelf", shown, "product.exp", "product.step", "product-other.step")
    shown = page.dropped(*given, "other.step")
    page.tests.judge("no such schema", "no schema OTHER on the shelf", shown["files"][0]["line"])
    page.tests.make("aliases", "AUTOMOTIVE_DESIGN = product.exp\n")
    shown = page.dropped(*given, "aliases", "SchemaName.step")
    shutil.copy(page.folder / "aliases", folder)
    tool = page.tool("p21-where", "--schemas", "shelf", "SchemaName.step")
    page.tests.judge("an alias", tool, [shown["files"][0]["line"]])
    change = "product.exp:1: SCHEMA product_model -> SCHEMA AUTOMOTIVE_DESIGN"
    page.tests.judge("its change", ["by product.exp", change], shown["files"][0]["by"])
    page.tests.make("aliases", "DEMO = product.exp\n")
    page.browser.drop([page.folder / name for name in (*given, "aliases")])
    page.browser.wait(f"{SAID} === 'There is no answer: demo.exp and product.exp both serve DEMO.'")
    page.browser.drop([folder])
    page.browser.wait(f"{SAID} === 'shelf is a folder: drop the files that are in it.'")


def forget(page):
    """Has the schemas that the browser remembers forgotten."""
    page.browser.wait("!document.getElementById('remembered').hidden")
    page.browser.ask("document.getElementById('forget').click()")
    page.browser.wait("document.getElementById('remembered').hidden")


def others(page):
    """A schema that is refused, exchanged files, a file of another kind, and files without a schema."""
    page.tests.make("refused.exp", "SCHEMA s; ENTITY a; x : foo; END_ENTITY; END_SCHEMA;")
    shown = page.dropped("refused.exp")
    page.tests.judge("a schema that is refused", page.tool("p21-where", "refused.exp"), shown["files"][0]["lines"])
    shutil.copy("/bin/true", page.folder / "program.step")
    shown = page.dropped("product.exp", "program.step")
    page.judge_file("a program", shown["files"][0], "product.exp", "program.step")
    page.browser.choose("#schema", page.folder / "product.step")
    page.browser.wait("document.querySelector('[data-slot=schema]').textContent.includes('product.step')")
    shown = page.browser.wait(ANSWER)
    lines = page.tool("p21-where", "product.step")
    page.tests.judge("a file in place of the schema", lines, shown["files"][0]["lines"])
    for slot in ("schema", "first", "second"):
        page.browser.ask(f"document.querySelector('[data-slot={slot}] .remove')?.click()")
    forget(page)
    page.browser.drop([page.folder / "product.step"])
    page.browser.wait(f"{SAID} === 'Now the schema is wanted: product.step names PRODUCT_MODEL.'")
    page.browser.drop([page.folder / "product.exp"])
    shown = page.browser.wait(ANSWER)
    page.judge_file("the schema behind the file", shown["files"][0], "product.exp", "product.step")


def large(page):
    """A large file has a progress bar, and can be stopped; the next job is answered as ever."""
    head, end = file_of("MARK", [("PRODUCT_MODEL", "DEMO")]).encode().split(b"MARK")
    shutil.copy(ROOT / "examples" / "demo.exp", page.folder)
    with open(page.folder / "large.step", "wb") as file:
        file.write(head)
        for _ in range(640):
            file.write(b" " * (1 << 20))
        file.write(end)
    page.browser.drop([page.folder / "demo.exp", page.folder / "large.step"])
    page.browser.wait("document.getElementById('progress').value > 0 && !document.getElementById('work').hidden")
    said = page.browser.ask("document.getElementById('doing').textContent")
    page.tests.judge("how far it is", True, re.fullmatch(r"large\.step: [\d.]+ [kM]B of 671 MB", said) is not None)
    page.browser.ask("document.getElementById('stop').click()")
    page.tests.judge("stopped", "Stopped. Start again", page.browser.ask(SAID))
    page.tests.judge("no answer", None, page.browser.ask(ANSWER))
    page.tests.judge("no bar", True, page.browser.ask("document.getElementById('work').hidden"))
    (page.folder / "large.step").unlink()
    shown = page.dropped("product.exp", "product.step")
    page.judge_file("after a stop", shown["files"][0], "product.exp", "product.step")


def mend(page, name):
    """Mends a file that is broken so, some time later: a browser knows a file by its time and size."""
    path = page.folder / name
    text = path.read_text()
    path.write_text(text.replace("(1.,2.);", "(1.,2.));\n#2=CARTESIAN_POINT('another one',(3.,4.));"))
    stat = path.stat()
    os.utime(path, (stat.st_atime + 5, stat.st_mtime + 5))


def broken(page, name):
    """A file with a mistake. Returns what the program says of it."""
    page.tests.make(name, file_of("#1=CARTESIAN_POINT('',(1.,2.);"))
    return page.program("check", "product.exp", name)[1].rstrip("\n")


def mended(page, choose, name, again=True):
    """A file is refused, mended and chosen once more; and where the browser can read it, looked at again by a button."""
    page.judge_refused(name, broken(page, "mended.step"), choose)
    mend(page, "mended.step")
    choose()
    shown = page.browser.wait(f"document.getElementById('verdict')?.textContent === 'Accepted' && {ANSWER}")
    page.judge_file(f"{name}, mended and chosen again", shown["files"][0], "product.exp", "mended.step")
    page.judge_refused(name, broken(page, "mended.step"), choose)
    mend(page, "mended.step")
    page.browser.ask("document.getElementById('again').click()")
    if again:
        shown = page.browser.wait(f"document.getElementById('verdict')?.textContent === 'Accepted' && {ANSWER}")
        page.judge_file(f"{name}, mended and checked again", shown["files"][0], "product.exp", "mended.step")
    else:
        page.browser.wait(f"document.getElementById('verdict')?.textContent === 'Read fault' && {ANSWER}")
        said = "document.querySelector('.refusal p:nth-of-type(1)').textContent"
        page.tests.judge(f"{name}, checked again", True, "choose it again" in page.browser.ask(said))


def mended_files(page):
    """A file that is mended: dropped, chosen in a field, and chosen by the chooser itself, in both browsers."""
    shutil.copy(ROOT / "examples" / "product.exp", page.folder)
    path = page.folder / "mended.step"

    def by(choose, *words):
        page.browser.open(f"file://{page.path}")
        page.browser.wait("document.body.dataset.ready !== undefined")
        page.browser.choose("#schema", page.folder / "product.exp")
        page.browser.wait(ANSWER)
        mended(page, choose, *words)

    by(lambda: page.browser.drop([path]), "dropped in Chromium")
    by(lambda: page.browser.choose("#first", path), "chosen in Chromium", False)
    screen = desktop.Desktop() if desktop.found() else None
    chromium = page.browser
    try:
        if screen:
            page.browser = browser.Browser(desktop=screen)
            by(lambda: screen.choose(page.browser, "first", path), "by the chooser of Chromium", False)
            page.browser.close()
        if firefox.found():
            page.browser = firefox.Firefox(screen)
            by(lambda: page.browser.choose("#first", path), "chosen in Firefox")
            if screen:
                by(lambda: screen.choose(page.browser, "first", path), "by the chooser of Firefox")
            page.browser.close()
    finally:
        if page.browser is not chromium:
            page.browser.close()
        page.browser = chromium
        if screen:
            screen.close()


def in_both(page, group):
    """Does something in Chromium, and in Firefox where it is."""
    page.open(page.path)
    group(page, "Chromium")
    if firefox.found():
        chromium, page.browser = page.browser, firefox.Firefox()
        try:
            page.open(page.path)
            group(page, "Firefox")
        finally:
            page.browser.close()
            page.browser = chromium


def chosen(page, *names):
    """What the page shows when these files are chosen in its fields: a schema, and one or two others."""
    for field, name in zip(("schema", "first", "second"), names):
        page.browser.ask("document.getElementById('answer').replaceChildren()")
        page.browser.choose(f"#{field}", page.folder / name)
        shown = page.browser.wait(ANSWER, MOST_SECONDS)
    return shown


def words(page):
    """Explanations of refusals, and what stands beside an answer."""
    for name in ("product.exp", "product.step", "refused/BadDirective.step", "refused/BadByte.step"):
        shutil.copy(ROOT / "examples" / name, page.folder)
    in_both(page, words_in)


def words_in(page, name):
    ask = page.browser.ask
    chosen(page, "product.exp", "BadDirective.step")
    means = ask("document.querySelector('.means').textContent")
    page.tests.judge(f"a letter in {name}", True, "as \\X2\\00FC\\X0\\ for ü, and this is none" in means)
    chosen(page, "product.exp", "BadByte.step")
    page.tests.judge(f"a stressed word in {name}", ["without"], ask("[...document.querySelectorAll('.means em')].map((found) => found.textContent)"))
    page.tests.judge(f"no asterisk in {name}", False, ask("document.querySelector('.means').textContent.includes('*without*')"))
    page.tests.judge(f"nothing is checked in {name}", None, ask("document.querySelector('.not-checked')?.textContent ?? null"))
    chosen(page, "product.exp", "product.step")
    said = ask("document.querySelector('.not-checked')?.textContent ?? ''")
    for word in ("Not checked", "WHERE", "UNIQUE", "INVERSE", "geometry"):
        page.tests.judge(f"beside Accepted in {name}: {word}", True, word in said)


def typed(page, words, hits):
    """Words are typed into the search, and it says how many has all of them."""
    field = "document.querySelector('.search input')"
    page.browser.ask(f"({field}.value = {json.dumps(words)}, {field}.dispatchEvent(new Event('input')))")
    page.browser.wait(f"document.querySelector('.search [role=status]').textContent === {json.dumps(hits)}")


def saved(page, name):
    """What the browser saves under this name."""
    path = pathlib.Path(page.browser.downloads) / name
    end = time.monotonic() + 30
    while not path.exists() or path.stat().st_size == 0:
        if time.monotonic() > end:
            raise TimeoutError(name)
        time.sleep(0.02)
    text = path.read_text()
    path.unlink()
    return text


def by_command_line(page, selector=".again"):
    """What the command line gives that stands beside the hash, or beside that of the numbered file."""
    line = page.browser.ask(f"[...document.querySelectorAll('{selector}')].at(-1).textContent")
    done = subprocess.run(["bash", "-c", line], cwd=page.folder, env=page.with_program(), capture_output=True, text=True, check=False)
    return done.stdout.split(" ")[0]


# A file whose model doesn't tell #1 from #2, as docs/FAULTS.md has it.
ALIKE = (
    "#1=CARTESIAN_POINT('',(0.));\n#2=CARTESIAN_POINT('',(0.));\n#3=SHAPE_REPRESENTATION('',(#1,#2),#5);\n"
    "#4=SHAPE_REPRESENTATION('',(#1,#2),#5);\n#5=REPRESENTATION_CONTEXT('','');"
)


def taken_along(page):
    """Answers are searched, copied, saved and printed, and a hash is made again by its command line."""
    for name in ("product.exp", "product.step", "product-changed.step", "refused/Count.step", "demo.exp"):
        shutil.copy(ROOT / "examples" / name, page.folder)
    rows = [f"#{number}=POINT($,1.,'two');" for number in range(1, 401)]
    page.tests.make("many.step", file_of("\n".join([*rows, "#401=NOTHING();"]), [("PRODUCT_MODEL", "DEMO")]))
    page.tests.make("alike.step", file_of(ALIKE))
    points = "\n".join(f"#{number}=POINT('{'p' * 100}',{number}.,1.);" for number in range(1, 20001))
    page.tests.make("points.step", file_of(points, [("PRODUCT_MODEL", "DEMO")]))
    in_both(page, taken_along_in)


def taken_along_in(page, name):
    judge, ask = page.tests.judge, page.browser.ask
    ask("navigator.clipboard.writeText = async (text) => { window.copied = text; }, window.print = () => { window.printed = true; }, 0")

    def copied(title):
        ask(f"(window.copied = null, document.querySelector('[aria-label=\"{title}\"]').click())")
        page.browser.wait("window.copied !== null")
        return ask("window.copied")

    shown = chosen(page, "product.exp", "product.step")
    canonical = page.program("canon", "product.exp", "product.step")[0].encode("latin-1")
    digest = hashlib.sha256(canonical).hexdigest()
    numbered = page.program("canon", "--names", "product.exp", "product.step")[0]
    of_numbered = hashlib.sha256(numbered.encode("latin-1")).hexdigest()
    hashes = ask("[...document.querySelectorAll('.hash code:not([class])')].map((found) => found.textContent)")
    judge(f"the hashes in {name}", [digest, of_numbered], hashes)
    judge(f"the hashes copied in {name}", [digest, of_numbered], [copied("Copy: the hash"), copied("Copy: the hash of the numbered file")])
    judge(f"the hash by its command line in {name}", digest, by_command_line(page))
    judge(f"that of the numbered file in {name}", of_numbered, by_command_line(page, ".numbered-again"))
    ask("[...document.querySelectorAll('.file button')].find((found) => found.textContent === 'Save the numbered file').click()")
    judge(f"the numbered file in {name}", numbered, saved(page, "product.numbered.step"))
    of_both = f"SHA-256 of the canonical file: {digest}\nSHA-256 of the numbered file: {of_numbered}"
    text = f"Accepted. product.step\n\nproduct.step by product.exp:\n{shown['files'][0]['line']}\n{of_both}\n"
    judge(f"an answer copied in {name}", text, copied("Copy: the answer"))
    ask("[...document.querySelectorAll('.verdict button')].find((found) => found.textContent === 'Save').click()")
    judge(f"an answer saved in {name}", text, saved(page, "answer.txt"))
    ask("[...document.querySelectorAll('.verdict button')].find((found) => found.textContent === 'Print').click()")
    judge(f"the answer printed in {name}", True, ask("window.printed === true"))
    chosen(page, "product.exp", "product.step", "product-changed.step")
    lines = "".join(f"{line}\n" for line in page.tool("p21-diff", "product.exp", "product.step", "product-changed.step"))
    judge(f"differences copied in {name}", lines, copied("Copy as text: the differences"))
    judge(f"differences in the answer in {name}", True, f"by the names of instances:\n{lines}" in copied("Copy: the answer"))
    ask("document.querySelector('[data-slot=second] .remove').click()")
    chosen(page, "product.exp", "alike.step")
    said = "None: the model doesn’t tell #1 from another instance (59 Alike)."
    judge(f"no numbered file in {name}", said, ask("document.querySelector('.numbered').textContent"))
    chosen(page, "demo.exp", "points.step")
    ask("[...document.querySelectorAll('.file button')].find((found) => found.textContent === 'Number it').click()")
    page.browser.wait(f"document.querySelector('.numbered') !== null && {ANSWER}", MOST_SECONDS)
    found = ask("document.querySelector('.numbered code').textContent")
    judge(f"a larger file is numbered in {name}", by_command_line(page, ".numbered-again"), found)
    judge(f"the focus is on its hash in {name}", True, ask("document.activeElement.matches('.numbered')"))
    shown = chosen(page, "demo.exp", "many.step")
    lines = page.tool("p21-where", "--all", "demo.exp", "many.step")
    judge(f"refusals copied in {name}", lines, copied("Copy as text: what is said of many.step").splitlines())
    judge(f"refusals in the answer in {name}", lines, copied("Copy: the answer").splitlines()[3:])
    typed(page, "NOTHING", "1 of 401")
    judge(f"what is found in {name}", ["#401"], ask("[...document.querySelectorAll('.refusals > li > details > summary > code')].map((found) => found.textContent)"))
    typed(page, "y #39", "11 of 401")
    judge(f"what all words have in {name}", 11, ask("document.querySelectorAll('.refusals > li').length"))
    typed(page, "", "")
    judge(f"all again in {name}", 21, ask("document.querySelectorAll('.refusals > li').length"))


def on_paper(page):
    """What is printed: the answer, and nothing to choose or to press."""
    chosen(page, "demo.exp", "many.step")
    page.browser.call("Emulation.setEmulatedMedia", media="print")
    seen = "(selector) => [...document.querySelectorAll(selector)].filter((found) => found.checkVisibility()).length"
    for selector, count in (("#choose", 0), ("button:not(.more)", 0), (".search", 0), ("#verdict", 1), (".refusals > li summary", 21), ("#checksum", 1)):
        page.tests.judge(f"on paper: {selector}", count, page.browser.ask(f"({seen})({json.dumps(selector)})"))
    page.browser.ask("document.querySelectorAll('.kind').forEach((found) => { found.open = false; })")
    page.browser.ask("dispatchEvent(new Event('beforeprint'))")
    rows = page.browser.ask(f"({seen})('.refusals > li summary')")
    page.tests.judge("all refusals are printed", (401, 0), (rows, page.browser.ask(f"({seen})('.more')")))
    page.tests.judge("what is hard to read on paper", [], page.browser.ask(FAINT))
    page.browser.call("Emulation.setEmulatedMedia", media="")


def zipped(members, method=zipfile.ZIP_DEFLATED):
    """A zip archive of these files."""
    whole = io.BytesIO()
    with zipfile.ZipFile(whole, "w", method) as archive:
        for name, data in members.items():
            archive.writestr(name, data)
    return whole.getvalue()


def packed(page):
    """Files that are packed are unpacked; what can't be unpacked, or has no model or several, is told, and so are other kinds."""
    for name in ("product.exp", "product.step", "product-changed.step"):
        shutil.copy(ROOT / "examples" / name, page.folder)
    in_both(page, packed_in)


def packed_in(page, name):
    judge, ask = page.tests.judge, page.browser.ask
    step, listing = ((page.folder / each).read_bytes() for each in ("product.step", "product.exp"))
    hashed = hashlib.sha256(page.program("canon", "product.exp", "product.step")[0].encode("latin-1")).hexdigest()
    inside = {"read me.txt": b"no model", "a folder/the model.step": step}
    for file, data, called, has_line in (
        ("model.stpZ", gzip.compress(step), "model.stp", True),
        ("model.step.gz", gzip.compress(step), "model.step", True),
        ("model.ifcZIP", zipped({"model.ifc": step}), "model.ifc", True),
        ("stored.zip", zipped(inside, zipfile.ZIP_STORED), "the model.step", shutil.which("unzip") is not None),
    ):
        page.tests.make(file, data)
        shown = chosen(page, "product.exp", file)["files"][0]
        judge(f"{file} in {name}", (called, "accepted, instances 128, canonical bytes 4872"), (shown["name"], shown["line"]))
        judge(f"where {file} was in {name}", f"unpacked from {file}", ask("document.querySelector('.file .hint').textContent"))
        if has_line and (file.endswith(("Z", "gz")) or shutil.which("unzip")):
            judge(f"the hash of {file} by its command line in {name}", hashed, by_command_line(page))
    page.tests.make("schemas.zip", zipped({"product.exp": listing}))
    shown = chosen(page, "schemas.zip", "product.step")["files"][0]
    judge(f"a packed schema in {name}", "accepted, instances 128, canonical bytes 4872", shown["line"])
    judge(f"no command line for it in {name}", None, ask("document.querySelector('.again')"))
    whole = zipped({"model.step": step}, zipfile.ZIP_STORED)
    at = whole.index(b"CARTESIAN_POINT")
    damaged = "{} can’t be unpacked: it is damaged, cut off or too large"
    for file, data, said in (
        ("cut.stpZ", gzip.compress(step)[:-20], damaged.format("cut.stpZ")),
        ("changed.stpZ", gzip.compress(step, 0).replace(b"CARTESIAN", b"CARTESIAM"), damaged.format("changed.stpZ")),
        ("changed.zip", whole[:at] + b"X" + whole[at + 1 :], damaged.format("changed.zip")),
        ("cut.zip", whole[:-40], "cut.zip is a zip archive without its end"),
        ("none.zip", zipped({"a.txt": b"a", "b.txt": b"b"}), "there is no STEP file in none.zip"),
        ("two.zip", zipped({"a.step": step, "b.step": step}), "there are several STEP files in two.zip: unpack it, and choose one"),
    ):
        page.tests.make(file, data)
        page.browser.choose("#schema", page.folder / "product.exp")
        page.browser.choose("#first", page.folder / file)
        wanted = f"There is no answer: {said}."
        page.browser.wait(f"{SAID} === {json.dumps(wanted)}")
        judge(f"{file} in {name}", True, ask("document.getElementById('answer').hidden"))
    ask("document.querySelector('[data-slot=first] .remove').click()")
    for file, data, kind in (
        ("drawing.pdf", b"%PDF-1.7\n", "a PDF document"),
        ("view.png", b"\x89PNG\r\n\x1a\n", "an image"),
        ("part.sldprt", b"\xd0\xcf\x11\xe0\xa1\xb1\x1a\xe1", "a compound document, as native files of SolidWorks, Inventor and Revit are"),
        ("part.CATPart", b"V5_CFV2\0", "a native file of CATIA"),
        ("part.prt", b"#UGC:2 PART 1\n", "a native file of Creo"),
        ("plan.dwg", b"AC1032\0", "a DWG drawing"),
        ("mesh.stl", b"solid part\n", "an STL file"),
        ("model.ifcXML", b'<?xml version="1.0"?>\n<ifc:ifcXML xmlns="http://www.buildingsmart-tech.org/ifcXML/IFC4">', "IFC or STEP as XML"),
        ("model.json", b'{"type": "ifcJSON"}', "JSON"),
        ("page.html", b"<!DOCTYPE html><title>403</title>", "a page of HTML"),
    ):
        page.tests.make(file, data)
        shown = chosen(page, "product.exp", file)["files"][0]
        judge(f"{file} in {name}", page.program("check", "product.exp", file)[1].strip(), shown["line"])
        looks = ask("(document.querySelector('.other-kind') ?? document.querySelector('.looks')).textContent")
        told = f"This is {kind}, and no STEP file in clear text."
        judge(f"what {file} is in {name}", True, looks == told or looks == "this is XML or HTML, and not clear text")
        ask("document.querySelector('[data-slot=schema] .remove').click()")
        page.browser.wait(f"{SAID} === {json.dumps(f'{file} is {kind}, and no STEP file in clear text.')}")


def without_schema(page):
    """A file alone: where its listing is published, and a schema that was used before is remembered until it is forgotten."""
    for name in ("product.exp", "product.step", "demo.exp"):
        shutil.copy(ROOT / "examples" / name, page.folder)
    in_both(page, without_schema_in)


# By the table of docs/SCHEMAS.md.
ISO = "https://standards.iso.org/iso/10303"
PUBLISHED = {
    "IFC4": "https://standards.buildingsmart.org",
    "IFC2X3": "https://standards.buildingsmart.org",
    "ifc4x3_add2": "https://standards.buildingsmart.org",
    "AUTOMOTIVE_DESIGN { 1 0 10303 214 1 1 1 1 }": ISO,
    "CONFIG_CONTROL_DESIGN": ISO,
    "AP203_CONFIGURATION_CONTROLLED_3D_DESIGN_OF_MECHANICAL_PARTS_AND_ASSEMBLIES_MIM_LF": ISO,
    "AP242_MANAGED_MODEL_BASED_3D_ENGINEERING_MIM_LF { 1 0 10303 442 3 1 4 }": ISO,
    "PRODUCT_MODEL": None,
}


def without_schema_in(page, name):
    judge, ask = page.tests.judge, page.browser.ask

    def reopened():
        page.browser.open(f"file://{page.path}")
        page.browser.wait("document.body.dataset.ready !== undefined")

    if not ask("document.getElementById('remembered').hidden"):
        forget(page)
    for schema, address in PUBLISHED.items():
        page.tests.make("alone.step", file_of("", [("PRODUCT_MODEL", schema)]))
        page.browser.choose("#first", page.folder / "alone.step")
        first = schema.split(" ")[0]
        page.browser.wait(f"{SAID}.startsWith('Now the schema is wanted: alone.step names {first}.')")
        page.browser.wait("!document.getElementById('answer').hidden")
        links = "['#said a', '.wanting a'].map((each) => document.querySelector(each)?.getAttribute('href') ?? null)"
        judge(f"where {first} is published, in {name}", [address, address], ask(links))
    reopened()
    ask("document.querySelector('#comparisons button').click()")
    page.browser.wait(ANSWER)
    chosen(page, "demo.exp")
    page.browser.wait("document.getElementById('remembered').textContent === 'This browser remembers demo.exp. Forget'")
    reopened()
    chosen(page, "product.exp")
    page.browser.wait("document.getElementById('remembered').textContent === 'This browser remembers demo.exp, product.exp. Forget'")
    page.tests.make("refused.exp", "SCHEMA refused; ENTITY a; x : foo; END_ENTITY; END_SCHEMA;")
    chosen(page, "refused.exp")
    reopened()
    page.browser.wait("document.getElementById('remembered').textContent === 'This browser remembers demo.exp, product.exp. Forget'")
    page.browser.choose("#first", page.folder / "product.step")
    shown = page.browser.wait(ANSWER)
    page.judge_file(f"by a remembered schema in {name}", shown["files"][0], "product.exp", "product.step")
    words = "By a schema that this browser remembers: product.exp. Accepted. product.step"
    judge(f"what is said of it in {name}", words, ask(SAID))
    slot = "document.querySelector('[data-slot=schema] .chosen').textContent"
    judge(f"it stands in its place in {name}", True, ask(slot).startswith("product.exp"))
    ask("document.querySelector('[data-slot=schema] .remove').click()")
    page.browser.wait(f"{SAID} === 'Now the schema is wanted: product.step names PRODUCT_MODEL.'")
    judge(f"taken away in {name}", "", ask(slot))
    forget(page)
    judge(f"forgotten in {name}", "The schemas are forgotten.", ask(SAID))
    reopened()
    page.browser.choose("#first", page.folder / "product.step")
    page.browser.wait(f"{SAID} === 'Now the schema is wanted: product.step names PRODUCT_MODEL.'")
    judge(f"nothing is remembered in {name}", True, ask("document.getElementById('remembered').hidden"))
    text = (page.folder / "product.step").read_text()
    for second, bytes_are in ((text, "Both files have the same bytes."), (text.replace("80.", "81."), "The files have different bytes."), (text + "\n", "The files have different bytes.")):
        page.tests.make("second.step", second)
        page.browser.choose("#second", page.folder / "second.step")
        page.browser.wait(f"{SAID} === '{bytes_are} Now the schema is wanted: product.step names PRODUCT_MODEL.'")
        page.browser.ask("document.querySelector('[data-slot=second] .remove').click()")
        page.browser.wait(f"{SAID} === 'Now the schema is wanted: product.step names PRODUCT_MODEL.'")


# What can be pressed or typed into, as far as it is in sight; a choice is as large as its label, and a link in a sentence as its words.
TARGETS = """[...document.querySelectorAll("a, button, summary, input, [tabindex='0']")]
    .filter((found) => found.checkVisibility() && !found.closest("[inert]") && !found.matches("#skip, .published a"))"""
SMALL = f"""{TARGETS}.map((found) => found.matches("[type=radio], [type=checkbox]") ? found.closest("label") : found)
    .filter((found) => {{ const {{ width, height }} = found.getBoundingClientRect(); return width < 24 || height < 24; }})
    .map((found) => found.outerHTML.slice(0, 80))"""
# Headings in their order: none is more than one level below the one in front of it.
LEVELS = """[...document.querySelectorAll("h1, h2, h3, h4, h5, h6")].filter((found) => found.checkVisibility())
    .map((found) => Number(found.tagName[1])).filter((level, at, all) => level > (all[at - 1] ?? 0) + 1)"""
# More room between lines, words and letters, as the WCAG has a reader ask for it.
SPACED = """(() => { const style = document.createElement("style"); style.id = "spaced";
    style.textContent = "* { line-height: 1.5 !important; letter-spacing: 0.12em !important; word-spacing: 0.16em !important }"
        + "p { margin-bottom: 2em !important }"; document.head.append(style); })()"""
CLIPPED = """[...document.querySelectorAll("body *")].filter((found) => found.checkVisibility() && found.clientHeight > 1
    && getComputedStyle(found).overflowY === "hidden" && found.scrollHeight > found.clientHeight + 1).map((found) => found.id || found.className)"""
# What has the focus: what it is, whether that is seen by an outline of two pixels or more, and whether it is in sight.
FOCUSED = """(() => { const found = document.activeElement; if (found === document.body) return null;
    const style = getComputedStyle(found), place = found.getBoundingClientRect();
    const over = document.elementFromPoint(Math.max(place.x + Math.min(place.width, innerWidth) / 2, 1), place.y + Math.min(place.height / 2, 12));
    return [found.outerHTML.slice(0, 60), style.outlineStyle !== "none" && parseFloat(style.outlineWidth) >= 2,
        over !== null && (found.contains(over) || over.contains(found))]; })()"""


def accessible(page):
    """What can be tested here of WCAG 2.2 AA: sizes, headings, spacing, the keyboard through everything, and names of what has the focus."""
    for name in ("product.exp", "product.step", "product-changed.step", "demo.exp"):
        shutil.copy(ROOT / "examples" / name, page.folder)
    rows = [f"#{number}=POINT($,1.,'two');" for number in range(1, 9)]
    page.tests.make("some.step", file_of("\n".join([*rows, "#10=NOTHING();"]), [("PRODUCT_MODEL", "DEMO")]))
    in_both(page, accessible_in)
    through_everything(page)
    on_a_phone(page)


def usable(page, said):
    """What is shown is large enough to be pressed, has headings in order, and is read in light and dark; nothing stands beside a narrow page."""
    for fault, script in (("too small", SMALL), ("headings that leave out a level", LEVELS), ("hard to read", FAINT)):
        page.tests.judge(f"{fault}, {said}", [], page.browser.ask(script))
    if isinstance(page.browser, browser.Browser):
        page.browser.look(width=360, height=740, dark=True)
        page.tests.judge(f"hard to read in the dark, {said}", [], page.browser.ask(FAINT))
        page.tests.judge(f"nothing stands beside, {said}", True, page.browser.ask("document.documentElement.scrollWidth <= innerWidth"))
        page.browser.look()


def accessible_in(page, name):
    judge, ask = page.tests.judge, page.browser.ask
    for files in ([], ["product.exp", "product.step"], ["product.exp", "product.step", "product-changed.step"], ["demo.exp", "some.step"]):
        page.open(page.path)
        if files:
            chosen(page, *files)
            judge(f"the answer has the focus in {name}, {files[-1]}", "verdict", ask("document.activeElement.id"))
        last = files[-1] if files else "nothing chosen"
        judge(f"what is too small in {name}, {last}", [], ask(SMALL))
        judge(f"headings that leave out a level in {name}, {last}", [], ask(LEVELS))
        judge(f"the picture in {name}, {last}", not files, ask("document.getElementById('picture').checkVisibility()"))
        ask("document.querySelectorAll('details').forEach((found) => { found.open = true; })" if name == "Chromium" else
            "[...document.querySelectorAll('details')].map((found) => found.open = true).length")
        judge(f"what is too small when all is open in {name}, {last}", [], ask(SMALL))
        judge(f"what is hard to read in {name}, {last}", [], ask(FAINT))
        judge(f"names used twice in {name}, {last}", [], ask("[...document.querySelectorAll('[id]')].map((found) => found.id).filter((id, at, all) => all.indexOf(id) !== at)"))
        ask(SPACED)
        judge(f"spaced, nothing stands beside in {name}, {last}", True, ask("document.documentElement.scrollWidth <= innerWidth"))
        judge(f"spaced, nothing is cut off in {name}, {last}", [], ask(CLIPPED))


def through_everything(page):
    """Tab leads to everything that can be used, back and forth, and what has the focus is seen; a link leads to the answer."""
    tests, tab = page.tests, page.browser
    page.open(page.path)
    chosen(page, "demo.exp", "some.step")
    tab.ask("document.querySelectorAll('details').forEach((found) => { found.open = true; })")
    wanted = tab.ask(f"{TARGETS}.length") + 1
    tab.ask("document.getElementById('skip').focus()")
    seen = [tab.ask(FOCUSED)]
    while seen[-1] and len(seen) < wanted + 5:
        tab.press("Tab", 9)
        seen.append(tab.ask(FOCUSED))
    seen = [found for found in seen if found]
    tests.judge("Tab leads to everything", wanted, len(seen))
    tests.judge("what has the focus unseen", [], [text for text, is_outlined, is_in_sight in seen if not (is_outlined and is_in_sight)])
    tests.judge("the first is the link to the answer", True, seen[0][0].startswith('<a id="skip"'))
    tab.ask("(scrollTo(0, 0), document.getElementById('skip').focus())")
    tab.press("Enter", 13, "\r")
    tests.judge("where the link leads", "verdict", tab.ask("document.activeElement.id"))
    tab.press("Tab", 9)
    tests.judge("what comes behind it", "again", tab.ask("document.activeElement.id"))


def on_a_phone(page):
    """On a phone the answer comes into sight."""
    tab = page.browser
    page.open(page.path)
    tab.look(width=360, height=740)
    for files in (["product.exp", "product.step"], ["demo.exp", "some.step"]):
        chosen(page, *files)
        place = tab.ask("(({ top, bottom }) => [top >= 0, bottom <= innerHeight])(document.querySelector('.verdict').getBoundingClientRect())")
        page.tests.judge(f"on a phone the answer is in sight, {files[-1]}", [True, True], place)
        page.tests.judge(f"on a phone nothing stands beside, {files[-1]}", True, tab.ask("document.documentElement.scrollWidth <= innerWidth"))
    tab.look()


# Names as a stranger may choose them: one that reads backwards, one that writes to a terminal, and one that would be a script.
HOSTILE = ["exe.\u202epets.step", "\x1b[31mred\x07.step", "<img src=x onerror=document.title='run'>.step"]
ESCAPED = ["exe.\\u202epets.step", "\\x1b[31mred\\x07.step", "<img src=x onerror=document.title='run'>.step"]
# Characters that change how a text reads: those of control, and those that say which way it runs.
UNSEEN = "/[\\x00-\\x08\\x0b-\\x1f\\x7f-\\x9f\\u200b-\\u200f\\u2028-\\u202e\\u2060-\\u206f]/"


def hostile_names(page):
    """Names of files are shown, heard and saved with such characters escaped, and none is run."""
    for name, example in zip(HOSTILE, ("product.step", "product-changed.step", "refused/Count.step")):
        shutil.copy(ROOT / "examples" / example, page.folder / name)
    shutil.copy(ROOT / "examples" / "product.exp", page.folder / f"schema{HOSTILE[0]}.exp")
    in_both(page, hostile_names_in)


def hostile_names_in(page, browser_name):
    judge, ask = page.tests.judge, page.browser.ask
    schema = f"schema{HOSTILE[0]}.exp"
    unseen = f"[document.body.innerText, document.body.innerHTML, {SAID}].map((text) => {UNSEEN}.test(text))"
    for first, second in ((0, 1), (1, 2), (2, 0)):
        shown = chosen(page, schema, HOSTILE[first], HOSTILE[second])
        names = [file["name"] for file in shown["files"]]
        judge(f"names in {browser_name}", [ESCAPED[first], ESCAPED[second]], names)
        slots = ask("[...document.querySelectorAll('.chosen strong')].map((found) => found.textContent)")
        judge(f"names that are chosen in {browser_name}", [f"schema{ESCAPED[0]}.exp", *names], slots)
        judge(f"signs that aren't seen in {browser_name}", [False, False, False], ask(unseen))
        judge(f"no script runs in {browser_name}", ["p21: STEP files, checked and compared", 0], ask("[document.title, document.images.length]"))
        if HOSTILE[second] != HOSTILE[2]:
            canonical = page.program("canon", schema, HOSTILE[second])[0].encode("latin-1")
            judge(f"a hash by its command line in {browser_name}", hashlib.sha256(canonical).hexdigest(), by_command_line(page))
        else:
            lines = page.tool("p21-where", "--all", schema, HOSTILE[second])
            judge(f"lines in {browser_name}", lines, shown["files"][1]["lines"])


# So many points make a file of 156 MB.
MANY_POINTS = 2_900_000
MOST_SECONDS = 300


def large_in_both(page):
    """A large file takes in Firefox at most four times as long as in Chromium: its memory isn't moved for each megabyte."""
    with open(page.folder / "large.step", "w") as file:
        head, end = file_of("MARK", [("PRODUCT_MODEL", "DEMO")]).split("MARK")
        file.write(head)
        for number in range(1, MANY_POINTS + 1):
            file.write(f"#{number}=POINT('a point among many',{number}.25,{number % 89}.);\n")
        file.write(end)
    seconds = {}

    def timed(page, name):
        chosen(page, "demo.exp")
        begun = time.monotonic()
        shown = chosen(page, "demo.exp", "large.step")
        seconds[name] = time.monotonic() - begun
        page.tests.judge(f"{name}: a large file", f"accepted, instances {MANY_POINTS}", shown["files"][0]["line"].rpartition(",")[0])

    shutil.copy(ROOT / "examples" / "demo.exp", page.folder)
    in_both(page, timed)
    (page.folder / "large.step").unlink()
    print(f"{MANY_POINTS} points: " + ", ".join(f"{name} {took:.1f} s" for name, took in seconds.items()))
    if "Firefox" in seconds:
        page.tests.judge("Firefox keeps up", True, seconds["Firefox"] <= 4 * seconds["Chromium"])


def people(page):
    """A keyboard, a screen reader, a phone, and what the page says of itself."""
    tests, tab = page.tests, page.browser
    forget(page)
    tab.ask("document.activeElement.blur(); scrollTo(0, 0)")
    page.open(page.path)
    order = []
    for _ in range(4):
        tab.press("Tab", 9)
        order.append(tab.ask("document.activeElement.id || document.activeElement.textContent"))
    tests.judge("where Tab leads", ["schema", "first", "second", "A block, written in two ways"], order)
    tab.press("Enter", 13, "\r")
    tests.judge("Enter on an example", "Same", page.browser.wait(ANSWER)["verdict"][:4])
    tests.judge("what is said", "Same. Both files hold the same model.", tab.ask(SAID))
    tests.judge("the answer has the focus", "verdict", tab.ask("document.activeElement.id"))
    tab.ask("[...document.querySelectorAll('#comparisons button')][1].focus()")
    tab.press(" ", 32, " ")
    tab.wait(f"{SAID} === 'Different. 1 difference.' && {ANSWER}")
    for _ in range(30):
        tab.press("Tab", 9)
        if tab.ask("document.activeElement.name === 'way'"):
            break
    tab.press("ArrowRight", 39)
    tab.wait("document.querySelector('.known') !== null")
    known = tab.ask("document.querySelector('.known').textContent")
    tests.judge("an arrow compares up to names", "different: 1 changed, 0 came, 0 went", known)
    tests.judge("the choice keeps the focus", "shapes", tab.ask("document.activeElement.value"))
    nodes = tab.call("Accessibility.getFullAXTree")["nodes"]
    named = [(node["role"]["value"], node.get("name", {}).get("value")) for node in nodes if not node["ignored"]]
    for role, name in (
        ("heading", "p21"),
        ("main", ""),
        ("status", ""),
        ("heading", "Different"),
        ("button", "Take product.step away"),
        ("button", "Save as text"),
        ("group", "Instances are told"),
        ("radio", "by their names"),
    ):
        tests.judge(f"a reader hears {role} {name}", True, (role, name) in named)
    unnamed = [role for role, name in named if role in ("button", "textbox", "link", "progressbar", "region") and not name]
    tests.judge("what has no name", [], unnamed)
    for files in (["product.exp", "product.step", "product-changed.step"], ["demo.exp", "many.step"]):
        page.dropped(*files)
        for width in (320, 390, 1280):
            tab.look(width=width)
            fits = tab.ask("document.documentElement.scrollWidth <= innerWidth")
            tests.judge(f"nothing stands beside a width of {width}, {files[-1]}", True, fits)
        for dark in (False, True):
            tab.look(dark=dark)
            tests.judge(f"what is hard to read, {files[-1]}, {'dark' if dark else 'light'}", [], tab.ask(FAINT))
    tab.look()
    version = page.program("--version")[0].strip()
    tests.judge("the version", version, tab.ask("document.getElementById('version').textContent"))
    checksum = subprocess.run([ROOT / "making" / "build-page", "--sources"], capture_output=True, text=True, check=True).stdout
    tests.judge("the checksum", checksum.strip(), tab.ask("document.getElementById('checksum').textContent"))
    words = "What runs here is WebAssembly: the same sources as the proved program’s, through LLVM’s other backend."
    module = tab.ask("document.getElementById('module').textContent")
    tests.judge("what the module is", True, module.endswith(words))
    tests.judge("the mark", page.is_unproved, module.startswith("Unproved. "))


def network(page):
    """The page has no way to the network."""
    with socket.create_server(("127.0.0.1", 0)) as server:
        server.settimeout(0.5)
        address = f"http://127.0.0.1:{server.getsockname()[1]}/"
        script = f"""Promise.all([
            fetch("{address}").then(() => "fetched", () => "refused"),
            new Promise((done) => {{ const image = new Image(); image.onload = () => done("loaded");
                image.onerror = () => done("refused"); image.src = "{address}"; }}),
        ])"""
        page.tests.judge("a request", ["refused", "refused"], page.browser.ask(script))
        try:
            server.accept()
            page.tests.judge("a connection", "none", "one")
        except TimeoutError:
            page.tests.judge("a connection", "none", "none")


def want_of_memory(page):
    """A memory that can't grow: the page says so in the program's words."""
    module = page.tests.make("limited.wasm", making.limited(making.MODULE.read_bytes(), 16))
    limited = page.folder / "limited.html"
    making.make_page(limited, module)
    points = "\n".join(f"#{number}=POINT($,1.,1.);" for number in range(1, 100001))
    page.tests.make("points.step", file_of(points, [("PRODUCT_MODEL", "DEMO")]))
    page.open(limited)
    shown = page.dropped("demo.exp", "points.step")
    page.tests.judge("want of memory", ["out of memory"], shown["files"][0]["lines"])
    shown = page.dropped("product.exp", "product.step")
    page.judge_file("after want of memory", shown["files"][0], "product.exp", "product.step")


def without_memory(page):
    """Where the browser has no 64-bit memory, the page says so. No switch of this browser takes it away, so a script does."""
    script = "WebAssembly.validate = () => false"
    page.browser.call("Page.addScriptToEvaluateOnNewDocument", source=script)
    page.open(page.path)
    page.tests.judge("a browser without it", True, page.browser.ask("document.getElementById('unable').checkVisibility()"))
    page.tests.judge("nothing to choose", True, page.browser.ask("document.getElementById('choose').inert"))


def in_firefox(page):
    """The examples in Firefox, where it is: files are chosen there, and the answers are those of the program."""
    if not firefox.found():
        return
    chromium, page.browser = page.browser, firefox.Firefox()
    try:
        page.open(page.path)
        page.browser.choose("#schema", page.folder / "product.exp")
        for path in [page.folder / "product-other.step", *sorted((ROOT / "examples" / "refused").iterdir())]:
            page.browser.ask("document.getElementById('answer').replaceChildren()")
            page.browser.choose("#first", page.folder / path.name)
            shown = page.browser.wait(ANSWER)
            page.judge_file("in Firefox", shown["files"][0], "product.exp", path.name)
        page.browser.ask("document.getElementById('answer').replaceChildren()")
        page.browser.choose("#first", page.folder / "product.step")
        page.browser.wait(ANSWER)
        page.browser.choose("#second", page.folder / "product-changed.step")
        shown = page.browser.wait(f"{SAID}.startsWith('Different') && {ANSWER}")
        page.judge_pair("in Firefox", shown, "product.exp", "product.step", "product-changed.step")
    finally:
        page.browser.close()
        page.browser = chromium


def main():
    if not browser.found():
        needs.skipped("there is no Chromium")
    needs.wanted("rt")
    tests = Tests("page")
    path = tests.here / "p21.html"
    said = making.make_page(path)
    page = Page(tests, path)
    page.path = path
    page.is_unproved = "unproved" in said
    try:
        groups = [alone, examples, chance, many, going_on, stopped_on_the_way, up_to_names, large_up_to_names, asked_otherwise, fitted, shelf, others, large, people, network, in_firefox]
        groups += [mended_files, words, hostile_names, taken_along, on_paper, packed, without_schema, accessible, large_in_both]
        for group in (*groups, want_of_memory, without_memory):
            group(page)
    finally:
        page.browser.close()
    missing = [] if firefox.found() else ["what is tried in Firefox (there is none)"]
    missing += [] if desktop.found() else ["the choosers of the browsers (there is no Xvfb or no xdotool)"]
    tests.end(", ".join(missing))


if __name__ == "__main__":
    sys.path.insert(0, str(pathlib.Path(__file__).resolve().parent))
    main()
