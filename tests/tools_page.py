#!/usr/bin/env python3
"""Looks at the page of tools/p21-diff --format html in a browser: headless Chromium, where it is installed (CHROMIUM names
another program than chromium). P21 names another program than ./p21.

    tests/tools_page.py [PICTURE]     writes a picture of the page, to be looked at
"""

import html
import json
import os
import pathlib
import re
import shutil
import subprocess
import sys

PICTURE = os.path.abspath(sys.argv[1]) if len(sys.argv) > 1 else None

from renaming import shuffled  # pylint: disable=wrong-import-position
from tooling import ROOT, SCHEMA, Tests, file_of  # pylint: disable=wrong-import-position

CHROMIUM = shutil.which(os.environ.get("CHROMIUM", "chromium"))
SWITCHES = ["--headless", "--no-sandbox", "--disable-gpu", "--hide-scrollbars", "--virtual-time-budget=3000"]

# What is done on the page, one behind the other, and what there is to see then.
STEPS = """
<script>
const seen = {};
const visible = () => [...document.querySelectorAll('.item')].filter(item => item.getClientRects().length).length;
const type = words => { text.value = words; text.dispatchEvent(new Event('input')); };
seen.all = visible();
seen.said = document.getElementById('shown').textContent;
type('person');
seen.typed = visible();
type('changed COORDINATES 1.225');
seen.words = visible();
document.querySelector('button.entity[data-entity="CARTESIAN_POINT"]').click();
seen.entity = [text.value, visible()];
document.querySelector('button.entity[data-entity="(header)"]').click();
seen.header = visible();
seen.heads = [...document.querySelectorAll('.group > h3')].filter(head => head.getClientRects().length).map(head => head.textContent);
type('');
for (const box of document.querySelectorAll('.filter input[type=checkbox]')) { if (box.value !== 'came') box.click(); }
seen.came = visible();
const link = [...document.querySelectorAll('.item .line a')].find(each => document.querySelector('#around ' + each.getAttribute('href')));
seen.link = link.textContent;
link.click();
setTimeout(() => {
  seen.led = document.querySelector(':target').textContent;
  seen.open = document.getElementById('around').open;
  seen.links = [...document.querySelectorAll('a')].filter(each => !document.querySelector(each.getAttribute('href'))).length;
  seen.marks = [...document.querySelectorAll('mark')].map(mark => mark.textContent);
  seen.bold = document.querySelectorAll('.item b, .item i').length;
  seen.views = document.querySelectorAll('svg').length;
  seen.dots = [...document.querySelectorAll('svg')].map(view => view.querySelectorAll('circle.changed, circle.came, circle.went').length);
  seen.bars = [...document.querySelectorAll('.bar')].map(bar => Math.round(bar.getBoundingClientRect().width));
  seen.wide = document.documentElement.scrollWidth <= innerWidth;
  document.title = JSON.stringify(seen);
}, 100);
</script>
</body>"""


def browsed(page, *switches):
    """What the browser prints of a page."""
    words = [CHROMIUM, *SWITCHES, *switches, pathlib.Path(page).as_uri()]
    return subprocess.run(words, capture_output=True, check=False, text=True, timeout=120)


def delivered():
    """The example with a changed point, a changed person, a person who went, and a point and a direction that came."""
    text = (ROOT / "examples" / "product-changed.step").read_text()
    text = text.replace("#9=PERSON('jo','O''Neill',$,$);", "#9=PERSON('jo','O''Neill','<b>Pat</b>',('&amp;'));\n#500=CARTESIAN_POINT('<i>',(40.,25.,30.));\n#501=VERTEX_POINT('new',#500);\n#502=VERTEX_POINT('old',#17);")
    return shuffled(text.replace("2024-03-15T10", "2024-03-15T11").encode(), 5)[0]


def looked_at(tests):
    """The page of two deliveries: what is done on it, and what there is to see."""
    paths = ["examples/product.step", tests.make("<b>delivery & \x1b.step", delivered())]
    page, error, status = tests.run(["--names", "--format", "html", SCHEMA, *paths])
    tests.judge("the run", ("", 1), (error, status))
    tests.judge("nothing is asked of a network", [], re.findall(r"https?:|src=|@import|url\(", page))
    tests.judge("the name of the file", True, "&lt;b&gt;delivery &amp; \\x1b.step" in page)
    tests.judge("values as people write them", True, "COORDINATES</span> (80, 50, 12.5) mm → (80, 50, 12.25) mm</p>" in page)
    products, faces = (re.findall(f'<section class="group"><h{level}>(.*?)</h{level}>', re.sub("#[0-9]+", "#", page)) for level in (3, 4))
    tests.judge("what owns what differs", ["In the header", "PRODUCT # “B-100”, “Block”", "In no product"], products)
    of_corner = [sorted(re.findall("ADVANCED_FACE # “(.*?)”", face)) for face in faces]
    tests.judge("the faces of two corners", [["back", "right", "top"], ["bottom", "front", "left"]], sorted(of_corner))
    if CHROMIUM is None:
        return
    stepped = tests.make("page.html", page.replace("</body>", STEPS))
    done = browsed(stepped, "--dump-dom", "--enable-logging=stderr", "--window-size=1200,900")
    title = re.search(r"<title>(.*?)</title>", done.stdout, re.S)
    found = json.loads(html.unescape(title[1])) if title else {}
    tests.judge("no complaint", [], [line for line in done.stderr.splitlines() if "CONSOLE" in line])
    bars = found.pop("bars", [])
    wanted = {
        "all": 6, "said": "6 of 6 shown", "typed": 1, "words": 1, "entity": ["CARTESIAN_POINT", 2], "header": 1, "heads": ["In the header"], "came": 3,
        "link": found.get("link"), "led": found.get("led"), "open": True, "links": 0,
        "marks": ["$", "$", "'<b>Pat</b>'", "('&amp;')", "(8.E1,5.E1,1.25E1)", "(8.E1,5.E1,1.225E1)"], "bold": 0,
        "views": 3, "dots": [2, 2, 2], "wide": True,
    }  # fmt: skip
    tests.judge("what there is to see", wanted, found)
    tests.judge("a link leads to its instance", True, str(found.get("led"))[1:].startswith(str(found.get("link")) + "="))
    tests.judge("the bars grow with the numbers", True, len(bars) == 5 and max(bars) <= 2 * sorted(bars)[-2] + 2 and min(bars) > 20)
    picture = PICTURE or str(tests.here / "page.png")
    browsed(tests.make("page.html", page), f"--screenshot={picture}", "--window-size=1200,1700")
    tests.judge("a picture", True, os.path.getsize(picture) > 20_000)


# Points of a plane and of space, and one that another entity of the schema is too. Each is changed.
POINTS_EXP = """SCHEMA s; ENTITY cartesian_point; name : STRING; coordinates : LIST [1:3] OF REAL; END_ENTITY;
ENTITY marked_point SUBTYPE OF (cartesian_point); mark : STRING; END_ENTITY;
ENTITY direction; name : STRING; coordinates_of : LIST OF REAL; END_ENTITY; END_SCHEMA;"""
POINTS = """#1=CARTESIAN_POINT('',(1.,2.));
#2=CARTESIAN_POINT('',(1.,2.,{0}.));
#3=CARTESIAN_POINT('',({0}.));
#4=MARKED_POINT('',(5.,6.,{0}.),'m');
#5=DIRECTION('',(1.,2.,{0}.));
#6=(CARTESIAN_POINT('',(7.,8.,{0}.))MARKED_POINT('n'));
#7=CARTESIAN_POINT('',({0}.,2.));
#8=CARTESIAN_POINT('{0}',(9.,9.,9.));"""


def points(tests):
    """The picture has points of three coordinates, of whatever entity that has them, and none of two."""
    schema = tests.make("points.exp", POINTS_EXP)
    paths = [tests.make(f"{number}.step", file_of(POINTS.format(number), [("PRODUCT_MODEL", "S")])) for number in (3, 4)]
    for options in ([], ["--names"]):
        page, error, status = tests.run([*options, "--format", "html", schema, *paths])
        tests.judge(f"points, {options}", ("", 1), (error, status))
        view = page.partition("<svg")[2].partition("</svg>")[0]
        tests.judge(f"points that are drawn, {options}", ["#2", "#4", "#6", "#8"], sorted(re.findall("<title>(#[0-9]+)</title>", view)))
    flat = [tests.make(f"{number}.step", file_of(f"#1=CARTESIAN_POINT('',({number}.,2.));", [("PRODUCT_MODEL", "S")])) for number in (3, 4)]
    tests.judge("points of planes alone", False, "<svg" in tests.run(["--format", "html", schema, *flat])[0])


def narrow(tests):
    """On a narrow screen nothing runs out of the page."""
    page, _, _ = tests.run(["--names", "--format", "html", SCHEMA, "examples/product.step", str(tests.here / "long.step")])
    script = "<script>document.title = document.documentElement.scrollWidth + ' ' + innerWidth;</script></body>"
    done = browsed(tests.make("narrow.html", page.replace("</body>", script)), "--dump-dom", "--window-size=500,900")
    widths = re.search(r"<title>(\d+) (\d+)</title>", done.stdout)
    tests.judge("a narrow screen", True, widths is not None and int(widths[1]) <= int(widths[2]))


def many(tests):
    """A page of more differences than it shows says so."""
    points = [f"#{name}=CARTESIAN_POINT('{name}',({name}.,{name % 7}.,0.));" for name in range(1, 3001)]
    paths = [tests.make("a.step", file_of("\n".join(points))), tests.make("b.step", file_of("\n".join(points).replace(",0.)", ",0.5)")))]
    page, _, status = tests.run(["--format", "html", SCHEMA, *paths])
    tests.judge("the status", 1, status)
    tests.judge("what is shown", (2000, 1), (page.count('class="item"'), page.count("1000 more are not on this page")))
    tests.judge("bytes of the page", True, len(page) < 5_000_000)


def main():
    tests = Tests("p21-diff")
    looked_at(tests)
    tests.make("long.step", delivered().replace(b"'<b>Pat</b>'", b"'" + b"w" * 3000 + b"'"))
    if CHROMIUM is not None:
        narrow(tests)
    many(tests)
    points(tests)
    tests.end("" if CHROMIUM else "the page in a browser (no Chromium)")


if __name__ == "__main__":
    main()
