"""A page for a browser that shows what differs in two files. It stands by itself and asks no network."""

# A point of the picture has three coordinates. In AP203, AP214, AP242 and IFC a point has as many dimensions as
# coordinates, and those with two lie in the plane of the parameters of a surface. Any entity with an attribute
# COORDINATES counts, so that subtypes do.
#
# `p21-diff --format html` shows 2,000 instances, and as many points as can be told apart in a picture: a page of 100 MB
# is no help.

import html
import re
from typing import Any, Callable, Dict, Iterable, Iterator, List, NamedTuple, Optional, Set, Tuple

import p21_lines
from p21_differences import CAME, CHANGED, WENT, Counts, Difference, Given
from p21_owners import NOWHERE, Owner, Owners
from p21_plainly import is_spelled, plainly
from p21_reading import shown
from p21_units import Lengths, unit_of, with_unit

MOST_INSTANCES = 2_000
MOST_AROUND = 4_000
MOST_BYTES = 4_000
MOST_POINTS = 4_000
MOST_BEHIND = 3_000
# The attribute of a point, in AP203, AP214, AP242 and IFC alike. A point of so many coordinates has that many dimensions: those of
# the parameters of a surface have two, and stand in no space.
COORDINATES = "COORDINATES"
IN_SPACE = re.compile(rb"\((-?\d[^()',]*),(-?\d[^()',]*),(-?\d[^()',]*)\)")
VIEWS = (("from above", 0, 1), ("from the front", 0, 2), ("from the right", 1, 2))
AXES = "xyz"

Anchor = Tuple[str, int]
# An attribute, behind the entity that declares it.
Place = Tuple[str, str]

STYLE = """
:root { --ink: #1b1f24; --soft: #59636e; --line: #d1d9e0; --back: #ffffff; --card: #f6f8fa; --link: #0b57d0;
  --changed: #9a6700; --came: #1a7f37; --went: #cf222e; --mark: #fff1b8; }
@media (prefers-color-scheme: dark) { :root { --ink: #e6edf3; --soft: #9aa4af; --line: #3d444d; --back: #0d1117;
  --card: #161b22; --link: #79b8ff; --changed: #d9a521; --came: #3fb950; --went: #ff7b72; --mark: #5a4700; } }
* { box-sizing: border-box; }
body { margin: 0 auto; max-width: 76rem; padding: 1.5rem; color: var(--ink); background: var(--back);
  font: 15px/1.5 system-ui, sans-serif; }
h1 { font-size: 1.4rem; margin: 0 0 .5rem; } h2 { font-size: 1.1rem; margin: 2rem 0 .5rem; }
code, .line { font: 13px/1.6 ui-monospace, monospace; overflow-wrap: anywhere; }
a { color: var(--link); } mark { background: var(--mark); color: inherit; border-radius: 2px; padding: 0 1px; }
.verdict { border-left: 4px solid var(--soft); padding: .4rem .8rem; background: var(--card); margin: .8rem 0; }
.soft { color: var(--soft); } .changed { color: var(--changed); } .came { color: var(--came); } .went { color: var(--went); }
table { border-collapse: collapse; } th, td { padding: .15rem .6rem; text-align: right; vertical-align: middle; }
th:first-child, td:first-child { text-align: left; overflow-wrap: anywhere; min-width: 8rem; }
td.bars { width: 20rem; min-width: 6rem; text-align: left; white-space: nowrap; }
.bar { display: inline-block; height: .8rem; min-width: 2px; vertical-align: middle; }
.bar.changed { background: var(--changed); } .bar.came { background: var(--came); } .bar.went { background: var(--went); }
button.entity { all: unset; cursor: pointer; color: var(--link); text-decoration: underline; }
button.entity:focus-visible { outline: 2px solid var(--link); }
.filter { position: sticky; top: 0; background: var(--back); padding: .6rem 0; border-bottom: 1px solid var(--line); z-index: 1;
  display: flex; gap: 1rem; flex-wrap: wrap; align-items: center; }
.filter input[type=search] { flex: 1 1 16rem; padding: .3rem .5rem; color: inherit; background: var(--card);
  border: 1px solid var(--line); border-radius: 4px; font: inherit; }
.item { border: 1px solid var(--line); border-radius: 6px; margin: .6rem 0; padding: .5rem .8rem; background: var(--card);
  scroll-margin-top: 4rem; }
.written { font-family: inherit; } .item:target, .line:target { outline: 2px solid var(--link); }
.group > h3, .group > h4 { margin: 1.4rem 0 .3rem; overflow-wrap: anywhere; } .group > h3 { font-size: 1.05rem; }
.group > h4 { font-size: .95rem; color: var(--soft); }
.item h3, .item h4, .item h5 { font-size: .95rem; margin: 0 0 .2rem; } .line { margin: .1rem 0; padding-left: 2rem; text-indent: -2rem;
  scroll-margin-top: 4rem; }
.side { display: inline-block; width: 1.6rem; text-indent: 0; color: var(--soft); }
.views { display: flex; flex-wrap: wrap; gap: 1rem; } figure { margin: 0; flex: 1 1 20rem; }
svg { width: 100%; height: auto; background: var(--card); border: 1px solid var(--line); border-radius: 6px; }
svg text { fill: var(--soft); font: 11px system-ui, sans-serif; } .behind { fill: var(--soft); opacity: .35; }
svg .changed { fill: var(--changed); stroke: var(--changed); } svg .came { fill: var(--came); }
svg .went { fill: var(--went); } svg .before { fill: none; stroke: var(--changed); }
[hidden] { display: none; }
@media print { .filter { display: none; } }
"""

SCRIPT = """
const items = [...document.querySelectorAll('.item')];
const groups = [...document.querySelectorAll('.group')];
const text = document.getElementById('text');
const boxes = [...document.querySelectorAll('.filter input[type=checkbox]')];
const shown = document.getElementById('shown');
function sift() {
  const wanted = text.value.toLowerCase().split(/\\s+/).filter(Boolean);
  const kinds = boxes.filter(box => box.checked).map(box => box.value);
  let count = 0;
  for (const item of items) {
    const words = (item.dataset.entity + ' ' + item.textContent).toLowerCase();
    item.hidden = !kinds.includes(item.dataset.kind) || !wanted.every(word => words.includes(word));
    count += !item.hidden;
  }
  for (const group of groups) { group.hidden = !group.querySelector('.item:not([hidden])'); }
  shown.textContent = count + ' of ' + items.length + ' shown';
}
text.addEventListener('input', sift);
boxes.forEach(box => box.addEventListener('change', sift));
document.querySelectorAll('button.entity').forEach(button => button.addEventListener('click', () => {
  text.value = button.dataset.entity;
  sift();
  document.getElementById('list').scrollIntoView();
}));
addEventListener('hashchange', () => {
  const target = document.getElementById(location.hash.slice(1));
  const item = target && target.closest('.item');
  if (item && item.hidden) { text.value = ''; boxes.forEach(box => { box.checked = true; }); sift(); }
  if (target && target.closest('#around')) { document.getElementById('around').open = true; }
  if (target) { (item || target).scrollIntoView(); }
});
sift();
"""


class Item(NamedTuple):
    """What is shown of one instance, header record or section: its differences."""

    first: Difference
    all: List[Difference]


class Said(NamedTuple):
    """What stands above a page, what is left out, and the last line of a text."""

    headline: str
    left_out: str
    verdict: str


# Items by the faces or sets of properties that own them; and these by products.
Parts = Dict[str, List[Item]]
Groups = Dict[str, Parts]


def quoted(text: str) -> str:
    """A text as it stands in a page: as one line of signs that are just shown."""
    return html.escape(str(shown(text)))


def place_of(coordinates: bytes) -> Optional[Tuple[float, ...]]:
    """The place in space that coordinates say, or None where they say none."""
    found = IN_SPACE.fullmatch(coordinates)
    if found is None:
        return None
    numbers = tuple(float(number) for number in found.groups())
    return numbers if all(abs(number) < 1e100 for number in numbers) else None


def owner_of(found: Difference, owners: Owners) -> Owner:
    """What owns what differs: of an instance that went by the first file, of another one by the second."""
    if found.what not in ("instance", "section of"):
        return Owner(f"In the {'header' if found.what == 'header' else 'list of sections'}", "")
    if found.second is not None:
        return owners.of(1, found.second)
    return owners.of(0, found.first or 0)


class Page:
    """Takes the differences of two files, and writes the page."""

    def __init__(self, paths: Tuple[str, str], given: Given) -> None:
        self.paths = paths
        self.data = given.data
        self.outline = given.outline
        self.lengths = Lengths(given.outline)
        self.units = [unit_of(given.data[0]), unit_of(given.data[1])]
        self.items: List[Item] = []
        self.left_out = 0
        self.points: List[Difference] = []
        self.lines_by_name: Tuple[Dict[int, bytes], Dict[int, bytes]] = ({}, {})
        self.anchors: Set[Anchor] = set()
        self.behind: List[Tuple[float, ...]] = []
        self.points_known: Dict[str, bool] = {}

    def is_point(self, key: str) -> bool:
        """Is a keyword that of an entity of points?"""
        if key not in self.points_known:
            places = self.outline.places(key) if key in self.outline.entities else ()
            self.points_known[key] = any(attribute == COORDINATES for _, attribute in places)
        return self.points_known[key]

    def point(self, line: Optional[bytes]) -> Optional[Tuple[float, ...]]:
        """Where an instance is in space, by its line, or None where it's no point in space."""
        if line is None:
            return None
        spans = self.spans(line, lambda place: place[1] == COORDINATES)
        return next(filter(None, (place_of(line[start:end]) for start, end in spans)), None)

    def may_be_point(self, found: Difference) -> bool:
        """Is it a difference of a point, of which nothing says that it has other than three coordinates?"""
        if found.what != "instance" or not any(map(self.is_point, (found.keywords_of_instance() or "").split("+"))):
            return False
        texts = [text for text in (found.before, found.after) if text is not None]
        is_whole = found.attribute == COORDINATES and not found.indices
        return not is_whole or any(place_of(text.encode("ascii", "replace")) for text in texts)

    def add(self, found: Difference) -> None:
        """The next difference. Those of one instance stand one behind the other."""
        if self.items and found.what in ("instance", "section of") and self.is_same_instance(found):
            self.items[-1].all.append(found)
            return
        if len(self.points) < MOST_POINTS and self.may_be_point(found):
            self.points.append(found)
        if len(self.items) < MOST_INSTANCES:
            self.items.append(Item(found, [found]))
        else:
            self.left_out += 1

    def is_same_instance(self, found: Difference) -> bool:
        """Is it a further difference of the last instance that is shown?"""
        last = self.items[-1].first
        names = (found.first, found.second)
        return self.left_out == 0 and last.kind == found.kind and (last.first, last.second) == names and names != (None, None)

    # --- The lines of instances ---

    def fetch(self) -> None:
        """Reads the lines of all instances that are shown, and of those that they refer to."""
        instances = [item.first for item in self.items] + self.points
        wanted = {found.first for found in instances if found.first is not None}, {
            found.second for found in instances if found.second is not None
        }
        for at, names in enumerate(wanted):
            self.read(at, names)
            around: Set[int] = set()
            for line in list(self.lines_by_name[at].values()):
                around.update(p21_lines.references_in(line[line.index(b"=") :][:MOST_BYTES]))
            self.read(at, set(sorted(around - names)[:MOST_AROUND]))
        sides = "ab"
        self.anchors = {(sides[at], name) for at in (0, 1) for name in self.lines_by_name[at]}

    def read(self, at: int, names: Set[int]) -> None:
        """Reads the lines of these instances of a file."""
        sections = p21_lines.sections_of(self.data[at])
        lines = ((name, p21_lines.line_named(self.data[at], sections, name)) for name in names)
        self.lines_by_name[at].update((name, line) for name, line in lines if line)

    def read_behind(self) -> None:
        """Some of all points of the second file, to be seen behind those that differ."""
        found: List[Tuple[float, ...]] = []
        step = 1
        count = 0
        data = self.data[1]
        for _, place in p21_lines.sections_of(data):
            for start, end in p21_lines.lines_of(data, place):
                at = data.find(b"=", start) + 1
                key = data[at : data.find(b"(", at)].decode("latin-1")
                if self.is_point(key):
                    count += 1
                    point = self.point(data[start:end]) if count % step == 0 else None
                    if point:
                        found.append(point)
                    if len(found) > MOST_BEHIND:
                        found = found[::2]
                        step *= 2
        self.behind = found

    # --- Lines with links and marks ---

    def marked(self, line: bytes, at: int, changed: Set[Place]) -> str:
        """A line with its references as links, and the values of these attributes marked."""
        spans = list(self.spans(line, changed.__contains__)) if changed else []
        if len(line) > MOST_BYTES:
            return self.linked(line[:MOST_BYTES], at) + " .."
        found = []
        place = 0
        for start, end in spans:
            found += [self.linked(line[place:start], at), "<mark>", self.linked(line[start:end], at), "</mark>"]
            place = end
        return "".join([*found, self.linked(line[place:], at)])

    def spans(self, line: bytes, is_wanted: Callable[[Place], bool]) -> Iterator[Tuple[int, int]]:
        """Where the values of some attributes stand in a line."""
        return ((start, end) for place, start, end in self.outline.values_in(line) if is_wanted(place))

    def linked(self, text: bytes, at: int) -> str:
        """A part of a line with its references as links, where the page has what they lead to."""
        found = []
        place = 0
        for word in p21_lines.STRING_OR_REFERENCE.finditer(text):
            anchor = ("ab"[at], int(word[1])) if word[1] and len(word[1]) <= 20 else None
            if anchor in self.anchors and anchor is not None:
                name = f"{anchor[0]}{anchor[1]}"
                found += [quoted(text[place : word.start()].decode("latin-1")), f'<a href="#{name}">#{anchor[1]}</a>']
                place = word.end()
        return "".join([*found, quoted(text[place:].decode("latin-1"))])

    # --- The parts of the page ---

    def lines(self, said: Said, counts: Optional[Counts], owners: Optional[Owners]) -> Iterator[str]:
        """The page, with a list where there are counts. By `owners` the differences stand together that one product owns."""
        self.fetch()
        if self.points:
            self.read_behind()
        names = [quoted(path) for path in self.paths]
        yield '<!DOCTYPE html>\n<html lang="en">\n<head>\n<meta charset="utf-8">'
        yield "<meta http-equiv=\"Content-Security-Policy\" content=\"default-src 'none'; style-src 'unsafe-inline'; script-src 'unsafe-inline'\">"
        yield '<meta name="viewport" content="width=device-width, initial-scale=1">'
        yield f"<title>{names[0]} and {names[1]}</title>\n<style>{STYLE}</style>\n</head>\n<body>"
        yield f"<h1>{quoted(said.headline)}</h1>"
        yield f'<p><span class="side">A</span><code>{names[0]}</code><br><span class="side">B</span><code>{names[1]}</code></p>'
        if said.left_out:
            yield f'<p id="left-unlisted">{quoted(said.left_out[0].upper() + said.left_out[1:])}.</p>'
        yield f'<p class="verdict" id="verdict">{quoted(said.verdict)}</p>'
        if counts is not None:
            yield from self.summary(counts)
            yield from self.plot()
            yield from self.list(owners)
            yield from self.around()
            yield f"<script>{SCRIPT}</script>"
        yield "</body>\n</html>"

    def summary(self, counts: Counts) -> Iterator[str]:
        """The table by entity, with bars."""
        rows = counts.table()
        if not rows:
            return
        most = max(sum(row[1:]) for row in rows)
        yield '<h2>By entity</h2>\n<table id="summary">\n<tr><th>entity</th><th class="changed">changed</th>'
        yield '<th class="came">came</th><th class="went">went</th><th></th></tr>'
        for name, *numbers in rows[:200]:
            bars = "".join(
                f'<span class="bar {kind}" style="width:{100 * number / most:.1f}%" title="{number} {kind}"></span>'
                for kind, number in zip((CHANGED, CAME, WENT), numbers)
                if number
            )
            cells = "".join(f"<td>{number or ''}</td>" for number in numbers)
            entity = f'<button class="entity" data-entity="{quoted(name)}">{quoted(name)}</button>'
            yield f'<tr><td>{entity}</td>{cells}<td class="bars">{bars}</td></tr>'
        yield "</table>" + (f'<p class="soft">and {len(rows) - 200} more entities</p>' if len(rows) > 200 else "")

    def list(self, owners: Optional[Owners]) -> Iterator[str]:
        """The differences, with a filter in front of them."""
        yield f'<h2 id="list">{len(self.items) + self.left_out} differences</h2>'
        yield '<form class="filter" onsubmit="return false"><input type="search" id="text" placeholder="entity, attribute, name or text" aria-label="filter">'
        for kind in (CHANGED, CAME, WENT):
            yield f'<label class="{kind}"><input type="checkbox" value="{kind}" checked> {kind}</label>'
        yield '<span class="soft" id="shown"></span></form>'
        if owners is None:
            for item in self.items:
                yield from self.item(item, 3)
        else:
            for products, parts in self.groups(owners).items():
                yield from self.group(products, parts)
        if self.left_out:
            yield f'<p class="soft" id="left-out">{self.left_out} more are not on this page; --format json has all.</p>'

    def groups(self, owners: Owners) -> Groups:
        """The differences by what owns them, in the order of the first of each, those in no product last."""
        groups: Groups = {}
        for item in self.items:
            owner = owner_of(item.first, owners)
            groups.setdefault(owner.products, {}).setdefault(owner.parts, []).append(item)
        return dict(sorted(groups.items(), key=lambda each: each[0] == NOWHERE))

    def group(self, products: str, parts: Parts) -> Iterator[str]:
        """What one product owns, or some together: in front what no face or set of properties owns."""
        yield f'<section class="group"><h3>{quoted(products)}</h3>'
        for part, items in sorted(parts.items(), key=lambda each: bool(each[0])):
            if part:
                yield f'<section class="group"><h4>{quoted(part)}</h4>'
            for item in items:
                yield from self.item(item, 5 if part else 4)
            if part:
                yield "</section>"
        yield "</section>"

    def item(self, item: Item, level: int) -> Iterator[str]:
        """What is shown of an instance, a header record or a section, below a heading of this level."""
        found = item.first
        entity = quoted((found.keywords_of_instance() if found.what == "instance" else found.entity) or found.what)
        names = [f'<span class="soft">{side}</span> #{name}' for side, name in zip("AB", (found.first, found.second)) if name is not None]
        anchors = [f"{side}{name}" for side, name in zip("ab", (found.first, found.second)) if name is not None]
        other = f'<span id="{anchors[1]}"></span>' if len(anchors) > 1 else ""
        identity = f' id="{anchors[0]}"' if anchors else ""
        kind = "" if found.what == "instance" else f"({quoted(found.what.split()[0])}) "
        yield f'<div class="item"{identity} data-kind="{found.kind}" data-entity="{kind}{entity}">{other}'
        attributes = ", ".join(dict.fromkeys(quoted(each.attribute) for each in item.all if each.attribute))
        kind_of = f'<span class="{found.kind}">{found.kind}</span>'
        yield f'<h{level}>{kind_of} {", ".join(names)} {entity} <span class="soft">{attributes}</span></h{level}>'
        changed = {(each.entity or "", each.attribute) for each in item.all if each.attribute and each.kind == CHANGED}
        for at, name in enumerate((found.first, found.second)):
            line = None if name is None else self.lines_by_name[at].get(name)
            if line is not None and found.what != "header":
                yield self.line("AB"[at], self.marked(line, at, changed))
        for each in item.all:
            if found.what == "header" or each.what != "instance":
                yield from self.texts(each)
            else:
                yield from self.written(each)
        yield "</div>"

    def written(self, found: Difference) -> Iterator[str]:
        """The values of an attribute that changed as people write them, where that is other than in the lines above."""
        if found.kind != CHANGED or found.attribute is None:
            return
        lines = [self.lines_by_name[at].get(-1 if name is None else name, b"") for at, name in enumerate((found.first, found.second))]
        place = (found.entity or "", found.attribute)
        spans = [next(self.spans(line, place.__eq__), (0, 0)) for line in lines]
        values = [line[start:end].decode("latin-1") for line, (start, end) in zip(lines, spans)]
        if max(map(len, values)) > MOST_BYTES:
            return
        units = self.units if self.is_length(found) else [None, None]
        plain = [with_unit(value, plainly(value), unit) for value, unit in zip(values, units)]
        if any(map(is_spelled, values)) or plain != list(map(plainly, values)):
            before, after = map(quoted, plain)
            yield f'<p class="line written"><span class="soft">{quoted(found.attribute)}</span> {before} → {after}</p>'

    def is_length(self, found: Difference) -> bool:
        """Are the values of the attribute that changed in an instance lengths, of files that have a unit for these?"""
        return any(self.units) and self.lengths.at(found.entity or "", found.attribute or "")

    def texts(self, found: Difference) -> Iterator[str]:
        """The texts of a difference outside of instances."""
        for side, text in zip("AB", (found.before, found.after)):
            if text is not None:
                yield self.line(side, quoted(text[:MOST_BYTES]) + (" .." if len(text) > MOST_BYTES else ""))

    def line(self, side: str, text: str) -> str:
        """A line of a file."""
        return f'<p class="line"><span class="side">{side}</span>{text}</p>'

    def around(self) -> Iterator[str]:
        """The instances that those in the list refer to, as far as they aren't in it."""
        listed = {(at, name) for item in self.items for at, name in enumerate((item.first.first, item.first.second))}
        rows = [(at, name) for at in (0, 1) for name in sorted(self.lines_by_name[at]) if (at, name) not in listed]
        if not rows:
            return
        plural = "instance" if len(rows) == 1 else "instances"
        yield f'<details id="around"><summary>{len(rows)} {plural} around them</summary>'
        for at, name in rows:
            text = self.marked(self.lines_by_name[at][name], at, set())
            yield f'<p class="line" id="{"ab"[at]}{name}"><span class="side">{"AB"[at]}</span>{text}</p>'
        yield "</details>"

    # --- Where the points are ---

    def plot(self) -> Iterator[str]:
        """Three views of the points that differ, before some of all points of the second file."""
        found = []
        for each in self.points:
            before = self.point(self.lines_by_name[0].get(each.first)) if each.first is not None else None
            after = self.point(self.lines_by_name[1].get(each.second)) if each.second is not None else None
            if before or after:
                found.append((each, before, after))
        if not found:
            return
        points = [point for _, before, after in found for point in (before, after) if point] + self.behind
        yield f'<h2>Where {len(found)} points are</h2>\n<p class="soft">A ring is where a point was, a dot where it is now; '
        yield "small dots are other points of B. Coordinates are those of the points, without placements; points of two coordinates "
        yield 'are left out.</p>\n<div class="views">'
        for title, across, up in VIEWS:
            yield from view(title, across, up, found, points, self.behind)
        yield "</div>"


def view(
    title: str,
    across: int,
    up: int,
    found: List[Tuple[Difference, Any, Any]],
    points: List[Tuple[float, ...]],
    behind: Iterable[Tuple[float, ...]],
) -> Iterator[str]:
    """The points, seen along one axis."""
    lows = [min(point[axis] for point in points) for axis in (across, up)]
    highs = [max(point[axis] for point in points) for axis in (across, up)]
    size = max(high - low for low, high in zip(lows, highs)) or 1.0
    middles = [(low + high) / 2 for low, high in zip(lows, highs)]

    def place(point: Tuple[float, ...]) -> Tuple[str, str]:
        x = 180 + 300 * (point[across] - middles[0]) / size
        y = 180 - 300 * (point[up] - middles[1]) / size
        return f"{x:.1f}", f"{y:.1f}"

    yield f'<figure><svg viewBox="0 0 360 360" role="img" aria-label="{title}">'
    yield f'<text x="8" y="16">{title}: {AXES[across]} to the right, {AXES[up]} up</text>'
    yield f'<text x="8" y="350">{AXES[across]} {lows[0]:g} to {highs[0]:g}, {AXES[up]} {lows[1]:g} to {highs[1]:g}</text>'
    for x, y in {place(point): None for point in behind}:
        yield f'<circle class="behind" cx="{x}" cy="{y}" r="1.5"/>'
    for each, before, after in found:
        if before and after:
            (x, y), (a, b) = place(before), place(after)
            yield f'<line class="changed" x1="{x}" y1="{y}" x2="{a}" y2="{b}"/><circle class="before" cx="{x}" cy="{y}" r="5"/>'
        for point, kind in ((after, each.kind if each.kind != WENT else ""), (before, WENT if each.kind == WENT else "")):
            if point and kind:
                x, y = place(point)
                name = f"#{each.first if point is before else each.second}"
                yield f'<circle class="{kind}" cx="{x}" cy="{y}" r="3"><title>{name}</title></circle>'
    yield "</svg></figure>"
