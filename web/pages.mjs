// A page for a browser that shows what differs in two files, as p21-diff --format html writes it: the same bytes. It stands by itself
// and asks no network. As in tools/p21_pages.py, of which it is given the style and the script.

import { KINDS, keywordsOfInstance } from "./differences.mjs";
import { EQUALS, STRING_OR_REFERENCE, linesFrom, referencesIn, sectionsOf } from "./lines.mjs";
import { NOWHERE } from "./owners.mjs";
import { isSpelled, plainly } from "./plainly.mjs";
import { shown, textOf } from "./reading.mjs";
import { withUnit } from "./units.mjs";

const MOST_INSTANCES = 2_000;
const MOST_AROUND = 4_000;
const MOST_CHARACTERS = 4_000;
const MOST_POINTS = 4_000;
const MOST_BEHIND = 3_000;
const MOST_ROWS_BY_ENTITY = 200;
const MOST_DIGITS = 20;
// The attribute of a point, in AP203, AP214, AP242 and IFC alike. Those of two coordinates stand in no space.
const COORDINATES = "COORDINATES";
const IN_SPACE = /^\((-?\d[^()',]*),(-?\d[^()',]*),(-?\d[^()',]*)\)$/;
const VIEWS = [
  ["from above", 0, 1],
  ["from the front", 0, 2],
  ["from the right", 1, 2],
];
const AXES = "xyz";
const MOST_PLACE = 1e100;
const SIGNS_OF_HTML = { "&": "&amp;", "<": "&lt;", ">": "&gt;", '"': "&quot;", "'": "&#x27;" };

// --- Texts and numbers, as Python writes them ---

/** A text as it stands in a page: as one line of signs that are just shown. */
function quotedInPage(text) {
  return shown(text).replace(/[&<>"']/g, (sign) => SIGNS_OF_HTML[sign]);
}

/** A number with one digit behind the point; of two that are as near the even one. */
function withOneDigit(number) {
  if (Math.abs(number * 4) % 2 !== 1) return Object.is(number, -0) ? "-0.0" : number.toFixed(1);
  const tenths = Math.floor(Math.abs(number) * 10);
  return `${number < 0 ? "-" : ""}${((tenths % 2 === 0 ? tenths : tenths + 1) / 10).toFixed(1)}`;
}

/** A number of six digits, without zeros behind the point, as `%g` writes it. */
function general(number) {
  if (number === 0) return Object.is(number, -0) ? "-0" : "0";
  const [digits, exponent] = Math.abs(number).toExponential(100).split("e");
  const all = digits.replace(".", "");
  const rest = all.slice(6);
  let [front, power] = [BigInt(all.slice(0, 6)), Number(exponent)];
  const isTie = /^50*$/.test(rest);
  if (isTie ? front % 2n !== 0n : rest[0] >= "5") front += 1n;
  if (front === 1_000_000n) [front, power] = [100_000n, power + 1];
  const sign = number < 0 ? "-" : "";
  const text = front.toString();
  const trimmed = (whole, part) => `${sign}${whole}${part.replace(/0+$/, "") && `.${part.replace(/0+$/, "")}`}`;
  if (power < -4 || power >= 6) return `${trimmed(text[0], text.slice(1))}e${power < 0 ? "-" : "+"}${String(Math.abs(power)).padStart(2, "0")}`;
  if (power < 0) return trimmed("0", "0".repeat(-1 - power) + text);
  return trimmed(text.slice(0, power + 1), text.slice(power + 1));
}

/** Names of instances by their numbers. */
function byNumber(one, other) {
  return one.length - other.length || (one < other ? -1 : Number(one > other));
}

/** The place in space that coordinates say, or null where they say none. */
function placeInSpace(coordinates) {
  const numbers = IN_SPACE.exec(coordinates)?.slice(1).map(Number) ?? null;
  return numbers?.every((number) => Math.abs(number) < MOST_PLACE) ? numbers : null;
}

/** What owns what differs: of an instance that went by the first file, of another one by the second. */
export function ownerOf({ what, names: [first, second] }, owners) {
  if (!isOfInstance(what)) return { products: `In the ${what === "header" ? "header" : "list of sections"}`, parts: "" };
  return second === null ? owners.of(0, String(first)) : owners.of(1, String(second));
}

/** Is a difference one of an instance? */
function isOfInstance(what) {
  return what === "instance" || what === "section of";
}

// --- The page ---

/** Takes the differences of two files of these names, and writes the page in a style and with a script. */
export class Report {
  constructor(files, names, { style, script }) {
    Object.assign(this, { files, paths: names, style, script });
    this.outline = files.lengths.outline;
    this.items = [];
    this.leftOut = 0;
    this.points = [];
    this.linesByName = [new Map(), new Map()];
    this.anchors = new Set();
    this.behind = [];
    this.pointsKnown = new Map();
  }

  /** Is a keyword that of an entity of points? */
  isPoint(key) {
    if (!this.pointsKnown.has(key)) {
      const places = this.outline.entities.has(key) ? this.outline.places(key) : [];
      this.pointsKnown.set(key, places.some(({ attribute }) => attribute === COORDINATES));
    }
    return this.pointsKnown.get(key);
  }

  /** Where an instance is in space, by its line, or null where it's no point in space. */
  point(line) {
    if (line === undefined) return null;
    for (const [start, end] of this.spans(line, (_, attribute) => attribute === COORDINATES)) {
      const place = placeInSpace(line.slice(start, end));
      if (place) return place;
    }
    return null;
  }

  /** Is it a difference of a point, of which nothing says that it has other than three coordinates? */
  mayBePoint(found) {
    const { what, attribute, indices, before, after } = found;
    if (what !== "instance" || !(keywordsOfInstance(found) ?? "").split("+").some((key) => this.isPoint(key))) return false;
    return attribute !== COORDINATES || indices !== null || [before, after].some((text) => text !== null && placeInSpace(text));
  }

  /** The next difference. Those of one instance stand one behind the other. */
  add(found) {
    if (this.items.length > 0 && isOfInstance(found.what) && this.isSameInstance(found)) {
      this.items.at(-1).all.push(found);
      return;
    }
    if (this.points.length < MOST_POINTS && this.mayBePoint(found)) this.points.push(found);
    if (this.items.length < MOST_INSTANCES) this.items.push({ first: found, all: [found] });
    else this.leftOut++;
  }

  /** Is it a further difference of the last instance that is shown? */
  isSameInstance({ kind, names }) {
    const last = this.items.at(-1).first;
    const isNamed = names[0] !== null || names[1] !== null;
    return this.leftOut === 0 && last.kind === kind && last.names[0] === names[0] && last.names[1] === names[1] && isNamed;
  }

  // The lines of instances

  /** Reads the lines of all instances that are shown, and of those that they refer to. */
  fetch() {
    const instances = [...this.items.map(({ first }) => first), ...this.points];
    for (const side of [0, 1]) {
      const names = new Set(instances.map((found) => found.names[side]).filter((name) => name !== null).map(String));
      this.read(side, names);
      const around = new Set();
      for (const line of this.linesByName[side].values()) {
        const text = line.slice(line.indexOf("=")).slice(0, MOST_CHARACTERS);
        for (const name of referencesIn(text)) if (!names.has(name)) around.add(name);
      }
      this.read(side, new Set([...around].sort(byNumber).slice(0, MOST_AROUND)));
    }
    this.anchors = new Set([0, 1].flatMap((side) => [...this.linesByName[side].keys()].map((name) => `${"ab"[side]}${name}`)));
  }

  /** Reads the lines of these instances of a file. */
  read(side, names) {
    for (const name of names) {
      const line = this.files.lineOf(side, name);
      if (line) this.linesByName[side].set(name, line);
    }
  }

  /** Where each line of a file stands. */
  *lines(side) {
    const bytes = this.files.canonical[side];
    for (const section of sectionsOf(bytes)) {
      for (const { start, end } of linesFrom(bytes, section.start)) yield { start, end, bytes };
    }
  }

  /** Some of all points of the second file, to be seen behind those that differ. */
  readBehind() {
    let found = [];
    let step = 1;
    let count = 0;
    for (const { start, end, bytes } of this.lines(1)) {
      const at = bytes.indexOf(EQUALS, start) + 1;
      if (!this.isPoint(textOf(bytes.subarray(at, bytes.indexOf(0x28, at))))) continue;
      count++;
      const point = count % step === 0 ? this.point(textOf(bytes.subarray(start, end))) : null;
      if (point) found.push(point);
      if (found.length <= MOST_BEHIND) continue;
      found = found.filter((_, number) => number % 2 === 0);
      step *= 2;
    }
    this.behind = found;
  }

  // Lines with links and marks

  /** A line with its references as links, and the values of these attributes marked. */
  marked(line, side, changed) {
    const spans = changed.size > 0 ? [...this.spans(line, (...place) => changed.has(place.join(".")))] : [];
    if (line.length > MOST_CHARACTERS) return `${this.linked(line.slice(0, MOST_CHARACTERS), side)} ..`;
    const found = [];
    let at = 0;
    for (const [start, end] of spans) {
      found.push(this.linked(line.slice(at, start), side), "<mark>", this.linked(line.slice(start, end), side), "</mark>");
      at = end;
    }
    return [...found, this.linked(line.slice(at), side)].join("");
  }

  /** Where the values of some attributes stand in a line, of which each is told with the entity that declares it. */
  *spans(line, isWanted) {
    for (const { entity, attribute, start, end } of this.outline.valuesIn(line)) if (isWanted(entity, attribute)) yield [start, end];
  }

  /** A part of a line with its references as links, where the page has what they lead to. */
  linked(text, side) {
    const found = [];
    let at = 0;
    for (const word of text.matchAll(STRING_OR_REFERENCE)) {
      const [, name] = word;
      const anchor = `${"ab"[side]}${name}`;
      if (name === undefined || name.length > MOST_DIGITS || !this.anchors.has(anchor)) continue;
      found.push(quotedInPage(text.slice(at, word.index)), `<a href="#${anchor}">#${name}</a>`);
      at = word.index + word[0].length;
    }
    return [...found, quotedInPage(text.slice(at))].join("");
  }

  // The parts of the page

  /** The page, of differences of which this is known and counted, if there is a list. By `owners` those stand together that one product
   *  owns. */
  *page({ headline, leftOut, verdict, isListed }, counts, owners) {
    this.fetch();
    if (this.points.length > 0) this.readBehind();
    const names = this.paths.map(quotedInPage);
    yield '<!DOCTYPE html>\n<html lang="en">\n<head>\n<meta charset="utf-8">';
    yield "<meta http-equiv=\"Content-Security-Policy\" content=\"default-src 'none'; style-src 'unsafe-inline'; script-src 'unsafe-inline'\">";
    yield '<meta name="viewport" content="width=device-width, initial-scale=1">';
    yield `<title>${names[0]} and ${names[1]}</title>\n<style>${this.style}</style>\n</head>\n<body>`;
    yield `<h1>${quotedInPage(headline)}</h1>`;
    yield `<p><span class="side">A</span><code>${names[0]}</code><br><span class="side">B</span><code>${names[1]}</code></p>`;
    if (leftOut) yield `<p id="left-unlisted">${quotedInPage(leftOut[0].toUpperCase() + leftOut.slice(1))}.</p>`;
    yield `<p class="verdict" id="verdict">${quotedInPage(verdict)}</p>`;
    if (isListed) {
      yield* this.summary(counts);
      yield* this.plot();
      yield* this.list(owners);
      yield* this.around();
      yield `<script>${this.script}</script>`;
    }
    yield "</body>\n</html>";
  }

  /** The table by entity, with bars. */
  *summary(counts) {
    const rows = counts.table();
    if (rows.length === 0) return;
    const most = rows.reduce((greatest, [, ...numbers]) => Math.max(greatest, numbers.reduce((sum, number) => sum + number)), 0);
    yield '<h2>By entity</h2>\n<table id="summary">\n<tr><th>entity</th><th class="changed">changed</th>';
    yield '<th class="came">came</th><th class="went">went</th><th></th></tr>';
    for (const [name, ...numbers] of rows.slice(0, MOST_ROWS_BY_ENTITY)) {
      const bar = (number, kind) =>
        `<span class="bar ${kind}" style="width:${withOneDigit((100 * number) / most)}%" title="${number} ${kind}"></span>`;
      const bars = numbers.map((number, at) => (number > 0 ? bar(number, KINDS[at]) : "")).join("");
      const cells = numbers.map((number) => `<td>${number || ""}</td>`).join("");
      const entity = `<button class="entity" data-entity="${quotedInPage(name)}">${quotedInPage(name)}</button>`;
      yield `<tr><td>${entity}</td>${cells}<td class="bars">${bars}</td></tr>`;
    }
    const left = rows.length - MOST_ROWS_BY_ENTITY;
    yield `</table>${left > 0 ? `<p class="soft">and ${left} more entities</p>` : ""}`;
  }

  /** The differences, with a filter in front of them. */
  *list(owners) {
    yield `<h2 id="list">${this.items.length + this.leftOut} differences</h2>`;
    yield '<form class="filter" onsubmit="return false"><input type="search" id="text" placeholder="entity, attribute, name or text" aria-label="filter">';
    for (const kind of KINDS) yield `<label class="${kind}"><input type="checkbox" value="${kind}" checked> ${kind}</label>`;
    yield '<span class="soft" id="shown"></span></form>';
    if (owners === null) for (const item of this.items) yield* this.item(item, 3);
    else for (const [products, parts] of this.groups(owners)) yield* this.group(products, parts);
    if (this.leftOut > 0) yield `<p class="soft" id="left-out">${this.leftOut} more are not on this page; --format json has all.</p>`;
  }

  /** The differences by what owns them, in the order of the first of each, those in no product last. */
  groups(owners) {
    const groups = new Map();
    for (const item of this.items) {
      const { products, parts } = ownerOf(item.first, owners);
      if (!groups.has(products)) groups.set(products, new Map());
      const ofProducts = groups.get(products);
      if (!ofProducts.has(parts)) ofProducts.set(parts, []);
      ofProducts.get(parts).push(item);
    }
    return [...groups].sort(([one], [other]) => Number(one === NOWHERE) - Number(other === NOWHERE));
  }

  /** What one product owns, or some together: in front what no face or set of properties owns. */
  *group(products, parts) {
    yield `<section class="group"><h3>${quotedInPage(products)}</h3>`;
    for (const [part, items] of [...parts].sort(([one], [other]) => Number(Boolean(one)) - Number(Boolean(other)))) {
      if (part) yield `<section class="group"><h4>${quotedInPage(part)}</h4>`;
      for (const item of items) yield* this.item(item, part ? 5 : 4);
      if (part) yield "</section>";
    }
    yield "</section>";
  }

  /** What is shown of an instance, a header record or a section, below a heading of this level. */
  *item({ first: found, all }, level) {
    const entity = quotedInPage((found.what === "instance" ? keywordsOfInstance(found) : found.entity) || found.what);
    const sides = [0, 1].filter((side) => found.names[side] !== null);
    const names = sides.map((side) => `<span class="soft">${"AB"[side]}</span> #${found.names[side]}`);
    const anchors = sides.map((side) => `${"ab"[side]}${found.names[side]}`);
    const other = anchors.length > 1 ? `<span id="${anchors[1]}"></span>` : "";
    const identity = anchors.length > 0 ? ` id="${anchors[0]}"` : "";
    const kind = found.what === "instance" ? "" : `(${quotedInPage(found.what.split(" ")[0])}) `;
    yield `<div class="item"${identity} data-kind="${found.kind}" data-entity="${kind}${entity}">${other}`;
    const named = all.filter(({ attribute }) => attribute);
    const attributes = [...new Set(named.map(({ attribute }) => quotedInPage(attribute)))].join(", ");
    const kindOf = `<span class="${found.kind}">${found.kind}</span>`;
    yield `<h${level}>${kindOf} ${names.join(", ")} ${entity} <span class="soft">${attributes}</span></h${level}>`;
    const changed = new Set(named.map((each) => `${each.entity ?? ""}.${each.attribute}`));
    for (const side of sides) {
      const line = this.linesByName[side].get(String(found.names[side]));
      if (line !== undefined && found.what !== "header") yield ofLine("AB"[side], this.marked(line, side, changed));
    }
    for (const each of all) {
      if (found.what === "header" || each.what !== "instance") yield* ofTexts(each);
      else yield* this.written(each);
    }
    yield "</div>";
  }

  /** The values of an attribute that changed as people write them, where that is other than in the lines above. */
  *written(found) {
    if (found.kind !== KINDS[0] || found.attribute === null) return;
    const lines = found.names.map((name, side) => this.linesByName[side].get(String(name ?? -1)) ?? "");
    const isWanted = (...place) => place[0] === found.entity && place[1] === found.attribute;
    const values = lines.map((line) => {
      const [start, end] = (line && this.spans(line, isWanted).next().value) || [0, 0];
      return line.slice(start, end);
    });
    if (Math.max(...values.map(({ length }) => length)) > MOST_CHARACTERS) return;
    const units = this.isLength(found) ? this.files.units : [null, null];
    const plain = values.map((value, side) => withUnit(value, plainly(value), units[side]));
    if (!values.some(isSpelled) && plain.every((text, side) => text === plainly(values[side]))) return;
    const [before, after] = plain.map(quotedInPage);
    yield `<p class="line written"><span class="soft">${quotedInPage(found.attribute)}</span> ${before} → ${after}</p>`;
  }

  /** Are the values of the attribute that changed in an instance lengths, of files that have a unit for these? */
  isLength({ entity, attribute }) {
    return this.files.units.some(Boolean) && this.files.lengths.at(entity ?? "", attribute ?? "");
  }

  /** The instances that those in the list refer to, as far as they aren't in it. */
  *around() {
    const listed = new Set(this.items.flatMap(({ first }) => first.names.map((name, side) => `${side} ${name}`)));
    const rows = [0, 1].flatMap((side) =>
      [...this.linesByName[side].keys()]
        .sort(byNumber)
        .filter((name) => !listed.has(`${side} ${name}`))
        .map((name) => [side, name]),
    );
    if (rows.length === 0) return;
    yield `<details id="around"><summary>${rows.length} ${rows.length === 1 ? "instance" : "instances"} around them</summary>`;
    for (const [side, name] of rows) {
      const text = this.marked(this.linesByName[side].get(name), side, new Set());
      yield `<p class="line" id="${"ab"[side]}${name}"><span class="side">${"AB"[side]}</span>${text}</p>`;
    }
    yield "</details>";
  }

  // Where the points are

  /** Three views of the points that differ, before some of all points of the second file. */
  *plot() {
    const found = [];
    for (const each of this.points) {
      const [before, after] = each.names.map((name, side) => (name === null ? null : this.point(this.linesByName[side].get(String(name)))));
      if (before || after) found.push({ each, before, after });
    }
    if (found.length === 0) return;
    const points = [...found.flatMap(({ before, after }) => [before, after].filter(Boolean)), ...this.behind];
    yield `<h2>Where ${found.length} points are</h2>\n<p class="soft">A ring is where a point was, a dot where it is now; `;
    yield "small dots are other points of B. Coordinates are those of the points, without placements; points of two coordinates ";
    yield 'are left out.</p>\n<div class="views">';
    for (const [title, across, up] of VIEWS) yield* seenAlong(title, [across, up], found, points, this.behind);
    yield "</div>";
  }
}

/** A line of a file. */
function ofLine(side, text) {
  return `<p class="line"><span class="side">${side}</span>${text}</p>`;
}

/** The texts of a difference outside of instances. */
function* ofTexts({ before, after }) {
  for (const [at, text] of [before, after].entries()) {
    if (text === null) continue;
    yield ofLine("AB"[at], quotedInPage(text.slice(0, MOST_CHARACTERS)) + (text.length > MOST_CHARACTERS ? " .." : ""));
  }
}

/** The points, seen along one axis. */
function* seenAlong(title, axes, found, points, behind) {
  const least = (axis) => points.reduce((low, point) => Math.min(low, point[axis]), Number.POSITIVE_INFINITY);
  const most = (axis) => points.reduce((high, point) => Math.max(high, point[axis]), Number.NEGATIVE_INFINITY);
  const [lows, highs] = [axes.map(least), axes.map(most)];
  const size = Math.max(highs[0] - lows[0], highs[1] - lows[1]) || 1;
  const middles = lows.map((low, at) => (low + highs[at]) / 2);
  const place = (point) => [
    withOneDigit(180 + (300 * (point[axes[0]] - middles[0])) / size),
    withOneDigit(180 - (300 * (point[axes[1]] - middles[1])) / size),
  ];
  const [across, up] = axes.map((axis) => AXES[axis]);
  yield `<figure><svg viewBox="0 0 360 360" role="img" aria-label="${title}">`;
  yield `<text x="8" y="16">${title}: ${across} to the right, ${up} up</text>`;
  yield `<text x="8" y="350">${across} ${general(lows[0])} to ${general(highs[0])}, ${up} ${general(lows[1])} to ${general(highs[1])}</text>`;
  for (const text of new Set(behind.map((point) => place(point).join(" ")))) {
    const [x, y] = text.split(" ");
    yield `<circle class="behind" cx="${x}" cy="${y}" r="1.5"/>`;
  }
  for (const { each, before, after } of found) {
    if (before && after) {
      const [[x, y], [a, b]] = [place(before), place(after)];
      yield `<line class="changed" x1="${x}" y1="${y}" x2="${a}" y2="${b}"/><circle class="before" cx="${x}" cy="${y}" r="5"/>`;
    }
    const hasWent = each.kind === KINDS[2];
    for (const [point, kind, name] of [
      [after, hasWent ? "" : each.kind, each.names[1]],
      [before, hasWent ? each.kind : "", each.names[0]],
    ]) {
      if (!point || !kind) continue;
      const [x, y] = place(point);
      yield `<circle class="${kind}" cx="${x}" cy="${y}" r="3"><title>#${name}</title></circle>`;
    }
  }
  yield "</svg></figure>";
}
