// What differs in the meaning of two STEP files, as the program lists it and tools/p21-diff shows it: by the names of instances, or by
// pairs of instances whatever their names are.

import { frontOf, lineNamed, sectionsOf } from "./lines.mjs";
import { Graph, Owners } from "./owners.mjs";
import { isSpelled, plainly } from "./plainly.mjs";
import { Trouble, joined } from "./program.mjs";
import { shortened, textOf } from "./reading.mjs";
import { hasUnit, unitOf, withUnit } from "./units.mjs";

export const KINDS = ["changed", "came", "went"];
const [CHANGED, CAME, WENT] = KINDS;
// Of two canonical files of so many bytes together, which are told apart by names, the program is asked whether they are the same but for
// names; and of two of so many it is said which product owns what differs.
export const SMALL_ENOUGH = 1 << 21;
const MOST_AS_GRAPH = 1 << 25;
// What the program says of two files; or it has no answer, as for want of memory.
const [SAME, DIFFERENT, UNDECIDED, NO_ANSWER] = ["same", "different", "undecided", "no answer"];
const HEADLINES = { [SAME]: "the same", [DIFFERENT]: "what differs", [UNDECIDED]: "not decided", [NO_ANSWER]: "no answer" };
// What is said of files that differ by pairs which could be others, so that there is no list; and of a list without an end.
const NOT_DECIDED = "not decided: too many instances are alike to be paired";
const NOT_WHOLE = "the list of what differs isn’t whole";
// So many differences are kept, so that they need not be listed anew.
const MOST_ROWS = 100_000;
// A value of more characters isn't written as people would.
const MOST_READ = 4_000;
// What stands for an element that a file hasn't.
const NO_ELEMENT = "-";
// So many bytes of the program's list become a text at once.
const HEARD_AT_ONCE = 1 << 20;

/** Are these bytes the same? */
export function equalBytes(first, second) {
  if (first.length !== second.length) return false;
  for (let at = 0; at < first.length; at++) if (first[at] !== second[at]) return false;
  return true;
}

// --- What the program lists ---

/** The rows that the program writes piece by piece: pairs, which are counted, differences, which go to `take`, and what both files are. */
class ListedRows {
  constructor(take, keepsPartners) {
    this.take = take;
    this.rest = "";
    this.said = {};
    this.end = null;
    this.pairs = 0;
    this.renumbered = 0;
    this.partners = keepsPartners ? new Map() : null;
  }

  /** The next bytes. */
  hear(bytes) {
    for (let at = 0; at < bytes.length; at += HEARD_AT_ONCE) this.hearText(textOf(bytes.subarray(at, at + HEARD_AT_ONCE)));
  }

  hearText(text) {
    const lines = (this.rest + text).split("\n");
    this.rest = lines.pop();
    // A name may have more digits than a number here, and no text in a row has such quotes.
    for (const line of lines) this.row(JSON.parse(line.replace(/"([ab])":(\d+)/g, '"$1":"$2"')));
  }

  row(row) {
    if (row.kind === "verdict") this.end = row;
    else if (row.kind === "left out") this.said = row;
    else if (row.kind === "pair") this.pair(row);
    else this.take(differenceOf(row));
  }

  /** The names of an instance in both files. */
  pair({ a, b }) {
    this.pairs++;
    this.renumbered += Number(a !== b);
    this.partners?.set(a, b);
  }
}

/**
 * A row of the program as a difference: what happened (changed, came or went), to what (a header, a section, an instance or its
 * section), the names of the instance in the first and in the second file, the entity that declares an attribute and the attribute, or
 * the entity alone, of a value the keywords of its instance and the indices of the element that differs, and the texts of both files.
 */
function differenceOf({ kind, what, a = null, b = null, ...row }) {
  const { entity = null, attribute = null, keywords = null, indices = null, before = null, after = null } = row;
  return { kind, what, names: [a, b], entity, attribute, keywords, indices, before, after };
}

/** The keywords of an instance: those of the first file, where it has others in the second. */
export function keywordsOfInstance({ what, entity, keywords, before }) {
  return keywords ?? entity ?? (what === "instance" ? before : null);
}

// --- What is left out ---

/**
 * What the program leaves out where it is asked to: the header, and values within a tolerance. `said` is the object in front of the
 * differences, which says so, and `end` the one behind them, which says how many were left out; of files that are the same none was.
 */
class LeftOut {
  constructor(said, end) {
    Object.assign(this, { said, end });
  }

  /** How many differences were left out of those with this name in the last object. */
  number(name) {
    return this.end[name] ?? 0;
  }

  /** Does the program say that all is left out that is to be, and of files that differ how much that was? */
  isTold({ data, tolerance }) {
    const wanted = [
      [data, "header", "in_header"],
      [tolerance !== null, "tolerance", "near"],
    ];
    const isCounted = (name) => this.end.verdict === SAME || name in this.end;
    return wanted.every(([isAsked, what, name]) => isAsked === what in this.said && (!isAsked || isCounted(name)));
  }

  /** What is left out, in words; nothing where all is listed. */
  get words() {
    const header = this.said.header ? ["the header"] : [];
    const near = "tolerance" in this.said ? [`reals within the tolerance ${this.said.tolerance}`] : [];
    const parts = [...header, ...near];
    return parts.length > 0 ? `left out: ${parts.join(", ")}` : "";
  }

  /** How many differences were left out, in words. */
  get countsInWords() {
    const [inHeader, near] = ["in_header", "near"].map((name) => this.number(name));
    const header = inHeader > 0 ? [`${many(inHeader, "difference")} in the header not listed`] : [];
    const values = "tolerance" in this.said ? [`${many(near, "value")} within the tolerance ${this.said.tolerance} not listed`] : [];
    return [...header, ...values];
  }
}

// --- Both files ---

/** How many instances changed, came and went, by entity; what isn't an instance is told by what it is. */
class Counts {
  constructor() {
    this.rows = new Map();
    this.listed = this.inHeader = this.inTimeStamp = 0;
    this.last = null;
  }

  /** The next difference. Those of one instance stand one behind the other, and count once. */
  add(difference) {
    const { kind, what, names, attribute } = difference;
    this.listed++;
    this.inHeader += Number(what === "header");
    this.inTimeStamp += Number(what === "header" && attribute === "TIME_STAMP");
    const isInstance = what === "instance" || what === "section of";
    const now = `${kind} ${names.join()}`;
    if (isInstance && now === this.last) return;
    this.last = isInstance ? now : null;
    const name = tableName(difference);
    if (!this.rows.has(name)) this.rows.set(name, { [CHANGED]: 0, [CAME]: 0, [WENT]: 0 });
    this.rows.get(name)[kind]++;
  }

  /** How many there are of a kind. */
  total(kind) {
    return [...this.rows.values()].reduce((sum, row) => sum + row[kind], 0);
  }

  /** A row for each entity, with what changed, came and went; those with most first. */
  table() {
    const rows = [...this.rows].map(([name, row]) => [name, ...KINDS.map((kind) => row[kind])]);
    const sum = ([, ...numbers]) => numbers.reduce((all, number) => all + number);
    return rows.sort((one, other) => sum(other) - sum(one) || (one[0] < other[0] ? -1 : 1));
  }
}

/** By what a difference stands in the table. */
export function tableName(difference) {
  const { what } = difference;
  return (what === "instance" && keywordsOfInstance(difference)) || `(${what.split(" ")[0]})`;
}

/** The words with which the program lists what differs, so asked. */
export function wordsOfDiff({ names, data, tolerance }) {
  const leftOut = [...(data ? ["--data"] : []), ...(tolerance === null ? [] : [`--tolerance=${tolerance}`])];
  return ["diff", "--format", "jsonl", ...(names ? ["--pairs"] : []), ...leftOut, "--", "schema", "first", "second"];
}

/**
 * Two canonical files that are compared, by a schema of these lengths. `diff` has the program list what differs, by the names of instances
 * or by pairs, without what is to be left out, which goes to ListedRows, and `areSame` has it say whether two texts are the same but for
 * names.
 */
export class Files {
  constructor({ lengths, diff, areSame }, first, second) {
    Object.assign(this, { lengths, diff, areSame });
    this.canonical = [first, second];
    this.units = this.canonical.map(unitOf);
    this.sections = null;
    this.graph = null;
    this.equalData = null;
    // What the program listed last by names, and by pairs, where it isn't much; and the names of all pairs.
    this.listings = { names: null, pairs: null };
    this.partners = null;
  }

  /** How many bytes both have. */
  get size() {
    return this.canonical[0].length + this.canonical[1].length;
  }

  /** Are the files so small that it is said what owns a difference? */
  get isOwned() {
    return this.size <= MOST_AS_GRAPH;
  }

  /** Takes each difference that the program lists, and answers what it says of both files. */
  listed(asked, take) {
    const way = asked.names ? "pairs" : "names";
    const words = wordsOfDiff(asked).join(" ");
    const kept = this.listings[way];
    if (kept?.words === words) {
      for (const found of kept.rows) take(found);
      return kept.said;
    }
    const rows = [];
    const said = this.askedFor(asked, (found) => {
      if (rows.length <= MOST_ROWS) rows.push(found);
      take(found);
    });
    this.listings[way] = rows.length <= MOST_ROWS ? { words, rows, said } : null;
    return said;
  }

  /** Asks the program. */
  askedFor(asked, take) {
    const found = { all: 0, inHeader: 0 };
    const rows = new ListedRows((difference) => {
      found.all++;
      found.inHeader += Number(difference.what === "header");
      take(difference);
    }, this.isOwned);
    this.diff(asked, rows);
    if (rows.rest !== "" || rows.end === null) throw new Trouble(NOT_WHOLE);
    const { said, end, pairs, renumbered, partners } = rows;
    const word = end.verdict;
    const leftOut = new LeftOut(said, end);
    if (word !== UNDECIDED && !leftOut.isTold(asked)) throw new Trouble(NOT_WHOLE);
    if (asked.names) this.partners = partners;
    const all = found.all + leftOut.number("in_header") + leftOut.number("near");
    return { word, pairs, renumbered, leftOut, all, inHeader: found.inHeader + leftOut.number("in_header") };
  }

  /** What p21-diff lists with these words of its command line, of which so many are shown. By pairs there may be no answer. */
  list(asked, most) {
    const shown = [];
    const lines = [];
    const taken = (difference) => {
      if (shown.length < most) shown.push(difference);
      lines.push(lineOfDifference(difference));
    };
    try {
      const { counts, known } = this.each(asked, taken);
      return { counts, shown, lines, ...known };
    } catch (error) {
      if (!(asked.names && error instanceof Trouble)) throw error;
      return { counts: new Counts(), shown: [], lines: [], ...withoutAnswer(error.message) };
    }
  }

  /**
   * Takes each difference that isn't left out, with these words of the command line of p21-diff, and answers how many they are and
   * what is known then.
   */
  each({ names = false, data = false, tolerance = null }, take) {
    const counts = new Counts();
    const said = this.listed({ names, data, tolerance }, (difference) => {
      counts.add(difference);
      take(difference);
    });
    const { word, pairs, renumbered, leftOut } = said;
    const butFor = this.butFor(names, said);
    const verdict = verdictLine(names, counts, { word, butFor, pairs }, leftOut);
    const isListed = word !== UNDECIDED;
    const isRenamed = 2 * renumbered > pairs;
    const near = leftOut.number("near");
    const told = { leftOut: leftOut.words, headline: headline({ word, butFor }), verdict };
    const known = { word, butFor, isRenamed, isListed, near, tolerance, ...told };
    return { counts, known };
  }

  /** In what alone two files differ, where that is their numbering or their header. */
  butFor(names, { word, all, inHeader, renumbered }) {
    if (word !== DIFFERENT) return [];
    const isRenumbered = all === inHeader ? renumbered > 0 : !names && this.size <= SMALL_ENOUGH && this.haveEqualData();
    const numbering = isRenumbered ? ["numbering"] : [];
    return inHeader > 0 && (all === inHeader || isRenumbered) ? [...numbering, "the header"] : numbering;
  }

  /** Does the program say that both files, under the header of the second one, are the same but for names? It is asked once. */
  haveEqualData() {
    const [first, second] = this.canonical;
    this.equalData ??= this.areSame(joined([frontOf(second), first.subarray(frontOf(first).length)]), second);
    return this.equalData;
  }

  /** The texts of a value that changed as people write them, shortened; null where they aren't other than they stand. */
  plain({ names, entity, attribute, indices, before, after }) {
    const texts = [before, after];
    if (attribute === null || texts.some((text) => text === null || text.length > MOST_READ)) return null;
    const isLength = names[0] !== null && this.units.some(Boolean) && this.lengths.at(entity, attribute);
    const isMeasured = isLength && (!indices || hasUnit(this.valueOf(names[0], entity, attribute)));
    const read = texts.map((text, side) => withUnit(text, plainly(text), isMeasured ? this.units[side] : null));
    return texts.some(isSpelled) || read.some((text, side) => text !== plainly(texts[side])) ? shortenedPair(read) : null;
  }

  /** The line of an instance of the first or the second file; empty where there is none of its name. */
  lineOf(side, name) {
    this.sections ??= this.canonical.map(sectionsOf);
    return lineNamed(this.canonical[side], this.sections[side], name);
  }

  /** The value of an instance of the first file at an attribute. */
  valueOf(name, entity, attribute) {
    const line = this.lineOf(0, name);
    const found = this.lengths.outline.valuesIn(line).find((value) => value.entity === entity && value.attribute === attribute);
    return found ? line.slice(found.start, found.end) : "";
  }

  /** What tells the owner of an instance, by names or by pairs; null where there is no product in the files, or these are large. */
  owners(names) {
    if (!this.isOwned) return null;
    this.graph ??= new Graph(this.canonical);
    if (names && this.partners === null) this.askedFor({ names, data: false, tolerance: null }, () => {});
    const owners = new Owners(this.graph, this.lengths.outline, (name) => (names ? this.partners.get(name) : name));
    return owners.hasProducts ? owners : null;
  }
}

/** What is known where the program has no answer, with why. */
function withoutAnswer(why) {
  return {
    ...{ word: NO_ANSWER, why, butFor: [], isRenamed: false, isListed: false, near: 0, tolerance: null, leftOut: "" },
    ...{ headline: headline({ word: NO_ANSWER, butFor: [] }), verdict: `no answer: ${why}` },
  };
}

/** So many of something, in words. */
function many(count, word) {
  return `${count} ${word}${count === 1 ? "" : "s"}`;
}

/** In what alone two files differ, where that's the numbering or the header; else nothing. */
function butForOf({ butFor }) {
  return butFor.length > 0 ? `the same but for ${butFor.join(" and ")}` : "";
}

/** What stands above a report. */
function headline(found) {
  const said = butForOf(found) || HEADLINES[found.word];
  return said[0].toUpperCase() + said.slice(1);
}

/** The last line of p21-diff. */
function verdictLine(names, counts, found, leftOut) {
  const { word, pairs } = found;
  if (word === UNDECIDED) return NOT_DECIDED;
  const numbers = KINDS.map((kind) => `${counts.total(kind)} ${kind}`).join(", ");
  const same = names ? `same up to names: ${many(pairs, "pair")}` : "same";
  const said = word === SAME ? same : `${butForOf(found) || "different"}: ${numbers}`;
  return [said, ...leftOut.countsInWords].join("; ");
}

/** The names of an instance. */
function namesOf([first, second]) {
  return first === null || second === null || first === second ? `#${first ?? second}` : `#${first}/#${second}`;
}

/** What a difference is about. */
export function whatOf({ kind, what, names, entity, attribute, keywords, indices }) {
  if (kind !== CHANGED) return `only in ${kind === CAME ? "B" : "A"}${what === "header" ? ", header" : ""}`;
  if (what === "header" && attribute === null) return "changed, header";
  const name = what === "header" ? "header" : namesOf(names);
  if (attribute === null) return `changed ${name}, its ${what === "section of" ? "section" : "entities"}`;
  const whose = keywords === null || keywords.split("+").includes(entity) ? "" : ` of ${keywords}`;
  return `changed ${name} ${entity}.${attribute}${indices ? `[${indices.join(",")}]` : ""}${whose}`;
}

/** The texts of a difference; of an element that one of the files hasn't a dash. */
function textsOf({ attribute, before, after }) {
  return attribute === null ? [before, after].filter((text) => text !== null) : [before ?? NO_ELEMENT, after ?? NO_ELEMENT];
}

/** The texts of a difference, of long ones what stands around the first character in which they differ. */
export function textsAround(difference) {
  const texts = textsOf(difference);
  return texts.length === 2 ? shortenedPair(texts) : texts.map((text) => shortened(text, 0));
}

/** How many characters two texts have in common in front. */
function commonFront(first, second) {
  let count = 0;
  while (count < first.length && count < second.length && first[count] === second[count]) count++;
  return count;
}

/** Two texts around the first place at which they differ. */
function shortenedPair(texts) {
  const at = commonFront(...texts);
  return texts.map((text) => shortened(text, at));
}

/** The line of a difference, as p21-diff prints it. */
function lineOfDifference(difference) {
  return `${whatOf(difference)}: ${textsAround(difference).join(" -> ")}`;
}
