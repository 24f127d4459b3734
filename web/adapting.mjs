// Makes a published listing fit, as tools/p21-adapt does: a copy in which the declarations that p21 leaves out are written in another
// way, with a line for each edit. Each line says whether the copy accepts the same files or more.

import { Text, Trouble } from "./program.mjs";
import { bytesOf, lineNumber, shown } from "./reading.mjs";
import { Outline, RefusedSchema, numberOf } from "./schemas.mjs";

const SAME_FILES = "the same files";
const MORE_FILES = "more files";
const ORDER_MARK = "\xef\xbb\xbf";
const LONGEST_SHOWN = 70;
// A bound or a width that isn't closed within so many words is left as it is.
const MOST_WORDS = 64;
const BLANKS = /[\t-\r\x1c-\x20\x85\xa0]+/;
// What is left to do by hand where a copy is refused with one of these words.
const TAKEN = "give the listing that declares it with --from";
const WHOLE_LIST = "write the SELECT or ENUMERATION with its whole list";
const TYPE_OF_FILES = "write the type that your files have there";
const BY_HAND = {
  USE: TAKEN,
  REFERENCE: TAKEN,
  EXTENSIBLE: WHOLE_LIST,
  BASED_ON: WHOLE_LIST,
  AGGREGATE: TYPE_OF_FILES,
  GENERIC: TYPE_OF_FILES,
  GENERIC_ENTITY: TYPE_OF_FILES,
  ARRAY: "write its bounds as numbers",
};

/** Words on one line, of which only the beginning is shown where there are many. */
function oneLine(text) {
  const line = text.split(BLANKS).filter(Boolean).join(" ");
  return line.length <= LONGEST_SHOWN ? line : `${line.slice(0, LONGEST_SHOWN - 3)} ..`;
}

/** The words in front of the first `;`, and that. */
function upToSemicolon(words) {
  const end = words.findIndex(({ text }) => text === ";");
  return end < 0 ? words : words.slice(0, end + 1);
}

/** The place of the first such sign behind a place, or null where it isn't near. */
function placeOfSign(sign, words, at) {
  const end = Math.min(at + MOST_WORDS, words.length);
  for (let to = at; to < end; to++) if (words[to].text === sign) return to;
  return null;
}

/** A listing with what is to be changed in it. */
class Listing {
  constructor(bytes) {
    this.outline = new Outline(bytes);
    this.text = this.outline.text;
    this.constants = new Map(this.constantsOf());
    // The SELECT for which each name of a type stands, of those that were asked for, or null.
    this.bodies = new Map();
  }

  /** The name of its schema. */
  get name() {
    return this.outline.words[1]?.text ?? "";
  }

  // What stands in it

  /** The constants that are a number, by their names. */
  *constantsOf() {
    for (const { kind, words } of this.outline.declarations) {
      if (kind !== "CONSTANT") continue;
      for (const [, name, value] of this.plain(words).toUpperCase().matchAll(/(\w+)\s*:\s*INTEGER\s*:=\s*(\d+)\s*;/g)) yield [name, value];
    }
  }

  /** The words of each type that is read: of attributes in front of DERIVE and so on, and behind `=` of a TYPE. */
  *typed() {
    for (const found of this.outline.declarations) {
      if (found.kind === "TYPE") yield upToSemicolon(found.words);
      else if (found.kind === "ENTITY") for (const { group, words } of this.outline.statements(found)) if (group === "") yield words;
    }
  }

  /** What stands from the first of some words to the last one. */
  plain(words) {
    return this.text.slice(words[0].start, words.at(-1).end);
  }

  // The edits

  /** All edits, in the order of the text. */
  edits(others) {
    const found = [...this.mark(), ...this.taken(others), ...this.orders(), ...this.oneOfs()];
    const renamed = this.entitiesRenamed();
    for (const words of this.typed()) {
      found.push(...this.bounds(words), ...this.widths(words), ...this.attributesRenamed(words), ...this.namedEntities(words, renamed));
    }
    found.push(...this.selects(), ...this.without(renamed));
    const compare = (one, other) => (one < other ? -1 : Number(one > other));
    const keys = ["start", "end", "text", "effect", "line"];
    return found.sort((one, other) => keys.map((key) => compare(one[key], other[key])).find((order) => order !== 0) ?? 0);
  }

  /** A byte order mark goes. */
  *mark() {
    if (!this.text.startsWith(ORDER_MARK)) return;
    yield { start: 0, end: ORDER_MARK.length, text: "", effect: SAME_FILES, line: "byte order mark -> nothing" };
  }

  /** A bound that isn't digits becomes the number that it is, or where that isn't known the widest one. */
  *bounds(words) {
    for (const [at, word] of words.entries()) {
      if (!["LIST", "SET", "BAG", "ARRAY"].includes(word.text) || words[at + 1]?.text !== "[") continue;
      const end = placeOfSign("]", words, at);
      const colon = end ? placeOfSign(":", words.slice(0, end), at) : null;
      if (end === null || colon === null) continue;
      const parts = [words.slice(at + 2, colon), words.slice(colon + 1, end)];
      const arePlain = parts.every((part) => part.length === 1 && /^(?:\d+|\?)$/.test(part[0].text));
      const values = parts.map((part) => this.value(part));
      if (arePlain || (word.text === "ARRAY" && values.includes(null))) continue;
      const text = `${word.text} [${values[0] ?? "0"}:${values[1] ?? "?"}]`;
      yield this.edit(words.slice(at, end + 1), text, values.includes(null) ? MORE_FILES : SAME_FILES);
    }
  }

  /** The number that an expression of digits, constants, + and * is, or null. */
  value(words) {
    const texts = words.map(({ text }) => this.constants.get(text) ?? text).join(" ");
    if (texts === "?") return "?";
    if (!/^\d{1,9}(?: [+*] \d{1,9}){0,8}$/.test(texts)) return null;
    const product = (term) => term.split(" * ").reduce((all, number) => all * BigInt(number), 1n);
    return String(texts.split(" + ").reduce((sum, term) => sum + product(term), 0n));
  }

  /** A width that isn't digits becomes the number that it is, or goes. */
  *widths(words) {
    for (const [at, word] of words.entries()) {
      if (!["STRING", "BINARY"].includes(word.text) || words[at + 1]?.text !== "(") continue;
      const end = placeOfSign(")", words, at);
      if (end === null) continue;
      const inner = words.slice(at + 2, end);
      if (inner.length === 1 && /^\d+$/.test(inner[0].text)) continue;
      const value = this.value(inner);
      const isFixed = !value && words[end + 1]?.text === "FIXED";
      const text = value ? `${word.text} (${value})` : word.text;
      yield this.edit(words.slice(at, end + 1 + Number(isFixed)), text, value ? SAME_FILES : MORE_FILES);
    }
  }

  /** `SELF\e.a RENAMED b : t` becomes `SELF\e.a : t`. */
  *attributesRenamed(words) {
    for (const [at, word] of words.entries()) {
      if (word.text !== "RENAMED" || at < 5) continue;
      yield this.edit(words.slice(at - 5, at + 2), this.plain(words.slice(at - 5, at)), SAME_FILES);
    }
  }

  /** A TYPE that is another name of a SELECT has its list. */
  *selects() {
    for (const found of this.outline.types.values()) {
      const words = upToSemicolon(found.words);
      if (words.length !== 5 || !this.outline.types.has(words[3].text)) continue;
      const body = this.selectBehind(words[3].text);
      if (body) yield this.edit(words, `${this.plain(words.slice(0, 3))} ${body};`, SAME_FILES);
    }
  }

  /** The SELECT for which a name stands, or null. */
  selectBehind(first) {
    const names = [];
    let name = first;
    let body = null;
    while (this.outline.types.has(name) && !this.bodies.has(name)) {
      this.bodies.set(name, null);
      names.push(name);
      const words = upToSemicolon(this.outline.types.get(name).words);
      if (words[3]?.text === "SELECT" && words[4]?.text === "(") {
        body = this.plain(words.slice(3, -1));
        break;
      }
      name = words.length === 5 ? words[3].text : null;
    }
    body ??= this.bodies.get(name) ?? null;
    for (const each of names) this.bodies.set(each, body);
    return body;
  }

  /** The types that are another name of an entity, each with the name of it. */
  entitiesRenamed() {
    const found = new Map();
    for (const [name, declaration] of this.outline.types) {
      const words = upToSemicolon(declaration.words);
      if (words.length === 5 && this.outline.entities.has(words[3].text)) found.set(name, { declaration, entity: this.plain([words[3]]) });
    }
    return found;
  }

  /** The entity stands where another name of it stood. */
  *namedEntities(words, renamed) {
    const begin = words.findIndex(({ text }) => text === ":" || text === "=");
    if (begin < 0 || (words[0].text === "TYPE" && renamed.has(words[1].text))) return;
    for (const word of words.slice(begin + 1)) if (renamed.has(word.text)) yield this.edit([word], renamed.get(word.text).entity, SAME_FILES);
  }

  /** The types that are another name of an entity go. */
  *without(renamed) {
    for (const { declaration, entity } of renamed.values()) {
      const { words, name } = declaration;
      yield { start: words[0].start, end: words.at(-1).end, text: "", effect: SAME_FILES, line: `TYPE ${name} = ${entity} -> nothing` };
    }
  }

  /** SUPERTYPE stands in front of SUBTYPE. */
  *orders() {
    for (const found of this.outline.entities.values()) {
      const words = upToSemicolon(found.words);
      const at = words.findIndex(({ text }, place) => place >= 3 && text === "SUPERTYPE");
      if (words[2]?.text !== "SUBTYPE" || at < 0 || words.at(-1).text !== ";") continue;
      const second = at - Number(words[at - 1].text === "ABSTRACT");
      const [one, other] = [this.plain(words.slice(2, second)), this.plain(words.slice(second, -1))];
      yield this.edit(words.slice(2, -1), `${other} ${one}`, SAME_FILES);
    }
  }

  /** A ONEOF names each entity once. */
  *oneOfs() {
    for (const found of this.outline.entities.values()) {
      const words = upToSemicolon(found.words);
      for (const [at, word] of words.entries()) {
        const names = word.text === "ONEOF" ? this.inside(words, at).filter(({ text }) => text !== ",") : [];
        const counts = new Map();
        for (const { text } of names) counts.set(text, (counts.get(text) ?? 0) + 1);
        if (counts.has("(") || Math.max(1, ...counts.values()) <= 1) continue;
        const kept = new Map([...names].reverse().map((name) => [name.text, this.plain([name])]));
        const all = [...counts.keys()].map((name) => kept.get(name));
        const again = [...counts].filter(([, often]) => often > 1).map(([name]) => kept.get(name));
        const line = `ONEOF of ${found.name} names ${again.join(", ")} twice -> once`;
        yield { ...this.edit(names, all.join(", "), SAME_FILES), line };
      }
    }
  }

  /** The words in the parentheses behind a word, up to the first `)`, or to a `(`, which is the last one then. */
  inside(words, at) {
    const found = [];
    for (const word of words.slice(at + 2)) {
      if (word.text === ")") break;
      found.push(word);
      if (word.text === "(") break;
    }
    return found;
  }

  /** What is taken from another listing that is given stands in place of the line that takes it. */
  *taken(others) {
    const ends = new Map(this.outline.declarations.map(({ words }) => [words[0].start, words.at(-1).end]));
    const known = new Set(this.outline.declarations.map(({ name }) => name));
    const { words } = this.outline;
    let behind = 0;
    for (let at = 0; at < words.length; at++) {
      const word = words[at];
      behind = Math.max(behind, ends.get(word.start) ?? 0);
      if (word.start < behind || (word.text !== "USE" && word.text !== "REFERENCE")) continue;
      const line = upToSemicolon(words.slice(at));
      at += line.length - 1;
      const text = line.length > 3 ? textTaken(others.get(line[2].text), line, known) : null;
      if (text !== null) yield this.edit(line, text, SAME_FILES);
    }
  }

  /** What is written in place of these words. */
  edit(words, text, effect) {
    const line = `${oneLine(this.plain(words))} -> ${oneLine(text)}`;
    return { start: words[0].start, end: words.at(-1).end, text, effect, line };
  }
}

/** The declarations of another listing that a line takes, with all that these name; null where they can't be had. */
function textTaken(other, line, known) {
  const texts = line.map(({ text }) => text);
  if (!other || texts.includes("AS")) return null;
  const kinds = other.outline.declarations.filter(({ kind }) => kind === "ENTITY" || kind === "TYPE");
  const declared = new Map(kinds.map((found) => [found.name, found]));
  const waiting = texts.length > 4 ? texts.slice(4, -2).filter((name) => name !== ",") : [...declared.keys()];
  if (waiting.some((name) => !declared.has(name))) return null;
  const found = [];
  for (let at = 0; at < waiting.length; at++) {
    const declaration = declared.get(waiting[at]);
    if (!declaration || known.has(waiting[at])) continue;
    known.add(waiting[at]);
    found.push(other.plain(declaration.words));
    waiting.push(...declaration.words.map(({ text }) => text));
  }
  return found.join("\n");
}

/** A text with its edits. One that stands within another is left out. */
function withEdits(text, edits) {
  const found = [];
  let at = 0;
  for (const edit of edits) {
    if (edit.start < at) continue;
    found.push(text.slice(at, edit.start), edit.text);
    at = edit.end;
  }
  return [...found, text.slice(at)].join("");
}

/** Where a copy is refused, and what there is to do, as lines. */
function refusedCopy(program, copy, line) {
  const place = new RefusedSchema(program, bytesOf(copy), numberOf(line)).place();
  const lines = [`not read: ${line}`];
  if (place) {
    const word = copy.slice(place.start, place.end).toUpperCase();
    const end = copy.indexOf("\n", place.start);
    lines.push(`  line ${lineNumber(bytesOf(copy), place.start)} of the copy: ${oneLine(copy.slice(place.start, end < 0 ? -1 : end))}`);
    lines.push(...[...place.notes, BY_HAND[word]].filter(Boolean).map((note) => `  ${note}`));
  }
  return [...lines, "  docs/SCHEMAS.md says what to write there"];
}

/**
 * A listing that is made fit, by other listings from which it may take declarations: the copy, whether the program reads it, how many
 * edits there are, whether it accepts more files, and the lines of p21-adapt.
 */
export function adapted(program, bytes, otherListings) {
  const listing = new Listing(bytes);
  const others = new Map(otherListings.map((other) => new Listing(other)).map((other) => [other.name, other]));
  const edits = listing.edits(others);
  const lines = edits.map(({ start, effect, line }) => `line ${lineNumber(bytes, start)}: ${effect}: ${line}`);
  const copy = withEdits(listing.text, edits);
  const isWider = edits.some(({ effect }) => effect === MORE_FILES);
  lines.push(`${edits.length} edit${edits.length === 1 ? "" : "s"}: ${isWider ? MORE_FILES : SAME_FILES}`);
  // A file without a byte is refused by a schema that is read.
  const files = { schema: new Text(bytesOf(copy)), file: new Text(new Uint8Array(0)) };
  const { error, status } = program.run(["check", "--", "schema", "file"], files);
  if (status !== 1) throw new Trouble(error);
  const isRead = error.startsWith("refused");
  lines.push(...(isRead ? ["read"] : refusedCopy(program, copy, error)));
  return { copy: bytesOf(copy), isRead, count: edits.length, isWider, lines: lines.map(shown) };
}
