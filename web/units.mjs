// Which values of a file are lengths, by its schema, and in which unit the file has them. As in tools/p21_units.py.

import { unescaped } from "./plainly.mjs";
import { LINE_FEED, textOf } from "./reading.mjs";
import { AGGREGATES } from "./schemas.mjs";

const MEASURES = ["LENGTH_MEASURE", "IFCLENGTHMEASURE"];
const UNIT = [..."UNIT"].map((letter) => letter.charCodeAt(0));
const [LETTER_U] = UNIT;
const STRING = /'[^']*'/g;
const ASSIGNED = /\b(?:GLOBAL_UNIT_ASSIGNED_CONTEXT|IFCUNITASSIGNMENT)\(\(([#\d,]*)\)\)/g;
const OF_LENGTH = /\bLENGTH_UNIT\(|,\.LENGTHUNIT\.,/;
const METRE = /\b(?:SI_UNIT\(|IFCSIUNIT\(\*,\.LENGTHUNIT\.,)(?:\$|\.(\w+)\.),\.METRE\.\)/;
const CONVERTED = /\b(?:CONVERSION_BASED_UNIT\(|IFCCONVERSIONBASEDUNIT\(#\d+,\.LENGTHUNIT\.,)'((?:[^']|'')*)'/;
const PREFIXES = new Map([
  ["EXA", "E"],
  ["PETA", "P"],
  ["TERA", "T"],
  ["GIGA", "G"],
  ["MEGA", "M"],
  ["KILO", "k"],
  ["HECTO", "h"],
  ["DECA", "da"],
  ["DECI", "d"],
  ["CENTI", "c"],
  ["MILLI", "m"],
  ["MICRO", "µ"],
  ["NANO", "n"],
  ["PICO", "p"],
  ["FEMTO", "f"],
  ["ATTO", "a"],
]);
const THREE = /^\([^(),]+,[^(),]+,[^(),]+\)$/;

/** Answers for the places of a schema. */
export class Lengths {
  constructor(outline) {
    this.outline = outline;
    this.types = new Map();
  }

  /** Are the values of an attribute lengths, which this entity declares? */
  at(entity, attribute) {
    return this.outline.entities.has(entity) && this.leadsToLength(this.outline.typeOf([], { entity, attribute }).split(" "));
  }

  /** Does a type lead to a length whose words these are? */
  leadsToLength(words) {
    let at = 0;
    while ([...AGGREGATES, "OPTIONAL", "UNIQUE"].includes(words[at])) {
      at = AGGREGATES.includes(words[at]) ? words.indexOf("OF", at) + 1 : at + 1;
    }
    return at < words.length && this.isLength(words[at]);
  }

  /** Is a named type one of lengths? */
  isLength(name) {
    if (!this.types.has(name)) {
      this.types.set(name, MEASURES.includes(name));
      if (this.outline.types.has(name) && !this.types.get(name)) {
        this.types.set(name, this.leadsToLength(this.outline.definition(name)));
      }
    }
    return this.types.get(name);
  }
}

/** The units of length of a file, by the lines of its instances. */
export class Units {
  constructor() {
    this.lengths = new Map();
    this.assigned = [];
  }

  /** The line of an instance, in which the word UNIT stands. */
  hear(line) {
    const bare = line.replace(STRING, "''");
    for (const [, names] of bare.matchAll(ASSIGNED)) this.assigned.push(...names.split(","));
    if (!OF_LENGTH.test(bare)) return;
    const name = line.slice(0, line.indexOf("="));
    const metre = METRE.exec(bare);
    const converted = CONVERTED.exec(line);
    if (metre) this.lengths.set(name, `${PREFIXES.get(metre[1]) ?? ""}m`);
    else if (converted) this.lengths.set(name, unescaped(converted[1]).toLowerCase());
  }

  /** The unit of lengths, where there is one alone; else null. */
  length() {
    const found = new Set(this.assigned.filter((name) => this.lengths.has(name)).map((name) => this.lengths.get(name)));
    return found.size === 1 ? [...found][0] : null;
  }
}

/** The unit of lengths of a canonical file. */
export function unitOf(bytes) {
  const found = new Units();
  for (let at = bytes.indexOf(LETTER_U); at >= 0; at = bytes.indexOf(LETTER_U, at + 1)) {
    if (!UNIT.every((letter, number) => bytes[at + number] === letter)) continue;
    const end = bytes.indexOf(LINE_FEED, at);
    found.hear(textOf(bytes.subarray(bytes.lastIndexOf(LINE_FEED, at) + 1, end)));
    at = end;
  }
  return found.length();
}

/** Does a value that is a length have a unit: a number, or three of them? */
export function hasUnit(value) {
  return value.startsWith("(") ? THREE.test(value) : /^[-\d]/.test(value);
}

/** A length as people write it, with its unit where it has one. */
export function withUnit(value, plain, unit) {
  return unit && hasUnit(value) ? `${plain} ${unit}` : plain;
}
