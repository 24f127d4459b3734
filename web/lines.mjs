// Canonical files line by line: where their instances stand, and to which others each refers. As in tools/p21_lines.py.

import { LINE_FEED, readParts, textOf } from "./reading.mjs";

const SHARP = 0x23;
const END_OF_SECTION = "ENDSEC;\n";
export const EQUALS = 0x3d;
export const STRING_OR_REFERENCE = /'[^']*'|#(\d+)/g;

/** What stands in front of the data sections. */
export function frontOf(bytes) {
  let at = 0;
  while (textOf(bytes.subarray(at, at + END_OF_SECTION.length)) !== END_OF_SECTION) at = bytes.indexOf(LINE_FEED, at) + 1;
  return bytes.subarray(0, at + END_OF_SECTION.length);
}

/** Where each instance begins and ends, from a place on, up to the line that ends the section. */
export function* linesFrom(bytes, start) {
  for (let at = start; bytes[at] === SHARP; ) {
    const end = bytes.indexOf(LINE_FEED, at);
    yield { start: at, end };
    at = end + 1;
  }
}

/**
 * The line that begins each data section, with the place behind it. A section begins behind the line that ends the one before;
 * no string of a canonical file has a line end.
 */
export function sectionsOf(bytes) {
  const found = [];
  let at = 0;
  for (let end = bytes.indexOf(LINE_FEED); end >= 0; end = bytes.indexOf(LINE_FEED, at)) {
    if (bytes[at] === 0x44) found.push({ heading: textOf(bytes.subarray(at, end)), start: end + 1 });
    at = end + 1;
  }
  return found;
}

/** The line of an instance in a canonical file of these sections, in each of which names rise; empty where there is none of its name. */
export function lineNamed(bytes, sections, name) {
  const wanted = BigInt(name);
  for (const [number, { start }] of sections.entries()) {
    const next = sections[number + 1];
    let [low, high] = [start, next ? next.start - next.heading.length - 1 : bytes.length];
    while (low < high) {
      const at = bytes.lastIndexOf(LINE_FEED, Math.floor((low + high) / 2) - 1) + 1;
      const line = Math.max(at, low);
      const end = bytes.indexOf(LINE_FEED, line);
      const found = bytes[line] === SHARP ? BigInt(textOf(bytes.subarray(line + 1, bytes.indexOf(EQUALS, line)))) : null;
      if (found === wanted) return textOf(bytes.subarray(line, end));
      if (found !== null && found < wanted) low = end + 1;
      else high = line;
    }
  }
  return "";
}

/** The keyword of an instance, or those of its parts with `+` between them. */
export function keywordsOfLine(line) {
  const at = line.indexOf("=") + 1;
  if (line[at] !== "(") return line.slice(at, line.indexOf("(", at));
  return readParts(line)
    .map(({ key }) => key)
    .join("+");
}

/** The names of the instances to which a text refers. */
export function* referencesIn(text) {
  for (const [, name] of text.matchAll(STRING_OR_REFERENCE)) if (name !== undefined) yield name;
}
