// How the text of a statement is read, as in tools/p21_reading.py. Texts are strings with a character for each byte.

import { Trouble } from "./program.mjs";

const PIECE = 1 << 14;
const STRETCH = 1 << 16;
export const LINE_FEED = 10;
const ESCAPES = { "\n": "\\n", "\r": "\\r", "\t": "\\t" };
// Of names so many are listed.
const MOST_LISTED = 8;

/** A text of bytes as a string with a character for each. */
export function textOf(bytes) {
  const pieces = [];
  for (let at = 0; at < bytes.length; at += PIECE) {
    pieces.push(String.fromCharCode.apply(null, bytes.subarray(at, at + PIECE)));
  }
  return pieces.join("");
}

/** The bytes of such a string. */
export function bytesOf(text) {
  const bytes = new Uint8Array(text.length);
  for (let at = 0; at < text.length; at++) bytes[at] = text.charCodeAt(at);
  return bytes;
}

/** The characters of a text in UTF-8; what a byte stands for that belongs to none says `otherwise`. */
export function characters(text, otherwise) {
  const found = [];
  const byteAt = (at) => text.charCodeAt(at);
  for (let at = 0; at < text.length; ) {
    const size = sizeOfCharacter(byteAt, at);
    found.push(size ? decoded(text, at, size) : otherwise(text.charCodeAt(at)));
    at += size || 1;
  }
  return found;
}

/** The character of so many bytes at a place. */
function decoded(text, at, size) {
  if (size === 1) return text[at];
  return new TextDecoder("utf-8", { ignoreBOM: true }).decode(bytesOf(text.slice(at, at + size)));
}

/** How many characters stand in a part of a text; each byte that belongs to none is one. */
function countCharacters(bytes, start, end) {
  const byteAt = (at) => (at < end ? bytes[at] : 0);
  let count = 0;
  for (let at = start; at < end; count++) at += sizeOfCharacter(byteAt, at) || 1;
  return count;
}

/** How many bytes the character at a place has, or 0 where none begins. */
function sizeOfCharacter(byteAt, at) {
  const first = byteAt(at);
  if (first < 0x80) return 1;
  if (first < 0xc2 || first > 0xf4) return 0;
  const size = first < 0xe0 ? 2 : first < 0xf0 ? 3 : 4;
  const least = { 0xe0: 0xa0, 0xf0: 0x90 }[first] ?? 0x80;
  const most = { 0xed: 0x9f, 0xf4: 0x8f }[first] ?? 0xbf;
  for (let behind = 1; behind < size; behind++) {
    const byte = byteAt(at + behind);
    if (!(byte >= (behind === 1 ? least : 0x80) && byte <= (behind === 1 ? most : 0xbf))) return 0;
  }
  return size;
}

// --- Statements ---

export const QUOTE = 0x27;
const BACKSLASH = 0x5c;
// What begins with a backslash in a string as the reader takes it, of which the last sign begins nothing else, by the sign behind it.
const DIRECTIVES = [/^\\\\/, /^\\S\\[ -~]/, /^\\PA\\/, /^\\X[024]?\\/];
const REMARK = /\/\*.*?\*\//.source;
const LEXEME = new RegExp(`[\\0- \\x7f]+|${REMARK}|("[^"]*"|[^\\0- \\x7f(),;='"/]+|.)`, "sy");

/** The place behind the string that begins at a place, or null where it doesn't end. `byteAt` says what stands at each place. */
export function behindString(byteAt, start) {
  for (let at = start + 1; ; ) {
    const byte = byteAt(at);
    if (byte === QUOTE) {
      if (byteAt(at + 1) !== QUOTE) return at + 1;
      at += 2;
    } else if (byte === BACKSLASH) {
      at += sizeOfDirective(byteAt, at);
    } else if (byte >= 0) {
      at++;
    } else {
      return null;
    }
  }
}

/** How many bytes go together in a string from a backslash on; one where the reader takes nothing that begins so. */
function sizeOfDirective(byteAt, at) {
  const front = String.fromCharCode(...[0, 1, 2, 3].map((number) => byteAt(at + number) || 0));
  return DIRECTIVES.map((directive) => directive.exec(front)?.[0].length).find((size) => size) ?? 1;
}

/** The words and signs of a text with their places. */
export function lexemes(text) {
  const found = [];
  for (let start = 0; start < text.length; ) {
    LEXEME.lastIndex = start;
    const [, word] = LEXEME.exec(text);
    const end = word === "'" ? (behindString((at) => text.charCodeAt(at), start) ?? text.length) : LEXEME.lastIndex;
    if (word !== undefined) found.push({ text: text.slice(start, end), start, end });
    start = end;
  }
  return found;
}

/** The words and signs of a text, of which one after the other is taken. */
class Lexemes {
  constructor(text) {
    this.found = lexemes(text);
    this.at = 0;
  }

  /** The next one without taking it; behind the last one an empty text. */
  next() {
    return this.found[this.at]?.text ?? "";
  }

  /** The next one with its place. A text that ends here is no statement. */
  take() {
    if (this.at === this.found.length) throw new Trouble("the text ends inside a statement");
    return this.found[this.at++];
  }
}

/** The parts of an instance or header record, of which the text has its right parentheses. */
export function readParts(text) {
  const words = new Lexemes(text);
  if (words.next().startsWith("#")) {
    words.take();
    words.take();
  }
  if (words.next() !== "(") return [readPart(words)];
  words.take();
  const parts = [];
  while (words.next() !== ")") parts.push(readPart(words));
  return parts;
}

/** A keyword and the values in parentheses behind it, with the place of the `)`. */
function readPart(words) {
  const key = words.take();
  words.take();
  const { values, end } = readValues(words);
  return { key: key.text, start: key.start, values, end };
}

/** The values up to the `)` of a `(` that is taken, and the place of that `)`. */
function readValues(words) {
  const values = [];
  while (words.next() !== ")" && words.next() !== "") {
    values.push(readValue(words));
    if (words.next() === ",") words.take();
  }
  return { values, end: words.take().start };
}

/** One value by its place: a scalar, a list, or a keyword with a value in parentheses; `inner` are the values in it. */
function readValue(words) {
  const first = words.take();
  if (first.text !== "(") {
    if (words.next() !== "(") return { start: first.start, end: first.end, inner: [] };
    words.take();
  }
  const { values, end } = readValues(words);
  return { start: first.start, end: end + 1, inner: values };
}

// --- Texts for people ---

/** The number of the line in which a place stands. */
export function lineNumber(bytes, at) {
  return 1 + countLineEnds(bytes, 0, at);
}

/** How many line ends stand in a part of a text. */
function countLineEnds(bytes, start, end) {
  let count = 0;
  for (let at = bytes.indexOf(LINE_FEED, start); at >= 0 && at < end; at = bytes.indexOf(LINE_FEED, at + 1)) count++;
  return count;
}

/** The lines and columns of places in a text, of which many are asked for, mostly in their order. */
export class Lines {
  constructor(bytes) {
    this.bytes = bytes;
    // How many lines end in front of each stretch of the text.
    this.marks = null;
    this.last = { line: 0, column: 1, at: 0 };
  }

  /** The number of the line in which a place stands. */
  number(at) {
    if (!this.marks) {
      this.marks = [0];
      for (let start = 0; start < this.bytes.length; start += STRETCH) {
        const stretch = this.bytes.subarray(start, start + STRETCH);
        this.marks.push(this.marks.at(-1) + countLineEnds(stretch, 0, stretch.length));
      }
    }
    const stretch = Math.floor(at / STRETCH);
    const start = stretch * STRETCH;
    return 1 + this.marks[stretch] + countLineEnds(this.bytes.subarray(start, start + STRETCH), 0, at - start);
  }

  /** The line and the column of a place, which is in characters. */
  place(at) {
    const line = this.number(at);
    if (line !== this.last.line || at < this.last.at) {
      const start = at > 0 ? this.bytes.lastIndexOf(LINE_FEED, at - 1) + 1 : 0;
      this.last = { line, column: 1, at: start };
    }
    const column = this.last.column + countCharacters(this.bytes, this.last.at, at);
    this.last = { line, column, at };
    return { line, column };
  }
}

/** The text around a place; `..` stands for what is left out. */
export function shortened(text, at, width = 100) {
  const signs = [...text];
  if (signs.length <= width) return text;
  const start = Math.min(Math.max(at - Math.floor(width / 2), 0), signs.length - width);
  const front = start > 0 ? ".. " : "";
  const back = start + width < signs.length ? " .." : "";
  return front + signs.slice(start, start + width).join("") + back;
}

/** A text on one line, with characters that can't be shown by their numbers. */
export function shown(text) {
  return text.replace(/(?! )[\p{C}\p{Z}]/gu, shownCharacter);
}

function shownCharacter(sign) {
  const code = sign.codePointAt(0);
  const [letter, digits] = code < 0x100 ? ["x", 2] : code < 0x10000 ? ["u", 4] : ["U", 8];
  return ESCAPES[sign] ?? `\\${letter}${code.toString(16).padStart(digits, "0")}`;
}

/** Bytes as a text on one line, with signs that can't be shown by their numbers. */
export function clean(text) {
  return shown(characters(text, (byte) => `\\x${byte.toString(16)}`).join("").replace(/[ \t\r\n]+/g, " "));
}

/** A word of a text on one line, of which the end may be left out. */
export function brief(text) {
  return shown(shortened(text, 0, 60));
}

/** Some names, of which those behind the first are left out. */
export function listed(names, between = ", ") {
  const first = names.slice(0, MOST_LISTED).map(brief);
  return first.join(between) + (names.length > MOST_LISTED ? " .." : "");
}
