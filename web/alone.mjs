// What there is to say of a file by itself, without a schema: what `p21 syntax` answers, its header, and what it holds.
//
// Whether a file is well formed, how many instances it has and which schema it names, the program says. The values of
// the header are shown in the spelling that `p21 param` gives them. The keywords are counted here, in a file that is
// well formed, and shown only where they are as many as the instances that the program counts.

import { behindBlanks, statements } from "./files.mjs";
import { unescaped } from "./plainly.mjs";
import { Text } from "./program.mjs";
import { bytesOf, readParts, shown, textOf } from "./reading.mjs";

// The bytes by which statements are told apart.
const BYTES = { quote: 0x27, slash: 0x2f, star: 0x2a, semicolon: 0x3b, backslash: 0x5c, open: 0x28, equals: 0x3d, hash: 0x23, letterS: 0x53 };
const WELL_FORMED = /^well formed, instances (\d+), schema (\S+)$/;
// The header is looked for in so many bytes, the file is read by so many, and a statement of more isn't counted.
const MOST_OF_HEADER = 1 << 20;
const COUNTED_AT_ONCE = 1 << 22;
const LONGEST_STATEMENT = 1 << 26;
// Of a list of texts so many are shown.
const MOST_STRINGS = 20;
// What a header says, in words, by its records and their parameters.
const IN_WORDS = {
  FILE_NAME: ["Name", "Time stamp", "Author", "Organization", "Preprocessor", "System", "Authorization"],
  FILE_DESCRIPTION: ["Description", "Implementation level"],
  FILE_SCHEMA: ["Schema"],
};

/** What the program answers of a file by itself: how many instances it has and which schema it names, or its line where it is refused. */
export function syntaxOf(program, file, heard) {
  const { output, error, status } = program.run(["syntax", "--", "file"], { file }, heard);
  const line = status === 0 ? textOf(output).trimEnd() : error;
  const [, instances, schema] = WELL_FORMED.exec(line) ?? [];
  return { line, status, instances: Number(instances), schema };
}

/** The header of a file that is well formed, in words: what each parameter is, and the texts of it that aren't empty. */
export function headerOf(program, file) {
  const bytes = file.piece(0, MOST_OF_HEADER);
  const rows = [];
  for (const { start, end } of statements(bytes)) {
    const text = textOf(bytes.subarray(start, end));
    const [key] = /^\w*/.exec(text);
    if (key === "ENDSEC") break;
    const values = IN_WORDS[key] ? readParts(text)[0].values : [];
    rows.push(...values.map((value, at) => [IN_WORDS[key][at], stringsIn(program, text, value)]));
  }
  return rows.filter(([name, texts]) => name && texts.length > 0);
}

/** The strings of a parameter that aren't empty, as people read them. */
function stringsIn(program, text, value) {
  const scalars = value.inner.length > 0 ? value.inner.slice(0, MOST_STRINGS) : [value];
  return scalars.map(({ start, end }) => stringOf(program, text.slice(start, end))).filter((found) => found.trim() !== "");
}

/** The characters of a string, by its canonical spelling; nothing of another parameter. */
function stringOf(program, parameter) {
  const { output, status } = program.run(["param", "--", "file"], { file: new Text(bytesOf(parameter)) });
  const spelled = status === 0 ? /^'(.*)'\s*$/s.exec(textOf(output)) : null;
  return spelled ? shown(unescaped(spelled[1])) : "";
}

/**
 * How many instances of which keyword a file has that is well formed: those with most first. Of an instance of several parts the
 * keywords stand together. Null where they aren't as many as the program counts.
 */
export function keywordsOf(file, instances, heard) {
  const counts = new Map();
  let rest = new Uint8Array(0);
  let count = 0;
  for (let at = 0; at < file.size; at += COUNTED_AT_ONCE) {
    const piece = file.piece(at, COUNTED_AT_ONCE);
    const whole = new Uint8Array(rest.length + piece.length);
    whole.set(rest);
    whole.set(piece, rest.length);
    let start = 0;
    for (let end = endOfStatement(whole, start); end > 0; end = endOfStatement(whole, start)) {
      const key = keywordOf(whole, start, end);
      if (key !== null) {
        counts.set(key, (counts.get(key) ?? 0) + 1);
        count++;
      }
      start = end;
    }
    rest = whole.subarray(start);
    if (rest.length > LONGEST_STATEMENT) return null;
    heard(at + piece.length);
  }
  const isLess = ([one, many], [other, more]) => more - many || (one < other ? -1 : 1);
  return count === instances ? [...counts].sort(isLess) : null;
}

/** The place behind the `;` of the statement that begins at a place; 0 where it doesn't end in these bytes. */
function endOfStatement(bytes, start) {
  for (let at = start; at < bytes.length; at++) {
    const byte = bytes[at];
    if (byte === BYTES.semicolon) return at + 1;
    if (byte === BYTES.quote) at = endOfText(bytes, at);
    else if (byte === BYTES.slash && bytes[at + 1] === BYTES.star) at = endOfNote(bytes, at);
  }
  return 0;
}

/** The place of the apostrophe that ends a string; that behind all bytes where none does. */
function endOfText(bytes, start) {
  for (let at = start + 1; at < bytes.length; at++) {
    if (bytes[at] === BYTES.quote) return at;
    // Behind `\S\` an apostrophe is a sign like others.
    const isShift = bytes[at + 1] === BYTES.letterS && bytes[at + 2] === BYTES.backslash;
    if (bytes[at] === BYTES.backslash) at += bytes[at + 1] === BYTES.backslash ? 1 : isShift ? 3 : 0;
  }
  return bytes.length;
}

/** The place of the `/` that ends a remark; that behind all bytes where none does. */
function endOfNote(bytes, start) {
  for (let at = start + 3; at < bytes.length; at++) if (bytes[at] === BYTES.slash && bytes[at - 1] === BYTES.star) return at;
  return bytes.length;
}

/** The keyword of the instance that a statement is, or those of its parts; null where it is none. */
function keywordOf(bytes, start, end) {
  let at = behindBlanks(bytes, start);
  if (bytes[at] !== BYTES.hash) return null;
  at = behindBlanks(bytes, bytes.indexOf(BYTES.equals, at) + 1);
  if (bytes[at] !== BYTES.open) return wordAt(bytes, at);
  const text = textOf(bytes.subarray(at, end));
  return readParts(text)
    .map(({ key }) => key)
    .sort()
    .join("+");
}

/** The keyword that begins at a place. */
function wordAt(bytes, start) {
  let end = start;
  while (bytes[end] > 0x20 && bytes[end] < 0x7f && bytes[end] !== BYTES.open && bytes[end] !== BYTES.slash) end++;
  return String.fromCharCode(...bytes.subarray(start, end));
}
