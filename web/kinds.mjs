// What a text is by its first bytes, and whether this browser can run the program. Both the page and its workers ask.
//
// Of a folder the page says that the files in it are to be dropped, since Chrome lets no page from a disk read one.
//
// Dropped files are sorted by how they begin, a schema here and STEP files there, and only where that says nothing by
// where they were dropped or by their names. A schema that is dropped with one file starts anew; a file that is dropped
// alone beside another is compared with it.

export const STEP_FILE = /^[\t-\r ]*ISO-10303-21/;
export const SCHEMA_TEXT = /^(?:[\t-\r ]|\(\*(?:(?!\*\)).)*\*\)|--[^\n]*(?:\n|$))*SCHEMA\b/is;

/** Is the text a schema, a STEP file, or neither by how it begins? */
export function kindOf(front) {
  if (SCHEMA_TEXT.test(front)) return "schema";
  return STEP_FILE.test(front) ? "file" : null;
}

/** The name of the schema that a STEP file names in its header, which has to stand in the text. */
export function namedSchema(front) {
  return /\bFILE_SCHEMA\s*\(\s*\(\s*'\s*([^'\s{]*)/.exec(front)?.[1] ?? null;
}

/** A module with a memory of 64 bits and nothing else. */
const WIDE_MEMORY = Uint8Array.of(0, 0x61, 0x73, 0x6d, 1, 0, 0, 0, 5, 3, 1, 4, 1);

/** Can this browser run the program? */
export function hasWideMemory() {
  return typeof WebAssembly === "object" && WebAssembly.validate(WIDE_MEMORY);
}

/** The number and the name of a refusal, by its line; the whole of another line. */
export function kindOfLine(line) {
  return /refused (S?\d+ .*?)(?: in #\d+| at statement \d+)?$/.exec(line)?.[1] ?? line;
}
