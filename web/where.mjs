// Where a file or a schema text is refused, as tools/p21-where shows it: as a report for the page, and as its lines.
//
// Where a text is refused and what differs is found in JavaScript, by the rules of `p21-where` and `p21-diff`. A
// browser can't run Python without megabytes of an interpreter. The scripts follow the tools function by function,
// under the same names, and `tests/page_module.py` and `tests/page.py` compare what both print, over the texts that the
// tools themselves are tested by. What a refusal means comes from the program (`faults`).
//
// A file that is refused is read a second time, by `check --all --where --format jsonl`, which lists its refusals with their places;
// only who has a refused file waits for that. What is said of them in 0.3 seconds comes with the answer, and the rest while it is
// read; of refusals behind the first 2,000 the page has the lines alone. A file without a schema is read so by a schema of its name
// without entities, by which each instance is refused besides.

import { GivenFile, RefusedFile, danglingIn, isPassedOver, refusalOf, toldOf } from "./files.mjs";
import { SCHEMA_TEXT, STEP_FILE } from "./kinds.mjs";
import { Text } from "./program.mjs";
import { Lines, bytesOf, clean, shortened, shown, textOf } from "./reading.mjs";
import { RefusedSchema, numberOf } from "./schemas.mjs";
import { nameIn } from "./shelf.mjs";

// What a text is that begins so, and what to do with it.
const LOOKS = [
  [/^\x1f\x8b/, "this is packed by gzip: unpack it with gunzip"],
  [/^PK\x03\x04/, "this is a zip archive: unpack it with unzip"],
  [/^\xef\xbb\xbf/, "a byte order mark stands in front: tail -c +4 prints the file without it"],
  [/^(?:\xff\xfe|\xfe\xff)/, "this is UTF-16: iconv -f UTF-16 -t UTF-8 makes UTF-8 of it"],
  [/^[A-Z-]?\0/, "this is UTF-16 without a mark: iconv -f UTF-16LE -t UTF-8 (or UTF-16BE) makes UTF-8 of it"],
  [/^[\t-\r ]*</, "this is XML or HTML, and not clear text"],
  [/^\x89HDF/, "this is STEP in its binary form, and not clear text"],
];
const SCHEMA_LOOKS = [[STEP_FILE, "this is a STEP file: are schema and file exchanged?"], ...LOOKS];
// For so many refusals the instances that are spoken of beside them are looked for together.
const PLACED_AT_ONCE = 50_000;
const UNPLACED = "the program tells no place of it";
// Of an instance so many parts are shown, so many values that stand for no attribute, and so many attributes explained.
const MOST_PARTS = 100;
const MOST_SURPLUS = 8;
const MOST_EXPLAINED = 8;
// Of a declaration so many signs: a SELECT of many entities has its place.
const MOST_OF_DECLARATION = 400;
const FILE_LOOKS = [[SCHEMA_TEXT, "this is a schema text: are schema and file exchanged?"], ...LOOKS];

/** What the text looks like where it is none of the expected kind. */
function looksOf(bytes, looks) {
  const front = textOf(bytes.subarray(0, 4096));
  return looks.find(([pattern]) => pattern.test(front))?.[1] ?? null;
}

/** A place by its line and column, the text from `start` to `end` around it, and what there is to say of it. */
function shownPlace(bytes, position, start, end, place) {
  const marked = Math.min(place.end, place.start + 60);
  const last = marked === place.end ? Math.min(end, place.end + 60) : marked;
  const text = (from, to) => clean(textOf(bytes.subarray(Math.max(from, 0), Math.max(to, 0))));
  const cut = place.start - 60 > start;
  return {
    ...position,
    front: (cut ? ".. " : "") + text(Math.max(start, place.start - 60), place.start),
    mark: text(place.start, marked),
    back: text(marked, last) + (last < end ? " .." : ""),
    notes: place.notes.map(shown),
  };
}

/** A value on one line, or of a long one what stands around a place in it. */
function excerpt(text, value, at) {
  const start = Math.max(value.start, at - 2048);
  const end = Math.min(value.end, Math.max(at, value.start) + 2048);
  const line = shortened(clean(text.slice(start, end)), Math.max(at, start) - start, 60);
  const front = start > value.start && !line.startsWith(".. ") ? ".. " : "";
  return front + line + (end < value.end && !line.endsWith(" ..") ? " .." : "");
}

/** The attributes of an instance beside its values. Marked are the one at the place, and each that has no value. */
function shownAttributes(refused, statement, place) {
  const at = place.start - statement.start;
  const { text, parts } = refused.given.partsOf(statement);
  const first = parts.slice(0, MOST_PARTS).filter(({ key }) => refused.outline.entities.has(key));
  const keys = first.map(({ key }) => key);
  let left = MOST_EXPLAINED;
  const found = first.map((part) => {
    const rows = shownPart(refused, text, keys, part, at, left);
    left -= rows.filter(({ isExplained }) => isExplained).length;
    return { entity: part.key, rows };
  });
  return parts.length > MOST_PARTS ? [...found, { entity: "..", rows: [] }] : found;
}

/** The rows of a part of an instance with these keywords. At most so many are explained. */
function shownPart(refused, text, keys, part, at, most) {
  let explained = 0;
  const rows = rowsOf(refused, part, keys.length === 1);
  const surplus = rows.filter(({ entity }) => !entity).length - MOST_SURPLUS;
  const found = rows.slice(0, surplus > 0 ? -surplus : undefined).map(({ entity, attribute, value }) => {
    const isMarked = !value || (refused.missing.length === 0 && value.start <= at && at < value.end);
    const isExplained = isMarked && entity !== null && explained < most;
    explained += Number(isExplained);
    const lines = isExplained ? refused.given.declared(keys, { entity, attribute }) : [];
    return {
      name: attribute,
      value: value ? excerpt(text, value, at) : "(no value)",
      isMarked,
      isExplained,
      explained: lines.map((line) => shown(shortened(line, 0, MOST_OF_DECLARATION))),
    };
  });
  return surplus > 0 ? [...found, { name: "..", value: "", isMarked: false, isExplained: false, explained: [] }] : found;
}

/** Each attribute of a part with its value, and values without an attribute behind them. */
function rowsOf(refused, part, alone) {
  const values = part.values.values();
  const next = () => values.next().value ?? null;
  const places = refused.given.outline.placesIn(part.key, alone);
  const rows = places.map((place, at) => ({ ...place, value: refused.missing.includes(at) ? null : next() }));
  return [...rows, ...[...values].map((value) => ({ entity: null, attribute: "(none)", value }))];
}

/** What there is to say of a schema text that is refused by this line. */
export function whereInSchema(program, schema, line) {
  const refused = new RefusedSchema(program, schema.bytes, numberOf(line));
  const place = refused.place();
  const position = place && new Lines(schema.bytes).place(place.start);
  const shown = place && shownPlace(schema.bytes, position, ...refused.around(place), place);
  return { line, place: shown, attributes: [], looks: looksOf(schema.bytes, SCHEMA_LOOKS) };
}

/** What there is to say of the first refusal of a file under a schema that is called `named`. */
export function whereInFile(program, schema, named, bytes) {
  const { refusals } = toldOf(program, [], { schema, file: new Text(bytes) });
  const [report] = whereAll(new GivenFile(schema, named, bytes), refusals.slice(0, 1));
  return report;
}

/** What there is to say of a file that is refused by this line where it is read by itself. */
export function whereAlone(program, bytes, line) {
  const file = new Text(bytes);
  const schema = new Text(bytesOf(`SCHEMA ${nameIn(file) ?? "none"}; END_SCHEMA;`));
  const { refusals } = toldOf(program, ["--all"], { schema, file });
  const given = new GivenFile(null, "", bytes);
  const told = refusals.map(refusalOf).find(({ answer }) => answer === line) ?? withDangling(line, given);
  if (!told) return null;
  const refused = new RefusedFile(given, told);
  given.lookFor(refused.names());
  return whereRefused(refused);
}

/** The refusal of a reference to nothing, which `check` doesn't list of an instance that is refused besides. */
function withDangling(line, given) {
  const [, instance] = /^refused 56 \w+ in #(\d+)$/.exec(line) ?? [];
  const found = instance ? danglingIn(given.bytes, instance) : null;
  return found && { number: 56, instance, statement: null, byte: found.start, ...given.lines.place(found.start), answer: line };
}

/** What there is to say of each refusal of a file, of which these are the lines that the program tells. */
export function* whereAll(given, lines) {
  given.passOver(lines.filter(isPassedOver));
  for (let start = 0; start < lines.length; start += PLACED_AT_ONCE) {
    const refusals = lines.slice(start, start + PLACED_AT_ONCE).map((line) => new RefusedFile(given, refusalOf(line)));
    given.lookFor(refusals.flatMap((refused) => refused.names()));
    for (const refused of refusals) yield whereIfTold(refused);
  }
}

/** The same of one, without its place where that can't be told. */
function whereIfTold(refused) {
  try {
    return whereRefused(refused);
  } catch {
    return { line: refused.told.answer, place: null, attributes: [], looks: null };
  }
}

/** What there is to say of one refusal of a file. */
function whereRefused(refused) {
  const { told, bytes } = refused;
  const place = refused.place();
  const looks = told.statement === 1 ? looksOf(bytes, FILE_LOOKS) : place ? null : UNPLACED;
  const said = { line: told.answer, looks, isPassedOver: told.passed !== undefined };
  if (!place) return { ...said, place: null, attributes: [] };
  const { statement } = refused;
  const lastLine = bytes.length > 1 ? bytes.lastIndexOf(10, bytes.length - 2) + 1 : 0;
  const start = statement.start === bytes.length ? lastLine : statement.start;
  const hasAttributes = told.instance !== null && refused.number !== 40;
  return {
    ...said,
    place: shownPlace(bytes, refused.position(place.start), start, statement.end, place),
    attributes: hasAttributes ? shownAttributes(refused, statement, place) : [],
  };
}

/** The lines of a report about a file of this name, as p21-where prints them. */
export function linesOf(report, name) {
  return [
    report.line,
    ...(report.place ? placeLines(report.place, name) : []),
    ...report.attributes.flatMap(attributeLines),
    ...(report.looks ? [`  ${report.looks}`] : []),
  ];
}

function placeLines(place, name) {
  const length = (text) => [...text].length;
  return [
    `${name}:${place.line}:${place.column}`,
    `  ${place.front}${place.mark}${place.back}`.trimEnd(),
    `  ${" ".repeat(length(place.front))}${"^".repeat(Math.max(length(place.mark), 1))}`,
    ...place.notes.map((note) => `  ${note}`),
  ];
}

function attributeLines({ entity, rows }) {
  const width = Math.max(0, ...rows.filter(({ name }) => /^\w/.test(name)).map(({ name }) => name.length));
  return [
    `  ${entity}`,
    ...rows.flatMap(({ name, value, isMarked, explained }) => [
      `  ${isMarked ? ">" : " "} ${name.padEnd(width)}  ${value}`.trimEnd(),
      ...explained.map((line) => `    ${" ".repeat(width)}  ${line}`),
    ]),
  ];
}
