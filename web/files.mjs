// Where a STEP file is refused, and what there is to say of the place, as in tools/p21_files.py.
//
// The program says by which number a file is refused, at which statement or in which instance, and where: the byte, the line and the
// column, and of a value of a record the attribute. What is shown beside it is read from the file and the schema text: how far goes
// what stands there, what is wrong with it, and what would be right.
//
// A list goes on behind a broken statement, whose end nobody knows: the program tells which bytes it passed over with it, and behind
// these statements are told apart anew.
//
// Files are read as they stand when a job begins. A file that is mended can be chosen once more, as its field is
// cleared each time, or looked at anew by the button "Check again". Browsers keep of a file what it was when it was
// chosen: Chromium reads it no more once it has changed, and Firefox reads it up to its old size, which could cut it
// off without a word. So a file that a job has read before is taken anew before the next one: where it was dropped on
// Chromium by its handle (`getAsFileSystemHandle`), and elsewhere by reading the whole of it, since Firefox then reads
// to the end. A file that was chosen in a field in Chromium has to be chosen again, and the page says so;
// `showOpenFilePicker` would give a handle there, but answers on pages from a disk that the user has cancelled it.

import { alike } from "./likeness.mjs";
import { Lines, QUOTE, behindString, brief, lexemes, lineNumber, listed, readParts, textOf } from "./reading.mjs";
import { Outline } from "./schemas.mjs";

const STAR = 0x2a;
const SLASH = 0x2f;
const SEMICOLON = 0x3b;
const HASH = 0x23;
const OF_BYTES = [1, 4, 5, 6, 7, 9, 10, 11];
const OF_END = [2, 3, 24];
const OF_WHOLE = [22, 23, 25, 27, 32];
const WANTED = {
  25: "nothing but blanks and remarks behind END-ISO-10303-21;",
  32: "DATA; or DATA('name',('SCHEMA'));",
};
// The records that a header begins with, with the names of their parameters, and the words for their shapes.
const PARAMETERS = {
  FILE_DESCRIPTION: ["description", "implementation_level"],
  FILE_NAME: ["name", "time_stamp", "author", "organization", "preprocessor_version", "originating_system", "authorization"],
  FILE_SCHEMA: ["schema_identifiers"],
};
const SHAPES = { string: "a text or $", strings: "a list of texts, or $", "(string)": "a list of one text" };
// The words for what the program says that could stand in a statement. For a user-defined keyword none is said beside a keyword.
const VALUES = {
  "instance name": "the name of an instance",
  integer: "a number",
  real: "a number",
  string: "a text",
  enumeration: "an item",
  binary: "a binary",
  $: '"$"',
  "*": '"*"',
  keyword: "a keyword",
};
const VALUE = "a value";
const WORDS = ["ISO-10303-21", "HEADER", "DATA", "ENDSEC", "END-ISO-10303-21"];
const SIGNS = ["(", ")", ",", "=", ";"];
const FIRST_WORD = /^[!#]?[\w-]*/;
const LINE_ENDS = /\r\n|\n|\r/g;
// So many ways in which values may stand for attributes are tried, and texts of so many bytes.
const MOST_WAYS = 100;
const LONGEST = 1 << 20;
// What a value of each kind begins with.
const KINDS_BY_FIRST = { "'": "text", '"': "binary", ".": "item", "#": "reference", $: "$", "*": "*" };
const REFUSAL = /^\{"file".*\}$/;
// Of such a refusal the statement was passed over.
const PASSED_OVER = /"passed":\[/;
const OBJECT = /\{.*\} ?/;
// How the program ends a list of refusals that goes to the end of a file, or as far as was asked for, and what it says for people.
const EXTENTS = { whole: "", most: ", no more were looked for" };

// --- What the program tells ---

/** The refusal that a line of the program's tells, which is an object. A name is a text, since it can be greater than a number keeps. */
export function refusalOf(line) {
  const told = JSON.parse(line);
  const instance = /,"instance":(\d+)/.exec(line)?.[1] ?? null;
  const front = typeof told.number === "string" ? "schema refused" : "refused";
  const where = instance !== null ? ` in #${instance}` : told.statement ? ` at statement ${told.statement}` : "";
  const column = told.column_in_characters ?? told.column;
  return { ...told, instance, statement: told.statement ?? null, column, answer: `${front} ${told.number} ${told.name}${where}` };
}

/** Was the statement passed over of whose refusal a line of the program's tells? */
export function isPassedOver(line) {
  return PASSED_OVER.test(line);
}

/**
 * What the program says of a file: its refusals, each as an object in a line, what else it says, and with `--all` the line with the
 * count, which is null where there is no list; and how many bytes stand in front of the statement whose refusal ended the list, null
 * where none did.
 */
export function toldOf(program, options, files, heard) {
  const words = ["check", ...options, "--where", "--format", "jsonl", "--", "schema", "file"];
  const { error, status } = program.run(words, files, heard);
  const lines = error.split("\n");
  let [count, read] = [null, null];
  if (options.length > 0 && lines.at(-1).startsWith('{"refusals"')) {
    const told = JSON.parse(lines.pop());
    read = told.read ?? null;
    count = `refusals ${told.refusals}${read === null ? EXTENTS[told.extent] : `, read ${read} bytes`}`;
  }
  const isTold = status === 1 || count !== null;
  const plain = lines.map((line) => line.replace(OBJECT, "")).filter(Boolean);
  return { refusals: isTold ? lines.filter((line) => REFUSAL.test(line)) : [], error: plain.join("\n"), count, read, status };
}

// --- Statements ---

/** The place behind the remark that begins at a place, or null where it doesn't end. */
function behindRemark(bytes, start) {
  for (let at = bytes.indexOf(STAR, start + 2); at >= 0; at = bytes.indexOf(STAR, at + 1)) {
    if (bytes[at + 1] === SLASH) return at + 2;
  }
  return null;
}

/** Does a remark begin here? */
function isRemark(bytes, at) {
  return bytes[at] === SLASH && bytes[at + 1] === STAR;
}

/** The place behind the blanks and remarks that stand from a place on. */
export function behindBlanks(bytes, start) {
  let at = start;
  while (at < bytes.length) {
    if (bytes[at] <= 0x20 || bytes[at] === 0x7f) {
      at++;
    } else {
      const end = isRemark(bytes, at) ? behindRemark(bytes, at) : null;
      if (end === null) return at;
      at = end;
    }
  }
  return at;
}

/**
 * The statement that stands from a place on: from its first word up to its `;`, or up to the end, and where a string or remark is open;
 * and whether its `;` is there.
 */
function statementFrom(bytes, from) {
  const byteAt = (at) => bytes[at];
  const start = behindBlanks(bytes, from);
  for (let at = from; at < bytes.length; ) {
    if (bytes[at] === SEMICOLON) return { start, end: at + 1, open: null, isEnded: true };
    if (bytes[at] === QUOTE || isRemark(bytes, at)) {
      const end = bytes[at] === QUOTE ? behindString(byteAt, at) : behindRemark(bytes, at);
      if (end === null) return { start, end: bytes.length, open: at, isEnded: false };
      at = end;
    } else {
      at++;
    }
  }
  return { start, end: bytes.length, open: null, isEnded: false };
}

/** The statements of a file. At each of these places the program went on, whatever stands open in front of it. */
export function* statements(bytes, resumed = []) {
  const places = resumed.values();
  let place = places.next().value;
  for (let from = 0; ; ) {
    const statement = statementFrom(bytes, from);
    const isCut = place < statement.end;
    if (!isCut) yield statement;
    else if (statement.start < place) yield { ...statement, end: place };
    if (!isCut && !statement.isEnded) return;
    from = isCut ? place : statement.end;
    if (isCut) place = places.next().value;
  }
}

/** The name of the instance that a statement is, without zeros in front, or null. */
function nameOf(bytes, statement) {
  return nameAt(bytes, statement.start);
}

/** The name of an instance that stands at a place, without zeros in front, or null. */
function nameAt(bytes, start) {
  if (bytes[start] !== HASH) return null;
  let end = start + 1;
  while (bytes[end] >= 0x30 && bytes[end] <= 0x39) end++;
  return end > start + 1 ? plainName(textOf(bytes.subarray(start + 1, end))) : null;
}

/** The number that is the name of an instance, rounded above 2^53; -1 where the statement is none. */
function numberOfName(bytes, statement) {
  if (bytes[statement.start] !== HASH) return -1;
  let number = 0;
  let end = statement.start + 1;
  for (; bytes[end] >= 0x30 && bytes[end] <= 0x39; end++) number = 10 * number + bytes[end] - 0x30;
  if (number <= Number.MAX_SAFE_INTEGER) return end > statement.start + 1 ? number : -1;
  return Number(nameOf(bytes, statement));
}

/** The reference of an instance that names none of a file, as `p21 syntax` finds it, by its start and end; null where there is none. */
export function danglingIn(bytes, instance) {
  const names = new Set();
  let found = null;
  for (const statement of statements(bytes)) {
    const name = nameOf(bytes, statement);
    if (name !== null) names.add(name);
    if (name === instance) found = statement;
  }
  const words = found ? lexemes(textOf(bytes.subarray(found.start, found.end))).slice(2) : [];
  const word = words.find(({ text }) => text.startsWith("#") && !names.has(plainName(text.slice(1))));
  return word ? { start: found.start + word.start, end: found.start + word.end } : null;
}

/** The digits of a name without zeros in front. */
function plainName(digits) {
  return digits.replace(/^0+(?=\d)/, "");
}

// --- Refusals ---

/** A file that is refused and its schema, which is called `named`: what all of its refusals share. */
export class GivenFile {
  constructor(schema, named, bytes) {
    this.named = named;
    this.bytes = bytes;
    this.isAlone = schema === null;
    this.outline = new Outline(schema?.bytes ?? new Uint8Array(0));
    this.name = this.outline.words[1]?.text ?? "";
    this.lines = new Lines(bytes);
    this.known = new Map();
    this.answers = new Map();
    this.parted = null;
    // Where the statements begin that the program passed over, and where it went on behind them.
    this.passed = new Set();
    this.resumed = [];
    this.begin();
  }

  /** Goes back to the beginning of the file. */
  begin() {
    this.left = statements(this.bytes, this.resumed);
    this.last = this.left.next().value;
  }

  /** Takes in which statements the program passed over, of whose refusals these lines tell. */
  passOver(lines) {
    const stretches = lines.map((line) => refusalOf(line).passed);
    this.passed = new Set(stretches.map(([begins]) => begins));
    this.resumed = stretches.map(([, ends]) => ends);
    this.begin();
  }

  /** The text of a statement. */
  text(statement) {
    return textOf(this.bytes.subarray(statement.start, statement.end));
  }

  /** The statement at a place, or behind it. */
  statementAt(place) {
    if (place < this.last.start) this.begin();
    while (this.last.end <= place) {
      const { done, value } = this.left.next();
      if (done) break;
      this.last = value;
    }
    return this.last;
  }

  /** The text of an instance with its parts, which are kept of the last one. */
  partsOf(statement) {
    if (this.parted?.statement !== statement) {
      const text = this.text(statement);
      this.parted = { statement, text, parts: readParts(text) };
    }
    return this.parted;
  }

  /** Looks where the first instances of these names stand. The file is passed over once for all of them. */
  lookFor(names) {
    const wanted = new Set([...names].filter((name) => !this.known.has(name)));
    if (wanted.size === 0) return;
    // Most names are told by their numbers; only long ones, which are rounded, may have one number.
    const numbers = new Set([...wanted].map(Number));
    for (const statement of statements(this.bytes, this.resumed)) {
      if (!numbers.has(numberOfName(this.bytes, statement)) || this.passed.has(statement.start)) continue;
      const name = nameOf(this.bytes, statement);
      if (!wanted.delete(name)) continue;
      this.known.set(name, statement);
      if (wanted.size === 0) return;
    }
  }

  /** What the schema text says when it is asked so, which is kept for the next refusal. */
  kept(asked, tell) {
    if (!this.answers.has(asked)) this.answers.set(asked, tell());
    return this.answers.get(asked);
  }

  /** What the schema says of an attribute in an instance of these entities. */
  declared(keys, place) {
    return this.kept(`declared ${keys} ${place.entity} ${place.attribute}`, () => this.outline.explained(keys, place));
  }

  /**
   * Which attributes of an entity have no value where values of these kinds stand, if these can stand for the others in one way
   * alone, and null else.
   */
  missingIn(key, kinds) {
    return this.kept(`missing ${key} ${kinds}`, () => this.missingByKinds(key, kinds));
  }

  missingByKinds(key, kinds) {
    const places = this.outline.placesIn(key, true);
    if (waysOf(places.length, kinds.length) > MOST_WAYS) return null;
    const above = this.outline.derived(key);
    const types = places.map((place) =>
      above.has(`${place.entity}.${place.attribute}`) ? null : this.outline.typeOf([key], place).split(" "),
    );
    const takes = (words, kind) => (words === null ? kind === "*" : this.outline.takes(words, kind));
    const found = [...combinations(places.length, places.length - kinds.length)].filter((missing) => {
      const given = types.filter((_, at) => !missing.includes(at));
      return kinds.every((kind, at) => takes(given[at], kind));
    });
    return found.length === 1 ? found[0] : null;
  }
}

/** A refusal of a file, with what there is to say of its place. */
export class RefusedFile {
  constructor(given, told) {
    this.given = given;
    this.bytes = given.bytes;
    this.outline = given.outline;
    this.told = told;
    this.number = told.number;
    // Which attributes of the part with too few values have none.
    this.missing = [];
  }

  /** The names of the instances that are spoken of beside the place. */
  names() {
    if (this.number === 40) return [this.told.instance];
    const target = this.number === 57 && this.told.byte !== undefined ? nameAt(this.bytes, this.told.byte) : null;
    return target === null ? [] : [target];
  }

  /** The statement at the place, where the program tells one; of one that was passed over from where it begins. */
  get statement() {
    const found = this.given.statementAt(this.told.byte);
    return this.told.passed ? { ...found, start: this.told.passed[0] } : found;
  }

  /** The place with what there is to say of it, or null where the program tells none. */
  place() {
    const { byte, instance } = this.told;
    if (byte === undefined) return null;
    return instance === null ? this.placeInStatement(byte) : this.placeInInstance(byte);
  }

  /** The line and the column of a place near the one that the program tells. */
  position(start) {
    const { byte, line, column } = this.told;
    if (start === byte) return { line, column };
    const between = textOf(this.bytes.subarray(Math.min(byte, start), Math.max(byte, start))).match(LINE_ENDS) ?? [];
    return { line: line + (start > byte ? 1 : -1) * between.length, column: this.given.lines.place(start).column };
  }

  // At a statement

  /** The place in a statement. */
  placeInStatement(at) {
    if (OF_END.includes(this.number)) return this.placeOfEnd(at);
    if (OF_BYTES.includes(this.number)) return this.placeOfByte(at);
    if (this.number === 30) return this.placeInHeader(at);
    if (this.number === 31) return this.placeOfSchema(at);
    if (OF_WHOLE.includes(this.number)) {
      const wanted = WANTED[this.number];
      return placeOf(at, at + firstWord(this.bytes, at).length, wanted ? [`wanted here: ${wanted}`] : []);
    }
    const wanted = couldStand(this.told.expected ?? []);
    return placeOf(at, this.endOfWord(at), wanted ? [`wanted here: ${wanted}`] : []);
  }

  /** The place behind the word or sign at a place. */
  endOfWord(at) {
    const [word] = lexemes(textOf(this.bytes.subarray(at, statementFrom(this.bytes, at).end)));
    return at + (word?.end ?? 0);
  }

  /** The end of the file, or where the string or the remark begins that is open there. */
  placeOfEnd(at) {
    if (this.number !== 24) return placeOf(at, at + 1, ["it begins here and ends nowhere"]);
    const { start } = this.statement;
    const begins = `the statement begins in line ${this.given.lines.number(start)}`;
    return placeOf(at, at, ["the file ends here", ...(start < at ? [begins] : [])]);
  }

  /** The first byte with which the file is refused, or in a string the bytes that should be a character. */
  placeOfByte(at) {
    const byte = this.bytes[at];
    let end = at + 1;
    while (this.number === 6 && byte >= 0xc0 && this.bytes[end] >= 0x80 && this.bytes[end] < 0xc0) end++;
    return placeOf(at, end, [aboutByte(byte, this.number), ...whatHelps(byte, this.number)]);
  }

  /** The record of the header, or the parameter in it, that has another form than it must have. */
  placeInHeader(at) {
    const { start } = this.statement;
    const key = firstWord(this.bytes, start);
    if (!this.told.expected) return placeOf(start, start + key.length, [`${brief(key)} stands a second time`]);
    const [, name, shapes] = /^(\w+)\((.*)\)$/.exec(this.told.expected[0]);
    const parameters = shapes.split(", ").map((form, at) => [PARAMETERS[name][at], SHAPES[form]]);
    const shape = `wanted here: ${name}(${parameters.map(([, form]) => form).join(", ")})`;
    if (key !== name) return placeOf(start, start + Math.max(key.length, 1), [shape]);
    const [{ values }] = readParts(this.given.text(this.statement));
    const verb = values.length === 1 ? "is" : "are";
    const counts = `${name} has ${counted(parameters.length, "parameter")}, and here ${verb} ${values.length}`;
    if (values.length < parameters.length) {
      const missing = listed(parameters.slice(values.length).map(([parameter]) => parameter));
      return placeOf(at, at + 1, [`${counts}; without one: ${missing}`, shape]);
    }
    const place = values.findIndex((value) => start + value.start <= at && at < start + value.end);
    if (place < 0) return placeOf(start, start + key.length, [shape]);
    const value = moved(values[place], start);
    if (values.length > parameters.length) return placeOf(value.start, value.end, [counts, shape]);
    const [parameter, wanted] = parameters[place];
    return placeOf(value.start, value.end, [`parameter ${place + 1} of ${name}, ${parameter}`, `wanted here: ${wanted}`]);
  }

  /** The text that names the schema, and how schema and file are made to agree. */
  placeOfSchema(at) {
    const end = this.endOfWord(at);
    if (this.given.isAlone) return placeOf(at, end);
    const named = /^[A-Za-z0-9_]*/.exec(textOf(this.bytes.subarray(at + 1, end)))[0];
    const notes = [`the file is of ${brief(named) || "(no name)"}, the schema text of ${this.given.name}`];
    if (/^[A-Za-z]\w*$/.test(named)) {
      notes.push("where both are one schema by two names, this makes a schema text of the file's name:");
      notes.push(`  ${this.renaming(named)}`);
    }
    return placeOf(at, end, notes);
  }

  /** The command that makes a schema text of another name. */
  renaming(named) {
    const [word, name] = this.outline.words;
    const { text } = this.outline;
    let old = text.slice(word.start, name.end);
    if (!/^\w+ \w+$/.test(old)) old = text.slice(name.start, name.end);
    const line = lineNumber(this.outline.bytes, name.start);
    const schema = this.given.named;
    const made = schema.split("/").at(-1) === "renamed.exp" ? "renamed-again.exp" : "renamed.exp";
    return `sed '${line}s/${old}/${old.replace(/\w+$/, named)}/' ${quoted(schema)} > ${made}`;
  }

  // In an instance

  /** The place in an instance. */
  placeInInstance(at) {
    const { statement } = this;
    if (this.number === 40) {
      const first = this.given.known.get(this.told.instance);
      const notes = first ? [`#${this.told.instance} stands in line ${this.given.lines.number(first.start)} too`] : [];
      return placeOf(statement.start, statement.start + /^#\d+/.exec(this.given.text(statement))[0].length, notes);
    }
    const { text, parts } = this.given.partsOf(statement);
    // In a very long instance the program tells no place.
    if (at === statement.start) return placeOf(at, at + /^#\d+/.exec(text)[0].length);
    return moved(this.placeInRecord(text, parts, at - statement.start), statement.start);
  }

  /** The place in the text of an instance, which has these parts. */
  placeInRecord(text, parts, at) {
    const ofPart = {
      41: this.unknownEntity,
      42: this.abstract,
      43: this.partMissing,
      44: this.partTwice,
      45: this.count,
      55: this.redeclaredTwice,
      58: this.oneOf,
    }[this.number];
    if (ofPart) {
      const part = parts.find(({ start, end }) => start <= at && at <= end) ?? parts[0];
      return ofPart.call(this, part, parts, text, at);
    }
    const { value, values } = valueAt(parts, at);
    if (!value) return placeOf(at, at + 1);
    const notes = { 48: this.notDerived, 52: this.notDistinct, 56: this.dangling, 57: this.wrongTarget }[this.number];
    return placeOf(value.start, value.end, notes ? notes.call(this, text, value, values) : []);
  }

  // Parts of an instance

  /** A keyword that the schema doesn't have. */
  unknownEntity(part) {
    const near = alike(brief(part.key), this.outline.entities.keys());
    const notes = [`the schema ${this.given.name} has no entity ${brief(part.key)}`];
    return ofKey(part, near.length > 0 ? [...notes, `entities with a like name: ${near.join(", ")}`] : notes);
  }

  /** The keyword of an abstract entity of which no subtype is there. */
  abstract(part) {
    const subtypes = [...this.outline.entities.keys()].filter((name) => this.outline.supertypes(name).includes(part.key));
    return ofKey(part, [`${brief(part.key)} is abstract; its subtypes: ${listed(subtypes)}`]);
  }

  /** A part of which a supertype has no part. */
  partMissing(part, parts) {
    const names = parts.map(({ key }) => key);
    const missing = [...this.outline.closure([part.key])].filter((name) => !names.includes(name)).sort();
    return ofKey(part, [`a supertype without a part: ${listed(missing)}`]);
  }

  /** The second part of an entity. */
  partTwice(part) {
    return ofKey(part, [`${brief(part.key)} has a part already`]);
  }

  /**
   * The first value too many, or where one is missing: where the kinds of the values leave one place alone, this is it, and else the
   * `)` behind the values.
   */
  count(part, parts, text, at) {
    const isAlone = parts.length === 1;
    const places = this.given.outline.placesIn(part.key, isAlone);
    const [wanted, count] = [places.length, part.values.length];
    const counts = `${part.key} has ${counted(wanted, "attribute")}, and here ${count === 1 ? "is" : "are"} ${counted(count, "value")}`;
    if (count >= wanted) {
      const { value } = valueAt(parts, at);
      return placeOf(at, value?.end ?? at + 1, [counts]);
    }
    const kinds = isAlone && part.end - part.start <= LONGEST ? part.values.map((value) => kindOfValue(text, value)) : null;
    this.missing = (kinds && this.given.missingIn(part.key, kinds)) ?? places.map((_, number) => number).slice(count);
    const [first] = this.missing;
    const start = first < count ? part.values[first].start : at;
    return placeOf(start, start + 1, [`${counts}; without one: ${listed(this.missing.map((number) => places[number].attribute))}`]);
  }

  /** Which attributes are declared anew by several entities of the instance. */
  redeclaredTwice(part, parts) {
    const entities = this.outline.closure(parts.map(({ key }) => key));
    const by = new Map();
    for (const { entity, words } of this.outline.redeclarations()) {
      if (!entities.has(entity)) continue;
      const name = words[4].text;
      by.set(name, (by.get(name) ?? new Set()).add(entity));
    }
    const twice = [...by].filter(([, found]) => found.size > 1).slice(0, 8);
    return ofKey(
      part,
      twice.map(([name, found]) => `${name} is declared anew by ${listed([...found].sort(), " and ")}`),
    );
  }

  /** The second of two entities of which an instance is one alone. */
  oneOf(part, parts) {
    const entities = this.outline.closure(parts.map(({ key }) => key));
    for (const name of this.outline.entities.keys()) {
      const found = this.outline.oneof(name).filter((entity) => entities.has(entity));
      if (found.length > 1) return ofKey(part, [`${name} says ONEOF of ${found.slice(0, 2).join(" and ")}`]);
    }
    return ofKey(part);
  }

  // Values

  /** What there is to say of a value where the schema derives one. */
  notDerived() {
    return ["the schema derives this value: only * may stand here"];
  }

  /** The same of a reference to an instance that isn't in the file. */
  dangling(text, value) {
    return [`the file has no #${plainName(text.slice(value.start + 1, value.end))}`];
  }

  /** The same of a reference to an instance of another entity than is wanted. */
  wrongTarget(text, value) {
    const target = plainName(text.slice(value.start + 1, value.end));
    const statement = this.given.known.get(target);
    if (!statement) return [];
    const keys = readParts(this.given.text(statement)).map(({ key }) => key);
    return [`#${target} is of the ${keys.length === 1 ? "entity" : "entities"} ${listed(keys, " and ")}`];
  }

  /** The same of the second of two elements that mean the same: the first one, where both look alike. */
  notDistinct(text, value, values) {
    const meant = meaning(text, value);
    const first = values.find((element) => element === value || meaning(text, element) === meant);
    return first !== value ? [`the same as ${brief(text.slice(first.start, Math.min(first.end, first.start + 240)))}`] : [];
  }
}

/** The value that begins at a place of some parts, with the values of its list; null where none does. */
function valueAt(parts, at) {
  let values = parts.flatMap((part) => part.values);
  for (;;) {
    let [low, high] = [0, values.length];
    while (high - low > 1) {
      const middle = Math.floor((low + high) / 2);
      if (values[middle].start <= at) low = middle;
      else high = middle;
    }
    const value = values[low];
    if (!value || at < value.start || at >= value.end) return { value: null, values };
    if (value.start === at) return { value, values };
    values = value.inner;
  }
}

/** What kind of value stands somewhere: of a list the kind of its first element behind a parenthesis. */
function kindOfValue(text, value) {
  const first = text[value.start];
  if (first === "(") return first + value.inner.slice(0, 1).map((element) => kindOfValue(text, element)).join("");
  if (/[-+\d]/.test(first)) return text.slice(value.start, value.end).includes(".") ? "real" : "integer";
  return KINDS_BY_FIRST[first] ?? "typed";
}

/** The words for what the program says that could stand at a place, or an empty text where it says nothing. */
function couldStand(expected) {
  const values = new Set(Object.keys(VALUES).filter((word) => expected.includes(word)).map((word) => VALUES[word]));
  const areAll = values.size === new Set(Object.values(VALUES)).size;
  const signs = SIGNS.filter((sign) => expected.includes(sign)).map((sign) => `"${sign}"`);
  const found = [...WORDS.filter((word) => expected.includes(word)), ...(areAll ? [VALUE] : values), ...signs];
  return [found.slice(0, -1).join(", "), found.at(-1)].filter(Boolean).join(" or ");
}

/** The word that begins at a place. */
function firstWord(bytes, at) {
  return FIRST_WORD.exec(textOf(bytes.subarray(at, at + 4096)))[0];
}

/** What a value means as far as its text tells: lists in their order, numbers by their ratio, strings as they stand. */
function meaning(text, value) {
  const written = text.slice(value.start, value.end);
  if (value.inner.length > 0 || written.endsWith(")")) {
    return JSON.stringify([written.split("(")[0].trim(), ...value.inner.map((element) => meaning(text, element))]);
  }
  if (/^#\d+$/.test(written)) return `#${plainName(written.slice(1))}`;
  return ratio(written) ?? `text ${written}`;
}

/** A number by its sign, its digits without zeros at either end and its exponent, or null for another text. */
function ratio(written) {
  const found = /^([+-]?)(\d*)\.?(\d*)(?:E([+-]?\d+))?$/i.exec(written);
  if (!found || found[2] + found[3] === "") return null;
  const [, sign, whole, part, exponent] = found;
  const digits = (whole + part).replace(/^0+/, "");
  const short = digits.replace(/0+$/, "");
  if (short === "") return "number 0";
  return `number ${sign === "-" ? "-" : ""}${short}E${Number(exponent ?? 0) - part.length + digits.length - short.length}`;
}

// --- Places ---

/** A place by its start and end, with what there is to say of it. */
function placeOf(start, end, notes = []) {
  return { start, end, notes };
}

/** So many of what a word says. */
function counted(number, word) {
  return `${number} ${word}${number === 1 ? "" : "s"}`;
}

/** A place in a part of a text as a place in the text. */
function moved(place, by) {
  return placeOf(place.start + by, place.end + by, place.notes);
}

/** The place of a keyword. */
function ofKey(part, notes = []) {
  return placeOf(part.start, part.start + part.key.length, notes);
}

/** In how many ways so many of some things can be taken. */
function waysOf(things, taken) {
  let ways = 1;
  for (let number = 1; number <= taken; number++) ways = (ways * (things - taken + number)) / number;
  return ways;
}

/** The ways in which so many of the numbers below a count can be taken, in their order. */
function* combinations(count, taken, first = 0) {
  if (taken === 0) yield [];
  for (let at = first; taken > 0 && at <= count - taken; at++) {
    for (const others of combinations(count, taken - 1, at + 1)) yield [at, ...others];
  }
}

/** A byte by its number, and the sign that it is. */
function aboutByte(byte, number) {
  const named = `the byte ${byte.toString(16).toUpperCase().padStart(2, "0")}`;
  if (number === 6) return byte >= 0xa0 ? `${named}, which is ${String.fromCharCode(byte)} in ISO 8859-1` : named;
  return byte > 0x20 && byte < 0x7f ? `${named}, ${String.fromCharCode(byte)}` : named;
}

/** What to do about a byte that is refused by a number, where that is mostly the same. */
function whatHelps(byte, number) {
  const isSmall = byte >= 0x61 && byte <= 0x7a;
  if (number === 1 && isSmall) return ["keywords are written in upper case"];
  if (number === 4) return ["a backslash that is meant as a character is written twice"];
  if (number === 6) return ["where the file is in ISO 8859-1, iconv -f ISO-8859-1 -t UTF-8 makes UTF-8 of it"];
  return [];
}

/** A word as a shell reads it. */
function quoted(word) {
  return /^[\w@%+=:,./-]+$/.test(word) ? word : `'${word.replaceAll("'", `'"'"'`)}'`;
}
