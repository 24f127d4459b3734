// Where a schema text is refused, and what its declarations are, as in tools/p21_schemas.py.
//
// The program says whether a text is refused, by which number, and at which byte. How far goes what stands there, and in which
// declaration, is read from the text.
//
// Where a listing is published the page says by the table of `docs/SCHEMAS.md`, which `making/build-page` reads. The
// link opens only when it is followed.

import { Text, Trouble } from "./program.mjs";
import { brief, lineNumber, readParts, textOf } from "./reading.mjs";

const SCHEMA_LEXEME = new RegExp(
  [
    /[\0- \x7f]+|--[^\n]*|(?<remark>\(\*)/,
    /(?<word>[A-Za-z][A-Za-z0-9_]*|[0-9]+|'[^']*(?:''[^']*)*'(?!')|"[^"]*"|[!#-&(-~])|(?<other>.)/,
  ]
    .map((part) => part.source)
    .join("|"),
  "sy",
);
const REMARK_MARK = /\(\*|\*\)/g;
const TEXT_LIMIT = 16_777_216;
// So many texts are said of an attribute, and of each so many bytes.
const MOST_TEXTS = 8;
const LONGEST_TEXT = 4096;
const DECLARATIONS = ["ENTITY", "TYPE", "FUNCTION", "PROCEDURE", "RULE", "CONSTANT", "SUBTYPE_CONSTRAINT"];
const ONLY_ONEOF = /\bSUPERTYPE OF \( ONEOF \( ([\w ,]+) \) \)/;
const SUBTYPE_OF = /\bSUBTYPE OF \( ([\w ,]+) \)$/;
const GROUPS = ["DERIVE", "INVERSE", "UNIQUE", "WHERE", "END_ENTITY", "END_TYPE"];
// Of these the place may be a statement that declares an attribute anew.
const OF_REDECLARATIONS = [3, 8];
export const AGGREGATES = ["ARRAY", "BAG", "LIST", "SET"];

// The kinds of values that simple types and enumerations have, and what a list of values is of.
const KINDS_OF_TYPES = {
  INTEGER: ["integer"],
  REAL: ["real"],
  NUMBER: ["integer", "real"],
  STRING: ["text"],
  BINARY: ["binary"],
  BOOLEAN: ["item"],
  LOGICAL: ["item"],
  ENUMERATION: ["item"],
};

/** The words of a text in upper case, up to a byte, string or remark that makes none. */
function wordsOf(text) {
  const words = [];
  for (let at = 0; at < text.length; ) {
    SCHEMA_LEXEME.lastIndex = at;
    const { index, groups } = SCHEMA_LEXEME.exec(text);
    at = groups.remark ? endOfRemark(text, index) : SCHEMA_LEXEME.lastIndex;
    if (groups.other || at === null) return words;
    if (groups.word) words.push({ text: groups.word.toUpperCase(), start: index, end: at });
  }
  return words;
}

/** The place behind a remark, in which others may stand, or null where it doesn't end. */
function endOfRemark(text, start) {
  let depth = 0;
  REMARK_MARK.lastIndex = start;
  for (let mark = REMARK_MARK.exec(text); mark; mark = REMARK_MARK.exec(text)) {
    depth += mark[0] === "(*" ? 1 : -1;
    if (depth === 0) return REMARK_MARK.lastIndex;
  }
  return null;
}

/** The words as texts. */
function texts(words) {
  return words.map((word) => word.text);
}

/** What stands in front of the `:` of a statement. */
function namesIn(statement) {
  const found = texts(statement);
  return found.slice(0, Math.max(found.indexOf(":"), 0));
}

/** What stands between the commas in front of the `:` of a statement, as words: of an inherited attribute the first five. */
function itemsIn(statement) {
  const items = namesIn(statement).join(" ").split(" , ");
  return items.map((item) => item.split(" ").slice(0, 5)).filter(([first]) => first !== "");
}

/** The declarations of a schema text. */
export class Outline {
  constructor(bytes) {
    this.bytes = bytes;
    this.text = textOf(bytes);
    this.words = wordsOf(this.text);
    this.declarations = [];
    for (let at = 0; at < this.words.length; ) {
      const kind = this.words[at].text;
      const declares = DECLARATIONS.includes(kind);
      const end = declares ? this.endOf(at) : at + 1;
      if (declares && end - at > 2) {
        this.declarations.push({ kind, name: this.words[at + 1].text, words: this.words.slice(at, end) });
      }
      at = end;
    }
    const named = (kind) => new Map(this.declarations.filter((found) => found.kind === kind).map((found) => [found.name, found]));
    this.entities = named("ENTITY");
    this.types = named("TYPE");
    this.above = new Map();
    this.ofParts = new Map();
  }

  /** The number of the word behind the declaration that begins with this one. */
  endOf(at) {
    const kind = this.words[at].text;
    const nested = kind === "FUNCTION" || kind === "PROCEDURE";
    for (let depth = 0; at < this.words.length; ) {
      const word = this.words[at].text;
      if (word === kind && (nested || depth === 0)) depth++;
      if (word === `END_${kind}`) depth--;
      at++;
      if (depth === 0) return Math.min(at + 1, this.words.length);
    }
    return at;
  }

  /** The heading of an entity, word by word with blanks between. */
  heading(name) {
    const words = texts(this.entities.get(name).words);
    return words.slice(0, words.indexOf(";")).join(" ");
  }

  /** The entities of which an entity says that it is a subtype. */
  supertypes(name) {
    if (!this.above.has(name)) {
      const found = SUBTYPE_OF.exec(this.heading(name));
      this.above.set(name, found ? found[1].split(" , ").filter((word) => this.entities.has(word)) : []);
    }
    return this.above.get(name);
  }

  /** The attributes of an entity that it or a supertype derives, each behind the entity that declares it and a point. */
  derived(name) {
    const found = new Set();
    for (const entity of this.order(name)) {
      for (const { group, words } of this.statements(this.entities.get(entity))) {
        for (const item of group === "DERIVE" ? itemsIn(words) : []) {
          if (item.length < 5 || item[0] !== "SELF") continue;
          for (const owner of this.meant(item[2], item[4])) found.add(`${owner}.${item[4]}`);
        }
      }
    }
    return found;
  }

  /** The entity if it declares an attribute of this name, or else those of its supertypes that do. */
  meant(name, attribute) {
    const waiting = this.entities.has(name) ? [name] : [];
    const seen = new Set(waiting);
    const found = [];
    while (waiting.length > 0) {
      const entity = waiting.pop();
      if (this.ownAttributes(entity).includes(attribute)) {
        found.push(entity);
        continue;
      }
      const above = this.supertypes(entity).filter((each) => !seen.has(each));
      for (const each of above) seen.add(each);
      waiting.push(...above);
    }
    return found;
  }

  /** These entities with all of their supertypes. */
  closure(names) {
    const found = new Set();
    const waiting = names.filter((name) => this.entities.has(name));
    while (waiting.length > 0) {
      const name = waiting.pop();
      if (found.has(name)) continue;
      found.add(name);
      waiting.push(...this.supertypes(name));
    }
    return found;
  }

  /** The entities of the ONEOF that an entity states and nothing beside it. */
  oneof(name) {
    const found = ONLY_ONEOF.exec(this.heading(name));
    return found ? found[1].split(" , ") : [];
  }

  /** Each statement between the heading and the end of a declaration, with the word of its group. */
  statements(declaration) {
    const found = [];
    let group = "";
    let statement = [];
    for (const word of declaration.words.slice(texts(declaration.words).indexOf(";") + 1)) {
      if (statement.length === 0 && GROUPS.includes(word.text)) {
        group = word.text;
        continue;
      }
      statement.push(word);
      if (word.text === ";") {
        found.push({ group, words: statement });
        statement = [];
      }
    }
    return found;
  }

  /** Each statement that declares inherited attributes anew, or derives one, with the name of its entity. */
  redeclarations() {
    return [...this.entities.values()].flatMap((entity) =>
      this.statements(entity)
        .filter(({ group, words }) => (group === "" || group === "DERIVE") && namesIn(words).includes("SELF"))
        .map(({ words }) => ({ entity: entity.name, words })),
    );
  }

  /** The names of the explicit attributes that an entity declares itself, redeclarations apart. */
  ownAttributes(name) {
    return this.statements(this.entities.get(name))
      .filter(({ group }) => group === "")
      .flatMap(({ words }) => namesIn(words).join(" ").split(" , "))
      .filter((item) => !item.includes(" "));
  }

  /** An entity behind its supertypes, each with those of its own in front of it, and each once. */
  order(name) {
    const found = new Set();
    const seen = new Set();
    const waiting = [name];
    while (waiting.length > 0) {
      const top = waiting.at(-1);
      if (seen.has(top)) {
        found.add(waiting.pop());
      } else {
        seen.add(top);
        waiting.push(...[...this.supertypes(top)].reverse().filter((above) => !seen.has(above)));
      }
    }
    return [...found];
  }

  /** The attributes for which an instance of an entity has values, each with the entity that declares it. */
  places(name) {
    return this.order(name).flatMap((entity) => this.ownAttributes(entity).map((attribute) => ({ entity, attribute })));
  }

  /** What the values of a part stand for: all attributes of the entity, or among other parts those of its own. */
  placesIn(key, isAlone) {
    const asked = `${key} ${isAlone}`;
    if (!this.ofParts.has(asked)) {
      const own = () => this.ownAttributes(key).map((attribute) => ({ entity: key, attribute }));
      this.ofParts.set(asked, isAlone ? this.places(key) : own());
    }
    return this.ofParts.get(asked);
  }

  /** The attributes of an instance of a canonical file, each with the places in its line between which its value stands. */
  valuesIn(line) {
    const parts = readParts(line);
    return parts.flatMap(({ key, values }) => this.placesIn(key, parts.length === 1).map((place, at) => ({ ...place, ...values[at] })));
  }

  /**
   * The texts that say what stands at a place in an instance of these entities: where it is declared, where it is declared
   * anew or derived, and the types that are named there, one behind the other.
   */
  explained(entities, { entity: declaring, attribute }) {
    const others = [...this.closure(entities)].filter((entity) => entity !== declaring).sort();
    const found = [];
    for (const entity of [declaring, ...others]) {
      found.push(...this.declared(entity, declaring, attribute));
      if (found.length >= MOST_TEXTS) break;
    }
    for (let at = 0; at < found.length; at++) {
      const named = found[at].slice(found[at].search(/[:=]/) + 1);
      if (found.length >= MOST_TEXTS || /^ (?:SELECT|ENUMERATION)\b/i.test(named)) continue;
      const types = (named.toUpperCase().match(/\w+/g) ?? []).filter((word) => this.types.has(word));
      const bodies = types.map((word) => this.body(this.types.get(word)));
      const known = new Set(found);
      found.push(...bodies.filter((body) => !known.has(body)));
    }
    return found;
  }

  /**
   * The type of an attribute in an instance of these entities, as its text: where several declare it anew, that of the one that
   * is furthest below.
   */
  typeOf(entities, { entity: declaring, attribute }) {
    let found = "REAL";
    const order = entities.flatMap((entity) => this.order(entity));
    for (const entity of [declaring, ...order.filter((name) => name !== declaring)]) {
      for (const { words } of this.statements(this.entities.get(entity))) {
        for (const item of itemsIn(words)) {
          const isOwn = item.length === 1 && entity === declaring;
          if (item.at(-1) !== attribute || !(isOwn || (item.length > 1 && item[0] === "SELF"))) continue;
          const type = texts(words).slice(texts(words).indexOf(":") + 1, -1);
          found = type.slice(Number(type[0] === "OPTIONAL")).join(" ").split(" : = ")[0];
        }
      }
    }
    return found;
  }

  /** Could a value of a kind, as `kindOf` tells it, be of a type, of which these are the words? */
  takes(words, kind) {
    const [first] = words;
    if (kind === "$" || KINDS_OF_TYPES[first]) return kind === "$" || KINDS_OF_TYPES[first].includes(kind);
    if (AGGREGATES.includes(first)) {
      return kind === "(" || (kind.startsWith("(") && this.takes(words.slice(words.indexOf("OF") + 1), kind.slice(1)));
    }
    if (first === "OPTIONAL" || first === "UNIQUE") return this.takes(words.slice(1), kind);
    if (this.entities.has(first)) return kind === "reference";
    if (first === "SELECT") {
      const members = words.slice(2, -1).filter((word) => word !== ",");
      return members.some((word) => (this.isSelect(word) ? this.takes([word], kind) : kind === "typed"));
    }
    return this.types.has(first) && this.takes(this.definition(first), kind);
  }

  /** Is a member of a SELECT an entity or another SELECT, so that no name of a type stands in front of its values? */
  isSelect(name) {
    return this.entities.has(name) || this.definition(name)[0] === "SELECT";
  }

  /** The words that say what a type is. */
  definition(name) {
    const words = texts(this.types.get(name).words);
    return words.slice(3, words.indexOf(";"));
  }

  /** The statements of an entity that declare an attribute, or declare it anew or derive it. */
  declared(entity, declaring, attribute) {
    return this.statements(this.entities.get(entity)).flatMap(({ group, words }) => {
      const items = namesIn(words).join(" ").split(" , ");
      const anew = items.some((item) => item.startsWith("SELF ") && item.endsWith(` . ${attribute}`));
      const first = group === "" && entity === declaring && items.includes(attribute);
      if (!first && !((group === "" || group === "DERIVE") && anew)) return [];
      const text = this.plain(words[0], words.at(-1));
      return [entity === declaring ? text : `${text} (in ${entity.toLowerCase()})`];
    });
  }

  /** The text of a type without its words around. */
  body({ words }) {
    return this.plain(words[1], words[texts(words).indexOf(";")]);
  }

  /** The text from a word to another, on one line. */
  plain(first, last) {
    return this.text.slice(first.start, Math.min(last.end, first.start + LONGEST_TEXT)).replace(/[\t-\r\x1c-\x20\x85\xa0]+/g, " ");
  }
}

// --- Refusals ---

/** A schema text that the program refuses by a number. */
export class RefusedSchema {
  constructor(program, bytes, number) {
    this.program = program;
    this.number = number;
    this.outline = new Outline(bytes);
    this.text = this.outline.text;
  }

  /** How many bytes stand in front of the place, or null where the program tells none. */
  byte() {
    const files = { schema: new Text(this.outline.bytes), file: new Text(new Uint8Array(0)) };
    const { error, status } = this.program.run(["check", "--where", "--format", "jsonl", "--", "schema", "file"], files);
    if (status > 1) throw new Trouble(error);
    return error.startsWith("{") ? (JSON.parse(error).byte ?? null) : null;
  }

  /** The place where the text is refused, or null where it can't be told. */
  place() {
    if (this.text.length > TEXT_LIMIT) {
      return { start: TEXT_LIMIT, end: TEXT_LIMIT, notes: [`a schema text has at most ${TEXT_LIMIT} bytes`] };
    }
    const at = this.byte();
    if (at === null) return null;
    if (this.number === 1) return this.placeOfByte(at);
    const word = this.outline.words.find(({ start }) => start >= at);
    if (!word) return { start: at, end: at, notes: this.number === 2 ? ["the text ends too early"] : [] };
    const anew = OF_REDECLARATIONS.includes(this.number) ? this.outline.redeclarations() : [];
    const { end } = anew.find(({ words }) => words[0].start === word.start)?.words.at(-1) ?? word;
    return { start: word.start, end, notes: this.notesOn(word) };
  }

  /** The declaration that a place stands in, or the line, by its start and end. */
  around(place) {
    for (const { words } of this.outline.declarations) {
      if (words[0].start <= place.start && place.start <= words.at(-1).end) return [words[0].start, words.at(-1).end];
    }
    const start = place.start > 0 ? this.text.lastIndexOf("\n", place.start - 1) + 1 : 0;
    const end = this.text.indexOf("\n", place.start);
    return [start, end >= 0 ? end : this.text.length];
  }

  /** The byte, the string or the remark that makes no word. */
  placeOfByte(start) {
    let end = start + 1;
    while (this.text.charCodeAt(end) >= 0x80 && this.text.charCodeAt(end) < 0xc0) end++;
    return { start, end, notes: [] };
  }

  /** In which declaration a word stands, and where of a name that is declared twice the others are. */
  notesOn(word) {
    const { declarations } = this.outline;
    const holds = ({ words }) => words[0].start <= word.start && word.start <= words.at(-1).end;
    const found = declarations.findLast(holds);
    if (!found) return [];
    const others = declarations.filter((other) => other.name === found.name && other !== found && isKept(other));
    const said = (other) => `${other.kind} ${brief(other.name)} stands in ${this.line(other.words[0])} too`;
    const notes = this.number === 3 ? others.slice(0, MOST_TEXTS).map(said) : [];
    return [`in ${found.kind} ${brief(found.name)}, ${this.line(found.words[0])}`, ...notes];
  }

  /** The line in which a word stands. */
  line(word) {
    return `line ${lineNumber(this.outline.bytes, word.start)}`;
  }
}

/** The number behind the S of a schema's refusal; 0 where the line is none. */
export function numberOf(line) {
  return Number(/^schema refused S(\d)/.exec(line)?.[1] ?? 0);
}

/** Is it a declaration of an entity or a type? */
function isKept(declaration) {
  return declaration.kind === "ENTITY" || declaration.kind === "TYPE";
}
