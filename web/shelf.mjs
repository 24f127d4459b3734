// A shelf of schemas, in which the one that a file names is found, as in tools/p21_shelf.py.
//
// Each listing is known by the name behind its SCHEMA. The text `aliases`, where there is one, says what else a listing serves,
// in a line each: `AUTOMOTIVE_DESIGN_CC2 = automotive_design.exp`. The program then reads a copy with that name behind SCHEMA.
//
// Several schemas are a shelf. A listing is known by the name behind its SCHEMA, as for the tools, and not by that of
// its file. Two files of two schemas aren't compared. Schemas that are dropped take the place of those that were there.

import { statements } from "./files.mjs";
import { Text, Trouble } from "./program.mjs";
import { bytesOf, lineNumber, readParts, textOf } from "./reading.mjs";
import { Outline } from "./schemas.mjs";

const ALIAS = /^(\w+)\s*=\s*(\S.*)$/;
// The header is looked for in so many bytes.
const MOST_HEADER = 1 << 20;

/** The name of the schema that a STEP file names, in capitals; null where no such name is found. */
export function nameIn(file) {
  const bytes = file.piece(0, MOST_HEADER);
  try {
    for (const statement of statements(bytes)) {
      const text = textOf(bytes.subarray(statement.start, statement.end));
      if (text.startsWith("FILE_SCHEMA")) {
        const value = readParts(text)[0].values[0].inner[0];
        return /^[A-Za-z0-9_]*/.exec(text.slice(value.start + 1))[0].toUpperCase() || null;
      }
      if (text.startsWith("ENDSEC") || text.startsWith("#")) return null;
    }
  } catch {
    // A header that can't be read names no schema.
  }
  return null;
}

/** Listings, each with the name of its file and its text, by the names that they serve. */
export class Shelf {
  constructor(listings, aliases) {
    this.listings = new Map();
    this.found = new Map();
    this.places = new Map();
    const inOrder = [...listings].sort((one, other) => (one.name < other.name ? -1 : 1));
    for (const listing of inOrder) this.keep(this.nameBehind(listing), listing);
    this.own = new Set(this.listings.keys());
    if (aliases) this.readAliases(aliases, inOrder);
  }

  /** The name behind SCHEMA, whose place in the text is kept. */
  nameBehind(listing) {
    const [first, name] = new Outline(listing.text.bytes).words;
    if (first?.text !== "SCHEMA" || !name) throw new Trouble(`${listing.name} is no schema: its first word isn't SCHEMA`);
    this.places.set(listing, { first, name });
    return name.text;
  }

  /** Keeps by which listing a name is served. Two can't serve one name. */
  keep(name, listing) {
    const known = this.listings.get(name);
    if (known && known !== listing) throw new Trouble(`${known.name} and ${listing.name} both serve ${name}`);
    this.listings.set(name, listing);
  }

  /** What else the listings serve. */
  readAliases({ name, text }, listings) {
    text.split(/\r\n|[\n\r]/).forEach((given, at) => {
      const line = given.trim();
      if (line === "" || line.startsWith("#")) return;
      const found = ALIAS.exec(line);
      const listing = found && listings.find((each) => each.name === found[2]);
      if (!listing) throw new Trouble(`${name}:${at + 1}: no NAME = LISTING of this folder: ${line}`);
      this.keep(found[1].toUpperCase(), listing);
    });
  }

  /**
   * The listing that serves a name, or null; where a file has no name that is found, the first one of all, by which the program
   * says what is wrong with the file.
   */
  serving(name) {
    const listing = this.listings.get(name ?? [...this.listings.keys()].sort()[0]);
    if (!listing) return null;
    if (!this.found.has(name)) this.found.set(name, this.served(name, listing));
    return this.found.get(name);
  }

  /** A listing by a name, and where it isn't its own, a copy with that name and the change that this makes. */
  served(name, listing) {
    if (name === null || this.own.has(name)) return { name: listing.name, text: listing.text, change: null };
    const { first, name: old } = this.places.get(listing);
    const text = textOf(listing.text.bytes);
    const copy = bytesOf(text.slice(0, old.start) + name + text.slice(old.end));
    const heading = text.slice(first.start, old.end).trim().split(/\s+/).join(" ");
    const change = `${listing.name}:${lineNumber(listing.text.bytes, old.start)}: ${heading} -> ${first.text} ${name}`;
    return { name: listing.name, text: new Text(copy), change };
  }
}
