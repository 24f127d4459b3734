// What owns the instances of canonical files: the product that references lead to, and within it the face or the set of properties.
// As in tools/p21_owners.py.

import { EQUALS, keywordsOfLine, linesFrom, referencesIn, sectionsOf } from "./lines.mjs";
import { plainly } from "./plainly.mjs";
import { LINE_FEED, textOf } from "./reading.mjs";

const PRODUCTS = ["PRODUCT", "IFCOBJECTDEFINITION"];
const PARTS = ["FACE", "ADVANCED_FACE", "IFCFACE", "IFCPROPERTYSETDEFINITION"];
// This one alone: its subtypes are the shapes of products.
const PROPERTY = "PROPERTY_DEFINITION";
// The attributes by which people know an instance.
const KNOWN_BY = ["ID", "NAME"];
// A product is so many references away at most, and so many instances are looked through on the way up.
const MOST_STEPS = 7;
const MOST_SEEN = 5000;
const FAR = MOST_STEPS + 1;
const MOST_TOLD = 3;
const MANY = "In many places";
export const NOWHERE = "In no product";

/** The instances of two canonical files as nodes, those of the first file in front: their names and kinds, and which refers to which. */
export class Graph {
  constructor(files) {
    this.files = files;
    this.names = [];
    this.nodes = files.map(() => new Map());
    this.places = [];
    this.kinds = new Map();
    this.kind = [];
    this.refs = [];
    for (const side of files.keys()) this.add(side);
    this.referrers = this.refs.map(() => []);
    for (const [node, refs] of this.refs.entries()) for (const ref of refs) this.referrers[ref].push(node);
  }

  /** The instances of a file. */
  add(side) {
    const bytes = this.files[side];
    const first = this.names.length;
    for (const section of sectionsOf(bytes)) {
      for (const { start, end } of linesFrom(bytes, section.start)) {
        const name = textOf(bytes.subarray(start + 1, bytes.indexOf(EQUALS, start)));
        const line = textOf(bytes.subarray(start, end));
        const keywords = keywordsOfLine(line);
        if (!this.kinds.has(keywords)) this.kinds.set(keywords, this.kinds.size);
        this.nodes[side].set(name, this.names.length);
        this.names.push(name);
        this.places.push(start);
        this.kind.push(this.kinds.get(keywords));
        this.refs.push([...referencesIn(line.slice(1 + name.length))]);
      }
    }
    const nodeOf = (name) => this.nodes[side].get(name);
    for (let node = first; node < this.names.length; node++) this.refs[node] = this.refs[node].map(nodeOf);
  }

  /** Is a node an instance of the first file? */
  isFirst(node) {
    return node < this.nodes[0].size;
  }

  /** The line of an instance. */
  line(node) {
    const bytes = this.files[this.isFirst(node) ? 0 : 1];
    const start = this.places[node];
    return textOf(bytes.subarray(start, bytes.indexOf(LINE_FEED, start)));
  }
}

/**
 * Answers for two files of one graph. `partner` gives for the name of an instance of the first file that of the second which is the
 * same instance, where there is one.
 */
export class Owners {
  constructor(graph, outline, partner) {
    Object.assign(this, { graph, outline, partner });
    const above = [...graph.kinds.keys()].map((kind) => ({ keys: kind.split("+"), closure: outline.closure(kind.split("+")) }));
    this.areProducts = above.map(({ closure }) => PRODUCTS.some((name) => closure.has(name)));
    this.areParts = above.map(({ keys, closure }) => PARTS.some((name) => closure.has(name)) || keys.includes(PROPERTY));
    this.steps = this.stepsToProducts();
    this.told = new Map();
  }

  /** What owns the instance of a name in a file. */
  of(side, name) {
    return this.owner(this.graph.nodes[side].get(name));
  }

  /** Is there a product in the files? */
  get hasProducts() {
    return this.steps.includes(0);
  }

  isProduct(node) {
    return this.areProducts[this.graph.kind[node]];
  }

  /** Is a node a face or a set of properties? */
  isPart(node) {
    return this.areParts[this.graph.kind[node]];
  }

  /** By how many references each node leads to a product. */
  stepsToProducts() {
    const steps = new Uint8Array(this.graph.names.length).fill(FAR);
    let level = [...steps.keys()].filter((node) => this.isProduct(node));
    for (let step = 0; step < FAR; step++) {
      for (const node of level) steps[node] = step;
      level = this.above(level).filter((node) => steps[node] === FAR);
    }
    return steps;
  }

  /** What refers to some nodes, each once. */
  above(nodes) {
    return [...new Set(nodes.flatMap((node) => this.graph.referrers[node]))];
  }

  /** What owns an instance, as it is told: the products, and within them the faces or sets of properties. */
  owner(node) {
    let level = [node];
    let seen = new Set(level);
    let parts = [];
    while (level.length > 0) {
      if (seen.size > MOST_SEEN) return { products: MANY, parts: "" };
      if (parts.length === 0) {
        parts = level.filter((each) => this.isPart(each));
        if (parts.length > 0) [level, seen] = [parts, new Set(parts)];
      }
      const nearest = level.reduce((least, each) => Math.min(least, this.steps[each]), FAR);
      if (nearest < FAR) {
        const found = this.down(level.filter((each) => this.steps[each] === nearest), nearest);
        const owned = (parts.length > 0 ? parts : found.parts).filter((part) => !found.products.includes(part));
        return { products: this.list(found.products), parts: this.list(owned) };
      }
      level = this.around(level).filter((each) => !seen.has(each));
      for (const each of level) seen.add(each);
    }
    return { products: NOWHERE, parts: this.list(parts) };
  }

  /** What refers to some nodes; of what nothing refers to what it refers to. Each once. */
  around(level) {
    const around = (node) => (this.graph.referrers[node].length > 0 ? this.graph.referrers[node] : this.graph.refs[node]);
    return [...new Set(level.flatMap(around))];
  }

  /** The products to which so many references lead, and the nearest parts on the way. */
  down(first, steps) {
    let level = first;
    let parts = [];
    for (let left = steps; left > 0; left--) {
      const below = level.flatMap((node) => this.graph.refs[node].filter((ref) => this.steps[ref] === left - 1));
      level = [...new Set(below)];
      if (parts.length === 0) parts = level.filter((node) => this.isPart(node));
    }
    return { products: level, parts };
  }

  // How they are told

  /** Some nodes in the order of their file, of which the first ones are told. */
  list(nodes) {
    const order = [...new Set(nodes)].sort((one, other) => one - other);
    const told = order.slice(0, MOST_TOLD).map((node) => this.text(node));
    return [...told, ...(order.length > MOST_TOLD ? [`and ${order.length - MOST_TOLD} more`] : [])].join(", ");
  }

  /** A node: its entity, its name, and the texts by which people know it. One of the first file stands as its partner. */
  text(given) {
    const other = this.graph.isFirst(given) ? this.partner(this.graph.names[given]) : undefined;
    const node = this.graph.nodes[1].get(other) ?? given;
    if (!this.told.has(node)) {
      const line = this.graph.line(node);
      const side = this.graph.isFirst(node) ? "A" : "";
      const texts = this.texts(line).join(", ");
      this.told.set(node, [`${keywordsOfLine(line)} ${side}#${this.graph.names[node]}`, texts].filter(Boolean).join(" "));
    }
    return this.told.get(node);
  }

  /** The texts by which people know an instance. */
  texts(line) {
    const known = this.outline.valuesIn(line).filter(({ attribute }) => KNOWN_BY.includes(attribute));
    const values = known.map(({ start, end }) => line.slice(start, end));
    return values.filter((value) => value.startsWith("'") && value !== "''").map(plainly);
  }
}
