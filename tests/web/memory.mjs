// How the memory of the program grows: memory.mjs MODULE SCHEMA FILE runs `canon`, and writes as JSON each size of its memory that
// is seen while files are read.

import fs from "node:fs";
import { start } from "../../web/program.mjs";

const [module, schema, file] = process.argv.slice(2);
const sizes = new Set();
const host = {
  open: (path) => fs.openSync(path, "r"),
  read: (descriptor, into) => {
    sizes.add(into.buffer.byteLength);
    return fs.readSync(descriptor, into);
  },
  write: (_, from) => from.length,
  close: (descriptor) => fs.closeSync(descriptor) ?? 0,
  isTerminal: () => false,
};
const words = ["p21", "canon", "--", schema, file].map((word) => Buffer.from(word));
const status = start(new WebAssembly.Module(fs.readFileSync(module)), words, host);
process.stdout.write(JSON.stringify({ sizes: [...sizes], status }));
