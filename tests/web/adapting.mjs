// What the page makes of listings: adapting.mjs MODULE reads a list of [LISTING, OTHER..] as JSON, each a text, and writes for each
// the copy and the lines of p21-adapt.

import fs from "node:fs";
import { adapted } from "../../web/adapting.mjs";
import { Program } from "../../web/program.mjs";
import { bytesOf, textOf } from "../../web/reading.mjs";

const program = new Program(new WebAssembly.Module(fs.readFileSync(process.argv[2])));
const made = ([listing, ...others]) => {
  const { copy, lines } = adapted(program, bytesOf(listing), others.map(bytesOf));
  return { copy: textOf(copy), lines };
};
process.stdout.write(JSON.stringify(JSON.parse(fs.readFileSync(0)).map(made)));
