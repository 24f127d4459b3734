// What the page says of files without a schema: alone.mjs MODULE reads a list of paths as JSON, and writes for each the line of the
// program, of a file that is well formed its header and its keywords, and of another one the lines that say where it is refused: for the
// first refusal asked for alone, and for each of the list.

import fs from "node:fs";
import { headerOf, keywordsOf, syntaxOf } from "../../web/alone.mjs";
import { GivenFile, toldOf } from "../../web/files.mjs";
import { Program, Text } from "../../web/program.mjs";
import { linesOf, whereAll, whereAlone } from "../../web/where.mjs";

const program = new Program(new WebAssembly.Module(fs.readFileSync(process.argv[2])));

/** What is said of a file. */
function said(path) {
  const file = new Text(new Uint8Array(fs.readFileSync(path)));
  const { line, status, instances, schema } = syntaxOf(program, file, () => {});
  if (status === 1) return { line, lines: linesOf(whereAlone(program, file.bytes), path), reports: reportsOf(file, path) };
  return { line, schema, header: headerOf(program, file), keywords: keywordsOf(file, instances, () => {}) };
}

/** The lines about each refusal of a file. */
function reportsOf(file, path) {
  const { refusals } = toldOf(program, ["--all"], { file });
  return [...whereAll(new GivenFile(null, "", file.bytes), refusals)].map((report) => linesOf(report, path));
}

process.stdout.write(JSON.stringify(JSON.parse(fs.readFileSync(0)).map(said)));
