// What the page says of refused texts: where.mjs MODULE reads a list of [SCHEMA] and [SCHEMA, FILE] as JSON, and writes for each
// the lines and the status, and of a file the lines of all of its refusals.

import fs from "node:fs";
import { GivenFile, toldOf } from "../../web/files.mjs";
import { Program, Text } from "../../web/program.mjs";
import { linesOf, whereAll, whereInFile, whereInSchema } from "../../web/where.mjs";

const program = new Program(new WebAssembly.Module(fs.readFileSync(process.argv[2])));
const text = (path) => new Text(new Uint8Array(fs.readFileSync(path)));

/** The report of a schema text, or of a file under it. */
function report(schemaPath, path) {
  const schema = text(schemaPath);
  const file = path && text(path);
  const words = file ? ["check", "--", "schema", "file"] : ["schema", "--", "schema"];
  const { output, error, status } = program.run(words, { schema, file });
  const said = error || new TextDecoder().decode(output).split("\n")[0];
  if (/^schema refused/.test(error)) return [linesOf(whereInSchema(program, schema, error), schemaPath), status, null];
  if (!/^refused/.test(error)) return [[said], status, null];
  const lines = linesOf(whereInFile(program, schema, schemaPath, file.bytes), path);
  return [lines, status, allOf(schema, schemaPath, file, path)];
}

/** The lines of all refusals of a file. */
function allOf(schema, schemaPath, file, path) {
  const { refusals, count } = toldOf(program, ["--all"], { schema, file });
  return [...whereAll(new GivenFile(schema, schemaPath, file.bytes), refusals)].flatMap((found) => linesOf(found, path)).concat(count);
}

process.stdout.write(JSON.stringify(JSON.parse(fs.readFileSync(0)).map((given) => report(...given))));
